// Stored cases of the normal plan: rules 3.1 to 3.11 and refusals 9 to 11, alone and in pairs.

use crate::case_parts;
use crate::plan::{self, Plan};
use crate::random_plans::{all_steps, NO_STEPS};
use crate::stored_samples::plan_of;

type Cases = Vec<Vec<u16>>;

fn ask(cases: &mut Cases, step: u16, plan: &Plan) {
    cases.push(case_parts::normal_plan_case(step, plan));
}

fn bench_figures(cases: &mut Cases) {
    let fresh = plan_of(&[(3, 5752)]);
    for step in [7, 72, 64, 1] {
        ask(cases, step, &fresh);
        ask(cases, step, &plan_of(&[(3, 0)]));
    }
    ask(cases, 10, &fresh);
    ask(cases, 8, &plan_of(&[(3, 1000), (3, 2000), (1, 3000)]));
    ask(cases, 8, &plan_of(&[(1, 1000), (3, 2000), (1, 3000)]));
    ask(cases, 8, &fresh);
    ask(cases, 4, &plan_of(&[(1, 1436), (3, 3360)]));
}

fn steps(cases: &mut Cases) {
    for step in 0..=66 {
        ask(cases, step, &plan_of(&[(3, 0)]));
    }
    for step in NO_STEPS {
        ask(cases, step, &plan_of(&[(3, 0)]));
    }
    for step in all_steps() {
        let last = plan::CIRCLE - step;
        ask(cases, step, &plan_of(&[(3, 0), (3, step), (1, 2 * step), (4, last - step), (4, last)]));
        ask(cases, step, &plan_of(&[(4, 3 * step), (4, 5 * step + 1)]));
        ask(cases, step, &plan_of(&[(1, last), (1, plan::CIRCLE)]));
    }
}

/// Every choice of functions for three sectors, and runs of one to eight.
fn runs(cases: &mut Cases) {
    for first in [1, 3, 4] {
        for second in [1, 3, 4] {
            for third in [1, 3, 4] {
                ask(cases, 8, &plan_of(&[(first, 8), (second, 1600), (third, 5752)]));
            }
        }
    }
    for count in 0..=8 {
        let equal: Vec<(u16, u16)> = (0..count).map(|i| (3, 80 * i)).collect();
        ask(cases, 8, &plan_of(&equal));
        let different: Vec<(u16, u16)> = (0..count).map(|i| (if i % 2 == 0 { 1 } else { 4 }, 80 * i + 8)).collect();
        ask(cases, 8, &plan_of(&different));
    }
    // one neighbour that differs, at each place; two runs that meet at each place
    for place in 0..8 {
        let one: Vec<(u16, u16)> = (0..8).map(|i| (if i == place { 4 } else { 3 }, 80 * i)).collect();
        ask(cases, 8, &plan_of(&one));
        let two: Vec<(u16, u16)> = (0..8).map(|i| (if i < place { 1 } else { 3 }, 80 * i)).collect();
        ask(cases, 8, &plan_of(&two));
    }
}

/// Each fault at each place of a plan of eight sectors and at the end of a shorter one.
fn faults(cases: &mut Cases) {
    let good: Vec<(u16, u16)> = (0..8).map(|i| (3, 80 * i + 160)).collect();
    for place in 0..8 {
        for function in [0, 2, 5, 6, 259, 65535] {
            let mut sectors = good.clone();
            sectors[place].0 = function;
            ask(cases, 8, &plan_of(&sectors));
        }
        let stop = good[place].1;
        for other in [5752, 5760, 65535, stop - 80, stop - 8, stop - 72, stop - 88, stop + 80, stop + 4, stop + 1] {
            let mut sectors = good.clone();
            sectors[place].1 = other;
            ask(cases, 8, &plan_of(&sectors));
            if [5760, stop - 80, stop + 1].contains(&other) {
                ask(cases, 8, &plan_of(&sectors[..=place]));
            }
        }
    }
}

/// No active sector, and words of every kind behind the first function 0.
fn unused_entries(cases: &mut Cases) {
    ask(cases, 8, &plan_of(&[]));
    ask(cases, 8, &plan_of(&[(0, 8), (3, 16)]));
    for garbage in [(1, 0), (2, 8), (3, 5760), (4, 65535), (5, 7), (65535, 65535)] {
        ask(cases, 8, &plan_of(&[(0, 0), garbage]));
        ask(cases, 8, &plan_of(&[(3, 800), (0, garbage.1), garbage]));
        ask(cases, 8, &plan_of(&[(3, 800), (3, 1600), (0, 0), garbage, garbage, garbage, (3, 2400), garbage]));
    }
}

/// Refusals 9, 10 and 11, each two and all three at once.
fn refusals_together(cases: &mut Cases) {
    for step in [7, 8, 72] {
        for sectors in [
            [(3, 800), (1, 1600)],
            [(3, 801), (1, 1600)],
            [(3, 1600), (1, 1600)],
            [(3, 1601), (1, 801)],
            [(2, 800), (1, 1600)],
            [(2, 801), (1, 1600)],
            [(3, 801), (5, 1600)],
            [(3, 801), (1, 5760)],
            [(3, 1601), (2, 5761)],
            [(0, 801), (1, 1600)],
        ] {
            ask(cases, step, &plan_of(&sectors));
        }
    }
}

pub fn cases() -> Cases {
    let mut cases = Vec::new();
    bench_figures(&mut cases);
    steps(&mut cases);
    runs(&mut cases);
    faults(&mut cases);
    unused_entries(&mut cases);
    refusals_together(&mut cases);
    cases
}
