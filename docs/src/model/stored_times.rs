// Stored cases of the times of shots, rule 3.7: at every rate of shots that may measure, the shots whose exact times lie
// next to half a millisecond on either side and, where there is one, at the half itself. They are asked for by plain numbers,
// which leaves the state out of case and line.

use std::collections::BTreeSet;

use crate::case_parts::{self, TurnGiven};
use crate::measure_checks::measure_error;
use crate::plan::{self, Plan, CIRCLE};
use crate::random_plans::all_steps;
use crate::stored_samples::*;

/// What is left of a shot's exact time behind its whole milliseconds, where a millisecond is 2 × the shots of a second.
fn left_over(shot: usize, shots_per_second: usize) -> usize {
    2000 * shot % (2 * shots_per_second)
}

/// The shot with the most left over below the half, the first with just the half, and the one with the least above it.
fn shots_next_to_half(shots: usize, shots_per_second: usize) -> [Option<usize>; 3] {
    let left = |shot: &usize| left_over(*shot, shots_per_second);
    let below = (1..shots).filter(|shot| left(shot) < shots_per_second).max_by_key(left);
    let just = (1..shots).find(|shot| left(shot) == shots_per_second);
    let above = (1..shots).filter(|shot| left(shot) > shots_per_second).min_by_key(left);
    [below, just, above]
}

/// A plan from direction 0 on, in which each of these shots is a sector of its own.
fn plan_around(picked: &[usize], step: u16) -> Plan {
    let mut stops: Vec<u16> = picked.iter().flat_map(|shot| [shot - 1, *shot]).map(|shot| shot as u16 * step).collect();
    stops.push(CIRCLE - step);
    stops.sort();
    stops.dedup();
    let sectors: Vec<(u16, u16)> = stops.into_iter().map(|stop| (1, stop)).collect();
    plan_of(&sectors)
}

/// The times of each sector's first and last shot. The start is such that the shot at the half, or else the one above it, comes
/// to 65535 and the half: the clock has wrapped only because it goes up.
fn around_half(step: u16, running_speed: u16) -> (Plan, TurnGiven) {
    let shots = plan::shots_per_revolution(step);
    let shots_per_second = usize::from(running_speed) * shots;
    let [below, just, above] = shots_next_to_half(shots, shots_per_second);
    let picked: Vec<usize> = [below, just, above].into_iter().flatten().collect();
    let plan = plan_around(&picked, step);
    let whole = just.or(above).map_or(0, |shot| 2000 * shot / (2 * shots_per_second));
    let turn = TurnGiven {
        start_time: (65535 - whole) as u16,
        distances: distances(shots),
        echoes: echoes(shots),
        reflectors: NO_REFLECTORS,
        buffer: buffer(3 + 2 * 8),
    };
    (plan, turn)
}

pub fn cases() -> Vec<Vec<u16>> {
    let mut cases = Vec::new();
    let mut rates = BTreeSet::new();
    for step in all_steps() {
        for speed in 5..=20 {
            let (plan, turn) = around_half(step, speed);
            let may_measure = measure_error(&plan, step, speed) == 0;
            // the times go by the rate alone: one case for each
            if may_measure && rates.insert(usize::from(speed) * plan::shots_per_revolution(step)) {
                cases.push(case_parts::plain_profile_case(&plan, step, speed, 0x0840, &turn));
            }
        }
    }
    cases
}
