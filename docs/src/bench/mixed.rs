//! The mixed writer in plain Rust with indexed loops: the inputs, the checks and the words of `slackjib_mixed_profile`. The sectors are
//! written as by `writer.rs`, by remainder, which is the faster of its two forms. It has a copy of that module for itself: a function that
//! both used would be compiled otherwise than for the plain writers alone, and slow them down.
#[path = "writer.rs"]
#[allow(dead_code)]
mod parts;

use parts::{
    active_count, arc_at, in_range_but_mask, is_set, plan_of, plan_points, profile_length, put_if, revolution_shots, write_sector, Plan,
};

const WORDS_OF_ONE: usize = 11;
const MOST: usize = 64;

// Neither 0 nor with a bit that has no word; fields of reflectors only with their number.
fn mask_ok(high: u16, low: u16) -> bool {
    if low == 0 && high == 0 {
        return false;
    }
    if low >= 0x4000 || high & 0xFF82 != 0 {
        return false;
    }
    is_set(high, 0) || high == 0
}

fn reflector_width(high: u16) -> usize {
    let mut width = 0;
    for bit in 2..4 {
        if is_set(high, bit) {
            width += 4;
        }
    }
    for bit in 4..7 {
        if is_set(high, bit) {
            width += 1;
        }
    }
    width
}

// The eleven words of a reflector from a place of the list on, those that are selected.
fn put_reflector(out: &mut [u16], from: usize, high: u16, list: &[u16], place: usize) -> usize {
    let mut at = from;
    for k in 0..4 {
        at = put_if(out, at, is_set(high, 2), list[place + k]);
    }
    for k in 4..8 {
        at = put_if(out, at, is_set(high, 3), list[place + k]);
    }
    at = put_if(out, at, is_set(high, 4), list[place + 8]);
    at = put_if(out, at, is_set(high, 5), list[place + 9]);
    put_if(out, at, is_set(high, 6), list[place + 10])
}

fn write_mixed(
    out: &mut [u16],
    plan: &Plan,
    step: u16,
    running: u16,
    high: u16,
    low: u16,
    start: u16,
    distances: &[u16],
    echoes: &[u16],
    reflectors: &[u16],
) -> usize {
    let count = active_count(plan);
    let rate = running as u32 * revolution_shots(step) as u32;
    let mut at = put_if(out, 0, true, 0x9301);
    at = put_if(out, at, true, high);
    at = put_if(out, at, true, low);
    at = put_if(out, at, true, 0x0100 + count as u16);
    at = put_if(out, at, is_set(low, 0), 1);
    at = put_if(out, at, is_set(low, 1), 1);
    at = put_if(out, at, is_set(low, 2), 1);
    for k in 0..count {
        let arc = arc_at(plan, step, k);
        at += write_sector::<false>(&mut out[at..], distances, echoes, start, rate, step, low, k as u16, &arc);
    }
    at = put_if(out, at, is_set(low, 13), 0);
    at = put_if(out, at, is_set(low, 13), 3);
    let many = reflectors.len() / WORDS_OF_ONE;
    at = put_if(out, at, is_set(high, 0), many as u16);
    for r in 0..many {
        at = put_reflector(out, at, high, reflectors, r * WORDS_OF_ONE);
    }
    at
}

/// The mixed profile of one revolution; how many words it has, 0 where the call is refused.
#[inline(never)]
pub fn mixed(
    plan: &[u16],
    step: u16,
    running: u16,
    high: u16,
    low: u16,
    start: u16,
    distances: &[u16],
    echoes: &[u16],
    reflectors: &[u16],
    out: &mut [u16],
) -> usize {
    let plan = plan_of(plan);
    if !in_range_but_mask(&plan, step, running) || !mask_ok(high, low) {
        return 0;
    }
    let shots = revolution_shots(step) as usize;
    if distances.len() != shots || echoes.len() != shots {
        return 0;
    }
    let many = reflectors.len() / WORDS_OF_ONE;
    if reflectors.len() % WORDS_OF_ONE != 0 || many > MOST {
        return 0;
    }
    let points = plan_points(&plan, step) as usize;
    let contour = profile_length(low, active_count(&plan), points);
    let behind = if is_set(high, 0) { 1 } else { 0 } + many * reflector_width(high);
    if out.len() < contour + 1 + behind {
        return 0;
    }
    write_mixed(out, &plan, step, running, high, low, start, distances, echoes, reflectors)
}
