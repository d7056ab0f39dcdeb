//! The writer in plain Rust with indexed loops: the inputs, the checks and the words of `slackjib_profile`. It comes in two forms, which
//! differ in how a point's direction is found: by a remainder for each point, or by adding.

#[derive(Clone, Copy)]
struct Sector {
    function: u16,
    stop: u16,
}

pub struct Plan {
    sectors: [Sector; 8],
}

// What one active sector is in a revolution.
pub struct Arc {
    function: u16,
    first: u16,
    last: u16,
    shot: u16,
    shots: u16,
    points: u16,
}

fn word_at(words: &[u16], place: usize) -> u16 {
    if place < words.len() {
        return words[place];
    }
    0
}

pub fn plan_of(words: &[u16]) -> Plan {
    let mut sectors = [Sector { function: 0, stop: 0 }; 8];
    for k in 0..8 {
        sectors[k] = Sector {
            function: word_at(words, 2 * k),
            stop: word_at(words, 2 * k + 1),
        };
    }
    Plan { sectors }
}

pub fn revolution_shots(step: u16) -> u16 {
    5760 / step
}

pub fn active_count(plan: &Plan) -> usize {
    for k in 0..8 {
        if plan.sectors[k].function == 0 {
            return k;
        }
    }
    8
}

fn last_stop(plan: &Plan) -> u16 {
    let count = active_count(plan);
    if count == 0 {
        return 0;
    }
    plan.sectors[count - 1].stop
}

fn step_after(direction: u16, step: u16) -> u16 {
    (direction + step) % 5760
}

fn shots_after(before: u16, stop: u16, step: u16) -> u16 {
    let first = step_after(before, step);
    (stop + 5760 - first) % 5760 / step + 1
}

// The arc of the active sector at a place.
pub fn arc_at(plan: &Plan, step: u16, place: usize) -> Arc {
    let mut before = last_stop(plan);
    let mut shot = 0;
    for i in 0..place {
        let stop = plan.sectors[i].stop;
        shot += shots_after(before, stop, step);
        before = stop;
    }
    let sector = plan.sectors[place];
    let shots = shots_after(before, sector.stop, step);
    Arc {
        function: sector.function,
        first: step_after(before, step),
        last: sector.stop,
        shot,
        shots,
        points: if sector.function == 3 { shots } else { 0 },
    }
}

fn is_step(step: u16) -> bool {
    step >= 1 && step <= 64 && 5760 % step == 0
}

fn plan_in_range(plan: &Plan) -> bool {
    for k in 0..8 {
        let function = plan.sectors[k].function;
        if function != 0 && function != 1 && function != 3 && function != 4 {
            return false;
        }
        if plan.sectors[k].stop > 5759 {
            return false;
        }
    }
    true
}

fn rising(plan: &Plan) -> bool {
    let count = active_count(plan);
    for k in 1..count {
        if plan.sectors[k - 1].stop >= plan.sectors[k].stop {
            return false;
        }
    }
    count > 0
}

fn whole_steps(plan: &Plan, step: u16) -> bool {
    for k in 0..active_count(plan) {
        if plan.sectors[k].stop % step != 0 {
            return false;
        }
    }
    true
}

fn lit_shots(plan: &Plan, step: u16) -> u16 {
    let mut sum = 0;
    for k in 0..active_count(plan) {
        let arc = arc_at(plan, step, k);
        if arc.function == 3 || arc.function == 4 {
            sum += arc.shots;
        }
    }
    sum
}

// The four checks before measuring.
fn may_measure(plan: &Plan, step: u16, running: u16) -> bool {
    rising(plan)
        && whole_steps(plan, step)
        && running as u32 * revolution_shots(step) as u32 <= 14400
        && running as u32 * lit_shots(plan, step) as u32 <= 10800
}

fn mask_ok(mask: u16) -> bool {
    mask != 0 && mask < 0x4000
}

pub fn in_range_but_mask(plan: &Plan, step: u16, running: u16) -> bool {
    is_step(step) && plan_in_range(plan) && running >= 5 && running <= 20 && may_measure(plan, step, running)
}

fn in_range(plan: &Plan, step: u16, running: u16, mask: u16) -> bool {
    in_range_but_mask(plan, step, running) && mask_ok(mask)
}

pub fn is_set(mask: u16, bit: u16) -> bool {
    mask >> bit & 1 == 1
}

fn bits_set(mask: u16, from: u16, to: u16) -> usize {
    let mut sum = 0;
    for bit in from..to + 1 {
        if is_set(mask, bit) {
            sum += 1;
        }
    }
    sum
}

pub fn plan_points(plan: &Plan, step: u16) -> u16 {
    let mut sum = 0;
    for k in 0..active_count(plan) {
        sum += arc_at(plan, step, k).points;
    }
    sum
}

pub fn profile_length(mask: u16, sectors: usize, points: usize) -> usize {
    let blocks = sectors * (bits_set(mask, 3, 7) + bits_set(mask, 11, 12));
    3 + bits_set(mask, 0, 2) + blocks + points * bits_set(mask, 8, 10) + 2 * bits_set(mask, 13, 13)
}

// The word at a place, if it is selected; the place behind it.
pub fn put_if(out: &mut [u16], at: usize, on: bool, word: u16) -> usize {
    if on {
        out[at] = word;
        return at + 1;
    }
    at
}

fn shot_time(start: u16, rate: u32, k: u16) -> u16 {
    ((start as u32 + (2000 * k as u32 + rate) / (2 * rate)) % 65536) as u16
}

fn point_direction(first: u16, step: u16, i: u16) -> u16 {
    ((first as u32 + i as u32 * step as u32) % 5760) as u16
}

fn points_by_remainder(out: &mut [u16], distances: &[u16], echoes: &[u16], arc: &Arc, step: u16, mask: u16) -> usize {
    let mut at = 0;
    for i in 0..arc.points {
        let k = arc.shot as usize + i as usize;
        at = put_if(out, at, is_set(mask, 8), distances[k]);
        at = put_if(out, at, is_set(mask, 9), point_direction(arc.first, step, i));
        at = put_if(out, at, is_set(mask, 10), echoes[k]);
    }
    at
}

// One step on from point to point, and 5760 off where it is reached.
fn points_by_adding(out: &mut [u16], distances: &[u16], echoes: &[u16], arc: &Arc, step: u16, mask: u16) -> usize {
    let mut at = 0;
    let mut direction = arc.first;
    for i in 0..arc.points {
        let k = arc.shot as usize + i as usize;
        at = put_if(out, at, is_set(mask, 8), distances[k]);
        at = put_if(out, at, is_set(mask, 9), direction);
        at = put_if(out, at, is_set(mask, 10), echoes[k]);
        direction += step;
        if direction >= 5760 {
            direction -= 5760;
        }
    }
    at
}

fn write_points<const ADDING: bool>(out: &mut [u16], distances: &[u16], echoes: &[u16], arc: &Arc, step: u16, mask: u16) -> usize {
    if ADDING {
        points_by_adding(out, distances, echoes, arc, step, mask)
    } else {
        points_by_remainder(out, distances, echoes, arc, step, mask)
    }
}

pub fn write_sector<const ADDING: bool>(
    out: &mut [u16],
    distances: &[u16],
    echoes: &[u16],
    start: u16,
    rate: u32,
    step: u16,
    mask: u16,
    number: u16,
    arc: &Arc,
) -> usize {
    let mut at = put_if(out, 0, is_set(mask, 3), number);
    at = put_if(out, at, is_set(mask, 4), step);
    at = put_if(out, at, is_set(mask, 5), arc.points);
    at = put_if(out, at, is_set(mask, 6), shot_time(start, rate, arc.shot));
    at = put_if(out, at, is_set(mask, 7), arc.first);
    at += write_points::<ADDING>(&mut out[at..], distances, echoes, arc, step, mask);
    at = put_if(out, at, is_set(mask, 11), shot_time(start, rate, arc.shot + arc.shots - 1));
    put_if(out, at, is_set(mask, 12), arc.last)
}

fn write_profile<const ADDING: bool>(
    out: &mut [u16],
    plan: &Plan,
    step: u16,
    running: u16,
    mask: u16,
    start: u16,
    distances: &[u16],
    echoes: &[u16],
) -> usize {
    let count = active_count(plan);
    let rate = running as u32 * revolution_shots(step) as u32;
    let mut at = put_if(out, 0, true, 0x8301);
    at = put_if(out, at, true, mask);
    at = put_if(out, at, true, 0x0100 + count as u16);
    at = put_if(out, at, is_set(mask, 0), 1);
    at = put_if(out, at, is_set(mask, 1), 1);
    at = put_if(out, at, is_set(mask, 2), 0);
    for k in 0..count {
        let arc = arc_at(plan, step, k);
        at += write_sector::<ADDING>(&mut out[at..], distances, echoes, start, rate, step, mask, k as u16, &arc);
    }
    at = put_if(out, at, is_set(mask, 13), 0);
    put_if(out, at, is_set(mask, 13), 3)
}

fn profile<const ADDING: bool>(
    plan: &[u16],
    step: u16,
    running: u16,
    mask: u16,
    start: u16,
    distances: &[u16],
    echoes: &[u16],
    out: &mut [u16],
) -> usize {
    let plan = plan_of(plan);
    if !in_range(&plan, step, running, mask) {
        return 0;
    }
    let shots = revolution_shots(step) as usize;
    if distances.len() != shots || echoes.len() != shots {
        return 0;
    }
    let points = plan_points(&plan, step) as usize;
    if out.len() < profile_length(mask, active_count(&plan), points) {
        return 0;
    }
    write_profile::<ADDING>(out, &plan, step, running, mask, start, distances, echoes)
}

/// The profile of one revolution; how many words it has, 0 where the call is refused.
#[inline(never)]
pub fn by_remainder(
    plan: &[u16],
    step: u16,
    running: u16,
    mask: u16,
    start: u16,
    distances: &[u16],
    echoes: &[u16],
    out: &mut [u16],
) -> usize {
    profile::<false>(plan, step, running, mask, start, distances, echoes, out)
}

/// The same, with the directions of points by adding.
#[inline(never)]
pub fn by_adding(
    plan: &[u16],
    step: u16,
    running: u16,
    mask: u16,
    start: u16,
    distances: &[u16],
    echoes: &[u16],
    out: &mut [u16],
) -> usize {
    profile::<true>(plan, step, running, mask, start, distances, echoes, out)
}
