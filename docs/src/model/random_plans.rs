// Random sector plans for fresh cases: valid ones, ones at the edge of the checks of TRANS_MEASURE, ones that are only in
// their ranges, and damaged ones.

use crate::measure_checks;
use crate::plan::{self, Plan, Sector};
use crate::random::Random;

/// The 23 angle steps.
pub fn all_steps() -> Vec<u16> {
    (1..=64).filter(|step| plan::is_angle_step(*step)).collect()
}

/// Words near the angle steps that are none.
pub const NO_STEPS: [u16; 12] = [0, 7, 11, 13, 63, 65, 72, 80, 264, 2880, 5760, 65535];

pub fn any_step(random: &mut Random) -> u16 {
    random.pick(&all_steps())
}

/// A step that has a revolution of few shots most of the time, and never 1: with 1 there is no MEASURE.
pub fn step_for_measure(random: &mut Random) -> u16 {
    let steps = all_steps();
    if random.percent(76) {
        random.pick(&steps[15..])
    } else {
        random.pick(&steps[1..])
    }
}

/// Functions 1, 3 and 4 for some sectors, in one of several styles.
fn functions(random: &mut Random, count: usize) -> Vec<u16> {
    let style = random.below(5);
    let mut functions: Vec<u16> = Vec::new();
    for place in 0..count {
        let function = match style {
            0 => 3,
            1 => random.pick(&[1, 3, 4]),
            2 => random.pick(&[1, 1, 1, 3]),
            3 => random.pick(&[3, 3, 3, 1, 4]),
            // runs of equal functions
            _ if place > 0 && random.percent(60) => functions[place - 1],
            _ => random.pick(&[1, 3, 4]),
        };
        functions.push(function);
    }
    functions
}

/// Different shot numbers in rising order, in one of several styles.
fn rising_places(random: &mut Random, count: usize, shots: usize) -> Vec<usize> {
    let mut places: Vec<usize> = Vec::new();
    match random.below(4) {
        // neighbours: sectors of one shot
        0 => {
            let start = random.below(shots);
            places.extend((0..count).map(|i| (start + i) % shots));
        }
        // both ends of the circle
        1 => {
            places.push(shots - 1);
            if count > 1 {
                places.push(0);
            }
        }
        _ => {}
    }
    while places.len() < count {
        let place = random.below(shots);
        if !places.contains(&place) {
            places.push(place);
        }
    }
    places.sort();
    places
}

/// The sectors as a plan; behind them a function 0, and behind that 0/0 or now and then leftovers in their ranges.
fn plan_of_sectors(random: &mut Random, sectors: &[Sector]) -> Plan {
    let mut plan = plan::PLAN_OF_ZEROS;
    plan[..sectors.len()].copy_from_slice(sectors);
    if random.percent(30) {
        for (place, sector) in plan.iter_mut().enumerate().skip(sectors.len()) {
            sector.stop = random.between(0, 5759);
            if place > sectors.len() {
                sector.function = random.pick(&[0, 1, 3, 4]);
            }
        }
    }
    plan
}

/// A valid plan of 1 to 8 sectors for the step.
pub fn valid_plan(random: &mut Random, step: u16) -> Plan {
    let count = 1 + random.below(8);
    let functions = functions(random, count);
    let places = rising_places(random, count, plan::shots_per_revolution(step));
    let sectors: Vec<Sector> =
        (0..count).map(|i| Sector { function: functions[i], stop: places[i] as u16 * step }).collect();
    plan_of_sectors(random, &sectors)
}

/// A valid plan in which exactly this many shots, side by side, have functions 3 and 4, or only 3.
pub fn plan_with_laser_shots(random: &mut Random, step: u16, laser_shots: usize, only_points: bool) -> Plan {
    let shots = plan::shots_per_revolution(step);
    let before = random.below(shots);
    let last = (before + laser_shots) % shots;
    let mut places = vec![before];
    if !places.contains(&last) {
        places.push(last);
    }
    let count = if only_points && random.percent(50) { 8 } else { 2 + random.below(7) };
    while places.len() < count {
        let place = random.below(shots);
        if !places.contains(&place) {
            places.push(place);
        }
    }
    places.sort();
    let mut sectors = Vec::new();
    for place in places {
        // how far the stop lies past the last shot without laser: 1 to the number of shots
        let past = (place + shots - before - 1) % shots + 1;
        let function = match past <= laser_shots {
            true if only_points => 3,
            true => random.pick(&[3, 3, 4]),
            false => 1,
        };
        sectors.push(Sector { function, stop: place as u16 * step });
    }
    plan_of_sectors(random, &sectors)
}

/// A step, a running speed and a plan that pass the four checks of TRANS_MEASURE.
pub fn measure_setting(random: &mut Random) -> (u16, u16, Plan) {
    let step = step_for_measure(random);
    let shots = plan::shots_per_revolution(step);
    let top_speed = (14400 / shots).min(20) as u16;
    let speed = match random.below(3) {
        0 => 5,
        1 => top_speed,
        _ => random.between(5, top_speed),
    };
    let mut plan = if random.percent(if step <= 10 { 50 } else { 15 }) {
        let most = (10800 / usize::from(speed)).min(shots);
        let only_points = random.percent(70);
        plan_with_laser_shots(random, step, most, only_points)
    } else {
        valid_plan(random, step)
    };
    while measure_checks::measure_error(&plan, step, speed) != 0 {
        let place = random.below(plan::active_sectors(&plan).len());
        plan[place].function = 1;
    }
    (step, speed, plan)
}

/// The setting of the largest profile: step 2, 5 Hz, eight sectors and 2160 points.
pub fn largest_setting(random: &mut Random) -> (u16, u16, Plan) {
    loop {
        let plan = plan_with_laser_shots(random, 2, 2160, true);
        if plan::active_sectors(&plan).len() == 8 {
            return (2, 5, plan);
        }
    }
}

/// A step, a running speed and a plan at the edges of the last two checks of TRANS_MEASURE: the highest speed for the
/// step or one more, and the most shots with laser or one more.
pub fn setting_at_edges(random: &mut Random) -> (u16, u16, Plan) {
    // with these steps the checks can fail
    let step = random.pick(&[1, 2, 3, 4, 5, 6, 8, 9, 10]);
    let shots = plan::shots_per_revolution(step);
    let top_speed = (14400 / shots).clamp(5, 20) as u16;
    let speed = if random.percent(75) { top_speed } else { (top_speed + 1).min(20) };
    let most = 10800 / usize::from(speed);
    let laser_shots = (most + random.below(2)).min(shots);
    (step, speed, plan_with_laser_shots(random, step, laser_shots, false))
}

/// A valid plan with one stop moved: equal, falling or no multiple, but in its range.
pub fn plan_with_wrong_stop(random: &mut Random, step: u16) -> Plan {
    let mut plan = valid_plan(random, step);
    let active = plan::active_sectors(&plan).len();
    let place = random.below(active);
    plan[place].stop = match random.below(4) {
        0 => plan[random.below(active)].stop,
        1 => random.below(plan::shots_per_revolution(step)) as u16 * step,
        2 => (plan[place].stop + 1).min(5759),
        _ => random.between(0, 5759),
    };
    plan
}

/// A plan in its ranges, whether valid or not.
pub fn plan_in_ranges(random: &mut Random, step: u16) -> Plan {
    if random.percent(40) {
        return valid_plan(random, step);
    }
    let mut plan = plan::PLAN_OF_ZEROS;
    let few_zeros = random.percent(70);
    for sector in plan.iter_mut() {
        sector.function = if few_zeros { random.pick(&[0, 1, 3, 3, 4, 4]) } else { random.pick(&[0, 0, 1, 3, 4]) };
        sector.stop = match random.below(3) {
            0 => random.pick(&[0, 1, 5752, 5758, 5759]),
            1 => random.below(plan::shots_per_revolution(step)) as u16 * step,
            _ => random.between(0, 5759),
        };
    }
    plan
}

/// One fault in a plan, of any kind that the normal plan call can meet.
pub fn damage_plan(random: &mut Random, plan: &mut Plan, step: u16) {
    let active = plan::active_sectors(plan).len();
    let place = random.below(active.max(1));
    match random.below(10) {
        0 => plan[place].function = random.pick(&[2, 5, 6, 255, 256, 259, 65535]),
        1 => plan[place].stop = random.pick(&[5760, 5761, 5824, 8191, 32768, 65535]),
        // equal stops, and the stop of another sector
        2 => plan[place].stop = plan[random.below(8)].stop,
        // falling stops
        3 => {
            let other = random.below(active.max(1));
            let stop = plan[place].stop;
            plan[place].stop = plan[other].stop;
            plan[other].stop = stop;
        }
        4 => plan[place].stop = plan[place].stop.wrapping_add(1),
        5 => plan[place].stop = plan[place].stop.wrapping_sub(1),
        6 => plan[place].function = 0,
        7 => plan[0].function = 0,
        8 => plan[active.max(1) - 1].stop = plan::CIRCLE,
        _ => plan[place].stop = plan[place].stop.wrapping_add(step / 2),
    }
}

/// Any words behind the first function 0.
pub fn spoil_unused_entries(random: &mut Random, plan: &mut Plan) {
    let active = plan::active_sectors(plan).len();
    for (place, sector) in plan.iter_mut().enumerate().skip(active) {
        sector.stop = random.word();
        if place > active {
            sector.function = random.pick(&[0, 1, 2, 3, 4, 5, 255, 65535]);
        }
    }
}
