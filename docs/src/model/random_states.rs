// Random states for fresh cases: states in their ranges in each mode, and damage to single fields at the edges of the
// ranges.

use crate::mask::{self, Mask};
use crate::plan::{self, Plan};
use crate::random::Random;
use crate::random_plans;
use crate::state::{Job, Mode, ReflectorConfig, Settings, State};

/// A plain mask that a job can have.
pub fn job_mask(random: &mut Random) -> u16 {
    let mask = match random.below(9) {
        0 => 1 << random.below(14),
        1 => 0x3FFF,
        2 => 0x0020 | 0x0100 << random.below(3),
        3 => random.word() & 0x38FF,
        4 => 0x3FFF & !(1 << random.below(14)),
        // points without their number
        5 => random.word() & 0x3FDF | 0x0100 << random.below(3),
        6 => random.word() & 0x3FFF | 0x0020,
        _ => random.word() & 0x3FFF,
    };
    if mask == 0 {
        0x0120
    } else {
        mask
    }
}

/// A mixed mask that a job can have.
pub fn mixed_mask(random: &mut Random) -> u32 {
    let low = if random.percent(35) { 0 } else { job_mask(random) };
    let high = match random.below(8) {
        0 => 0,
        1 => 0x0001,
        2 => 0x007D,
        3 => 0x0001 | 0x0004 << random.below(5),
        4 => 0x007D & !(0x0004 << random.below(5)),
        _ => 0x0001 | random.word() & 0x007C,
    };
    match mask::mixed_number(high, low) {
        0 => 0x0001_0000,
        mask => mask,
    }
}

/// A mixed mask that no job can have: each bit that it must not have alone, 18 to 22 without 16, none at all.
pub fn bad_mixed_mask(random: &mut Random) -> u32 {
    let good = mixed_mask(random);
    let bit = random.pick(&[14, 15, 17, 23, 24, 25, 26, 27, 28, 29, 30, 31]);
    let field = 1 << (18 + random.below(5));
    match random.below(8) {
        0 => 0,
        1 => 1 << bit,
        2 => field,
        3 => good & !0x0001_0000 | field,
        4 => 1 << bit | 1 << random.below(32),
        5 => random.pick(&[0xFFFF_FFFF, 0xFFFF_0000, 0x007C_3FFF, 0x007D_FFFF, 0x0002_0001, 0x0000_FFFF]),
        _ => good | 1 << bit,
    }
}

/// A mask of either kind that a job can have.
fn any_mask(random: &mut Random) -> Mask {
    if random.percent(50) {
        Mask::Plain(job_mask(random))
    } else {
        Mask::Mixed(mixed_mask(random))
    }
}

fn job(random: &mut Random) -> Job {
    let mask = any_mask(random);
    match random.weighted(&[15, 45, 40]) {
        0 => Job::Absent,
        1 => {
            let left = match random.below(5) {
                0 | 1 => 1,
                2 => 2,
                3 => 65535,
                _ => random.between(1, 65535),
            };
            let most = 65535 - left;
            let sent = match random.below(4) {
                0 => 0,
                1 => most,
                2 => most.saturating_sub(1),
                _ => random.between(0, most),
            };
            Job::Counted { left, mask, sent }
        }
        _ => {
            let any = random.word();
            let sent = random.pick(&[0, 1, 65534, 65535, any]);
            Job::Endless { mask, sent }
        }
    }
}

pub fn any_mode(random: &mut Random) -> Mode {
    random.pick(&[Mode::Idle, Mode::Rotate, Mode::Measure])
}

fn any_speed(random: &mut Random) -> u16 {
    let any = random.between(5, 20);
    random.pick(&[5, 20, any, any])
}

/// A threshold in its range, at an edge often.
pub fn any_threshold(random: &mut Random) -> u16 {
    let any = random.between(1, 100);
    random.pick(&[1, 2, 50, 99, 100, any, any, any])
}

/// A radius in its range, at an edge often.
pub fn any_radius(random: &mut Random) -> u16 {
    let any = random.between(0, 127);
    random.pick(&[0, 1, 126, 127, any, any, any])
}

fn reflector_config(random: &mut Random) -> ReflectorConfig {
    ReflectorConfig { threshold: any_threshold(random), radius: any_radius(random) }
}

/// Settings in their ranges; what works and what is stored differ most of the time.
pub fn settings_in_ranges(random: &mut Random) -> Settings {
    let working = reflector_config(random);
    let stored = if random.percent(15) { working } else { reflector_config(random) };
    Settings { rotate_direction: random.pick(&[0, 1]), working, stored }
}

/// A state in its ranges, in this mode, with this step, speed and plan. The speed is left out in IDLE.
fn state_around(random: &mut Random, mode: Mode, step: u16, running_speed: u16, working_plan: Plan) -> State {
    let any_id = random.between(1, 254);
    let any_word = random.word();
    State {
        id: random.pick(&[1, 2, 253, 254, any_id, any_id]),
        configured_speed: any_speed(random),
        step,
        working_plan,
        stored_plan: if random.percent(25) { working_plan } else { random_plans::plan_in_ranges(random, step) },
        mode,
        running_speed: if mode == Mode::Idle { 0 } else { running_speed },
        port: random.word() as u8,
        counter: random.pick(&[0, 1, 65534, 65535, any_word, any_word]),
        job: if mode == Mode::Measure { job(random) } else { Job::Absent },
        settings: settings_in_ranges(random),
    }
}

/// A state in its ranges, in this mode.
pub fn state_in_ranges(random: &mut Random, mode: Mode) -> State {
    if random.percent(2) && mode != Mode::Measure {
        return State::fresh();
    }
    if mode == Mode::Measure || random.percent(25) {
        let (step, speed, plan) = random_plans::measure_setting(random);
        return state_around(random, mode, step, speed, plan);
    }
    if random.percent(40) {
        let (step, speed, plan) = random_plans::setting_at_edges(random);
        return state_around(random, mode, step, speed, plan);
    }
    let step = if random.percent(50) { random_plans::step_for_measure(random) } else { random_plans::any_step(random) };
    let speed = any_speed(random);
    let plan = match random.below(3) {
        0 => random_plans::plan_with_wrong_stop(random, step),
        1 => random_plans::valid_plan(random, step),
        _ => random_plans::plan_in_ranges(random, step),
    };
    state_around(random, mode, step, speed, plan)
}

/// A state in MEASURE whose plan passes the checks of TRANS_MEASURE just so, or just fails one of them.
pub fn measure_at_edges(random: &mut Random) -> State {
    let (step, speed, plan) = if random.percent(60) {
        random_plans::setting_at_edges(random)
    } else {
        let (step, speed, _) = random_plans::measure_setting(random);
        (step, speed, random_plans::plan_with_wrong_stop(random, step))
    };
    state_around(random, Mode::Measure, step, speed, plan)
}

/// A state in MEASURE with the largest profile there is, plain or mixed, or nearly.
pub fn largest_state(random: &mut Random) -> State {
    let (step, speed, plan) = random_plans::largest_setting(random);
    let mut state = state_around(random, Mode::Measure, step, speed, plan);
    let all_bits = random.pick(&[Mask::Plain(0x3FFF), Mask::Mixed(0x007D_3FFF)]);
    let mask = if random.percent(50) { all_bits } else { any_mask(random) };
    state.job = Job::Endless { mask, sent: random.word() };
    state
}

/// Sets one of the 50 words of a state to an edge of its range, or just outside of it.
pub fn damage_state_words(random: &mut Random, words: &mut [u16]) {
    // each of the thirteen kinds of fields as often as the others
    let place = match random.below(13) {
        0 => 0,
        1 => 1,
        2 => 2,
        3 => 3 + 2 * random.below(8),
        4 => 4 + 2 * random.below(8),
        5 => 19 + 2 * random.below(8),
        6 => 20 + 2 * random.below(8),
        7 => 35,
        8 => 36,
        9 => 37 + random.below(2),
        10 => 39 + random.below(4),
        11 => 43 + random.below(5),
        _ => 48 + random.below(2),
    };
    let old = words[place];
    words[place] = match place {
        0 => random.pick(&[0, 0, 0, 1, 254, 255, 255, 255, 256, 257, 65535]),
        1 => random.pick(&[0, 1, 4, 4, 5, 20, 21, 21, 255, 261, 65535]),
        2 => {
            let other = random_plans::any_step(random);
            let none = random.pick(&random_plans::NO_STEPS);
            random.pick(&[1, 64, other, none, none])
        }
        35 => random.pick(&[0, 1, 2, 3, 4, 65535]),
        36 => random.pick(&[0, 1, 4, 5, 20, 21, 255, 261, 65535, old.wrapping_add(1)]),
        37 => random.pick(&[0, 1, 255, 256, 65535]),
        38 => random.pick(&[0, 1, 65535]),
        39 => random.pick(&[0, 1, 2, 3, 65535]),
        40 => random.pick(&[0, 0, 1, 65535, old.wrapping_add(1)]),
        41 => random.pick(&[0, 0x4000, 0x8000, 0xC000, 0xFFFF, old | 0x4000, old | 0x8000, 1]),
        42 => random.pick(&[0, 65534, 65535, old.wrapping_add(1)]),
        // the kind of the mask and its high word
        48 => random.pick(&[0, 1, 2, 256, 65535]),
        49 => {
            let one_bit = 1 << random.below(16);
            random.pick(&[0, 1, 2, 4, 0x007C, 0x0080, 0x8000, 0xFFFF, old ^ 1, old ^ one_bit, old ^ one_bit])
        }
        // direction of rotation, thresholds, radii
        43 => random.pick(&[0, 1, 2, 2, 255, 256, 257, 0xFF01, 65535]),
        44 | 46 => random.pick(&[0, 0, 1, 100, 101, 101, 256, 306, 0xFF01, 65535]),
        45 | 47 => random.pick(&[0, 127, 128, 128, 255, 256, 0xFF01, 65535]),
        // function of a sector
        _ if place % 2 == 1 => random.pick(&[0, 1, 2, 3, 4, 5, 2, 5, 255, 259, 65535]),
        // stop of a sector
        _ => random.pick(&[0, 1, 5759, 5760, 5760, 5760, 5761, 65535, old.wrapping_add(1), old.wrapping_sub(1)]),
    };
}

/// A state as words: in its ranges most of the time, else with one damaged field or with several.
pub fn state_words_maybe_damaged(random: &mut Random, state: &State) -> Vec<u16> {
    let mut words = crate::format::state_words(state);
    let damages = match random.weighted(&[75, 20, 5]) {
        0 => 0,
        1 => 1,
        _ => 2 + random.below(4),
    };
    for _ in 0..damages {
        damage_state_words(random, &mut words);
    }
    // a mixed mask that is none
    if words[39] != 0 && words[48] == 1 && random.percent(5) {
        let [high, low] = mask::mixed_words(bad_mixed_mask(random));
        words[49] = high;
        words[41] = low;
    }
    // words that the mode or the job do not use
    if random.percent(5) {
        if words[39] == 0 {
            words[41] = random.word();
            words[42] = random.word();
        }
        if words[39] != 1 {
            words[40] = random.word();
        }
        if words[39] == 0 || words[48] == 0 {
            words[49] = random.word();
        }
        if words[39] == 0 || words[48] == 1 {
            words[48] = random.pick(&[2, 256, 65535]);
        }
        if words[35] == 3 {
            words[35] = random.pick(&[0, 4, 256, 65535]);
        }
        words[37] |= random.word() & 0xFF00;
    }
    words
}

/// The number of words that a revolution asks of the lists; that of step 64 where the step is none.
pub fn shots_asked_of_lists(state: &State) -> usize {
    if plan::is_angle_step(state.step) {
        plan::shots_per_revolution(state.step)
    } else {
        90
    }
}
