// Plans, states, lists and buffers that the stored cases are built from.

use crate::format::ListGiven;
use crate::mask::Mask;
use crate::plan::{self, Plan, Sector};
use crate::state::{Job, Mode, ReflectorConfig, Settings, State};

/// A plan of these (function, stop) pairs, the rest 0/0.
pub fn plan_of(sectors: &[(u16, u16)]) -> Plan {
    let mut plan = plan::PLAN_OF_ZEROS;
    for (place, (function, stop)) in sectors.iter().enumerate() {
        plan[place] = Sector { function: *function, stop: *stop };
    }
    plan
}

/// For step 8: five active sectors, and leftovers behind the first function 0.
pub fn working_sample() -> Plan {
    plan_of(&[(1, 720), (3, 1440), (4, 2160), (3, 2880), (1, 3600), (0, 77), (4, 12), (3, 5759)])
}

pub fn stored_sample() -> Plan {
    plan_of(&[(3, 8), (4, 5752), (0, 1), (1, 2), (0, 3), (4, 4), (3, 5), (1, 6)])
}

pub const COUNTED_SAMPLE: Job = Job::Counted { left: 3, mask: Mask::Plain(0x0121), sent: 7 };
pub const ENDLESS_SAMPLE: Job = Job::Endless { mask: Mask::Plain(0x3FFF), sent: 65535 };
pub const COUNTED_MIXED_SAMPLE: Job = Job::Counted { left: 4, mask: Mask::Mixed(0x0025_0121), sent: 9 };
pub const ENDLESS_MIXED_SAMPLE: Job = Job::Endless { mask: Mask::Mixed(0x007D_3FFF), sent: 65535 };

pub fn settings_of(rotate_direction: u16, working: (u16, u16), stored: (u16, u16)) -> Settings {
    let config = |(threshold, radius): (u16, u16)| ReflectorConfig { threshold, radius };
    Settings { rotate_direction, working: config(working), stored: config(stored) }
}

/// A state whose every part differs from the fresh one.
pub fn state_in(mode: Mode, job: Job) -> State {
    State {
        id: 77,
        configured_speed: 12,
        step: 8,
        working_plan: working_sample(),
        stored_plan: stored_sample(),
        mode,
        running_speed: if mode == Mode::Idle { 0 } else { 10 },
        port: 0xA5,
        counter: 0x1234,
        job,
        settings: settings_of(0, (73, 41), (26, 117)),
    }
}

pub fn idle() -> State {
    state_in(Mode::Idle, Job::Absent)
}

pub fn rotate() -> State {
    state_in(Mode::Rotate, Job::Absent)
}

pub fn measure(job: Job) -> State {
    state_in(Mode::Measure, job)
}

pub fn one_of_each_mode() -> [State; 3] {
    [idle(), rotate(), measure(COUNTED_SAMPLE)]
}

/// One state in IDLE, one in ROTATE, and one in MEASURE for each kind of job.
pub fn states_of_all_modes() -> Vec<State> {
    vec![idle(), rotate(), measure(Job::Absent), measure(COUNTED_SAMPLE), measure(ENDLESS_SAMPLE)]
}

/// A sensor of 90 shots a revolution in MEASURE: step 64, two points in sector 1.
pub fn small_state(mask: u16) -> State {
    State {
        step: 64,
        working_plan: plan_of(&[(1, 640), (3, 768), (4, 5696)]),
        job: Job::Counted { left: 3, mask: Mask::Plain(mask), sent: 7 },
        ..measure(Job::Absent)
    }
}

/// The same sensor with a mixed job.
pub fn small_mixed_state(mask: u32) -> State {
    State { job: Job::Counted { left: 3, mask: Mask::Mixed(mask), sent: 7 }, ..small_state(1) }
}

/// Up to eight sectors for step 64, all functions, all with few shots but one.
pub fn plan_of_length(count: usize) -> Plan {
    let sectors = [(3, 64), (1, 128), (3, 320), (3, 384), (4, 512), (1, 5568), (3, 5632), (3, 5696)];
    let mut plan = plan_of(&sectors[..count]);
    // sector 0 is the one with many shots where the plan is short: then it has no points, save when it is alone
    if count > 1 && count < 6 {
        plan[0].function = 1;
    }
    plan
}

pub fn buffer(length: usize) -> ListGiven {
    ListGiven { length: length as u16, first: 0xB000, rise: 1 }
}

pub fn distances(length: usize) -> ListGiven {
    ListGiven { length: length as u16, first: 0x1001, rise: 0x0101 }
}

pub const NO_REFLECTORS: ListGiven = ListGiven { length: 0, first: 0, rise: 0 };

/// The words of reflectors, each another than all others.
pub fn reflectors(length: usize) -> ListGiven {
    ListGiven { length: length as u16, first: 0x7001, rise: 0x0011 }
}

pub fn echoes(length: usize) -> ListGiven {
    ListGiven { length: length as u16, first: 0xE00E, rise: 0xFFF7 }
}
