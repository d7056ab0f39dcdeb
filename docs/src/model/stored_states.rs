// Rules 2.1 to 2.8, 2.10 and 2.11: every field of a state at the edges of its range and just outside of them, alone, as
// words of a state for the stored cases.

use crate::format;
use crate::mask::Mask;
use crate::plan;
use crate::random_plans::NO_STEPS;
use crate::state::{Job, Mode, State};
use crate::stored_samples::*;

const ID: usize = 0;
const SPEED: usize = 1;
const STEP: usize = 2;
const WORKING_PLAN: usize = 3;
const STORED_PLAN: usize = 19;
const MODE: usize = 35;
const RUNNING_SPEED: usize = 36;
const PORT: usize = 37;
const JOB: usize = 39;
const LEFT: usize = 40;
const MASK: usize = 41;
const SENT: usize = 42;
const ROTATE_DIRECTION: usize = 43;
const WORKING_THRESHOLD: usize = 44;
const WORKING_RADIUS: usize = 45;
const STORED_THRESHOLD: usize = 46;
const STORED_RADIUS: usize = 47;
const KIND_OF_MASK: usize = 48;
const HIGH_WORD: usize = 49;

/// The words of the state with one word set to each of the values in turn.
fn with_each(state: &State, place: usize, values: &[u16]) -> Vec<Vec<u16>> {
    values
        .iter()
        .map(|value| {
            let mut words = format::state_words(state);
            words[place] = *value;
            words
        })
        .collect()
}

/// The fields that do not depend on the mode, these sectors of both plans among them.
pub fn plain_fields(state: &State, sectors: &[usize]) -> Vec<Vec<u16>> {
    let mut all = Vec::new();
    all.extend(with_each(state, ID, &[0, 1, 254, 255, 257, 65535]));
    all.extend(with_each(state, SPEED, &[0, 4, 5, 20, 21, 266, 65535]));
    all.extend(with_each(state, STEP, &NO_STEPS));
    for first in [WORKING_PLAN, STORED_PLAN] {
        for sector in sectors {
            let function = first + 2 * sector;
            all.extend(with_each(state, function, &[2, 5]));
            all.extend(with_each(state, function + 1, &[5760]));
        }
        all.extend(with_each(state, first, &[259, 65535]));
        all.extend(with_each(state, first + 1, &[5761, 65535]));
    }
    all.extend(with_each(state, PORT, &[0, 255, 256, 65535]));
    all
}

/// Mode, running speed and job, each against the others.
pub fn mode_fields() -> Vec<Vec<u16>> {
    let mut all = Vec::new();
    all.extend(with_each(&idle(), RUNNING_SPEED, &[0, 1, 5, 10, 65535]));
    all.extend(with_each(&rotate(), RUNNING_SPEED, &[0, 1, 4, 5, 20, 21, 266, 65535]));
    all.extend(with_each(&measure(Job::Absent), RUNNING_SPEED, &[0, 1, 4, 5, 20, 21, 266, 65535]));
    all.extend(with_each(&measure(COUNTED_SAMPLE), MODE, &[0, 1, 2, 3, 4, 256, 65535]));
    all.extend(with_each(&measure(Job::Absent), MODE, &[0, 1, 2, 4]));
    all.extend(with_each(&idle(), MODE, &[0, 2, 3]));
    all.extend(with_each(&rotate(), MODE, &[0, 1, 3]));
    for state in [measure(COUNTED_SAMPLE), measure(ENDLESS_SAMPLE)] {
        all.extend(with_each(&state, JOB, &[0, 1, 2, 3, 65535]));
        all.extend(with_each(&state, LEFT, &[0, 65528, 65529]));
        all.extend(with_each(&state, MASK, &[0, 1, 0x2000, 0x3FFF, 0x4000, 0x8000, 0xC000, 0x4001, 0x8001, 0xFFFF]));
        all.extend(with_each(&state, SENT, &[0, 65532, 65533, 65535]));
    }
    for state in [idle(), rotate()] {
        for job in [COUNTED_SAMPLE, ENDLESS_SAMPLE] {
            all.push(format::state_words(&State { job, ..state }));
        }
        // words of a job that is absent say nothing
        all.push(format::state_words(&state));
        let last = all.len() - 1;
        all[last][LEFT] = 65535;
        all[last][MASK] = 65535;
        all[last][SENT] = 65535;
    }
    all
}

/// The settings of the NAV300.
pub fn settings_fields(state: &State) -> Vec<Vec<u16>> {
    let mut all = with_each(state, ROTATE_DIRECTION, &[0, 1, 2, 256, 257, 65535]);
    for threshold in [WORKING_THRESHOLD, STORED_THRESHOLD] {
        all.extend(with_each(state, threshold, &[0, 1, 100, 101, 306, 65535]));
    }
    for radius in [WORKING_RADIUS, STORED_RADIUS] {
        all.extend(with_each(state, radius, &[0, 127, 128, 256, 65535]));
    }
    all
}

/// The same just outside of their ranges.
pub fn settings_just_outside(state: &State) -> Vec<Vec<u16>> {
    let mut all = with_each(state, ROTATE_DIRECTION, &[2]);
    for threshold in [WORKING_THRESHOLD, STORED_THRESHOLD] {
        all.extend(with_each(state, threshold, &[0, 101]));
    }
    for radius in [WORKING_RADIUS, STORED_RADIUS] {
        all.extend(with_each(state, radius, &[128]));
    }
    all
}

/// Both words of mixed masks that are none by rule 2.11: each bit that has no word, beside bits that may be; each of 18 to 22
/// without 16; no bit.
pub fn bad_mixed_masks() -> Vec<[u16; 2]> {
    let mut masks = vec![[0, 0], [0x007C, 0x3FFF], [0xFFFF, 0xFFFF], [0x007D, 0xC000]];
    masks.extend([0x4001, 0x8001].map(|low| [0x0001, low]));
    masks.extend([1, 7, 8, 9, 10, 11, 12, 13, 14, 15].map(|bit| [1 | 1 << bit, 0x0001]));
    masks.extend([2, 3, 4, 5, 6].map(|bit| [1 << bit, 0x0001]));
    masks
}

/// States in MEASURE with mixed jobs whose masks are out of their range, and some whose masks are in it.
pub fn mixed_masks_of_states() -> Vec<Vec<u16>> {
    let mut all = Vec::new();
    let good = [[0, 1], [1, 0], [0x007D, 0x3FFF], [0x0041, 0x0000]];
    for [high, low] in bad_mixed_masks().into_iter().chain(good) {
        let mut words = format::state_words(&State { job: COUNTED_MIXED_SAMPLE, ..small_state(1) });
        words[HIGH_WORD] = high;
        words[MASK] = low;
        all.push(words);
    }
    all
}

/// The same, and the other words of mixed jobs at their edges.
pub fn mixed_job_fields() -> Vec<Vec<u16>> {
    let mut all = mixed_masks_of_states();
    let counted = State { job: COUNTED_MIXED_SAMPLE, ..small_state(1) };
    for state in [counted, State { job: ENDLESS_MIXED_SAMPLE, ..counted }] {
        all.extend(with_each(&state, KIND_OF_MASK, &[0, 2, 256, 65535]));
        all.extend(with_each(&state, MASK, &[0, 0x4000, 0x8000]));
        all.extend(with_each(&state, LEFT, &[0, 65526, 65527]));
    }
    // the high word of a plain mask, and kind and high word where there is no job, are not looked at
    for state in [small_state(1), State { job: ENDLESS_SAMPLE, ..counted }] {
        all.extend(with_each(&state, HIGH_WORD, &[1, 0x0002, 65535]));
    }
    let mut absent = format::state_words(&State { job: Job::Absent, ..counted });
    absent[KIND_OF_MASK] = 1;
    absent[HIGH_WORD] = 65535;
    all.push(absent);
    all
}

/// A mixed job outside of MEASURE.
pub fn mixed_jobs_elsewhere() -> Vec<Vec<u16>> {
    let jobs = [COUNTED_MIXED_SAMPLE, ENDLESS_MIXED_SAMPLE];
    jobs.map(|job| [idle(), rotate()].map(|state| format::state_words(&State { job, ..state }))).concat()
}

/// MEASURE with plans that pass the checks of TRANS_MEASURE just so, and that just fail.
pub fn measure_plans() -> Vec<Vec<u16>> {
    let base = State { job: Job::Endless { mask: Mask::Plain(0x0001), sent: 0 }, ..small_state(1) };
    let settings: [(u16, u16, &[(u16, u16)]); 17] = [
        // no active sector, stops that are equal or fall, and such stops behind the active ones
        (64, 10, &[]),
        (64, 10, &[(0, 0), (3, 64)]),
        (64, 10, &[(3, 640), (3, 640)]),
        (64, 10, &[(3, 640), (1, 576)]),
        (64, 10, &[(3, 640), (0, 640), (1, 576)]),
        // a stop that is no multiple, active and not
        (64, 10, &[(3, 640), (3, 705)]),
        (64, 10, &[(3, 640), (0, 705)]),
        // speed × shots of 14400, and above
        (8, 20, &[(1, 5752)]),
        (6, 15, &[(1, 5754)]),
        (6, 16, &[(1, 5754)]),
        (2, 5, &[(1, 5758)]),
        (2, 6, &[(1, 5758)]),
        (1, 5, &[(1, 5759)]),
        // speed × shots of functions 3 and 4 of 10800, and one shot more
        (2, 5, &[(1, 0), (4, 4320)]),
        (2, 5, &[(1, 0), (4, 4322)]),
        (4, 10, &[(3, 2160), (1, 3600)]),
        (8, 20, &[(3, 2160), (4, 4320), (1, 5752)]),
    ];
    let mut all = Vec::new();
    for (step, running_speed, sectors) in settings {
        let working_plan = crate::stored_samples::plan_of(sectors);
        all.push(format::state_words(&State { step, running_speed, working_plan, ..base }));
    }
    all
}

/// The number of shots that goes with the step of a state's words, or that of step 64.
pub fn shots_of_words(words: &[u16]) -> usize {
    if plan::is_angle_step(words[STEP]) {
        plan::shots_per_revolution(words[STEP])
    } else {
        90
    }
}

/// A state with its id out of range.
pub fn bad_words(state: &State) -> Vec<u16> {
    let mut words = format::state_words(state);
    words[ID] = 255;
    words
}

pub fn is_measure(words: &[u16]) -> bool {
    format::CaseWords::new(words).state().mode == Mode::Measure
}
