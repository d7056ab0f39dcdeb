// Rules, section 4: the table of the 20 services, what each does and answers, to a wrong number of words too, and refusals 1
// to 6 of a request.

use crate::mask::{self, Mask};
use crate::measure_checks;
use crate::plan;
use crate::plan::Sector;
use crate::state::{self, Job, Mode, Outcome, ReflectorConfig, State};

pub const GET_STATUS: u16 = 0x0102;
pub const GET_SIGNAL: u16 = 0x0104;
pub const SET_SIGNAL: u16 = 0x0105;
pub const SET_CONFIG: u16 = 0x0201;
pub const GET_CONFIG: u16 = 0x0202;
pub const SET_FUNCTION: u16 = 0x020A;
pub const GET_FUNCTION: u16 = 0x020B;
pub const GET_PROFILE: u16 = 0x0301;
pub const CANCEL_PROFILE: u16 = 0x0302;
pub const DO_RESET: u16 = 0x0401;
pub const TRANS_IDLE: u16 = 0x0402;
pub const TRANS_ROTATE: u16 = 0x0403;
pub const TRANS_MEASURE: u16 = 0x0404;
pub const SET_ROTATE_DIRECTION: u16 = 0x1201;
pub const SET_REFLECTOR_CONFIG: u16 = 0x1202;
pub const GET_ROTATE_DIRECTION: u16 = 0x1211;
pub const GET_REFLECTOR_CONFIG: u16 = 0x1212;
pub const GET_MIXED_PROFILE: u16 = 0x1301;
pub const CANCEL_MIXED_PROFILE: u16 = 0x1302;
pub const SAVE_PERMANENT: u16 = 0x1701;

/// The one item of SET_CONFIG and GET_CONFIG.
pub const CONFIG_ITEM: u16 = 0x0010;

const NO_SUCH: u16 = 0xFFFF;

/// What stands in the place of a setting that is out of its range (rules 4.19 and 4.20), and behind a mask that is (rule 4.23).
const OUT_OF_RANGE: u16 = 0xFF01;

pub struct Service {
    pub name: &'static str,
    pub code: u16,
    pub words_in: usize,
    pub modes: &'static [Mode],
    /// Rule 4.25: what is answered to another number of words, behind the response code; none where 4 refuses it.
    pub on_wrong_count: Option<&'static [u16]>,
}

const ALL: &[Mode] = &[Mode::Idle, Mode::Rotate, Mode::Measure];
const IDLE: &[Mode] = &[Mode::Idle];
const IDLE_ROTATE: &[Mode] = &[Mode::Idle, Mode::Rotate];
const ROTATE_MEASURE: &[Mode] = &[Mode::Rotate, Mode::Measure];
const MEASURE: &[Mode] = &[Mode::Measure];

pub const TABLE: [Service; 20] = [
    Service { name: "GET_STATUS", code: GET_STATUS, words_in: 1, modes: ALL, on_wrong_count: None },
    Service { name: "GET_SIGNAL", code: GET_SIGNAL, words_in: 1, modes: ALL, on_wrong_count: None },
    Service { name: "SET_SIGNAL", code: SET_SIGNAL, words_in: 2, modes: ALL, on_wrong_count: Some(&[NO_SUCH]) },
    Service { name: "SET_CONFIG", code: SET_CONFIG, words_in: 5, modes: IDLE, on_wrong_count: None },
    Service { name: "GET_CONFIG", code: GET_CONFIG, words_in: 2, modes: ALL, on_wrong_count: None },
    Service { name: "SET_FUNCTION", code: SET_FUNCTION, words_in: 5, modes: IDLE_ROTATE, on_wrong_count: Some(&[NO_SUCH; 3]) },
    Service { name: "GET_FUNCTION", code: GET_FUNCTION, words_in: 2, modes: ALL, on_wrong_count: Some(&[NO_SUCH; 3]) },
    Service { name: "GET_PROFILE", code: GET_PROFILE, words_in: 3, modes: MEASURE, on_wrong_count: Some(&[]) },
    Service { name: "CANCEL_PROFILE", code: CANCEL_PROFILE, words_in: 1, modes: MEASURE, on_wrong_count: None },
    Service { name: "DO_RESET", code: DO_RESET, words_in: 2, modes: ALL, on_wrong_count: None },
    Service { name: "TRANS_IDLE", code: TRANS_IDLE, words_in: 1, modes: ALL, on_wrong_count: None },
    Service { name: "TRANS_ROTATE", code: TRANS_ROTATE, words_in: 2, modes: ALL, on_wrong_count: None },
    Service { name: "TRANS_MEASURE", code: TRANS_MEASURE, words_in: 1, modes: ROTATE_MEASURE, on_wrong_count: None },
    Service { name: "SET_ROTATE_DIRECTION", code: SET_ROTATE_DIRECTION, words_in: 2, modes: IDLE_ROTATE, on_wrong_count: None },
    Service { name: "SET_REFLECTOR_CONFIG", code: SET_REFLECTOR_CONFIG, words_in: 3, modes: IDLE_ROTATE, on_wrong_count: None },
    Service { name: "GET_ROTATE_DIRECTION", code: GET_ROTATE_DIRECTION, words_in: 1, modes: ALL, on_wrong_count: None },
    Service { name: "GET_REFLECTOR_CONFIG", code: GET_REFLECTOR_CONFIG, words_in: 1, modes: ALL, on_wrong_count: None },
    Service { name: "GET_MIXED_PROFILE", code: GET_MIXED_PROFILE, words_in: 4, modes: MEASURE, on_wrong_count: None },
    Service { name: "CANCEL_MIXED_PROFILE", code: CANCEL_MIXED_PROFILE, words_in: 1, modes: MEASURE, on_wrong_count: None },
    Service { name: "SAVE_PERMANENT", code: SAVE_PERMANENT, words_in: 1, modes: IDLE_ROTATE, on_wrong_count: None },
];

pub fn service_of(code: u16) -> Option<&'static Service> {
    TABLE.iter().find(|service| service.code == code)
}

/// A request: refusals 1 to 6 in their order (rules 4.17 and 6.1). The answer goes to the front of the buffer, the words behind it stay.
pub fn request(state: &State, words: &[u16], buffer: &mut [u16]) -> Outcome {
    if !state.in_ranges() {
        return Outcome::refused(1, state);
    }
    if words.is_empty() {
        return Outcome::refused(2, state);
    }
    let Some(service) = service_of(words[0]) else {
        return Outcome::refused(3, state);
    };
    let wrong_count = words.len() != service.words_in;
    if wrong_count && service.on_wrong_count.is_none() {
        return Outcome::refused(4, state);
    }
    if !service.modes.contains(&state.mode) {
        return Outcome::refused(5, state);
    }
    let mut next = *state;
    let answer = match service.on_wrong_count {
        // rule 4.25: the words behind the code are not looked at
        Some(behind_code) if wrong_count => [&[words[0] + 0x8000], behind_code].concat(),
        _ => serve(&mut next, words),
    };
    if buffer.len() < answer.len() {
        return Outcome::refused(6, state);
    }
    buffer[..answer.len()].copy_from_slice(&answer);
    Outcome { refusal: 0, count: answer.len(), state: next }
}

/// Changes the state and gives the whole answer, its code included (rules 4.1 to 4.4).
fn serve(state: &mut State, words: &[u16]) -> Vec<u16> {
    let mut answer = vec![words[0] + 0x8000];
    match words[0] {
        GET_STATUS => answer.extend(state.senstat()),
        GET_SIGNAL => answer.push(u16::from(state.port)),
        SET_SIGNAL => {
            set_signal(state, words[1]);
            answer.push(u16::from(state.port));
        }
        SET_CONFIG => answer.push(set_config(state, words[1], words[2], words[3], words[4])),
        GET_CONFIG => answer.extend(get_config(state, words[1])),
        SET_FUNCTION => answer.extend(set_function(state, words[1], words[2], words[3], words[4])),
        GET_FUNCTION => answer.extend(get_function(state, words[1])),
        GET_PROFILE => {
            // the code alone, or no word where a job starts
            if start_plain_job(state, words[1], words[2]) {
                answer.clear();
            }
        }
        CANCEL_PROFILE => {
            // rule 4.11
            if let Some(Mask::Plain(_)) = state.job.mask() {
                state.job = Job::Absent;
            }
            answer.extend(state.senstat());
        }
        DO_RESET => {
            reset(state, words[1]);
            answer.push(words[1]);
        }
        TRANS_IDLE => {
            go_idle(state);
            answer.extend(state.senstat());
        }
        TRANS_ROTATE => {
            go_rotate(state, words[1]);
            answer.extend(state.senstat());
        }
        TRANS_MEASURE => {
            let error = go_measure(state);
            answer.extend(state.senstat());
            answer.push(error);
        }
        SET_ROTATE_DIRECTION => answer.push(set_rotate_direction(state, words[1])),
        SET_REFLECTOR_CONFIG => answer.extend(set_reflector_config(state, words[1], words[2])),
        GET_ROTATE_DIRECTION => answer.push(state.settings.rotate_direction),
        GET_REFLECTOR_CONFIG => answer.extend(get_reflector_config(state)),
        GET_MIXED_PROFILE => {
            // the mask and FF01h, or no word where a job starts
            if start_mixed_job(state, words[1], words[2], words[3]) {
                answer.clear();
            } else {
                answer.extend([words[2], words[3], OUT_OF_RANGE]);
            }
        }
        CANCEL_MIXED_PROFILE => {
            // rule 4.24
            if let Some(Mask::Mixed(_)) = state.job.mask() {
                state.job = Job::Absent;
            }
            answer.push(0);
        }
        SAVE_PERMANENT => {
            // rule 4.22
            state.settings.stored = state.settings.working;
            answer.push(0);
        }
        _ => unreachable!("the code is in the table"),
    }
    answer
}

/// Rule 4.5.
fn set_signal(state: &mut State, word: u16) {
    let low_byte = (word & 0x00FF) as u8;
    let kept = 0b0000_1100;
    state.port = (state.port & kept) | (low_byte & !kept);
}

/// Rule 4.6.
fn set_config(state: &mut State, item: u16, id: u16, speed: u16, step: u16) -> u16 {
    let all_fit =
        item == CONFIG_ITEM && state::id_in_range(id) && state::speed_in_range(speed) && plan::is_angle_step(step);
    if !all_fit {
        return NO_SUCH;
    }
    state.id = id;
    state.configured_speed = speed;
    state.step = step;
    item
}

/// Rule 4.7.
fn get_config(state: &State, item: u16) -> Vec<u16> {
    if item != CONFIG_ITEM {
        return vec![NO_SUCH];
    }
    vec![item, state.id, state.configured_speed, state.step]
}

/// Rule 4.8.
fn set_function(state: &mut State, sector: u16, function: u16, stop: u16, flash: u16) -> [u16; 3] {
    let sector = if sector > 7 { 7 } else { sector };
    let function = if function == 2 || function > 4 { 0 } else { function };
    let stop = stop % plan::CIRCLE;
    state.working_plan[usize::from(sector)] = Sector { function, stop };
    if flash == 1 {
        state.stored_plan = state.working_plan;
    }
    [sector, function, stop]
}

/// Rule 4.9.
fn get_function(state: &State, sector: u16) -> [u16; 3] {
    if sector > 7 {
        return [NO_SUCH; 3];
    }
    let found = state.working_plan[usize::from(sector)];
    [sector, found.function, found.stop]
}

/// The job that takes the place of any other (rules 4.10 and 4.23).
fn new_job(number: u16, mask: Mask) -> Job {
    if number == 0 {
        Job::Endless { mask, sent: 0 }
    } else {
        Job::Counted { left: number, mask, sent: 0 }
    }
}

/// GET_PROFILE: whether there is a new job (rule 4.10).
fn start_plain_job(state: &mut State, number: u16, mask: u16) -> bool {
    let mask = mask & 0x3FFF;
    if mask == 0 {
        return false;
    }
    state.job = new_job(number, Mask::Plain(mask));
    true
}

/// GET_MIXED_PROFILE: whether there is a new job (rule 4.23). No bit is dropped.
fn start_mixed_job(state: &mut State, number: u16, high: u16, low: u16) -> bool {
    let mask = mask::mixed_number(high, low);
    if !mask::mixed_in_range(mask) {
        return false;
    }
    state.job = new_job(number, Mask::Mixed(mask));
    true
}

fn reset(state: &mut State, level: u16) {
    match level {
        // rule 4.12
        0 | 1 => {
            state.mode = Mode::Idle;
            state.running_speed = 0;
            state.working_plan = state.stored_plan;
            state.settings.working = state.settings.stored;
            state.port = 0;
            state.counter = 0;
            state.job = Job::Absent;
        }
        // rule 4.13
        2 => {
            if state.mode == Mode::Measure {
                state.mode = Mode::Rotate;
                state.job = Job::Absent;
            }
        }
        _ => {}
    }
}

/// Rules 4.14 and 4.4.
fn go_idle(state: &mut State) {
    state.mode = Mode::Idle;
    state.running_speed = 0;
    state.job = Job::Absent;
}

/// Rule 4.15.
fn go_rotate(state: &mut State, speed: u16) {
    if speed != 0 && !state::speed_in_range(speed) {
        go_idle(state);
        return;
    }
    state.mode = Mode::Rotate;
    state.running_speed = if speed == 0 { state.configured_speed } else { speed };
    state.job = Job::Absent;
}

/// Rule 4.16.
fn go_measure(state: &mut State) -> u16 {
    let error = measure_checks::measure_error(&state.working_plan, state.step, state.running_speed);
    if error == 0 {
        state.mode = Mode::Measure;
    }
    error
}

/// Rule 4.19.
fn set_rotate_direction(state: &mut State, direction: u16) -> u16 {
    if !state::rotate_direction_in_range(direction) {
        return OUT_OF_RANGE;
    }
    state.settings.rotate_direction = direction;
    direction
}

/// Rule 4.20.
fn set_reflector_config(state: &mut State, threshold: u16, radius: u16) -> [u16; 2] {
    let threshold_fits = state::threshold_in_range(threshold);
    let radius_fits = state::radius_in_range(radius);
    if threshold_fits && radius_fits {
        state.settings.working = ReflectorConfig { threshold, radius };
    }
    let threshold_answered = if threshold_fits { threshold } else { OUT_OF_RANGE };
    let radius_answered = if radius_fits { radius } else { OUT_OF_RANGE };
    [threshold_answered, radius_answered]
}

/// Rule 4.21.
fn get_reflector_config(state: &State) -> [u16; 2] {
    let working = state.settings.working;
    [working.threshold, working.radius]
}
