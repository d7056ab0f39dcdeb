// The format of the trials: words as bytes, cases out of the input, lists and buffers, states and readings as words, and
// the lines. The line's form is the program's (rule 7.11).

use crate::layout::{Contour, EarlyEnd, Part};
use crate::mask::{self, Mask};
use crate::mixed_reader::MixedReading;
use crate::plan::{Plan, Sector};
use crate::reader::Reading;
use crate::state::{Job, Mode, ReflectorConfig, Settings, State};

/// A DWORD and a word go high part first; an odd byte at the end is no word.
pub fn words_of_bytes(bytes: &[u8]) -> Vec<u16> {
    bytes.chunks_exact(2).map(|pair| u16::from_be_bytes([pair[0], pair[1]])).collect()
}

/// "The length of a case, of a list and of a buffer is the remainder of its word by 8192."
pub const LENGTH_LIMIT: u16 = 8192;

/// The cases of an input, without their length words. "The input ends where a case is not whole".
pub fn cases_of_input(input: &[u8]) -> Vec<Vec<u16>> {
    let words = words_of_bytes(input);
    let mut cases = Vec::new();
    let mut place = 0;
    while place < words.len() {
        let length = usize::from(words[place] % LENGTH_LIMIT);
        place += 1;
        if words.len() - place < length {
            break;
        }
        cases.push(words[place..place + length].to_vec());
        place += length;
    }
    cases
}

/// A case as bytes, its length word first.
pub fn push_case(output: &mut Vec<u8>, case: &[u16]) {
    assert!(case.len() < usize::from(LENGTH_LIMIT), "a case of {} words is too long", case.len());
    output.extend_from_slice(&(case.len() as u16).to_be_bytes());
    for word in case {
        output.extend_from_slice(&word.to_be_bytes());
    }
}

/// The words of a case, taken from the front. "Words that a case does not have are 0."
pub struct CaseWords<'a> {
    words: &'a [u16],
}

impl<'a> CaseWords<'a> {
    pub fn new(words: &'a [u16]) -> CaseWords<'a> {
        CaseWords { words }
    }

    pub fn word(&mut self) -> u16 {
        match self.words.split_first() {
            Some((first, others)) => {
                self.words = others;
                *first
            }
            None => 0,
        }
    }

    /// "all that are left"
    pub fn others(&mut self) -> Vec<u16> {
        self.words.to_vec()
    }

    /// "A plan is 16 words: function and stop of sectors 0 to 7."
    pub fn plan(&mut self) -> Plan {
        let mut plan = crate::plan::PLAN_OF_ZEROS;
        for sector in plan.iter_mut() {
            let function = self.word();
            let stop = self.word();
            *sector = Sector { function, stop };
        }
        plan
    }

    /// A list or a buffer: "three words: length, first, rise".
    pub fn list(&mut self) -> Vec<u16> {
        let length = self.word();
        let first = self.word();
        let rise = self.word();
        ListGiven { length, first, rise }.words()
    }

    fn reflector_config(&mut self) -> ReflectorConfig {
        let threshold = self.word();
        let radius = self.word();
        ReflectorConfig { threshold, radius }
    }

    /// Of a state's words "the direction of rotation, the working threshold, the working radius, the stored
    /// threshold and the stored radius".
    fn settings(&mut self) -> Settings {
        let rotate_direction = self.word();
        let working = self.reflector_config();
        let stored = self.reflector_config();
        Settings { rotate_direction, working, stored }
    }

    /// "A state is 50 words"
    pub fn state(&mut self) -> State {
        let id = self.word();
        let configured_speed = self.word();
        let step = self.word();
        let working_plan = self.plan();
        let stored_plan = self.plan();
        // "mode (1 IDLE, 2 ROTATE, any other MEASURE)"
        let mode = match self.word() {
            1 => Mode::Idle,
            2 => Mode::Rotate,
            _ => Mode::Measure,
        };
        let running_speed = self.word();
        // "port (the word's low byte)"
        let port = (self.word() & 0x00FF) as u8;
        let counter = self.word();
        let kind_of_job = self.word();
        let left = self.word();
        let low = self.word();
        let sent = self.word();
        let settings = self.settings();
        // "of the job's mask its kind (0 plain, any other mixed) and its high word"; "A plain mask has no high word"
        let kind_of_mask = self.word();
        let high = self.word();
        let mask = if kind_of_mask == 0 { Mask::Plain(low) } else { Mask::mixed(high, low) };
        // "job (0 absent, 1 counted, any other endless)"
        let job = match kind_of_job {
            0 => Job::Absent,
            1 => Job::Counted { left, mask, sent },
            _ => Job::Endless { mask, sent },
        };
        State {
            id,
            configured_speed,
            step,
            working_plan,
            stored_plan,
            mode,
            running_speed,
            port,
            counter,
            job,
            settings,
        }
    }
}

/// A list or a buffer as a case gives it: "Word i (from 0) is first + i × rise, modulo 65536."
#[derive(Clone, Copy, PartialEq, Eq, Debug)]
pub struct ListGiven {
    pub length: u16,
    pub first: u16,
    pub rise: u16,
}

impl ListGiven {
    pub fn words(&self) -> Vec<u16> {
        let mut words = Vec::new();
        let mut word = self.first;
        for _ in 0..self.length % LENGTH_LIMIT {
            words.push(word);
            word = word.wrapping_add(self.rise);
        }
        words
    }
}

pub fn plan_words(plan: &Plan) -> Vec<u16> {
    plan.iter().flat_map(|sector| [sector.function, sector.stop]).collect()
}

/// A state as words: "mode is 1, 2 or 3, job is 0, 1 or 2, and the kind of its mask 0 or 1; left, mask, sent and high word
/// that a job does not have are 0, and so is the kind without a job".
pub fn state_words(state: &State) -> Vec<u16> {
    let mut words = vec![state.id, state.configured_speed, state.step];
    words.extend(plan_words(&state.working_plan));
    words.extend(plan_words(&state.stored_plan));
    words.push(match state.mode {
        Mode::Idle => 1,
        Mode::Rotate => 2,
        Mode::Measure => 3,
    });
    words.extend([state.running_speed, u16::from(state.port), state.counter]);
    let (kind_of_mask, [high, low]) = match state.job.mask() {
        None => (0, [0, 0]),
        Some(Mask::Plain(mask)) => (0, [0, mask]),
        Some(Mask::Mixed(mask)) => (1, mask::mixed_words(mask)),
    };
    words.extend(match state.job {
        Job::Absent => [0, 0, 0, 0],
        Job::Counted { left, sent, .. } => [1, left, low, sent],
        Job::Endless { sent, .. } => [2, 0, low, sent],
    });
    let Settings { rotate_direction, working, stored } = state.settings;
    words.extend([rotate_direction, working.threshold, working.radius, stored.threshold, stored.radius]);
    words.extend([kind_of_mask, high]);
    words
}

/// "a word that can be absent is 0000 where it is absent, and 0001 and then the word where it is given"
fn push_field(words: &mut Vec<u16>, field: Option<u16>) {
    match field {
        Some(word) => words.extend([1, word]),
        None => words.push(0),
    }
}

/// The place that comes with 15 (rules 5.16 and 5.25): a word of 0 where there is none, else the part's number, which sector
/// or reflector it is (0 where it is neither), and the index.
fn push_early_end(words: &mut Vec<u16>, early_end: Option<EarlyEnd>) {
    let Some(EarlyEnd { part, index }) = early_end else {
        words.push(0);
        return;
    };
    let place = match part {
        Part::Sector(place) | Part::Reflector(place) => place,
        Part::Head | Part::Senstat | Part::Count => 0,
    };
    words.extend([part.number(), place as u16, index as u16]);
}

/// What readings of both kinds have: of "each of the eight places" the same nine, whether there is a sector or not.
fn push_contour(words: &mut Vec<u16>, contour: &Contour) {
    for field in [contour.sent, contour.counter, contour.layer] {
        push_field(words, field);
    }
    words.push(contour.sector_count as u16);
    for sector in &contour.sectors {
        for field in [sector.number, sector.step, sector.points, sector.first_time, sector.first_direction] {
            push_field(words, field);
        }
        words.push(sector.points_place as u16);
        words.push(sector.points_length as u16);
        push_field(words, sector.last_time);
        push_field(words, sector.last_direction);
    }
    for field in contour.senstat {
        push_field(words, field);
    }
}

/// The words of a reading in a line. Every field of the profile can be absent; the number of sectors, places and numbers
/// of words are plain, and 0 in a refused reading.
pub fn reading_words(reading: &Reading) -> Vec<u16> {
    let mut words = Vec::new();
    push_field(&mut words, reading.mask);
    push_contour(&mut words, &reading.contour);
    push_early_end(&mut words, reading.early_end);
    words
}

/// The words of a mixed profile's reading in a line, in the same way.
pub fn mixed_reading_words(reading: &MixedReading) -> Vec<u16> {
    let mut words = Vec::new();
    for field in reading.mask {
        push_field(&mut words, field);
    }
    push_contour(&mut words, &reading.contour);
    push_field(&mut words, reading.reflector_count);
    words.push(reading.reflectors_place as u16);
    words.push(reading.words_of_reflector as u16);
    push_early_end(&mut words, reading.early_end);
    words
}

/// A line (rule 7.11).
pub fn push_line(output: &mut Vec<u8>, number: usize, refusal: u16, words: &[u16]) {
    const DIGITS: &[u8; 16] = b"0123456789ABCDEF";
    output.extend_from_slice(format!("{} {} {}", number, refusal, words.len()).as_bytes());
    for word in words {
        output.push(b' ');
        for shift in [12, 8, 4, 0] {
            output.push(DIGITS[usize::from(word >> shift & 15)]);
        }
    }
    output.push(b'\n');
}
