// Rules 5.1 to 5.8, 5.19 and 5.20, the sensor's side: the call of a revolution with refusals 1, 7, 8, 27 and 6,
// and the words of a plain or a mixed profile in their order.

use crate::mask::{self, has_bit, Mask};
use crate::plan;
use crate::reflectors;
use crate::state::{Job, Mode, Outcome, State};

/// What a revolution is given beside the state and the buffer.
#[derive(Clone, Copy)]
pub struct Measured<'a> {
    pub start_time: u16,
    pub distances: &'a [u16],
    pub echoes: &'a [u16],
    pub reflectors: &'a [u16],
}

/// A revolution: refusals 1, 7, 8, 27, 6 in this order (rule 6.1). The profile goes to the front of the buffer, the words
/// behind it stay.
pub fn revolution(state: &State, measured: &Measured, buffer: &mut [u16]) -> Outcome {
    if !state.in_ranges() {
        return Outcome::refused(1, state);
    }
    if state.mode != Mode::Measure {
        return Outcome::refused(7, state);
    }
    let shots = plan::shots_per_revolution(state.step);
    if measured.distances.len() != shots || measured.echoes.len() != shots {
        return Outcome::refused(8, state);
    }
    // whatever the job (rule 5.1)
    if !reflectors::list_fits(measured.reflectors) {
        return Outcome::refused(27, state);
    }
    // rules 5.2 and 5.3
    let mut next = *state;
    next.counter = state.counter.wrapping_add(1);
    let profile = match state.job {
        Job::Absent => Vec::new(),
        Job::Counted { left, mask, sent } => {
            let left = left - 1;
            let sent = sent + 1;
            next.job = if left == 0 { Job::Absent } else { Job::Counted { left, mask, sent } };
            profile_words(&next, mask, sent, measured)
        }
        Job::Endless { mask, sent } => {
            let sent = sent.wrapping_add(1);
            next.job = Job::Endless { mask, sent };
            profile_words(&next, mask, sent, measured)
        }
    };
    if buffer.len() < profile.len() {
        return Outcome::refused(6, state);
    }
    buffer[..profile.len()].copy_from_slice(&profile);
    Outcome { refusal: 0, count: profile.len(), state: next }
}

/// Rule 3.7.
pub fn time_of_shot(state: &State, start_time: u16, shot: usize) -> u16 {
    let shots_per_second = usize::from(state.running_speed) * plan::shots_per_revolution(state.step);
    let after_start = (2000 * shot + shots_per_second) / (2 * shots_per_second);
    ((usize::from(start_time) + after_start) % 65536) as u16
}

/// The words of a profile; the state is the one after the rise of the counter.
fn profile_words(state: &State, mask: Mask, sent: u16, measured: &Measured) -> Vec<u16> {
    let sectors = 0x0100 + plan::active_sectors(&state.working_plan).len() as u16;
    match mask {
        // rule 5.4
        Mask::Plain(mask) => {
            let mut words = vec![0x8301, mask, sectors];
            words.extend(contour_words(state, u32::from(mask), sent, 0, measured));
            words
        }
        // rule 5.19
        Mask::Mixed(mask) => {
            let [high, low] = mask::mixed_words(mask);
            let mut words = vec![0x9301, high, low, sectors];
            words.extend(contour_words(state, mask, sent, 1, measured));
            words.extend(reflectors::words_in_profile(mask, measured.reflectors));
            words
        }
    }
}

/// The words of bits 0 to 13 in the order of rules 5.5 to 5.7.
fn contour_words(state: &State, mask: u32, sent: u16, layer: u16, measured: &Measured) -> Vec<u16> {
    let active = plan::active_sectors(&state.working_plan);
    let shots = plan::walk_of_shots(&state.working_plan, state.step);
    let Measured { start_time, distances, echoes, .. } = *measured;
    let mut words = Vec::new();
    let mut give = |bit: u16, word: u16| {
        if has_bit(mask, bit) {
            words.push(word);
        }
    };
    give(0, sent);
    give(1, state.counter);
    give(2, layer);
    for (number, sector) in active.iter().enumerate() {
        // the numbers of this sector's shots, in order
        let own: Vec<usize> = (0..shots.len()).filter(|shot| shots[*shot].sector == number).collect();
        let first = own[0];
        let last = own[own.len() - 1];
        // rule 3.8
        let points: &[usize] = if sector.function == 3 { &own } else { &[] };
        give(3, number as u16);
        give(4, state.step);
        give(5, points.len() as u16);
        give(6, time_of_shot(state, start_time, first));
        give(7, shots[first].direction);
        for &shot in points {
            give(8, distances[shot]);
            give(9, shots[shot].direction);
            give(10, echoes[shot]);
        }
        give(11, time_of_shot(state, start_time, last));
        give(12, shots[last].direction);
    }
    for word in state.senstat() {
        give(13, word);
    }
    words
}
