// Holds the model to what the rules say of mixed profiles: the bench figures 7.15 to 7.18 word by word, masks by rule 2.11 bit
// by bit, jobs and services, lengths, the place of 15 in every part, the order of 27, reading back, and that each of the two
// readers refuses what the other takes.

use crate::case_parts::{self, TurnGiven};
use crate::cuts;
use crate::format::{self, CaseWords};
use crate::fresh_cases;
use crate::layout::{EarlyEnd, Part};
use crate::mask::{self, Mask};
use crate::mixed_reader::{self, MixedReading};
use crate::plan;
use crate::program;
use crate::random::Random;
use crate::random_mixed_profiles;
use crate::random_profiles::{self, profile_of_state};
use crate::random_states;
use crate::reader;
use crate::revolution::{revolution, Measured};
use crate::services;
use crate::state::{Job, Mode, Outcome, State};
use crate::stored_cases;
use crate::stored_mixed_readings::TWO_REFLECTORS;
use crate::stored_readings::TWO_SECTORS;
use crate::stored_samples::*;
use crate::tests::{contour_together, refusal, served};
use crate::trial::{self, Call};
use std::collections::BTreeSet;

/// A fresh sensor in MEASURE at 10 Hz, with a job of one left or without one.
fn fresh_measuring(mask: Option<Mask>) -> State {
    let job = mask.map_or(Job::Absent, |mask| Job::Counted { left: 1, mask, sent: 0 });
    State { mode: Mode::Measure, running_speed: 10, job, ..State::fresh() }
}

/// The lists of rule 7.15: shot k has distance 2000 + k and echo 3000 + k.
fn bench_turn(state: &State, reflectors: &[u16], room: usize) -> (Outcome, Vec<u16>) {
    let distances: Vec<u16> = (2000..2720).collect();
    let echoes: Vec<u16> = (3000..3720).collect();
    let measured = Measured { start_time: 1000, distances: &distances, echoes: &echoes, reflectors };
    let mut buffer = vec![0xBBBB; room];
    let outcome = revolution(state, &measured, &mut buffer);
    (outcome, buffer)
}

fn bench_reflectors() -> Vec<u16> {
    (101..112).chain(201..212).collect()
}

/// Rule 7.15: front and end as they stand there, the points between by their sentence.
#[test]
fn bench_mixed_profile() {
    let state = fresh_measuring(Some(Mask::Mixed(0x007D_3FFF)));
    let (outcome, buffer) = bench_turn(&state, &bench_reflectors(), 2201);
    let after = State { counter: 1, job: Job::Absent, ..state };
    assert_eq!(outcome, Outcome { refusal: 0, count: 2199, state: after });
    let front = [
        0x9301, 0x007D, 0x3FFF, 0x0101, //
        0x0001, 0x0001, 0x0001, //
        0x0000, 0x0008, 0x02D0, 0x03E8, 0x0000, //
        0x07D0, 0x0000, 0x0BB8, //
        0x07D1, 0x0008, 0x0BB9, //
    ];
    let end = [
        0x0A9F, 0x1678, 0x0E87, //
        0x044C, 0x1678, //
        0x0000, 0x0003, //
        0x0002, //
        0x0065, 0x0066, 0x0067, 0x0068, 0x0069, 0x006A, 0x006B, 0x006C, 0x006D, 0x006E, 0x006F, //
        0x00C9, 0x00CA, 0x00CB, 0x00CC, 0x00CD, 0x00CE, 0x00CF, 0x00D0, 0x00D1, 0x00D2, 0x00D3, //
    ];
    assert_eq!(front.len() + 3 * 717 + end.len(), 2199);
    assert_eq!(buffer[..front.len()], front);
    assert_eq!(buffer[2199 - end.len()..2199], end);
    for point in 2..719 {
        let place = 12 + 3 * point;
        let number = point as u16;
        assert_eq!(buffer[place..place + 3], [2000 + number, 8 * number, 3000 + number]);
    }
    assert_eq!(buffer[2199..], [0xBBBB; 2]);
    // one word of room less
    assert_eq!(bench_turn(&state, &bench_reflectors(), 2198), (Outcome::refused(6, &state), vec![0xBBBB; 2198]));
}

/// Rule 7.16.
#[test]
fn bench_count_of_reflectors() {
    let mixed = fresh_measuring(Some(Mask::Mixed(0x0001_0000)));
    let plain = fresh_measuring(Some(Mask::Plain(0x0001)));
    let without_job = fresh_measuring(None);
    let (outcome, buffer) = bench_turn(&mixed, &bench_reflectors(), 5);
    assert_eq!((outcome.refusal, outcome.count), (0, 5));
    assert_eq!(buffer, [0x9301, 0x0001, 0x0000, 0x0101, 0x0002]);
    assert_eq!(bench_turn(&mixed, &[7; 64 * 11], 5).1, [0x9301, 0x0001, 0x0000, 0x0101, 0x0040]);
    for state in [mixed, plain, without_job] {
        for length in [65 * 11, 10] {
            for room in [5, 0] {
                let reflectors = vec![7; length];
                assert_eq!(bench_turn(&state, &reflectors, room), (Outcome::refused(27, &state), vec![0xBBBB; room]));
            }
        }
    }
    assert_eq!(bench_turn(&plain, &[7; 64 * 11], 5).1[..4], [0x8301, 0x0001, 0x0101, 0x0001]);
    assert_eq!(bench_turn(&without_job, &[7; 64 * 11], 5).0.refusal, 0);
}

/// Rule 7.17.
#[test]
fn bench_mixed_requests() {
    for mask in [Mask::Plain(0x0001), Mask::Mixed(0x0001_0000)] {
        for job in [Job::Counted { left: 9, mask, sent: 2 }, Job::Endless { mask, sent: 65535 }] {
            let state = State { job, ..fresh_measuring(None) };
            for (words, answer) in [
                ([0x1301, 0x0001, 0x0002, 0x0001], [0x9301, 0x0002, 0x0001, 0xFF01]),
                ([0x1301, 0x0001, 0x0000, 0x4001], [0x9301, 0x0000, 0x4001, 0xFF01]),
                ([0x1301, 0x0000, 0x0004, 0x0000], [0x9301, 0x0004, 0x0000, 0xFF01]),
            ] {
                assert_eq!(served(&state, &words), (answer.to_vec(), state));
                assert_eq!(refusal(&state, &words, 3), 6);
            }
            let started = Job::Counted { left: 3, mask: Mask::Mixed(0x0001_0000), sent: 0 };
            assert_eq!(served(&state, &[0x1301, 0x0003, 0x0001, 0x0000]), (vec![], State { job: started, ..state }));
            let without = State { job: Job::Absent, ..state };
            let is_plain = mask == Mask::Plain(0x0001);
            let after_cancel = if is_plain { without } else { state };
            assert_eq!(served(&state, &[0x0302]), (vec![0x8302, 0x0000, 0x0003], after_cancel));
            let after_mixed_cancel = if is_plain { state } else { without };
            assert_eq!(served(&state, &[0x1302]), (vec![0x9302, 0x0000], after_mixed_cancel));
        }
    }
}

/// The same by the program, from IDLE on: refused there, then a mixed job that a plain one replaces.
#[test]
fn mixed_requests_by_the_program() {
    let input = [
        &[4, 0x13, 0x01, 0, 1, 0, 1, 0, 0][..],
        &[1, 0x13, 0x02],
        &[2, 0x04, 0x03, 0, 0],
        &[1, 0x04, 0x04],
        &[4, 0x13, 0x01, 0, 1, 0, 2, 0, 1],
        &[4, 0x13, 0x01, 0, 1, 0, 1, 0, 0],
        &[1, 0x03, 0x02],
        &[3, 0x03, 0x01, 0, 0, 0, 1],
        &[1, 0x13, 0x02],
        &[3, 0x13, 0x01, 0, 1, 0, 1],
    ];
    let printed = "\
nr no n words
1 5 0
2 5 0
3 0 3 8403 0000 0002
4 0 4 8404 0000 0003 0000
5 0 4 9301 0002 0001 FF01
6 0 0
7 0 3 8302 0000 0003
8 0 0
9 0 2 9302 0000
10 4 0
end
";
    assert_eq!(String::from_utf8_lossy(&program::run(&input.concat())), printed);
}

/// The refusal and reading of words that end early.
fn cut(part: Part, index: usize) -> (u16, MixedReading) {
    (15, MixedReading { early_end: Some(EarlyEnd { part, index }), ..MixedReading::default() })
}

/// Rule 7.18.
#[test]
fn bench_mixed_cuts() {
    let words = [0x9301, 0x0011, 0x2001, 0x0101, 0x0007, 0x0000, 0x0003, 0x0002, 0x0100, 0x0200];
    assert_eq!(words, TWO_REFLECTORS);
    let (refusal, reading) = mixed_reader::read(&words);
    assert_eq!(refusal, 0);
    assert_eq!(reading.mask, [Some(0x0011), Some(0x2001)]);
    assert_eq!((reading.contour.sector_count, reading.contour.sent), (1, Some(7)));
    assert_eq!(reading.contour.senstat, [Some(0), Some(3)]);
    assert_eq!((reading.reflector_count, reading.reflectors_place, reading.words_of_reflector), (Some(2), 8, 1));
    assert_eq!(mixed_reader::reflector(&words, 0), [0x0100]);
    assert_eq!(mixed_reader::reflector(&words, 1), [0x0200]);
    assert_eq!((mixed_reader::reflector_refusal(&words, 2), mixed_reader::reflector(&words, 2).len()), (17, 0));
    assert_eq!(mixed_reader::all_reflectors(&words), [0x0100, 0x0200]);
    for (length, refusal) in [(0, 12), (1, 13), (2, 13), (3, 13)] {
        assert_eq!(mixed_reader::read(&words[..length]), (refusal, MixedReading::default()));
    }
    for (length, part) in [
        (4, Part::Head),
        (5, Part::Senstat),
        (6, Part::Senstat),
        (7, Part::Count),
        (8, Part::Reflector(0)),
        (9, Part::Reflector(1)),
    ] {
        assert_eq!(mixed_reader::read(&words[..length]), cut(part, length));
        for place in [0, 1, 2, 65535] {
            assert_eq!(mixed_reader::stretch_refusal(&words[..length], place), 15);
            assert_eq!(mixed_reader::reflector_refusal(&words[..length], place), 15);
        }
        assert!(mixed_reader::all_reflectors(&words[..length]).is_empty());
    }
    let mut many = words;
    many[7] = 0x0041;
    for length in [10, 9, 8] {
        assert_eq!(mixed_reader::read(&many[..length]), (27, MixedReading::default()));
        assert_eq!(mixed_reader::reflector_refusal(&many[..length], 65535), 27);
    }
    assert_eq!(mixed_reader::read(&many[..7]), cut(Part::Count, 7));
}

/// The bits of rule 2.11, each named.
const BITS_THAT_MAY_BE: [u32; 20] = [0, 1, 2, 3, 4, 5, 6, 7, 8, 9, 10, 11, 12, 13, 16, 18, 19, 20, 21, 22];

/// Rule 2.11 word for word, on a list of bits.
fn is_mixed_mask(mask: u32) -> bool {
    let bits: Vec<u32> = (0..32).filter(|bit| mask & (1 << bit) != 0).collect();
    let reflectors = bits.iter().any(|bit| [18, 19, 20, 21, 22].contains(bit));
    !bits.is_empty() && bits.iter().all(|bit| BITS_THAT_MAY_BE.contains(bit)) && (!reflectors || bits.contains(&16))
}

/// Rule 2.11 where it is asked for: in a state, in a request and in the reader, which agree.
fn hold_mask(mask: u32, expected: bool) {
    let [high, low] = [(mask / 65536) as u16, (mask % 65536) as u16];
    assert_eq!(mask::mixed_in_range(mask), expected, "{mask:08X}");
    for job in [Job::Counted { left: 1, mask: Mask::Mixed(mask), sent: 0 }, Job::Endless { mask: Mask::Mixed(mask), sent: 0 }] {
        let state = State { job, ..small_state(1) };
        assert_eq!(state.in_ranges(), expected, "{mask:08X}");
        let asked = services::request(&state, &[0x0102], &mut [0; 3]).refusal;
        assert_eq!(asked, if expected { 0 } else { 1 });
    }
    let before = measure(COUNTED_SAMPLE);
    let (answer, after) = served(&before, &[0x1301, 5, high, low]);
    if expected {
        assert_eq!(answer, []);
        assert_eq!(after, State { job: Job::Counted { left: 5, mask: Mask::Mixed(mask), sent: 0 }, ..before });
    } else {
        assert_eq!(answer, [0x9301, high, low, 0xFF01]);
        assert_eq!(after, before);
    }
    let read = mixed_reader::read(&[0x9301, high, low, 0x0101]).0;
    assert_eq!(read == 22, !expected, "{mask:08X}");
}

/// Rule 2.11 bit by bit: the expected answers are typed in here.
#[test]
fn bits_of_a_mixed_mask() {
    for bit in 0..32 {
        let alone = matches!(bit, 0..=13 | 16);
        let beside_16_and_0 = matches!(bit, 0..=13 | 16 | 18..=22);
        let beside_0 = matches!(bit, 0..=13 | 16);
        hold_mask(1 << bit, alone);
        hold_mask(1 << bit | 0x0001_0001, beside_16_and_0);
        hold_mask(1 << bit | 0x0000_0001, beside_0);
        // all that may be there, with it and without it
        hold_mask(0x007D_3FFF | 1 << bit, beside_16_and_0);
        hold_mask(0x007D_3FFF & !(1 << bit), bit != 16);
    }
    for (mask, expected) in [
        (0x0000_0000, false),
        (0x0001_0000, true),
        (0x007D_0000, true),
        (0x007C_0000, false),
        (0x007D_3FFF, true),
        (0x0000_3FFF, true),
        (0x0000_C000, false),
        (0x0001_4000, false),
        (0x0001_8000, false),
        (0x0003_0000, false),
        (0x0081_0000, false),
        (0x8001_0000, false),
        (0xFFFF_FFFF, false),
    ] {
        hold_mask(mask, expected);
    }
}

/// Rule 2.11 with every high word and every low word beside words at its edges.
#[test]
fn every_word_of_a_mixed_mask() {
    let mut good = 0;
    for word in 0..=u16::MAX {
        for other in [0, 1, 0x0002, 0x0004, 0x007C, 0x007D, 0x0080, 0x3FFF, 0x4000, 0x8000, 0xFFFF] {
            for mask in [mask::mixed_number(word, other), mask::mixed_number(other, word)] {
                let expected = is_mixed_mask(mask);
                assert_eq!(mask::mixed_in_range(mask), expected, "{mask:08X}");
                good += usize::from(expected);
            }
        }
    }
    assert!(good > 16384);
    let mut random = Random::new(31);
    for _ in 0..2000 {
        let mask = random_states::mixed_mask(&mut random);
        hold_mask(mask, true);
        let bad = random_states::bad_mixed_mask(&mut random);
        hold_mask(bad, false);
        let any = random.number() as u32;
        hold_mask(any, is_mixed_mask(any));
    }
}

/// Rules 4.10, 4.11, 4.23 and 4.24: the newer job stands, and each cancel ends a job of its own kind alone.
#[test]
fn jobs_of_two_kinds() {
    let mut random = Random::new(32);
    for _ in 0..3000 {
        let state = random_states::state_in_ranges(&mut random, Mode::Measure);
        let number = random.pick(&[0, 1, 65535]);
        let job = |mask: Mask| match number {
            0 => Job::Endless { mask, sent: 0 },
            left => Job::Counted { left, mask, sent: 0 },
        };
        let plain = random_states::job_mask(&mut random);
        let (answer, next) = served(&state, &[0x0301, number, plain | 0xC000]);
        assert_eq!((answer, next), (vec![], State { job: job(Mask::Plain(plain)), ..state }));
        let mixed = random_states::mixed_mask(&mut random);
        let [high, low] = mask::mixed_words(mixed);
        let (answer, next) = served(&state, &[0x1301, number, high, low]);
        assert_eq!((answer, next), (vec![], State { job: job(Mask::Mixed(mixed)), ..state }));
        let absent = State { job: Job::Absent, ..state };
        let (is_plain, is_mixed) = match state.job {
            Job::Absent => (false, false),
            Job::Counted { mask, .. } | Job::Endless { mask, .. } => match mask {
                Mask::Plain(_) => (true, false),
                Mask::Mixed(_) => (false, true),
            },
        };
        let ended = |ends: bool| if ends { absent } else { state };
        assert_eq!(served(&state, &[0x0302]), (vec![0x8302, 0, 3], ended(is_plain)));
        assert_eq!(served(&state, &[0x1302]), (vec![0x9302, 0], ended(is_mixed)));
        // every other way out of MEASURE ends both
        for words in [&[0x0401, 0][..], &[0x0401, 2], &[0x0402], &[0x0403, 9]] {
            assert_eq!(served(&state, words).1.job, Job::Absent);
        }
        assert_eq!(served(&state, &[0x0404]).1, state);
        assert_eq!(served(&state, &[0x0401, 3]).1, state);
    }
}

/// Rule 4.3: the two rows of the table, with numbers of words around theirs, in all modes; and 6 for each answer.
#[test]
fn words_and_modes_of_the_two_services() {
    for (code, words_in) in [(0x1301, 4), (0x1302, 1)] {
        for state in [idle(), rotate(), measure(COUNTED_MIXED_SAMPLE)] {
            for count in 1..=7 {
                let words = &[code, 1, 0, 1, 1, 1, 1][..count];
                let expected = match state.mode {
                    _ if count != words_in => 4,
                    Mode::Idle | Mode::Rotate => 5,
                    Mode::Measure => 0,
                };
                assert_eq!(services::request(&state, words, &mut [0; 8]).refusal, expected, "{code:04X} {count}");
            }
        }
    }
    let state = measure(COUNTED_MIXED_SAMPLE);
    assert_eq!(refusal(&state, &[0x1302], 1), 6);
    assert_eq!(refusal(&state, &[0x1301, 1, 0, 0], 3), 6);
    assert_eq!(services::request(&state, &[0x1301, 1, 0, 1], &mut []).refusal, 0);
    assert_eq!(refusal(&State { id: 0, ..state }, &[0x1301, 1, 0, 0], 0), 1);
}

/// What a revolution sends with random lists.
fn sent_words(random: &mut Random, state: &State, count: usize) -> Vec<u16> {
    let shots = plan::shots_per_revolution(state.step);
    let distances: Vec<u16> = (0..shots).map(|_| random.word()).collect();
    let echoes: Vec<u16> = (0..shots).map(|_| random.word()).collect();
    let reflectors: Vec<u16> = (0..11 * count).map(|_| random.word()).collect();
    let start_time = random.word();
    profile_of_state(state, &Measured { start_time, distances: &distances, echoes: &echoes, reflectors: &reflectors })
}

fn bits(mask: u32, wanted: u32) -> usize {
    (mask & wanted).count_ones() as usize
}

/// The words of each reflector by rule 5.20.
fn width(mask: u32) -> usize {
    4 * bits(mask, 0x000C_0000) + bits(mask, 0x0070_0000)
}

/// The length by rule 5.20, and the longest.
#[test]
fn length_of_a_mixed_profile() {
    let mut random = Random::new(33);
    let mut longest = 0;
    for round in 0..3000 {
        let largest = round % 30 == 0;
        let mut state = match largest {
            true => random_states::largest_state(&mut random),
            false => random_states::state_in_ranges(&mut random, Mode::Measure),
        };
        let mask = if largest { 0x007D_3FFF } else { random_states::mixed_mask(&mut random) };
        state.job = Job::Endless { mask: Mask::Mixed(mask), sent: 0 };
        let count = if largest { 64 } else { random.below(65) };
        let active = plan::active_sectors(&state.working_plan);
        let shots = plan::walk_of_shots(&state.working_plan, state.step);
        let points = shots.iter().filter(|shot| active[shot.sector].function == 3).count();
        let plain_length = 3 + bits(mask, 0x0007) + active.len() * bits(mask, 0x18F8) + points * bits(mask, 0x0700)
            + 2 * bits(mask, 0x2000);
        let length = plain_length + 1 + bits(mask, 0x0001_0000) + count * width(mask);
        assert_eq!(sent_words(&mut random, &state, count).len(), length);
        longest = longest.max(length);
    }
    assert_eq!(longest, 7250);
}

/// Rules 5.19 and 5.5: a mixed profile of these bits has the words of the plain one, but for the head and the layer of 1.
#[test]
fn the_contour_is_the_plain_one() {
    let mut random = Random::new(34);
    for _ in 0..1000 {
        let state = random_states::state_in_ranges(&mut random, Mode::Measure);
        let plain_mask = random_states::job_mask(&mut random);
        let with_mask = |mask: Mask| State { job: Job::Endless { mask, sent: 77 }, ..state };
        let seed = random.number();
        let plain = sent_words(&mut Random::new(seed), &with_mask(Mask::Plain(plain_mask)), 2);
        let high = random.pick(&[0, 1, 0x0021]);
        let mixed = sent_words(&mut Random::new(seed), &with_mask(Mask::mixed(high, plain_mask)), 2);
        assert_eq!(mixed[..4], [0x9301, high, plain_mask, plain[2]]);
        let mut expected = plain[3..].to_vec();
        if plain_mask & 4 != 0 {
            let layer = bits(u32::from(plain_mask), 3);
            assert_eq!(expected[layer], 0);
            expected[layer] = 1;
        }
        assert_eq!(mixed[4..4 + expected.len()], expected);
        let behind = match high {
            0 => 0,
            1 => 1,
            _ => 3,
        };
        assert_eq!(mixed.len(), 4 + expected.len() + behind);
        if high != 0 {
            assert_eq!(mixed[4 + expected.len()], 2);
        }
    }
}

/// Rule 5.19: each field of each reflector in its place, by the eleven words' own numbers.
#[test]
fn reflectors_in_their_order() {
    // word w of reflector r is 100 × (r + 1) + w
    let reflectors: Vec<u16> = (0..3).flat_map(|r| (0..11).map(move |w| 100 * (r + 1) + w)).collect();
    for (high, expected) in [
        (0x0005, &[100, 101, 102, 103, 200, 201, 202, 203, 300, 301, 302, 303][..]),
        (0x0009, &[104, 105, 106, 107, 204, 205, 206, 207, 304, 305, 306, 307]),
        (0x0011, &[108, 208, 308]),
        (0x0021, &[109, 209, 309]),
        (0x0041, &[110, 210, 310]),
        (0x0071, &[108, 109, 110, 208, 209, 210, 308, 309, 310]),
        (0x0045, &[100, 101, 102, 103, 110, 200, 201, 202, 203, 210, 300, 301, 302, 303, 310]),
        (0x0019, &[104, 105, 106, 107, 108, 204, 205, 206, 207, 208, 304, 305, 306, 307, 308]),
        (0x000D, &[100, 101, 102, 103, 104, 105, 106, 107, 200, 201, 202, 203, 204, 205, 206, 207, 300, 301, 302, 303,
            304, 305, 306, 307]),
        (0x007D, &reflectors[..]),
        (0x0001, &[]),
    ] {
        let state = State { job: Job::Endless { mask: Mask::mixed(high, 0), sent: 0 }, ..small_state(1) };
        let list = vec![0; 90];
        let given = Measured { start_time: 0, distances: &list, echoes: &list, reflectors: &reflectors };
        let words = profile_of_state(&state, &given);
        assert_eq!(words[..5], [0x9301, high, 0, 0x0103, 3]);
        assert_eq!(words[5..], *expected);
        assert_eq!(mixed_reader::all_reflectors(&words), expected);
        for place in 0..3 {
            let own = &expected[place * expected.len() / 3..(place + 1) * expected.len() / 3];
            assert_eq!(mixed_reader::reflector(&words, place as u16), own);
        }
        assert_eq!(mixed_reader::reflector_refusal(&words, 3), 17);
    }
}

/// The words put together again (rules 5.15 and 5.23).
fn put_together(words: &[u16], reading: &MixedReading) -> Vec<u16> {
    let mut again = vec![0x9301];
    again.extend(reading.mask.into_iter().flatten());
    again.push(0x0100 + reading.contour.sector_count as u16);
    again.extend(contour_together(&reading.contour, |place| {
        assert_eq!(mixed_reader::stretch_refusal(words, place), 0);
        mixed_reader::stretch(words, place).to_vec()
    }));
    again.extend(reading.reflector_count);
    assert_eq!(reading.reflectors_place, again.len());
    for place in 0..reading.reflector_count.unwrap_or(0) {
        assert_eq!(mixed_reader::reflector_refusal(words, place), 0);
        let reflector = mixed_reader::reflector(words, place);
        assert_eq!(reflector.len(), reading.words_of_reflector);
        again.extend(reflector);
    }
    assert_eq!(mixed_reader::all_reflectors(words), &again[reading.reflectors_place..]);
    again
}

/// What a revolution sends is read, and put together again; a word fewer and a word more are refused.
#[test]
fn a_reading_gives_the_mixed_profile_back() {
    let mut random = Random::new(35);
    let mut read = 0;
    for _ in 0..3000 {
        let mut state = random_states::state_in_ranges(&mut random, Mode::Measure);
        let mask = random_states::mixed_mask(&mut random);
        state.job = Job::Endless { mask: Mask::Mixed(mask), sent: random.word() };
        let count = random_mixed_profiles::reflector_count(&mut random);
        let words = sent_words(&mut random, &state, count);
        let (refusal, reading) = mixed_reader::read(&words);
        let points_without_number = mask & 0x0700 != 0 && mask & 0x0020 == 0;
        assert_eq!(refusal, if points_without_number { 14 } else { 0 });
        assert_eq!(reader::read(&words).0, 12);
        assert_eq!(reader::stretch_refusal(&words, 0), 12);
        if refusal != 0 {
            assert_eq!(reading, MixedReading::default());
            continue;
        }
        read += 1;
        assert_eq!(put_together(&words, &reading), words);
        assert_eq!(reading.reflector_count, if mask & 0x0001_0000 != 0 { Some(count as u16) } else { None });
        assert_eq!(reading.words_of_reflector, width(mask));
        assert_eq!(mixed_reader::read(&words[..words.len() - 1]).0, if words.len() == 4 { 13 } else { 15 });
        assert_eq!(mixed_reader::stretch_refusal(&words, reading.contour.sector_count as u16), 17);
        let past = reading.reflector_count.unwrap_or(0);
        for place in [past, past + 1, 65535] {
            assert_eq!(mixed_reader::reflector_refusal(&words, place), 17);
        }
        let longer = [&words[..], &[0]].concat();
        assert_eq!(mixed_reader::read(&longer), (16, MixedReading::default()));
    }
    assert!(read > 1500, "{read}");
}

/// Rule 5.22: each of the two readers refuses what the other takes.
#[test]
fn each_reader_refuses_the_other_profiles() {
    let mut random = Random::new(36);
    let mut taken = [0; 2];
    let mut hold = |words: &[u16]| {
        let plain = reader::read(words).0;
        let mixed = mixed_reader::read(words).0;
        if plain == 0 {
            taken[0] += 1;
            assert_eq!(mixed, 12);
            assert_eq!(mixed_reader::stretch_refusal(words, 0), 12);
            assert_eq!(mixed_reader::reflector_refusal(words, 0), 12);
            assert!(mixed_reader::all_reflectors(words).is_empty());
        }
        if mixed == 0 {
            taken[1] += 1;
            assert_eq!((plain, reader::stretch_refusal(words, 0)), (12, 12));
        }
    };
    hold(&TWO_SECTORS);
    hold(&TWO_REFLECTORS);
    for _ in 0..4000 {
        hold(&random_profiles::words_for_reader(&mut random));
        hold(&random_mixed_profiles::words_for_reader(&mut random));
    }
    assert!(taken.iter().all(|count| *count > 1000), "{taken:?}");
}

/// How many words each part of a mixed profile has, in order: the head, the sectors, SENSTAT, the count, the reflectors.
fn part_lengths(mask: u32, points: &[usize], reflectors: usize) -> Vec<(Part, usize)> {
    let mut lengths = vec![(Part::Head, 4 + bits(mask, 0x0007))];
    for (place, points) in points.iter().enumerate() {
        lengths.push((Part::Sector(place), bits(mask, 0x18F8) + points * bits(mask, 0x0700)));
    }
    lengths.push((Part::Senstat, 2 * bits(mask, 0x2000)));
    lengths.push((Part::Count, bits(mask, 0x0001_0000)));
    for place in 0..reflectors {
        lengths.push((Part::Reflector(place), width(mask)));
    }
    lengths
}

/// The part of the word with this index; none behind the last.
fn part_at(lengths: &[(Part, usize)], index: usize) -> Option<Part> {
    let mut end = 0;
    for (part, length) in lengths {
        end += length;
        if index < end {
            return Some(*part);
        }
    }
    None
}

/// Rule 5.25 from the writer's side: plan, mask and number of reflectors alone say in which part a word lies.
#[test]
fn mixed_cuts_end_where_the_writer_was() {
    let mut random = Random::new(37);
    let mut ended = [0; 5];
    let masks: Vec<u32> = (0..400).map(|_| random_states::mixed_mask(&mut random)).collect();
    let all_fields: Vec<u32> = (0..32).map(|choice| choice << 18 | 0x0001_0000).collect();
    for mask in masks.into_iter().chain(all_fields).chain([0x007D_3FFF, 0x0011_2001]) {
        let job = Job::Endless { mask: Mask::Mixed(mask), sent: 0 };
        // points of the sectors, by the stops
        for (sectors, points) in [
            (&[(1, 640), (3, 768), (4, 5696)][..], &[0, 2, 0][..]),
            (&[(3, 0), (1, 5632), (3, 5696)], &[1, 0, 1]),
            (&[(1, 64)], &[0]),
        ] {
            let state = State { working_plan: plan_of(sectors), job, ..small_state(1) };
            let count = random.below(4);
            let words = sent_words(&mut random, &state, count);
            let lengths = part_lengths(mask, points, count);
            assert_eq!(words.len(), lengths.iter().map(|(_, length)| length).sum());
            for length in 0..words.len() {
                let read = mixed_reader::read(&words[..length]);
                let points_without_number = mask & 0x0700 != 0 && mask & 0x0020 == 0;
                if length < 4 || points_without_number {
                    let number = match length {
                        0 => 12,
                        1..=3 => 13,
                        _ => 14,
                    };
                    assert_eq!(read, (number, MixedReading::default()));
                    continue;
                }
                let part = part_at(&lengths, length).unwrap();
                assert_eq!(read, cut(part, length), "{mask:08X}");
                ended[usize::from(part.number()) - 1] += 1;
            }
        }
    }
    assert!(ended.iter().all(|count| *count > 300), "{ended:?}");
}

/// Each part of rule 5.25 once, typed in: a head of five words, two sectors, SENSTAT, the count, two reflectors of two.
#[test]
fn each_part_of_a_mixed_profile() {
    let words = [
        0x9301, 0x0031, 0x2121, 0x0102, 0x0009, // the head
        0x0001, 0xD000, // sector 0 with a point
        0x0000, // sector 1 without
        0x0000, 0x0003, // SENSTAT
        0x0002, // the count
        0xA000, 0xA001, // reflector 0
        0xB000, 0xB001, // reflector 1
    ];
    assert_eq!(mixed_reader::read(&words).0, 0);
    let parts = [
        Part::Head,
        Part::Sector(0),
        Part::Sector(0),
        Part::Sector(1),
        Part::Senstat,
        Part::Senstat,
        Part::Count,
        Part::Reflector(0),
        Part::Reflector(0),
        Part::Reflector(1),
        Part::Reflector(1),
    ];
    for (place, part) in parts.into_iter().enumerate() {
        assert_eq!(mixed_reader::read(&words[..4 + place]), cut(part, 4 + place));
    }
    assert_eq!(parts.map(Part::number), [1, 2, 2, 2, 3, 3, 4, 5, 5, 5, 5]);
    // its line: the number of the part, the place of sector or reflector, the index
    let line = |length: usize| format::mixed_reading_words(&mixed_reader::read(&words[..length]).1)[83..].to_vec();
    assert_eq!(line(4), [1, 0, 4]);
    assert_eq!(line(7), [2, 1, 7]);
    assert_eq!(line(10), [4, 0, 10]);
    assert_eq!(line(14), [5, 1, 14]);
    // 2 masks, 3 fields, the number of sectors, 8 × 9 words of sectors, SENSTAT, the count, place, width, no place of 15
    assert_eq!(format::mixed_reading_words(&MixedReading::default()), [0; 84]);
    let read = format::mixed_reading_words(&mixed_reader::read(&words).1);
    assert_eq!(read[..9], [1, 0x0031, 1, 0x2121, 1, 9, 0, 0, 2]);
    assert_eq!(read[9..19], [0, 0, 1, 1, 0, 0, 6, 1, 0, 0]);
    assert_eq!(read[19..29], [0, 0, 1, 0, 0, 0, 8, 0, 0, 0]);
    assert_eq!(read[29..83], [0; 54]);
    assert_eq!(read[83..], [1, 0, 1, 3, 1, 2, 11, 2, 0]);
}

/// Rule 6.1 for a revolution, 1, 7, 8, 27, 6: every choice of faults gives the first of them.
#[test]
fn refusals_of_a_revolution_with_27() {
    let jobs = [Job::Absent, small_state(3).job, small_mixed_state(0x0001_0003).job];
    for job in jobs {
        for choice in 0..32 {
            let [bad_state, no_measure, bad_list, bad_reflectors, no_room] = [1, 2, 4, 8, 16].map(|bit| choice & bit != 0);
            if no_measure && job != Job::Absent || no_room && job == Job::Absent {
                continue;
            }
            let mut state = State { job, ..small_state(1) };
            if bad_state {
                state.id = 0;
            }
            if no_measure {
                state.mode = Mode::Rotate;
            }
            let list = vec![0; if bad_list { 91 } else { 90 }];
            for length in if bad_reflectors { [10, 715] } else { [0, 704] } {
                let reflectors = vec![1; length];
                let given = Measured { start_time: 0, distances: &list, echoes: &list, reflectors: &reflectors };
                let mut room = vec![0xBBBB; if no_room { 0 } else { 8 }];
                let outcome = revolution(&state, &given, &mut room);
                let expected = match choice {
                    _ if bad_state => 1,
                    _ if no_measure => 7,
                    _ if bad_list => 8,
                    _ if bad_reflectors => 27,
                    _ if no_room => 6,
                    _ => 0,
                };
                assert_eq!(outcome.refusal, expected);
                if expected != 0 {
                    assert_eq!(outcome, Outcome::refused(expected, &state));
                    assert!(room.iter().all(|word| *word == 0xBBBB));
                }
            }
        }
    }
    // every length of the list up to some past the edge
    let state = small_mixed_state(0x0001_0000);
    let list = vec![0; 90];
    for length in 0..800 {
        let reflectors = vec![1; length];
        let given = Measured { start_time: 0, distances: &list, echoes: &list, reflectors: &reflectors };
        let outcome = revolution(&state, &given, &mut [0; 5]);
        let fits = [0, 1, 2, 3, 4, 5, 6, 7, 8, 9].iter().all(|ten| (0..=10).all(|more| length != 11 * (65 + ten) + more))
            && length % 11 == 0;
        assert_eq!(outcome.refusal, if fits { 0 } else { 27 }, "{length}");
    }
}

/// Rule 6.1.
const ORDER: [u16; 10] = [12, 13, 22, 23, 24, 14, 27, 15, 16, 17];

/// The lines of section 6 that hold of these words, each by itself, but for 17. Bits without a word have none here, bits 18 to 22
/// have theirs only with bit 16, a sector without bit 5 has no points, and S may be any number.
fn due(words: &[u16]) -> BTreeSet<u16> {
    let mut due = BTreeSet::new();
    let mut add = |number: u16, holds: bool| {
        if holds {
            due.insert(number);
        }
    };
    add(12, words.first() != Some(&0x9301));
    add(13, words.len() < 4);
    if words.len() < 4 {
        add(15, true);
        if words.len() == 3 {
            let mask = 65536 * u32::from(words[1]) + u32::from(words[2]);
            add(22, !is_mixed_mask(mask));
            add(14, mask & 0x0700 != 0 && mask & 0x0020 == 0);
        }
        return due;
    }
    let mask = 65536 * u32::from(words[1]) + u32::from(words[2]);
    let [layers, sectors] = words[3].to_be_bytes();
    add(22, !is_mixed_mask(mask));
    add(23, layers != 1);
    add(24, sectors == 0 || sectors > 8);
    add(14, mask & 0x0700 != 0 && mask & 0x0020 == 0);
    // where each sector ends, by its word of bit 5
    let mut place = 4 + bits(mask, 0x0007);
    for _ in 0..sectors {
        let number_at = place + bits(mask, 0x0018);
        place += bits(mask, 0x18F8);
        if mask & 0x0020 != 0 {
            let Some(points) = words.get(number_at) else {
                add(15, true);
                return due;
            };
            place += usize::from(*points) * bits(mask, 0x0700);
        }
    }
    place += 2 * bits(mask, 0x2000);
    if mask & 0x0001_0000 != 0 {
        let Some(count) = words.get(place) else {
            add(15, true);
            return due;
        };
        add(27, *count > 64);
        place += 1 + usize::from(*count) * width(mask);
    }
    add(15, words.len() < place);
    add(16, words.len() > place);
    due
}

fn first_due(due: &BTreeSet<u16>) -> u16 {
    ORDER.into_iter().find(|number| due.contains(number)).unwrap_or(0)
}

/// The number of reflectors that 17 goes by: only asked where the reading is not refused.
fn places_there(words: &[u16]) -> (u16, u16) {
    let reading = mixed_reader::read(words).1;
    (reading.contour.sector_count as u16, reading.reflector_count.unwrap_or(0))
}

/// Rule 6.1 for the four calls over stored and fresh cases; and the stored cases have every choice of faults that can meet.
#[test]
fn the_first_that_is_due_is_given_with_27() {
    let mut random = Random::new(38);
    let fresh: Vec<Vec<u16>> = (0..40_000).map(|_| fresh_cases::case(&mut random)).collect();
    let stored = format::cases_of_input(&stored_cases::input());
    let mut choices = [BTreeSet::new(), BTreeSet::new(), BTreeSet::new(), BTreeSet::new()];
    let mut with_wrong_place = [BTreeSet::new(), BTreeSet::new()];
    for (number, case) in stored.iter().chain(&fresh).enumerate() {
        let (call, words, refusal, place) = match trial::call_of_case(case) {
            Call::ReadMixed { words } => (0, words.clone(), mixed_reader::read(&words).0, None),
            Call::StretchMixed { place, words } => {
                (1, words.clone(), mixed_reader::stretch_refusal(&words, place), Some(place))
            }
            Call::Reflector { place, words } => {
                (2, words.clone(), mixed_reader::reflector_refusal(&words, place), Some(place))
            }
            Call::AllReflectors { words } => (3, words.clone(), trial::answer(&trial::call_of_case(case)).0, None),
            _ => continue,
        };
        let due = due(&words);
        let mut expected = first_due(&due);
        let (sectors, reflectors) = places_there(&words);
        if let (0, Some(place)) = (expected, place) {
            let there = if call == 1 { sectors } else { reflectors };
            expected = if place >= there { 17 } else { 0 };
        }
        assert_eq!(refusal, expected, "{call} {place:?} {words:04X?}");
        if number < stored.len() {
            if place.is_some_and(|place| place >= 66) {
                with_wrong_place[call - 1].insert(due.clone());
            }
            choices[call].insert(due);
        }
    }
    // any of the first six, with 15, with 16 or with neither; beside 13, where 15 holds too, 12, 22 and 14
    for choice in 0..256u16 {
        let faults = [12, 22, 23, 24, 14, 27, 15, 16];
        let chosen: BTreeSet<u16> = (0..8).filter(|bit| choice >> bit & 1 == 1).map(|bit| faults[bit]).collect();
        if chosen.contains(&15) && chosen.contains(&16) {
            continue;
        }
        for of_call in &choices[1..] {
            assert!(of_call.contains(&chosen), "{chosen:?}");
        }
        for of_call in &with_wrong_place {
            assert!(of_call.contains(&chosen), "{chosen:?}");
        }
        // the line of a reading is long: one fault alone, and each two
        if chosen.len() <= 2 {
            assert!(choices[0].contains(&chosen), "{chosen:?}");
        }
    }
    for with_13 in [&[13, 15][..], &[13, 15, 12], &[13, 15, 22, 14], &[13, 15, 12, 22, 14]] {
        let with_13: BTreeSet<u16> = with_13.iter().copied().collect();
        assert!(choices[1..].iter().all(|of_call| of_call.contains(&with_13)), "{with_13:?}");
    }
}

/// Fresh cases come to every number of the four calls and to cut words in every part; and revolutions to 27 with each kind of job.
#[test]
fn fresh_mixed_cases_have_every_refusal_and_part() {
    let mut random = Random::new(39);
    let mut numbers = [0; 28];
    let mut parts = [0; 6];
    let mut refused_by_27 = [0; 3];
    let mut sent = [0; 3];
    for _ in 0..40_000 {
        let call = trial::call_of_case(&fresh_cases::case(&mut random));
        match &call {
            Call::ReadMixed { words } => {
                let (refusal, reading) = mixed_reader::read(words);
                numbers[usize::from(refusal)] += 1;
                parts[reading.early_end.map_or(0, |early_end| usize::from(early_end.part.number()))] += 1;
            }
            Call::Revolution { state, turn } => {
                let kind = match state.job.mask() {
                    None => 0,
                    Some(Mask::Plain(_)) => 1,
                    Some(Mask::Mixed(_)) => 2,
                };
                match trial::turn_outcome(state, turn).0.refusal {
                    0 => sent[kind] += 1,
                    27 => refused_by_27[kind] += 1,
                    _ => {}
                }
            }
            _ => {}
        }
    }
    for number in [0, 12, 13, 22, 23, 24, 14, 27, 15, 16] {
        assert!(numbers[number] >= 40, "{number}: {numbers:?}");
    }
    assert!(parts.iter().all(|count| *count >= 70), "{parts:?}");
    assert!(refused_by_27.iter().all(|count| *count >= 40), "{refused_by_27:?}");
    assert!(sent.iter().all(|count| *count >= 200), "{sent:?}");
}

/// Rule 5.1: a plain job and no job go by no reflector, as long as there are not too many of them.
#[test]
fn plain_profiles_have_no_reflectors() {
    let mut random = Random::new(40);
    for _ in 0..500 {
        let mut state = random_states::state_in_ranges(&mut random, Mode::Measure);
        if let Some(Mask::Mixed(_)) = state.job.mask() {
            state.job = Job::Absent;
        }
        let seed = random.number();
        let without = sent_words(&mut Random::new(seed), &state, 0);
        let mut lists = Random::new(seed);
        let shots = plan::shots_per_revolution(state.step);
        let distances: Vec<u16> = (0..shots).map(|_| lists.word()).collect();
        let echoes: Vec<u16> = (0..shots).map(|_| lists.word()).collect();
        let start_time = lists.word();
        let reflectors = vec![random.word(); 11 * random.below(65)];
        let given = Measured { start_time, distances: &distances, echoes: &echoes, reflectors: &reflectors };
        assert_eq!(profile_of_state(&state, &given), without);
    }
}

/// The two last words of a state.
#[test]
fn words_of_a_mixed_job() {
    let state = small_mixed_state(0x0045_2001);
    let words = format::state_words(&state);
    assert_eq!(words.len(), 50);
    assert_eq!(words[39..43], [1, 3, 0x2001, 7]);
    assert_eq!(words[48..], [1, 0x0045]);
    for kind in [1, 2, 256, 65535] {
        let mut other = words.clone();
        other[48] = kind;
        assert_eq!(CaseWords::new(&other).state(), state);
    }
    // a plain mask has no high word, and a job that is absent has neither
    let mut plain = words.clone();
    plain[48] = 0;
    let read = CaseWords::new(&plain).state();
    assert_eq!(read.job, Job::Counted { left: 3, mask: Mask::Plain(0x2001), sent: 7 });
    assert_eq!(format::state_words(&read)[48..], [0, 0]);
    let mut absent = words.clone();
    absent[39] = 0;
    let read = CaseWords::new(&absent).state();
    assert_eq!(read.job, Job::Absent);
    assert_eq!(format::state_words(&read)[39..43], [0; 4]);
    assert_eq!(format::state_words(&read)[48..], [0, 0]);
    let endless = State { job: Job::Endless { mask: Mask::Mixed(0x0001_0000), sent: 65535 }, ..state };
    assert_eq!(format::state_words(&endless)[39..43], [2, 0, 0, 65535]);
    assert_eq!(format::state_words(&endless)[48..], [1, 1]);
}

/// Kinds 8 to 12 as TRIALS has them.
#[test]
fn cases_of_the_new_kinds() {
    let answer = |case: &[u16]| trial::answer(&trial::call_of_case(case));
    assert_eq!(answer(&case_parts::read_mixed_case(&[])), (12, vec![0; 84]));
    assert_eq!(answer(&case_parts::stretch_mixed_case(0, &TWO_REFLECTORS)), (0, vec![]));
    assert_eq!(answer(&case_parts::reflector_case(1, &TWO_REFLECTORS)), (0, vec![0x0200]));
    assert_eq!(answer(&case_parts::reflector_case(2, &TWO_REFLECTORS)), (17, vec![]));
    assert_eq!(answer(&case_parts::all_reflectors_case(&TWO_REFLECTORS)), (0, vec![0x0100, 0x0200]));
    assert_eq!(answer(&case_parts::all_reflectors_case(&TWO_REFLECTORS[..9])), (15, vec![]));
    let turn = TurnGiven {
        start_time: 5,
        distances: distances(90),
        echoes: echoes(90),
        reflectors: reflectors(22),
        buffer: buffer(9),
    };
    let plan = plan_of(&[(1, 640), (3, 768), (4, 5696)]);
    let sent = answer(&case_parts::mixed_profile_case(&plan, 64, 10, 0x0011_0007, &turn));
    let times = [0x7001 + 8 * 0x11, 0x7001 + 19 * 0x11];
    assert_eq!((sent.0, sent.1[..3].to_vec()), (0, vec![0, 0xB000, 0xB001]));
    // the state is a fresh one's, so the first profile and the first revolution; the layer is 1
    let wider = TurnGiven { buffer: buffer(12), ..turn };
    let sent = answer(&case_parts::mixed_profile_case(&plan, 64, 10, 0x0011_0007, &wider));
    assert_eq!(sent.1, [10, 0x9301, 0x0011, 0x0007, 0x0103, 1, 1, 1, 2, times[0], times[1], 0xB00A, 0xB00B]);
    // refused by 27, and by a mask that is none: the count is 0, and so is the refusal
    let many = TurnGiven { reflectors: reflectors(715), ..wider };
    assert_eq!(answer(&case_parts::mixed_profile_case(&plan, 64, 10, 0x0011_0007, &many)).1[0], 0);
    assert_eq!(answer(&case_parts::mixed_profile_case(&plan, 64, 10, 0x0010_0007, &wider)).1[0], 0);
    // kind 7 has no list of reflectors: the three words behind the echoes are the buffer
    let plain = case_parts::plain_profile_case(&plan, 64, 10, 0x0001, &many);
    assert_eq!(plain.len(), 1 + 16 + 3 + 1 + 9);
    assert_eq!(answer(&plain).1[..5], [4, 0x8301, 0x0001, 0x0103, 1]);
}

/// The command `cuts` with mixed profiles: kind 8, from whatever call they come, behind the plain ones.
#[test]
fn cuts_of_mixed_cases() {
    let turn = TurnGiven {
        start_time: 0,
        distances: distances(90),
        echoes: echoes(90),
        reflectors: reflectors(11),
        buffer: buffer(20),
    };
    let turned = case_parts::revolution_case(&format::state_words(&small_mixed_state(0x0041_0000)), &turn);
    let plan = small_state(1).working_plan;
    let mut input = Vec::new();
    for case in [
        turned.clone(),
        case_parts::reflector_case(9, &TWO_REFLECTORS),
        case_parts::read_mixed_case(&TWO_REFLECTORS),
        case_parts::read_mixed_case(&TWO_REFLECTORS[..9]),
        // each reader's own alone
        case_parts::read_case(&TWO_REFLECTORS),
        case_parts::read_mixed_case(&TWO_SECTORS),
        case_parts::mixed_profile_case(&plan, 64, 10, 0x0001_0000, &turn),
        case_parts::mixed_profile_case(&plan, 64, 10, 0x0002_0000, &turn),
        turned,
    ] {
        format::push_case(&mut input, &case);
    }
    let from_turn = [0x9301, 0x0041, 0x0000, 0x0103, 0x0001, 0x7001 + 10 * 0x11];
    let mut expected: Vec<Vec<u16>> = (0..12).map(|length| case_parts::read_case(&TWO_SECTORS[..length])).collect();
    for words in [&from_turn[..], &TWO_REFLECTORS, &[0x9301, 0x0001, 0x0000, 0x0103, 0x0001]] {
        expected.extend((0..words.len()).map(|length| case_parts::read_mixed_case(&words[..length])));
    }
    let mut written = Vec::new();
    cuts::write_cuts(&input, &mut |bytes| written.extend_from_slice(bytes));
    assert_eq!(format::cases_of_input(&written), expected);
    assert_eq!(cuts::count(&input), "4 profiles, 33 cuts; of these mixed 3, 21 cuts\n");
}

/// Rules 5.14 and 5.25 for each mixed profile of the stored cases: no cut but one of four words or more has a place.
#[test]
fn cuts_of_the_stored_mixed_profiles() {
    let profiles = cuts::mixed_profiles(&stored_cases::input());
    assert!(profiles.len() > 100, "{}", profiles.len());
    assert_eq!(profiles.iter().map(Vec::len).max(), Some(7250));
    for words in &profiles {
        assert_eq!(mixed_reader::read(words).0, 0);
        // the longest at some lengths only: every reading goes through its words again
        let step = if words.len() > 3000 { 7 } else { 1 };
        for length in (0..words.len()).step_by(step) {
            let (refusal, reading) = mixed_reader::read(&words[..length]);
            match reading.early_end {
                None => assert_eq!((refusal, length < 4), (if length == 0 { 12 } else { 13 }, true)),
                Some(EarlyEnd { part, .. }) => assert_eq!((refusal, reading), cut(part, length)),
            }
        }
        for word in [0, 0x9301, 65535] {
            let longer = [&words[..], &[word]].concat();
            assert_eq!(mixed_reader::read(&longer), (16, MixedReading::default()));
        }
    }
}
