// Holds the model to what the rules say of the NAV300's settings: 2.10, 4.3, 4.12, 4.19 to 4.22 and 5.17, over every
// word that a request and a state can have there and over fresh cases; and to the dialogue of 7.14.

use crate::format::{self, CaseWords};
use crate::fresh_cases;
use crate::program;
use crate::random::Random;
use crate::random_states;
use crate::revolution::{revolution, Measured};
use crate::services;
use crate::state::{Job, Mode, Outcome, Settings, State};
use crate::stored_samples::{idle, measure, rotate, settings_of, small_state, states_of_all_modes, COUNTED_SAMPLE};
use crate::tests::{refusal, served};
use crate::trial::{self, Call};
use std::collections::BTreeMap;

/// Rule 7.14: requests, answers, and the settings after each.
#[test]
fn bench_settings() {
    let fresh = State::fresh();
    let steps: [(&[u16], &[u16], Settings); 12] = [
        (&[0x1211], &[0x9211, 0x0001], settings_of(1, (50, 0), (50, 0))),
        (&[0x1212], &[0x9212, 0x0032, 0x0000], settings_of(1, (50, 0), (50, 0))),
        (&[0x1202, 0x0050, 0x0028], &[0x9202, 0x0050, 0x0028], settings_of(1, (80, 40), (50, 0))),
        (&[0x1701], &[0x9701, 0x0000], settings_of(1, (80, 40), (80, 40))),
        (&[0x1202, 0x001E, 0x0080], &[0x9202, 0x001E, 0xFF01], settings_of(1, (80, 40), (80, 40))),
        (&[0x1212], &[0x9212, 0x0050, 0x0028], settings_of(1, (80, 40), (80, 40))),
        (&[0x1202, 0x001E, 0x007F], &[0x9202, 0x001E, 0x007F], settings_of(1, (30, 127), (80, 40))),
        (&[0x1212], &[0x9212, 0x001E, 0x007F], settings_of(1, (30, 127), (80, 40))),
        (&[0x1201, 0x0000], &[0x9201, 0x0000], settings_of(0, (30, 127), (80, 40))),
        (&[0x0401, 0x0000], &[0x8401, 0x0000], settings_of(0, (80, 40), (80, 40))),
        (&[0x1212], &[0x9212, 0x0050, 0x0028], settings_of(0, (80, 40), (80, 40))),
        (&[0x1211], &[0x9211, 0x0000], settings_of(0, (80, 40), (80, 40))),
    ];
    let mut state = fresh;
    for (words, answer, settings) in steps {
        assert_eq!(served(&state, words), (answer.to_vec(), State { settings, ..fresh }));
        state.settings = settings;
    }
}

/// Rule 7.14 as the program has it (rules 7.10 and 7.11).
#[test]
fn bench_settings_by_the_program() {
    let input = [
        &[1, 0x12, 0x11][..],
        &[1, 0x12, 0x12],
        &[3, 0x12, 0x02, 0x00, 0x50, 0x00, 0x28],
        &[1, 0x17, 0x01],
        &[3, 0x12, 0x02, 0x00, 0x1E, 0x00, 0x80],
        &[1, 0x12, 0x12],
        &[3, 0x12, 0x02, 0x00, 0x1E, 0x00, 0x7F],
        &[1, 0x12, 0x12],
        &[2, 0x12, 0x01, 0x00, 0x00],
        &[2, 0x04, 0x01, 0x00, 0x00],
        &[1, 0x12, 0x12],
        &[1, 0x12, 0x11],
    ];
    let printed = "\
nr no n words
1 0 2 9211 0001
2 0 3 9212 0032 0000
3 0 3 9202 0050 0028
4 0 2 9701 0000
5 0 3 9202 001E FF01
6 0 3 9212 0050 0028
7 0 3 9202 001E 007F
8 0 3 9212 001E 007F
9 0 2 9201 0000
10 0 2 8401 0000
11 0 3 9212 0050 0028
12 0 2 9211 0000
end
";
    assert_eq!(String::from_utf8_lossy(&program::run(&input.concat())), printed);
}

/// Rule 4.3: the five rows of the table, with numbers of words around theirs, in all modes; and 4 before 5.
#[test]
fn words_and_modes_of_the_services() {
    for (code, words_in, in_measure) in
        [(0x1201, 2, false), (0x1202, 3, false), (0x1211, 1, true), (0x1212, 1, true), (0x1701, 1, false)]
    {
        for state in states_of_all_modes() {
            for count in 1..=6 {
                let words = &[code, 1, 1, 1, 1, 1][..count];
                let mut room = [0; 8];
                let outcome = services::request(&state, words, &mut room);
                let expected = match state.mode {
                    _ if count != words_in => 4,
                    Mode::Measure if !in_measure => 5,
                    _ => 0,
                };
                assert_eq!(outcome.refusal, expected, "{code:04X} {count} {:?}", state.mode);
            }
        }
    }
}

/// Rules 4.17 and 6.1 with answers of FF01h: they need their room too.
#[test]
fn refusals_of_the_settings_in_order() {
    let bad = State { settings: settings_of(2, (50, 0), (50, 0)), ..measure(Job::Absent) };
    for (words, room) in [(&[0x1201, 2][..], 2), (&[0x1202, 101, 128], 3), (&[0x1202, 101, 1], 3), (&[0x1701], 2)] {
        let longer = [words, &[0]].concat();
        assert_eq!(refusal(&bad, &[], 0), 1);
        assert_eq!(refusal(&measure(Job::Absent), &[], 0), 2);
        assert_eq!(refusal(&measure(Job::Absent), &[words[0] + 0x0800, 0], 0), 3);
        assert_eq!(refusal(&measure(Job::Absent), &longer, 0), 4);
        assert_eq!(refusal(&measure(Job::Absent), words, 0), 5);
        assert_eq!(refusal(&rotate(), words, room - 1), 6);
        assert_eq!(services::request(&rotate(), words, &mut vec![0; room]).count, room);
    }
}

/// Rule 4.19 with every word there is.
#[test]
fn every_rotate_direction_asked_for() {
    for state in [idle(), rotate()] {
        for rotate_direction in [0, 1] {
            let before = State { settings: settings_of(rotate_direction, (73, 41), (26, 117)), ..state };
            for word in 0..=u16::MAX {
                let (answered, direction) = match word {
                    0 | 1 => (word, word),
                    _ => (0xFF01, rotate_direction),
                };
                let after = State { settings: settings_of(direction, (73, 41), (26, 117)), ..before };
                assert_eq!(served(&before, &[0x1201, word]), (vec![0x9201, answered], after));
            }
        }
    }
}

/// SET_REFLECTOR_CONFIG from this state held to rule 4.20.
fn hold_reflector_config(before: &State, threshold: u16, radius: u16) {
    let threshold_good = threshold >= 1 && threshold <= 100;
    let radius_good = radius <= 127;
    let mut answer = vec![0x9202, threshold, radius];
    if !threshold_good {
        answer[1] = 0xFF01;
    }
    if !radius_good {
        answer[2] = 0xFF01;
    }
    let mut after = *before;
    if threshold_good && radius_good {
        after.settings.working.threshold = threshold;
        after.settings.working.radius = radius;
    }
    assert_eq!(served(before, &[0x1202, threshold, radius]), (answer, after));
}

/// Rule 4.20 with every word there is in one place, and words at both sides of the range in the other.
#[test]
fn every_threshold_and_radius_asked_for() {
    for word in 0..=u16::MAX {
        for good_or_bad in [1, 100, 0, 101] {
            hold_reflector_config(&idle(), good_or_bad, word);
        }
        for good_or_bad in [0, 127, 128, 65535] {
            hold_reflector_config(&idle(), word, good_or_bad);
        }
        hold_reflector_config(&rotate(), 80, word);
        hold_reflector_config(&rotate(), word, 40);
    }
    for threshold in 0..=260 {
        for radius in 0..=260 {
            hold_reflector_config(&State::fresh(), threshold, radius);
        }
    }
}

/// Rule 4.20 in numbers: neither is set where one is bad, and a good one is answered all the same.
#[test]
fn neither_is_set_where_one_is_bad() {
    for state in [State::fresh(), idle(), rotate()] {
        for (asked, answered) in [
            ([0, 40], [0xFF01, 40]),
            ([101, 40], [0xFF01, 40]),
            ([306, 0], [0xFF01, 0]),
            ([80, 128], [80, 0xFF01]),
            ([1, 256], [1, 0xFF01]),
            ([100, 65535], [100, 0xFF01]),
            ([0, 128], [0xFF01, 0xFF01]),
            ([0xFF01, 0xFF01], [0xFF01, 0xFF01]),
        ] {
            let (answer, next) = served(&state, &[0x1202, asked[0], asked[1]]);
            assert_eq!(answer, [0x9202, answered[0], answered[1]]);
            assert_eq!(next, state);
        }
    }
}

/// Rule 4.22; what is saved comes back once it is no more the working one (rule 4.12).
#[test]
fn what_is_saved_comes_back() {
    let mut random = Random::new(21);
    for _ in 0..2000 {
        let mode = random.pick(&[Mode::Idle, Mode::Rotate]);
        let before = random_states::state_in_ranges(&mut random, mode);
        let Settings { rotate_direction, working, stored: _ } = before.settings;
        let saved = State { settings: Settings { rotate_direction, working, stored: working }, ..before };
        assert_eq!(served(&before, &[0x1701]), (vec![0x9701, 0], saved));
        let changed = served(&saved, &[0x1202, 101 - working.threshold, 127 - working.radius]).1;
        assert_eq!(changed.settings.working.threshold, 101 - working.threshold);
        assert_eq!(changed.settings.working.radius, 127 - working.radius);
        let back = served(&changed, &[0x0401, random.pick(&[0, 1])]).1;
        assert_eq!(back.settings, saved.settings);
    }
}

/// Rules 4.12 and 4.13.
#[test]
fn a_reset_takes_the_stored_ones_back() {
    let mut random = Random::new(22);
    for _ in 0..2000 {
        let mode = random_states::any_mode(&mut random);
        let before = random_states::state_in_ranges(&mut random, mode);
        let Settings { rotate_direction, working: _, stored } = before.settings;
        let after = State {
            mode: Mode::Idle,
            running_speed: 0,
            working_plan: before.stored_plan,
            port: 0,
            counter: 0,
            job: Job::Absent,
            settings: Settings { rotate_direction, working: stored, stored },
            ..before
        };
        for level in [0, 1] {
            assert_eq!(served(&before, &[0x0401, level]), (vec![0x8401, level], after));
        }
        let level_2 = match mode {
            Mode::Measure => State { mode: Mode::Rotate, job: Job::Absent, ..before },
            Mode::Idle | Mode::Rotate => before,
        };
        assert_eq!(served(&before, &[0x0401, 2]), (vec![0x8401, 2], level_2));
        for level in [3, 256, 257, 65535] {
            assert_eq!(served(&before, &[0x0401, level]), (vec![0x8401, level], before));
        }
    }
}

/// Rules 4.3, 4.19 and 4.21: the reads are there in all modes, the other three not in MEASURE, whatever they are asked.
#[test]
fn reads_in_all_modes() {
    let mut random = Random::new(23);
    for _ in 0..2000 {
        let mode = random_states::any_mode(&mut random);
        let state = random_states::state_in_ranges(&mut random, mode);
        let Settings { rotate_direction, working, stored: _ } = state.settings;
        assert_eq!(served(&state, &[0x1211]), (vec![0x9211, rotate_direction], state));
        assert_eq!(served(&state, &[0x1212]), (vec![0x9212, working.threshold, working.radius], state));
        if mode == Mode::Measure {
            let any = random.word();
            for words in [&[0x1201, 1][..], &[0x1201, any], &[0x1202, 80, 40], &[0x1202, any, any], &[0x1701]] {
                assert_eq!(refusal(&state, words, 8), 5);
            }
        }
    }
}

/// Whether one of the five words of a state that are settings is in its range (rule 2.10): direction, thresholds, radii.
fn word_in_range(place: usize, word: u16) -> bool {
    match place {
        43 => word == 0 || word == 1,
        44 | 46 => word != 0 && word < 101,
        _ => word < 128,
    }
}

fn state_of(words: &[u16]) -> State {
    CaseWords::new(words).state()
}

/// Rules 2.8 and 2.10, each word alone with every value.
#[test]
fn every_word_of_the_settings() {
    for state in [idle(), rotate(), small_state(0x0001)] {
        let good = format::state_words(&state);
        assert_eq!(good.len(), 50);
        assert!(state.in_ranges());
        for place in 43..48 {
            let mut words = good.clone();
            for word in 0..=u16::MAX {
                words[place] = word;
                assert_eq!(state_of(&words).in_ranges(), word_in_range(place, word), "{place} {word}");
            }
            // a word out of its range comes out as it went in
            assert_eq!(format::state_words(&state_of(&words)), words);
        }
    }
}

/// Rules 2.8 and 2.10, all five at once: one that is out of range is enough, and then both calls say 1.
#[test]
fn all_words_of_the_settings_together() {
    let good = format::state_words(&small_state(0x0001));
    let list = vec![0; 90];
    for direction in [0, 1, 2] {
        for thresholds in [1, 100, 0, 101].map(|working| [1, 100, 0, 101].map(|stored| (working, stored))).concat() {
            for radii in [0, 127, 128].map(|working| [0, 127, 128].map(|stored| (working, stored))).concat() {
                let mut words = good.clone();
                words[43..48].copy_from_slice(&[direction, thresholds.0, radii.0, thresholds.1, radii.1]);
                let fits = (43..48).all(|place| word_in_range(place, words[place]));
                let state = state_of(&words);
                assert_eq!(state.in_ranges(), fits);
                let expected = if fits { 0 } else { 1 };
                assert_eq!(services::request(&state, &[0x0102], &mut [0; 3]).refusal, expected);
                let given = Measured { start_time: 0, distances: &list, echoes: &list, reflectors: &[] };
                assert_eq!(revolution(&state, &given, &mut [0; 4]).refusal, expected);
            }
        }
    }
}

/// Rule 5.17.
#[test]
fn no_revolution_goes_by_the_settings() {
    let mut random = Random::new(24);
    let mut by_refusal: BTreeMap<u16, usize> = BTreeMap::new();
    let mut other_settings = 0;
    for _ in 0..4000 {
        let mode = if random.percent(90) { Mode::Measure } else { random_states::any_mode(&mut random) };
        let state = random_states::state_in_ranges(&mut random, mode);
        let other = State { settings: random_states::settings_in_ranges(&mut random), ..state };
        let shots = random_states::shots_asked_of_lists(&state) + usize::from(random.percent(5));
        let distances: Vec<u16> = (0..shots).map(|_| random.word()).collect();
        let echoes: Vec<u16> = (0..shots).map(|_| random.word()).collect();
        let reflectors = vec![random.word(); if random.percent(95) { 11 * random.below(65) } else { 715 }];
        let start_time = random.word();
        let room = if random.percent(90) { 7250 } else { random.below(20) };
        let turn = |state: &State| {
            let mut buffer = vec![0xBBBB; room];
            let measured =
                Measured { start_time, distances: &distances, echoes: &echoes, reflectors: &reflectors };
            let outcome = revolution(state, &measured, &mut buffer);
            (outcome, buffer)
        };
        let (outcome, buffer) = turn(&state);
        // no revolution changes them, and all else is the same
        assert_eq!(outcome.state.settings, state.settings);
        let with_other_settings = State { settings: other.settings, ..outcome.state };
        assert_eq!(turn(&other), (Outcome { state: with_other_settings, ..outcome }, buffer));
        *by_refusal.entry(outcome.refusal).or_default() += 1;
        other_settings += usize::from(other.settings != state.settings);
    }
    assert!(other_settings > 3500, "{other_settings}");
    assert!([0, 7, 8, 27, 6].iter().all(|number| by_refusal[number] > 80), "{by_refusal:?}");
}

/// Rule 4.4 over fresh cases: which calls change the settings, and which part of them; all these changes occur.
#[test]
fn only_four_services_change_the_settings() {
    let mut random = Random::new(25);
    let mut changed: BTreeMap<u16, usize> = BTreeMap::new();
    for _ in 0..60_000 {
        let call = trial::call_of_case(&fresh_cases::case(&mut random));
        let (before, outcome, code) = match &call {
            Call::Request { state, buffer, words } => {
                let outcome = services::request(state, words, &mut buffer.clone());
                (state, outcome, words.first().copied().unwrap_or(0))
            }
            Call::Revolution { state, turn } => (state, trial::turn_outcome(state, turn).0, 0),
            _ => continue,
        };
        let after = outcome.state.settings;
        let expected = match code {
            _ if outcome.refusal != 0 => before.settings,
            0x1201 => Settings { rotate_direction: after.rotate_direction, ..before.settings },
            0x1202 | 0x0401 => Settings { working: after.working, ..before.settings },
            0x1701 => Settings { stored: after.stored, ..before.settings },
            _ => before.settings,
        };
        assert_eq!(after, expected, "{code:04X}");
        // and the five services change nothing else
        if [0x1201, 0x1202, 0x1211, 0x1212, 0x1701].contains(&code) {
            assert_eq!(outcome.state, State { settings: after, ..*before });
        }
        if after != before.settings {
            *changed.entry(code).or_default() += 1;
        }
    }
    let codes: Vec<u16> = changed.keys().copied().collect();
    assert_eq!(codes, [0x0401, 0x1201, 0x1202, 0x1701]);
    assert!(changed.values().all(|count| *count > 50), "{changed:?}");
}

/// Fresh cases come to every kind of answer of 1201h and 1202h, and to FF01h in about a third of both.
#[test]
fn fresh_requests_have_every_answer() {
    let mut random = Random::new(26);
    // answers without FF01h, with it in the first place, in the second, in both
    let mut of_1201 = [0; 2];
    let mut of_1202 = [0; 4];
    for _ in 0..60_000 {
        let Call::Request { state, words, .. } = trial::call_of_case(&fresh_cases::case(&mut random)) else { continue };
        let mut room = [0; 8];
        if services::request(&state, &words, &mut room).refusal == 0 {
            let first = usize::from(room[1] == 0xFF01);
            let second = usize::from(room[2] == 0xFF01);
            match words[0] {
                0x1201 => of_1201[first] += 1,
                0x1202 => of_1202[first + 2 * second] += 1,
                _ => {}
            }
        }
    }
    assert!(of_1201.iter().all(|count| *count > 100), "{of_1201:?}");
    assert!(of_1202[..3].iter().all(|count| *count > 100) && of_1202[3] > 30, "{of_1202:?}");
    let bad = of_1201[1] + of_1202[1..].iter().sum::<usize>();
    let all = of_1201[0] + of_1202[0] + bad;
    assert!((28..=42).contains(&(100 * bad / all)), "{bad} of {all}");
}

/// Random settings: what works and what is stored mostly differ, and every end of every range is often there.
#[test]
fn random_settings_have_every_end() {
    let mut random = Random::new(27);
    let mut equal = 0;
    let mut ends = [0; 10];
    for _ in 0..4000 {
        let Settings { rotate_direction, working, stored } = random_states::settings_in_ranges(&mut random);
        equal += usize::from(working == stored);
        let words = [rotate_direction, working.threshold, working.radius, stored.threshold, stored.radius];
        for (place, [least, most]) in [[0, 1], [1, 100], [0, 127], [1, 100], [0, 127]].into_iter().enumerate() {
            assert!(words[place] >= least && words[place] <= most);
            ends[2 * place] += usize::from(words[place] == least);
            ends[2 * place + 1] += usize::from(words[place] == most);
        }
    }
    assert!((400..1200).contains(&equal), "{equal}");
    assert!(ends.iter().all(|count| *count > 300), "{ends:?}");
}

/// The state of the samples differs from the fresh one in each of the five words, and so do its pairs from each other.
#[test]
fn samples_differ_in_every_word() {
    let fresh = format::state_words(&State::fresh());
    let sample = format::state_words(&measure(COUNTED_SAMPLE));
    assert!((43..48).all(|place| fresh[place] != sample[place]));
    assert!(sample[44] != sample[46] && sample[45] != sample[47]);
}
