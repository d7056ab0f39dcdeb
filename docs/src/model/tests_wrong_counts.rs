// Holds the model to rule 4.25, the answers to a wrong number of words, and to what is left of number 4: each service with
// each number of words in each mode, written out here and not read from the model's table; to the dialogue of 7.19; and the
// stored and the fresh cases to having all of that.

use crate::format;
use crate::fresh_cases;
use crate::mask::Mask;
use crate::program;
use crate::random::Random;
use crate::random_states;
use crate::services;
use crate::state::{Job, Mode, State};
use crate::stored_cases;
use crate::stored_samples::*;
use crate::talk;
use crate::tests::{refusal, served};
use crate::trial::{self, Call};
use std::collections::{BTreeMap, BTreeSet};

const MODES: [Mode; 3] = [Mode::Idle, Mode::Rotate, Mode::Measure];

/// Rule 4.3: code, number of words, modes, and the whole answer to another number of words.
const ANSWERING: [(u16, usize, &[Mode], &[u16]); 4] = [
    (0x0105, 2, &MODES, &[0x8105, 0xFFFF]),
    (0x020A, 5, &[Mode::Idle, Mode::Rotate], &[0x820A, 0xFFFF, 0xFFFF, 0xFFFF]),
    (0x020B, 2, &MODES, &[0x820B, 0xFFFF, 0xFFFF, 0xFFFF]),
    (0x0301, 3, &[Mode::Measure], &[0x8301]),
];

/// Rule 4.3: code and number of words of the sixteen services that refuse another number.
const REFUSING: [(u16, usize); 16] = [
    (0x0102, 1),
    (0x0104, 1),
    (0x0201, 5),
    (0x0202, 2),
    (0x0302, 1),
    (0x0401, 2),
    (0x0402, 1),
    (0x0403, 2),
    (0x0404, 1),
    (0x1201, 2),
    (0x1202, 3),
    (0x1211, 1),
    (0x1212, 1),
    (0x1301, 4),
    (0x1302, 1),
    (0x1701, 1),
];

/// The fresh state, one in IDLE, one in ROTATE, and in MEASURE one without a job and one with each kind of job.
fn states() -> Vec<State> {
    let jobs = [Job::Absent, COUNTED_SAMPLE, ENDLESS_SAMPLE, COUNTED_MIXED_SAMPLE, ENDLESS_MIXED_SAMPLE];
    let mut states = vec![State::fresh(), idle(), rotate()];
    states.extend(jobs.map(measure));
    states
}

/// The code and words behind it that would change a state if they were looked at, and others.
fn requests_of(code: u16, count: usize, random: &mut Random) -> Vec<Vec<u16>> {
    let any: Vec<u16> = (0..count).map(|_| random.word()).collect();
    let mut requests = vec![vec![1; count], vec![0; count], vec![65535; count], any];
    requests.push([0, 5, 0x0001, 8, 1, 1, 1][..count].to_vec());
    for words in &mut requests {
        words[0] = code;
    }
    requests
}

/// Rule 7.19: requests, numbers for no, answers, and the state after each.
#[test]
fn bench_wrong_counts() {
    let fresh = State::fresh();
    let rotating = State { mode: Mode::Rotate, running_speed: 10, ..fresh };
    let measuring = State { mode: Mode::Measure, ..rotating };
    let with_job = State { job: Job::Endless { mask: Mask::Plain(0x0001), sent: 0 }, ..measuring };
    let steps: [(&[u16], u16, &[u16], State); 16] = [
        (&[0x0105], 0, &[0x8105, 0xFFFF], fresh),
        (&[0x0105, 0x00F3, 0x0000], 0, &[0x8105, 0xFFFF], fresh),
        (&[0x0104], 0, &[0x8104, 0x0000], fresh),
        (&[0x020A, 0x0000, 0x0001, 0x0B40], 0, &[0x820A, 0xFFFF, 0xFFFF, 0xFFFF], fresh),
        (&[0x020B], 0, &[0x820B, 0xFFFF, 0xFFFF, 0xFFFF], fresh),
        (&[0x020B, 0x0000, 0x0000], 0, &[0x820B, 0xFFFF, 0xFFFF, 0xFFFF], fresh),
        (&[0x020B, 0x0000], 0, &[0x820B, 0x0000, 0x0003, 0x1678], fresh),
        (&[0x0301], 5, &[], fresh),
        (&[0x0302, 0x0000], 4, &[], fresh),
        (&[0x0403, 0x0000], 0, &[0x8403, 0x0000, 0x0002], rotating),
        (&[0x0404], 0, &[0x8404, 0x0000, 0x0003, 0x0000], measuring),
        (&[0x0301, 0x0000, 0x0001], 0, &[], with_job),
        (&[0x0301], 0, &[0x8301], with_job),
        (&[0x0301, 0x0005, 0x0002, 0x0000], 0, &[0x8301], with_job),
        (&[0x020A, 0x0000], 5, &[], with_job),
        (&[0x0302, 0x0000], 4, &[], with_job),
    ];
    let mut state = fresh;
    for (words, number, answer, after) in steps {
        if number == 0 {
            assert_eq!(served(&state, words), (answer.to_vec(), after));
        } else {
            assert_eq!((refusal(&state, words, 8), state), (number, after));
        }
        state = after;
    }
}

/// Rule 7.19 as the program has it (rules 7.10 and 7.11).
#[test]
fn bench_wrong_counts_by_the_program() {
    let input = [
        &[1, 0x01, 0x05][..],
        &[3, 0x01, 0x05, 0x00, 0xF3, 0x00, 0x00],
        &[1, 0x01, 0x04],
        &[4, 0x02, 0x0A, 0x00, 0x00, 0x00, 0x01, 0x0B, 0x40],
        &[1, 0x02, 0x0B],
        &[3, 0x02, 0x0B, 0x00, 0x00, 0x00, 0x00],
        &[2, 0x02, 0x0B, 0x00, 0x00],
        &[1, 0x03, 0x01],
        &[2, 0x03, 0x02, 0x00, 0x00],
        &[2, 0x04, 0x03, 0x00, 0x00],
        &[1, 0x04, 0x04],
        &[3, 0x03, 0x01, 0x00, 0x00, 0x00, 0x01],
        &[1, 0x03, 0x01],
        &[4, 0x03, 0x01, 0x00, 0x05, 0x00, 0x02, 0x00, 0x00],
        &[2, 0x02, 0x0A, 0x00, 0x00],
        &[2, 0x03, 0x02, 0x00, 0x00],
    ];
    let printed = "\
nr no n words
1 0 2 8105 FFFF
2 0 2 8105 FFFF
3 0 2 8104 0000
4 0 4 820A FFFF FFFF FFFF
5 0 4 820B FFFF FFFF FFFF
6 0 4 820B FFFF FFFF FFFF
7 0 4 820B 0000 0003 1678
8 5 0
9 4 0
10 0 3 8403 0000 0002
11 0 4 8404 0000 0003 0000
12 0 0
13 0 1 8301
14 0 1 8301
15 5 0
16 4 0
end
";
    assert_eq!(String::from_utf8_lossy(&program::run(&input.concat())), printed);
}

/// Rule 4.25 with one to seven words: the answer and the state as it came in the modes of the service, 5 in the others; and
/// with less room than the answer has 6, where 5 is not due.
#[test]
fn four_services_answer_in_their_modes() {
    let mut random = Random::new(31);
    for (code, words_in, modes, answer) in ANSWERING {
        for count in (1..=7).filter(|count| *count != words_in) {
            for words in requests_of(code, count, &mut random) {
                for state in states() {
                    let there = modes.contains(&state.mode);
                    for room in 0..answer.len() {
                        assert_eq!(refusal(&state, &words, room), if there { 6 } else { 5 }, "{words:04X?} {room}");
                    }
                    if there {
                        assert_eq!(served(&state, &words), (answer.to_vec(), state), "{words:04X?}");
                        let mut exact = vec![0xBBBB; answer.len()];
                        assert_eq!(services::request(&state, &words, &mut exact).count, answer.len());
                        assert_eq!(exact, answer);
                    } else {
                        assert_eq!(refusal(&state, &words, 8), 5, "{words:04X?}");
                    }
                }
            }
        }
    }
}

/// The same with as many words as there may be, from any state, whatever the words behind the code are.
#[test]
fn no_word_behind_the_code_counts() {
    let mut random = Random::new(32);
    let mut there = [0; 4];
    for _ in 0..20_000 {
        let place = random.below(4);
        let (code, words_in, modes, answer) = ANSWERING[place];
        let any = random.below(300);
        let count = random.pick(&[1, words_in - 1, words_in + 1, words_in + 2, any + 6]);
        let mode = random_states::any_mode(&mut random);
        let state = random_states::state_in_ranges(&mut random, mode);
        for _ in 0..2 {
            let mut words: Vec<u16> = (0..count).map(|_| random.word()).collect();
            words[0] = code;
            if modes.contains(&mode) {
                assert_eq!(served(&state, &words), (answer.to_vec(), state));
                there[place] += 1;
            } else {
                assert_eq!(refusal(&state, &words, 8), 5);
            }
        }
    }
    assert!(there.iter().all(|count| *count > 2000), "{there:?}");
}

/// Rules 4.3 and 6.1: the right number of words is served, or refused by 5, as ever.
#[test]
fn the_right_number_is_served() {
    let before = rotate();
    assert_eq!(served(&before, &[0x0105, 0x005A]), (vec![0x8105, 0x0056], State { port: 0x56, ..before }));
    let (answer, after) = served(&before, &[0x020A, 2, 3, 4000, 1]);
    assert_eq!(answer, [0x820A, 2, 3, 4000]);
    assert!(after.working_plan != before.working_plan && after.stored_plan == after.working_plan);
    assert_eq!(served(&before, &[0x020B, 3]), (vec![0x820B, 3, 3, 2880], before));
    assert_eq!(refusal(&before, &[0x0301, 5, 0x0120], 8), 5);
    let job = Job::Counted { left: 5, mask: Mask::Plain(0x0120), sent: 0 };
    assert_eq!(served(&measure(ENDLESS_SAMPLE), &[0x0301, 5, 0x0120]), (vec![], measure(job)));
}

/// Rules 4.25 and 6: the other services refuse a wrong number by 4 in every mode, before 5 and 6, and behind 1.
#[test]
fn sixteen_services_refuse_by_4() {
    let mut random = Random::new(33);
    for (code, words_in) in REFUSING {
        for count in (1..=7).filter(|count| *count != words_in) {
            for words in requests_of(code, count, &mut random) {
                for state in states() {
                    for room in [0, 1, 8] {
                        assert_eq!(refusal(&state, &words, room), 4, "{words:04X?}");
                        assert_eq!(refusal(&State { id: 0, ..state }, &words, room), 1);
                    }
                }
            }
        }
    }
    // with ANSWERING these are all
    assert_eq!(services::TABLE.len(), ANSWERING.len() + REFUSING.len());
}

/// Rule 6.1: 1 comes before such an answer, before 5 and before 6.
#[test]
fn a_state_out_of_its_ranges_has_no_answer() {
    for (code, words_in, _, _) in ANSWERING {
        for state in states() {
            for count in [1, words_in - 1, words_in + 1, 7] {
                let mut words = vec![1; count];
                words[0] = code;
                for room in [0, 8] {
                    assert_eq!(refusal(&State { configured_speed: 21, ..state }, &words, room), 1);
                }
            }
        }
    }
}

/// The requests of an input of cases, each with its state and the length of its buffer.
fn requests_of_cases(input: &[u8]) -> Vec<(State, usize, Vec<u16>)> {
    let mut requests = Vec::new();
    for case in format::cases_of_input(input) {
        if let Call::Request { state, buffer, words } = trial::call_of_case(&case) {
            requests.push((state, buffer.len(), words));
        }
    }
    requests
}

/// What the stored requests have: code, number of words, mode and room. States out of their ranges are left out.
fn stored_combinations() -> BTreeSet<(u16, usize, usize, usize)> {
    let mut combinations = BTreeSet::new();
    for (state, room, words) in requests_of_cases(&stored_cases::input()) {
        if state.in_ranges() && !words.is_empty() {
            let mode = MODES.iter().position(|mode| *mode == state.mode).unwrap();
            combinations.insert((words[0], words.len(), mode, room));
        }
    }
    combinations
}

#[test]
fn stored_cases_have_every_count_mode_and_room() {
    let stored = stored_combinations();
    for (code, words_in, _, answer) in ANSWERING {
        for count in 1..=7 {
            for mode in 0..3 {
                // a job that starts has no word in answer, so there is no room that is too short
                let starts_a_job = code == 0x0301 && count == words_in;
                let exact = if starts_a_job { 0 } else { answer.len() };
                assert!(stored.contains(&(code, count, mode, exact)), "{code:04X} {count} {mode} exact");
                assert!(
                    starts_a_job || stored.contains(&(code, count, mode, exact - 1)),
                    "{code:04X} {count} {mode} short"
                );
            }
        }
        // an empty buffer, and one that is longer
        let room_with = |fits: &dyn Fn(usize) -> bool| {
            stored.iter().any(|(asked, count, _, room)| *asked == code && *count != words_in && fits(*room))
        };
        assert!(room_with(&|room| room == 0) && room_with(&|room| room > answer.len()), "{code:04X}");
    }
    for (code, words_in) in REFUSING {
        for count in [words_in - 1, words_in + 1] {
            for mode in 0..3 {
                let with_room = (5..=8).any(|room| stored.contains(&(code, count, mode, room)));
                assert!(count == 0 || with_room, "{code:04X} {count} {mode}");
            }
        }
    }
}

/// GET_PROFILE with each number of words before a counted, an endless and a mixed job, and without one; and all four with
/// words that differ in nothing but what stands behind the code.
#[test]
fn stored_cases_have_every_job_and_other_words() {
    let requests = requests_of_cases(&stored_cases::input());
    let has = |wanted: &dyn Fn(&State, usize, &[u16]) -> bool| {
        requests.iter().any(|(state, room, words)| state.in_ranges() && wanted(state, *room, words))
    };
    for count in 1..=7 {
        for job in [COUNTED_SAMPLE, ENDLESS_SAMPLE, COUNTED_MIXED_SAMPLE] {
            assert!(
                has(&|state, room, words| state.job == job
                    && words.first() == Some(&0x0301)
                    && words.len() == count
                    && (room > 0 || count == 3)),
                "{count} {job:?}"
            );
        }
    }
    assert!(has(&|state, room, words| *state == measure(Job::Absent) && room > 0 && words == [0x0301]));
    for (code, words_in, modes, answer) in ANSWERING {
        let alike: Vec<_> = requests
            .iter()
            .filter(|(state, room, words)| {
                words.first() == Some(&code)
                    && words.len() == words_in + 1
                    && modes.contains(&state.mode)
                    && *room > answer.len()
            })
            .collect();
        let differ_in_words = |(state, room, words): &(State, usize, Vec<u16>)| {
            alike.iter().any(|other| other.0 == *state && other.1 == *room && other.2 != *words)
        };
        assert!(alike.iter().any(|request| differ_in_words(request)), "{code:04X}");
    }
}

/// The numbers for no that are due, each by itself; 6 where the buffer is empty.
fn due(state: &State, room: usize, words: &[u16]) -> Vec<u16> {
    let mut due = Vec::new();
    let mut add = |number: u16, is_due: bool| {
        if is_due {
            due.push(number);
        }
    };
    let row = services::TABLE.iter().find(|service| words.first() == Some(&service.code));
    add(1, !state.in_ranges());
    add(2, words.is_empty());
    add(3, !words.is_empty() && row.is_none());
    if let Some(row) = row {
        add(4, REFUSING.iter().any(|(code, words_in)| *code == row.code && words.len() != *words_in));
        add(5, !row.modes.contains(&state.mode));
        add(6, room == 0);
    }
    due
}

/// Each two numbers of a request that can be due at once, and an answer by rule 4.25 with each that may be due beside it.
#[test]
fn stored_cases_have_each_two_that_can_meet() {
    let mut met = BTreeSet::new();
    let mut met_by_an_answer = BTreeSet::new();
    for (state, room, words) in requests_of_cases(&stored_cases::input()) {
        let due = due(&state, room, &words);
        let answered = ANSWERING.iter().any(|(code, words_in, ..)| words.first() == Some(code) && words.len() != *words_in);
        for (place, first) in due.iter().enumerate() {
            if answered {
                met_by_an_answer.insert((code_place(words[0]), *first));
            }
            for second in &due[place + 1..] {
                met.insert((*first, *second));
            }
        }
    }
    let all = [(1, 2), (1, 3), (1, 4), (1, 5), (1, 6), (4, 5), (4, 6), (5, 6)];
    assert_eq!(met, BTreeSet::from(all));
    let mut all_by_an_answer = BTreeSet::new();
    for (place, (_, _, modes, _)) in ANSWERING.iter().enumerate() {
        all_by_an_answer.extend([(place, 1), (place, 6)]);
        if modes.len() < 3 {
            all_by_an_answer.insert((place, 5));
        }
    }
    assert_eq!(met_by_an_answer, all_by_an_answer);
}

fn code_place(code: u16) -> usize {
    ANSWERING.iter().position(|row| row.0 == code).unwrap()
}

/// Fresh cases: in every round each of the four is answered with a wrong number of words, and refused for want of room; and
/// the others are refused by 4.
#[test]
fn every_round_has_wrong_counts() {
    let mut rooms: BTreeMap<(u16, usize), usize> = BTreeMap::new();
    for seed in 100..120 {
        let mut round = Vec::new();
        fresh_cases::write_cases(seed, 5000, &mut |bytes| round.extend_from_slice(bytes));
        let mut answered = [0; 4];
        let mut short = 0;
        let mut refused = 0;
        for (state, room, words) in requests_of_cases(&round) {
            let refusal = services::request(&state, &words, &mut vec![0; room]).refusal;
            let Some((code, words_in, _, answer)) = ANSWERING.into_iter().find(|row| words.first() == Some(&row.0)) else {
                refused += usize::from(refusal == 4);
                continue;
            };
            if words.len() != words_in && [0, 6].contains(&refusal) {
                answered[code_place(code)] += usize::from(refusal == 0);
                short += usize::from(refusal == 6);
                *rooms.entry((code, room.min(answer.len() + 1))).or_default() += 1;
            }
        }
        assert!(answered.iter().all(|count| *count >= 8), "{seed}: {answered:?}");
        assert!(short >= 8, "{seed}: {short}");
        assert!(refused >= 50, "{seed}: {refused}");
    }
    // no room, each that is too short, the exact one and a longer one
    for (code, _, _, answer) in ANSWERING {
        for room in 0..=answer.len() + 1 {
            assert!(rooms.get(&(code, room)).is_some_and(|count| *count > 2), "{code:04X} {room} {rooms:?}");
        }
    }
}

/// The talks of twenty rounds: each of the four is answered with a wrong number of words, and the others are refused by 4.
#[test]
fn talks_have_wrong_counts() {
    let mut answered = [0; 4];
    let mut refused = 0;
    for seed in 100..120 {
        let input = talk::input(seed, 500);
        let mut state = State::fresh();
        let mut left = &input[..];
        while !left.is_empty() && left.len() > 2 * usize::from(left[0]) {
            let (record, behind) = left.split_at(1 + 2 * usize::from(left[0]));
            left = behind;
            let words = format::words_of_bytes(&record[1..]);
            let outcome = services::request(&state, &words, &mut [0; 8]);
            state = outcome.state;
            refused += usize::from(outcome.refusal == 4);
            let row = ANSWERING.into_iter().find(|row| words.first() == Some(&row.0) && words.len() != row.1);
            if let Some((code, ..)) = row.filter(|_| outcome.refusal == 0) {
                answered[code_place(code)] += 1;
            }
        }
    }
    assert!(answered.iter().all(|count| *count > 30), "{answered:?}");
    assert!(refused > 100, "{refused}");
}
