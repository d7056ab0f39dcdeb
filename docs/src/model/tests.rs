// Holds the model to every bench figure of the rules, to the program's dialogue printed there, and to what the rules
// say of the calls together: lengths, reading back, where cut words end, the reader's refusals in order, plans that run
// alike. The settings of the NAV300 have tests_settings.rs, mixed profiles tests_mixed.rs, and wrong numbers of words
// tests_wrong_counts.rs. Run: rustc --edition 2021 --test main.rs.

use crate::case_parts::{self, TurnGiven};
use crate::cuts;
use crate::format;
use crate::fresh_cases;
use crate::layout::{Contour, EarlyEnd, Part};
use crate::mask::{has_bit, Mask};
use crate::measure_checks::measure_error;
use crate::plan::{self, Plan};
use crate::program;
use crate::random::Random;
use crate::random_plans;
use crate::random_profiles::profile_of_state;
use crate::random_states;
use crate::reader::{self, Reading};
use crate::revolution::{revolution, time_of_shot, Measured};
use crate::services::{self, *};
use crate::state::{Job, Mode, State};
use crate::stored_cases;
use crate::stored_readings::TWO_SECTORS;
use crate::stored_samples::{buffer, distances, echoes, plan_of, plan_of_length, small_state, NO_REFLECTORS};
use crate::talk;
use crate::trial::{self, Call};
use std::collections::BTreeSet;

/// A served request: its answer and the next state.
pub(crate) fn served(state: &State, words: &[u16]) -> (Vec<u16>, State) {
    let mut room = [0xBBBB; 8];
    let outcome = services::request(state, words, &mut room);
    assert_eq!(outcome.refusal, 0);
    assert!(room[outcome.count..].iter().all(|word| *word == 0xBBBB));
    (room[..outcome.count].to_vec(), outcome.state)
}

pub(crate) fn refusal(state: &State, words: &[u16], room: usize) -> u16 {
    let mut buffer = vec![0xBBBB; room];
    let outcome = services::request(state, words, &mut buffer);
    assert_eq!((outcome.count, outcome.state), (0, *state));
    assert!(buffer.iter().all(|word| *word == 0xBBBB));
    outcome.refusal
}

fn rotating(step: u16, running_speed: u16, working_plan: Plan) -> State {
    State { mode: Mode::Rotate, step, running_speed, working_plan, ..State::fresh() }
}

fn measuring(step: u16, running_speed: u16, working_plan: Plan, mask: u16) -> State {
    let job = Job::Endless { mask: Mask::Plain(mask), sent: 0 };
    State { mode: Mode::Measure, job, ..rotating(step, running_speed, working_plan) }
}

fn profile(state: &State, start_time: u16) -> Vec<u16> {
    let shots = plan::shots_per_revolution(state.step);
    let distances: Vec<u16> = (0..shots as u16).collect();
    let echoes: Vec<u16> = (0..shots as u16).map(|shot| 0x8000 + shot).collect();
    profile_of_state(state, &Measured { start_time, distances: &distances, echoes: &echoes, reflectors: &[] })
}

fn error_of(state: &State) -> u16 {
    let (answer, next) = served(state, &[TRANS_MEASURE]);
    let error = answer[3];
    let mode = if error == 0 { Mode::Measure } else { Mode::Rotate };
    assert_eq!(next, State { mode, ..*state });
    error
}

#[test]
fn there_are_23_steps() {
    let steps = [1, 2, 3, 4, 5, 6, 8, 9, 10, 12, 15, 16, 18, 20, 24, 30, 32, 36, 40, 45, 48, 60, 64];
    assert_eq!(random_plans::all_steps(), steps);
    assert!((65..=u16::MAX).all(|step| !plan::is_angle_step(step)));
}

#[test]
fn fresh_state_is_in_its_ranges() {
    let fresh = State::fresh();
    assert!(fresh.in_ranges());
    let mut words = vec![1, 10, 8];
    for _ in 0..2 {
        words.extend([3, 5752]);
        words.extend([0; 14]);
    }
    words.extend([1, 0, 0, 0, 0, 0, 0, 0]);
    words.extend([1, 50, 0, 50, 0]);
    words.extend([0, 0]);
    assert_eq!(format::state_words(&fresh), words);
}

/// Rule 7.1.
#[test]
fn bench_angle_steps() {
    let fresh = State::fresh();
    for step in [7, 72] {
        let (answer, next) = served(&fresh, &[SET_CONFIG, 0x0010, 9, 19, step]);
        assert_eq!(answer, [0x8201, 0xFFFF]);
        assert_eq!(next, fresh);
        assert_eq!(plan::normal_plan(step, &fresh.working_plan), (9, plan::PLAN_OF_ZEROS));
    }
    for step in [64, 1] {
        let (answer, next) = served(&fresh, &[SET_CONFIG, 0x0010, 9, 19, step]);
        assert_eq!(answer, [0x8201, 0x0010]);
        assert_eq!(next, State { id: 9, configured_speed: 19, step, ..fresh });
    }
    for speed in 5..=20 {
        assert_eq!(error_of(&rotating(1, speed, fresh.working_plan)), 1);
        assert_eq!(error_of(&rotating(1, speed, plan_of(&[(1, 0)]))), 1);
    }
}

/// Rule 7.2.
#[test]
fn bench_stops() {
    for (stop, becomes) in [(5760, 0), (5761, 1), (65535, 2175)] {
        let (answer, next) = served(&State::fresh(), &[SET_FUNCTION, 0, 3, stop, 0]);
        assert_eq!(answer, [0x820A, 0, 3, becomes]);
        assert_eq!(next.working_plan, plan_of(&[(3, becomes)]));
        assert_eq!(next.stored_plan, State::fresh().stored_plan);
    }
}

/// Rule 7.3.
#[test]
fn bench_signal() {
    let (answer, next) = served(&State::fresh(), &[SET_SIGNAL, 0xFFFF]);
    assert_eq!(answer, [0x8105, 0x00F3]);
    assert_eq!(next.port, 0xF3);
    let (answer, _) = served(&State { port: 0x0C, ..State::fresh() }, &[SET_SIGNAL, 0xFF00]);
    assert_eq!(answer, [0x8105, 0x000C]);
}

/// Rule 7.4.
#[test]
fn bench_fresh_plan() {
    let fresh = State::fresh();
    assert_eq!(error_of(&rotating(8, 10, fresh.working_plan)), 0);
    let shots = plan::walk_of_shots(&fresh.working_plan, 8);
    assert_eq!((shots.len(), shots[0].direction, shots[719].direction), (720, 0, 5752));
    let shots = plan::walk_of_shots(&plan_of(&[(3, 0)]), 8);
    assert_eq!((shots.len(), shots[0].direction, shots[719].direction), (720, 8, 0));
}

/// Rule 7.5.
#[test]
fn bench_mask_0120() {
    let words = profile(&measuring(8, 10, State::fresh().working_plan, 0x0120), 0);
    assert_eq!(words.len(), 724);
    assert_eq!(words[..5], [0x8301, 0x0120, 0x0101, 720, 0]);
    assert_eq!(words[723], 719);
}

/// Rule 7.6.
#[test]
fn bench_two_sectors() {
    let plan = plan_of(&[(1, 1436), (3, 3360)]);
    assert_eq!(error_of(&rotating(4, 10, plan)), 0);
    let words = profile(&measuring(4, 10, plan, 0x18FF), 0);
    assert_eq!(words[..6], [0x8301, 0x18FF, 0x0102, 1, 1, 0]);
    // sector 0: no points, from 3364 to 1436
    assert_eq!(words[6..13], [0, 4, 0, 0, 3364, 67, 1436]);
    // sector 1: 481 points from 1440, its times 67 and 100 ms
    assert_eq!(words[13..], [1, 4, 481, 67, 1440, 100, 3360]);
    assert_eq!(error_of(&rotating(4, 11, plan)), 1);
    let points = profile(&measuring(4, 10, plan, 0x0720), 0);
    assert_eq!(points[3..8], [0, 481, 959, 1440, 0x8000 + 959]);
    assert_eq!(points[points.len() - 3..], [1439, 3360, 0x8000 + 1439]);
}

/// Rule 3.7: the nearest millisecond, of two the later; the clock wraps after the rounding.
#[test]
fn times_are_nearest() {
    let fresh = measuring(8, 10, State::fresh().working_plan, 0x0840);
    // 2.36, 2.5 and 2.64 ms after the start
    for (start_time, times) in [(0, [2, 3, 3]), (65532, [65534, 65535, 65535]), (65533, [65535, 0, 0])] {
        assert_eq!([17, 18, 19].map(|shot| time_of_shot(&fresh, start_time, shot)), times);
    }
    for step in random_plans::all_steps() {
        for running_speed in 5..=20 {
            let state = State { step, running_speed, ..fresh };
            let shots = plan::shots_per_revolution(step);
            let shots_per_second = u32::from(running_speed) * shots as u32;
            for shot in 0..shots {
                let exact = 1000.0 * shot as f64 / f64::from(shots_per_second);
                let time = u32::from(time_of_shot(&state, 0, shot));
                // the doubled times, in parts of a second's shots, are whole numbers
                let doubled = 2000 * shot as u32;
                let at = 2 * shots_per_second * time;
                assert!(doubled < at + shots_per_second && at <= doubled + shots_per_second, "{step} {running_speed} {shot}");
                assert!((f64::from(time) - exact).abs() < 0.5 + 1e-9);
            }
        }
    }
}

/// Rules 7.7 and 7.8.
#[test]
fn bench_errors() {
    assert_eq!(error_of(&rotating(2, 5, plan_of(&[(3, 5758)]))), 2);
    assert_eq!(error_of(&rotating(10, 10, plan_of(&[(3, 5752)]))), 4);
}

/// Rule 7.9.
#[test]
fn bench_normal_plans() {
    let joined = plan_of(&[(3, 2000), (1, 3000)]);
    assert_eq!(plan::normal_plan(8, &plan_of(&[(3, 1000), (3, 2000), (1, 3000)])), (0, joined));
    let stays = plan_of(&[(1, 1000), (3, 2000), (1, 3000)]);
    assert_eq!(plan::normal_plan(8, &stays), (0, stays));
}

/// Rule 7.12.
#[test]
fn bench_dialogue() {
    let input = [1, 1, 2, 1, 4, 4, 2, 4, 3, 0, 0, 1, 4, 4, 0];
    let printed = "\
nr no n words
1 0 3 8102 0000 0001
2 5 0
3 0 3 8403 0000 0002
4 0 4 8404 0000 0003 0000
5 2 0
end
";
    assert_eq!(String::from_utf8_lossy(&program::run(&input)), printed);
    assert_eq!(program::run(&[]), b"nr no n words\nend\n");
    for cut in [&[1][..], &[1, 1], &[5, 2, 1]] {
        assert_eq!(program::run(cut), b"nr no n words\nend short\n");
    }
    assert_eq!(program::run(&[0, 2, 1]), b"nr no n words\n1 2 0\nend short\n");
}

/// The refusal and reading of words that end early.
fn cut(part: Part, index: usize) -> (u16, Reading) {
    (15, Reading { early_end: Some(EarlyEnd { part, index }), ..Reading::default() })
}

/// Rule 7.13.
#[test]
fn bench_cuts() {
    let (refusal, reading) = reader::read(&TWO_SECTORS);
    assert_eq!((refusal, reading.contour.sector_count, reading.early_end), (0, 2, None));
    assert_eq!(put_together(&TWO_SECTORS, &reading), TWO_SECTORS);
    for (length, refusal) in [(0, 12), (1, 13), (2, 13)] {
        assert_eq!(reader::read(&TWO_SECTORS[..length]), (refusal, Reading::default()));
    }
    for (length, part) in [
        (3, Part::Head),
        (4, Part::Sector(0)),
        (5, Part::Sector(0)),
        (6, Part::Sector(0)),
        (7, Part::Sector(0)),
        (8, Part::Sector(1)),
        (9, Part::Sector(1)),
        (10, Part::Senstat),
        (11, Part::Senstat),
    ] {
        assert_eq!(reader::read(&TWO_SECTORS[..length]), cut(part, length));
        for place in 0..3 {
            assert_eq!(reader::stretch_refusal(&TWO_SECTORS[..length], place), 15);
        }
    }
}

#[test]
fn easy_slips() {
    let fresh = State::fresh();
    // the step is not stored where the speed is out of range
    assert_eq!(served(&fresh, &[SET_CONFIG, 0x0010, 1, 21, 16]).1, fresh);
    // a sector is set whatever the step
    assert_eq!(served(&fresh, &[SET_FUNCTION, 1, 3, 7, 0]).0, [0x820A, 1, 3, 7]);
    // points go together
    let words = profile(&measuring(64, 10, plan_of(&[(1, 0), (3, 128)]), 0x0320), 0);
    assert_eq!(words, [0x8301, 0x0320, 0x0102, 0, 2, 88, 64, 89, 128]);
}

#[test]
fn refusals_of_a_request_in_order() {
    let fresh = State::fresh();
    let bad = State { id: 0, ..fresh };
    assert_eq!(refusal(&bad, &[], 0), 1);
    assert_eq!(refusal(&fresh, &[], 0), 2);
    assert_eq!(refusal(&fresh, &[0x0103, 0], 0), 3);
    assert_eq!(refusal(&fresh, &[CANCEL_PROFILE, 0], 0), 4);
    assert_eq!(refusal(&fresh, &[GET_PROFILE, 1, 0], 0), 5);
    assert_eq!(refusal(&fresh, &[GET_STATUS], 2), 6);
    // a new job writes no word, so it needs no room
    let state = measuring(8, 10, fresh.working_plan, 1);
    assert_eq!(
        services::request(&state, &[GET_PROFILE, 3, 0xC001], &mut []).state.job,
        Job::Counted { left: 3, mask: Mask::Plain(1), sent: 0 }
    );
    assert_eq!(refusal(&state, &[GET_PROFILE, 3, 0xC000], 0), 6);
    assert_eq!(served(&state, &[GET_PROFILE, 3, 0xC000]), (vec![0x8301], state));
}

/// Start time 0, one list for distances and echoes, no reflectors.
fn measured(list: &[u16]) -> Measured<'_> {
    Measured { start_time: 0, distances: list, echoes: list, reflectors: &[] }
}

#[test]
fn refusals_of_a_revolution_in_order() {
    let state = measuring(64, 10, plan_of(&[(1, 0)]), 1);
    let refused = |state: &State, shots: usize, room: usize| {
        let list = vec![0; shots];
        let outcome = revolution(state, &measured(&list), &mut vec![0; room]);
        if outcome.refusal != 0 {
            assert_eq!((outcome.count, outcome.state), (0, *state));
        }
        outcome.refusal
    };
    let rotate = rotating(64, 10, plan_of(&[(1, 0)]));
    assert_eq!(refused(&State { id: 0, ..rotate }, 1, 0), 1);
    assert_eq!(refused(&rotate, 1, 0), 7);
    assert_eq!(refused(&state, 1, 0), 8);
    assert_eq!(refused(&state, 90, 3), 6);
    assert_eq!(refused(&state, 90, 4), 0);
}

#[test]
fn jobs_count_and_wrap() {
    let list = vec![0; 90];
    let mut state = measuring(64, 10, plan_of(&[(1, 0)]), 0x0003);
    state.counter = 65535;
    let mask = Mask::Plain(3);
    let turn = |state: &State| {
        let mut room = [0; 5];
        let outcome = revolution(state, &measured(&list), &mut room);
        (outcome.state, room)
    };
    for (job, next, sent) in [
        (Job::Endless { mask, sent: 65535 }, Job::Endless { mask, sent: 0 }, 0),
        (Job::Counted { left: 2, mask, sent: 0 }, Job::Counted { left: 1, mask, sent: 1 }, 1),
        (Job::Counted { left: 1, mask, sent: 65534 }, Job::Absent, 65535),
    ] {
        state.job = job;
        assert_eq!(turn(&state), (State { counter: 0, job: next, ..state }, [0x8301, 3, 0x0101, sent, 0]));
    }
    state.job = Job::Absent;
    assert_eq!(turn(&state), (State { counter: 0, ..state }, [0; 5]));
}

/// The length by rule 5.8.
#[test]
fn length_of_a_profile() {
    let mut random = Random::new(7);
    let mut longest = 0;
    for round in 0..5000 {
        let state = if round % 50 == 0 {
            random_states::largest_state(&mut random)
        } else {
            random_states::state_in_ranges(&mut random, Mode::Measure)
        };
        let Some(Mask::Plain(mask)) = state.job.mask() else { continue };
        let bits = |wanted: u16| (mask & wanted).count_ones() as usize;
        let active = plan::active_sectors(&state.working_plan);
        let shots = plan::walk_of_shots(&state.working_plan, state.step);
        assert_eq!(shots.len(), plan::shots_per_revolution(state.step));
        let points = shots.iter().filter(|shot| active[shot.sector].function == 3).count();
        let length = 3 + bits(0x0007) + active.len() * bits(0x18F8) + points * bits(0x0700) + 2 * bits(0x2000);
        assert_eq!(profile(&state, random.word()).len(), length);
        longest = longest.max(length);
    }
    assert_eq!(longest, 6544);
}

/// The words put together again, by rule 5.15.
fn put_together(words: &[u16], reading: &Reading) -> Vec<u16> {
    let mut again = vec![0x8301];
    again.extend(reading.mask);
    again.push(0x0100 + reading.contour.sector_count as u16);
    again.extend(contour_together(&reading.contour, |place| {
        assert_eq!(reader::stretch_refusal(words, place), 0);
        reader::stretch(words, place).to_vec()
    }));
    again
}

/// The words of bits 0 to 13 of a reading, with the stretches of its sectors.
pub(crate) fn contour_together(contour: &Contour, stretch: impl Fn(u16) -> Vec<u16>) -> Vec<u16> {
    let mut again = Vec::new();
    again.extend([contour.sent, contour.counter, contour.layer].into_iter().flatten());
    for place in 0..contour.sector_count {
        let sector = contour.sectors[place];
        let before = [sector.number, sector.step, sector.points, sector.first_time, sector.first_direction];
        again.extend(before.into_iter().flatten());
        again.extend(stretch(place as u16));
        again.extend([sector.last_time, sector.last_direction].into_iter().flatten());
    }
    again.extend(contour.senstat.into_iter().flatten());
    again
}

#[test]
fn a_reading_gives_the_profile_back() {
    let mut random = Random::new(8);
    let mut read = 0;
    for _ in 0..3000 {
        let state = random_states::state_in_ranges(&mut random, Mode::Measure);
        let words = profile(&state, random.word());
        let (refusal, reading) = reader::read(&words);
        match state.job.mask() {
            None => assert_eq!((refusal, words.len()), (12, 0)),
            Some(Mask::Mixed(_)) => assert_eq!(refusal, 12),
            Some(Mask::Plain(mask)) => {
                let points_without_number = mask & 0x0700 != 0 && !has_bit(mask, 5);
                assert_eq!(refusal, if points_without_number { 14 } else { 0 });
            }
        }
        if refusal == 0 {
            assert_eq!(put_together(&words, &reading), words);
            assert_eq!(reader::read(&words[..words.len() - 1]).0, if words.len() == 3 { 13 } else { 15 });
            assert_eq!(reader::stretch_refusal(&words, reading.contour.sector_count as u16), 17);
            let mut longer = words.clone();
            longer.push(0);
            assert_eq!(reader::read(&longer), (16, Reading::default()));
            read += 1;
        }
    }
    assert!(read > 1000);
}

/// How many words each part of a profile has (rules 5.5 and 5.8): the head, each sector by its points, SENSTAT.
fn part_lengths(mask: u16, points: &[usize]) -> Vec<usize> {
    let bits = |wanted: u16| (mask & wanted).count_ones() as usize;
    let mut lengths = vec![3 + bits(0x0007)];
    lengths.extend(points.iter().map(|points| bits(0x18F8) + points * bits(0x0700)));
    lengths.push(2 * bits(0x2000));
    lengths
}

/// The part that a word lies in, by the ends of the parts before it; none behind the last.
fn part_at(lengths: &[usize], index: usize) -> Option<Part> {
    let ends = (1..=lengths.len()).map(|count| lengths[..count].iter().sum::<usize>());
    let part = ends.take_while(|end| *end <= index).count();
    match part {
        0 => Some(Part::Head),
        _ if part < lengths.len() - 1 => Some(Part::Sector(part - 1)),
        _ if part == lengths.len() - 1 => Some(Part::Senstat),
        _ => None,
    }
}

/// How many points each active sector has, by the way from stop to stop (rules 3.5 and 3.8).
fn points_of_plan(plan: &Plan, step: u16) -> Vec<usize> {
    let active = plan::active_sectors(plan);
    let mut before = active[active.len() - 1].stop;
    let mut points = Vec::new();
    for sector in active {
        let way = if sector.stop > before { sector.stop - before } else { 5760 - before + sector.stop };
        points.push(if sector.function == 3 { usize::from(way / step) } else { 0 });
        before = sector.stop;
    }
    points
}

/// Every cut of what this state sends, held to the lengths of its parts; how many of them ended in each part.
fn hold_cuts(state: &State, ended: &mut [usize; 3]) {
    let Some(Mask::Plain(mask)) = state.job.mask() else { return };
    let lengths = part_lengths(mask, &points_of_plan(&state.working_plan, state.step));
    let words = profile(state, 0);
    assert_eq!(words.len(), lengths.iter().sum());
    assert_eq!(part_at(&lengths, words.len()), None);
    for length in 3..words.len() {
        let read = reader::read(&words[..length]);
        if mask & 0x0700 != 0 && !has_bit(mask, 5) {
            assert_eq!(read, (14, Reading::default()));
            continue;
        }
        let part = part_at(&lengths, length).unwrap();
        assert_eq!(read, cut(part, length), "mask {mask:04X}");
        ended[usize::from(part.number()) - 1] += 1;
    }
}

/// Rule 5.16 from the writer's side: plan, step and mask alone say in which part a word lies.
#[test]
fn cuts_end_where_the_writer_was() {
    let mut ended = [0; 3];
    for mask in 1..0x4000 {
        hold_cuts(&measuring(64, 10, plan_of(&[(1, 640), (3, 768), (4, 5696)]), mask), &mut ended);
        // two sectors of points that lie over the 0 direction
        hold_cuts(&measuring(64, 10, plan_of(&[(3, 0), (1, 5632), (3, 5696)]), mask), &mut ended);
    }
    let mut random = Random::new(12);
    for count in 1..=8 {
        for _ in 0..200 {
            let mask = random_states::job_mask(&mut random);
            hold_cuts(&measuring(64, 10, plan_of_length(count), mask), &mut ended);
        }
    }
    for _ in 0..300 {
        hold_cuts(&random_states::state_in_ranges(&mut random, Mode::Measure), &mut ended);
    }
    assert!(ended.iter().all(|count| *count > 10_000), "{ended:?}");
}

/// Rules 5.14 and 5.16 for each profile of the stored cases: no cut but one of three words or more has a place, nor has
/// the whole, nor what is longer than it.
#[test]
fn cuts_of_the_stored_profiles() {
    let profiles = cuts::profiles(&stored_cases::input());
    assert!(profiles.len() > 400);
    for words in &profiles {
        let (refusal, reading) = reader::read(words);
        assert_eq!((refusal, reading.early_end), (0, None));
        for length in 0..words.len() {
            let (refusal, reading) = reader::read(&words[..length]);
            let Some(EarlyEnd { part, index }) = reading.early_end else {
                assert_eq!((refusal, reading), (if length == 0 { 12 } else { 13 }, Reading::default()));
                assert!(length < 3);
                continue;
            };
            assert_eq!((refusal, reading), cut(part, length));
            assert!(length >= 3 && index == length);
        }
        let mut longer = words.clone();
        for word in [0, 0x8301, 65535] {
            longer.push(word);
            assert_eq!(reader::read(&longer), (16, Reading::default()));
        }
    }
}

/// The command `cuts`: of each profile that the reader takes all cuts, once, from whatever call it comes.
#[test]
fn cuts_of_cases() {
    let turn = TurnGiven {
        start_time: 0,
        distances: distances(90),
        echoes: echoes(90),
        reflectors: NO_REFLECTORS,
        buffer: buffer(60),
    };
    let turned = |mask: u16| case_parts::revolution_case(&format::state_words(&small_state(mask)), &turn);
    let plan = small_state(1).working_plan;
    let plain = |mask: u16| case_parts::plain_profile_case(&plan, 64, 10, mask, &turn);
    let mut input = Vec::new();
    for case in [
        case_parts::stretch_case(7, &TWO_SECTORS),
        case_parts::read_case(&TWO_SECTORS),
        case_parts::read_case(&TWO_SECTORS[..9]),
        // points without their number, and a mask that no job has
        turned(0x0100),
        plain(0x4005),
        plain(0x3FFF),
        turned(0x2000),
        plain(0x0005),
        turned(0x2000),
        case_parts::read_case(&[0x8301, 0x2000, 0x0103, 0, 3]),
        vec![trial::FRESH_STATE],
    ] {
        format::push_case(&mut input, &case);
    }
    let all_bits = trial::profile_state(plan, 64, 10, Mask::Plain(0x3FFF));
    let (distances, echoes) = (turn.distances.words(), turn.echoes.words());
    let given = Measured { start_time: 0, distances: &distances, echoes: &echoes, reflectors: &[] };
    let all_words = profile_of_state(&all_bits, &given);
    let profiles = [&TWO_SECTORS[..], &all_words, &[0x8301, 0x2000, 0x0103, 0, 3], &[0x8301, 0x0005, 0x0103, 1, 0]];
    let mut expected = Vec::new();
    for words in profiles {
        expected.extend((0..words.len()).map(|length| case_parts::read_case(&words[..length])));
    }
    let mut written = Vec::new();
    cuts::write_cuts(&input, &mut |bytes| written.extend_from_slice(bytes));
    assert_eq!(format::cases_of_input(&written), expected);
    assert_eq!(expected.len(), 12 + 35 + 5 + 5);
    assert_eq!(cuts::count(&input), "4 profiles, 57 cuts; of these mixed 0, 0 cuts\n");
}

/// How many points the sectors have by their words of bit 5, up to the first of these words that is not there.
fn points_of_words(words: &[u16]) -> Vec<usize> {
    let mask = words[1];
    let sectors = usize::from(words[2] & 0x00FF);
    if !has_bit(mask, 5) {
        return vec![0; sectors];
    }
    let mut points = Vec::new();
    while points.len() < sectors {
        let sectors_before: usize = part_lengths(mask & 0x1FFF, &points).iter().sum();
        let place = sectors_before + (mask & 0x0018).count_ones() as usize;
        let Some(count) = words.get(place) else { break };
        points.push(usize::from(*count));
    }
    points
}

/// The end of rule 5.16: cut words go on in many ways, and the missing word lies in one part of all those profiles.
#[test]
fn the_part_of_a_cut_is_that_of_every_profile_it_begins() {
    let mut random = Random::new(13);
    let mut profiles = cuts::profiles(&stored_cases::input());
    profiles.retain(|words| (4..100).contains(&words.len()));
    let mut other_ends = 0;
    for _ in 0..20_000 {
        let whole = &profiles[random.below(profiles.len())];
        let length = 3 + random.below(whole.len() - 3);
        let mut words = whole[..length].to_vec();
        let (refusal, reading) = reader::read(&words);
        assert_eq!(refusal, 15);
        while reader::read(&words).0 == 15 {
            words.push(random.below(4) as u16);
        }
        assert_eq!(reader::read(&words).0, 0);
        let lengths = part_lengths(words[1], &points_of_words(&words));
        assert_eq!(lengths.iter().sum::<usize>(), words.len());
        let part = part_at(&lengths, length).unwrap();
        assert_eq!(reading.early_end, Some(EarlyEnd { part, index: length }));
        other_ends += usize::from(words.len() != whole.len());
    }
    assert!(other_ends > 2000, "{other_ends}");
}

/// Rule 6.1.
const ORDER_OF_READER: [u16; 9] = [12, 13, 22, 23, 24, 14, 15, 16, 17];

/// The lines of section 6 that hold of these words and this place, each by itself. Here bits 14 and 15 have no word, a
/// sector without bit 5 has no points, and S may be any number; in fewer than 3 words there is none.
fn due(words: &[u16], place: u16) -> BTreeSet<u16> {
    let mut due = BTreeSet::new();
    let mut add = |number: u16, holds: bool| {
        if holds {
            due.insert(number);
        }
    };
    add(12, words.first() != Some(&0x8301));
    add(13, words.len() < 3);
    add(15, words.len() < 3);
    if words.len() >= 2 {
        add(22, !(1..0x4000).contains(&words[1]));
        add(14, words[1] & 0x0700 != 0 && words[1] & 0x0020 == 0);
    }
    if words.len() >= 3 {
        let [layers, sectors] = words[2].to_be_bytes();
        add(23, layers != 1);
        add(24, sectors == 0 || sectors > 8);
        add(17, place >= u16::from(sectors));
        let points = points_of_words(words);
        let length: usize = part_lengths(words[1], &points).iter().sum();
        let all_there = points.len() == usize::from(sectors);
        add(15, !all_there || words.len() < length);
        add(16, all_there && words.len() > length);
    }
    due
}

fn first_due(due: &BTreeSet<u16>) -> u16 {
    ORDER_OF_READER.into_iter().find(|number| due.contains(number)).unwrap_or(0)
}

/// Rule 6.1 for the reader and the stretch; and the stored cases have every choice of faults that can meet.
#[test]
fn the_first_that_is_due_is_given() {
    let mut random = Random::new(14);
    let fresh: Vec<Vec<u16>> = (0..30_000).map(|_| fresh_cases::case(&mut random)).collect();
    let stored = format::cases_of_input(&stored_cases::input());
    let mut choices_of_read = BTreeSet::new();
    let mut choices_of_stretch = BTreeSet::new();
    for (number, case) in stored.iter().chain(&fresh).enumerate() {
        match trial::call_of_case(case) {
            Call::Read { words } => {
                let mut due = due(&words, 0);
                due.remove(&17);
                let (refusal, reading) = reader::read(&words);
                assert_eq!(refusal, first_due(&due), "{words:04X?}");
                assert_eq!(reading.early_end.is_some(), refusal == 15);
                if number < stored.len() {
                    choices_of_read.insert(due);
                }
            }
            Call::Stretch { place, words } => {
                let due = due(&words, place);
                assert_eq!(reader::stretch_refusal(&words, place), first_due(&due), "{place} {words:04X?}");
                if number < stored.len() {
                    choices_of_stretch.insert(due);
                }
            }
            _ => {}
        }
    }
    // any of the first six, with 15, with 16 or with neither; beside 13, where 15 holds too, any of 12, 22 and 14
    for choice in 0..256u16 {
        let faults = [12, 22, 23, 24, 14, 17, 15, 16];
        let chosen: BTreeSet<u16> =
            (0..8).filter(|bit| has_bit(choice, *bit)).map(|bit| faults[bit as usize]).collect();
        if chosen.contains(&15) && chosen.contains(&16) {
            continue;
        }
        assert!(choices_of_stretch.contains(&chosen), "{chosen:?}");
        if !chosen.contains(&17) {
            assert!(choices_of_read.contains(&chosen), "{chosen:?}");
        }
        if chosen.contains(&15) && [23, 24, 17].iter().all(|number| !chosen.contains(number)) {
            let with_13: BTreeSet<u16> = chosen.into_iter().chain([13]).collect();
            assert!(choices_of_stretch.contains(&with_13) && choices_of_read.contains(&with_13), "{with_13:?}");
        }
    }
}

/// Fresh cases come to every number of the reader and cut profiles in every part, all of them often enough.
#[test]
fn fresh_readings_have_every_refusal_and_part() {
    let mut random = Random::new(15);
    let mut numbers = [0; 25];
    let mut parts = [0; 4];
    for _ in 0..40_000 {
        if let Call::Read { words } = trial::call_of_case(&fresh_cases::case(&mut random)) {
            let (refusal, reading) = reader::read(&words);
            numbers[usize::from(refusal)] += 1;
            parts[reading.early_end.map_or(0, |early_end| usize::from(early_end.part.number()))] += 1;
        }
    }
    for number in ORDER_OF_READER {
        let least = if number >= 22 { 120 } else { 40 };
        assert!(number == 17 || numbers[usize::from(number)] >= least, "{number}: {numbers:?}");
    }
    assert!(parts.iter().all(|count| *count >= 150), "{parts:?}");
}

/// Refusals 22, 23 and 24 at every value of the mask, the layers and S, with as many words as they ask for.
#[test]
fn edges_of_the_head() {
    for mask in 0..=u16::MAX {
        // one sector without points, its word of bit 5 included
        let length: usize = part_lengths(mask, &[0]).iter().sum();
        let mut words = vec![0; length];
        words[..3].copy_from_slice(&[0x8301, mask, 0x0101]);
        let expected = match mask {
            0 | 0x4000.. => 22,
            _ if mask & 0x0700 != 0 && mask & 0x0020 == 0 => 14,
            _ => 0,
        };
        assert_eq!(reader::read(&words).0, expected, "{mask:04X}");
        assert_eq!(reader::stretch_refusal(&words, 0), expected, "{mask:04X}");
    }
    for layers in 0..=255 {
        for sectors in 0..=255 {
            let words = [0x8301, 0x0004, u16::from_be_bytes([layers, sectors]), 0];
            let expected = match (layers, sectors) {
                (1, 1..=8) => 0,
                (1, _) => 24,
                _ => 23,
            };
            assert_eq!(reader::read(&words).0, expected);
            assert_eq!(reader::stretch_refusal(&words, 0), expected);
        }
    }
    // 13 is for fewer than 3 words alone, and comes before them
    for mask in [0, 0x4000, 0x8000, 0xC000, 0xFFFF, 0x0100, 0x0001, 0x3FFF] {
        assert_eq!(reader::read(&[0x8301, mask]).0, 13);
        assert_ne!(reader::read(&[0x8301, mask, 0]).0, 13);
    }
}

/// A normal plan runs like the plan it came from, and no two neighbours of it have the same function.
#[test]
fn a_normal_plan_runs_alike() {
    let mut random = Random::new(9);
    for _ in 0..3000 {
        let step = random_plans::any_step(&mut random);
        let given = random_plans::valid_plan(&mut random, step);
        let (refusal, normal) = plan::normal_plan(step, &given);
        assert_eq!(refusal, 0);
        let run = |plan: &Plan| -> Vec<(u16, u16)> {
            plan::walk_of_shots(plan, step).iter().map(|shot| (shot.direction, plan[shot.sector].function)).collect()
        };
        assert_eq!(run(&given), run(&normal));
        let active = plan::active_sectors(&normal);
        assert!(active.windows(2).all(|pair| pair[0].function != pair[1].function));
        assert!(normal[active.len()..].iter().all(|sector| *sector == plan::UNUSED));
        assert_eq!(plan::normal_plan(step, &normal), (0, normal));
    }
}

/// Served requests and revolutions of states in their ranges lead to states in their ranges.
#[test]
fn ranges_are_kept() {
    let mut random = Random::new(10);
    let mut served = 0;
    for _ in 0..25000 {
        let case = fresh_cases::case(&mut random);
        let (refusal, words) = trial::answer(&trial::call_of_case(&case));
        let kind = case.first().copied().unwrap_or(0);
        if refusal == 0 && (kind == trial::REQUEST || kind == trial::REVOLUTION) {
            assert!(format::CaseWords::new(&words[1..]).state().in_ranges());
            served += 1;
        }
    }
    assert!(served > 5000);
}

#[test]
fn settings_for_measure_pass() {
    let mut random = Random::new(11);
    for _ in 0..2000 {
        let (step, speed, plan) = random_plans::measure_setting(&mut random);
        assert_eq!(measure_error(&plan, step, speed), 0);
        let mode = random_states::any_mode(&mut random);
        assert!(random_states::state_in_ranges(&mut random, mode).in_ranges());
    }
}

#[test]
fn cases_and_lines() {
    assert_eq!(format::cases_of_input(&[0, 1, 0, 6, 0, 0, 0x20, 1, 0, 6, 0, 2, 0, 6, 0]), [vec![6], vec![], vec![6]]);
    let mut line = Vec::new();
    format::push_line(&mut line, 12, 5, &[0xABCD, 0x0001]);
    format::push_line(&mut line, 13, 17, &[]);
    assert_eq!(line, b"12 5 2 ABCD 0001\n13 17 0\n");
    assert_eq!(format::ListGiven { length: 8195, first: 65534, rise: 1 }.words(), [65534, 65535, 0]);
    // 4 fields, the number of sectors, 8 × 9 words of sectors, 2 words of SENSTAT, no place
    assert_eq!(format::reading_words(&Reading::default()), [0; 80]);
    for (part, words) in [(Part::Head, [1, 0, 9]), (Part::Sector(7), [2, 7, 9]), (Part::Senstat, [3, 0, 9])] {
        let reading = Reading { early_end: Some(EarlyEnd { part, index: 9 }), ..Reading::default() };
        assert_eq!(format::reading_words(&reading)[79..], words);
    }
}

#[test]
fn stored_cases_are_small_enough() {
    let input = stored_cases::input();
    let mut lines = Vec::new();
    for (place, case) in format::cases_of_input(&input).iter().enumerate() {
        let (refusal, words) = trial::answer(&trial::call_of_case(case));
        format::push_line(&mut lines, place + 1, refusal, &words);
    }
    let size = input.len() + lines.len();
    assert!((1_400_000..1_820_000).contains(&size), "{size} bytes");
}

#[test]
fn a_talk_is_cut_for_some_seeds_only() {
    let mut cut = 0;
    for seed in 0..200 {
        let printed = program::run(&talk::input(seed, 20));
        let lines = printed.iter().filter(|byte| **byte == b'\n').count();
        if printed.ends_with(b"end short\n") {
            cut += 1;
            assert_eq!(lines, 21);
        } else {
            assert_eq!(lines, 22);
        }
    }
    assert!((60..140).contains(&cut), "{cut}");
}
