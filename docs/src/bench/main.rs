//! Compares the proved writer with the two of `writer.rs`, word by word, and then times all three, beside a plain copy of the same words;
//! then the same of mixed profiles, with the one writer of `mixed.rs`.
mod mixed;
mod writer;

use std::hint::black_box;
use std::time::Instant;

type Writer = fn(&[u16], u16, u16, u16, u16, &[u16], &[u16], &mut [u16]) -> usize;

// A direction and a time as the Rattle source has them: a struct of one number each.
#[repr(C)]
struct Angle(u16);
#[repr(C)]
struct Time(u16);

// Nothing checks this declaration against the Rattle source: a slice is handed over as its pointer and its length.
extern "C" {
    fn slackjib_profile(
        plan: *const u16,
        plan_length: usize,
        step: Angle,
        running: u16,
        mask: u16,
        start: Time,
        distances: *const u16,
        distances_length: usize,
        echoes: *const u16,
        echoes_length: usize,
        out: *mut u16,
        out_length: usize,
    ) -> usize;

    fn slackjib_mixed_profile(
        plan: *const u16,
        plan_length: usize,
        step: Angle,
        running: u16,
        start: Time,
        high: u16,
        low: u16,
        distances: *const u16,
        distances_length: usize,
        echoes: *const u16,
        echoes_length: usize,
        reflectors: *const u16,
        reflectors_length: usize,
        out: *mut u16,
        out_length: usize,
    ) -> usize;
}

// The proved function asks nothing of its caller but that the slices are slices.
#[inline(never)]
fn proved(plan: &[u16], step: u16, running: u16, mask: u16, start: u16, distances: &[u16], echoes: &[u16], out: &mut [u16]) -> usize {
    unsafe {
        slackjib_profile(
            plan.as_ptr(),
            plan.len(),
            Angle(step),
            running,
            mask,
            Time(start),
            distances.as_ptr(),
            distances.len(),
            echoes.as_ptr(),
            echoes.len(),
            out.as_mut_ptr(),
            out.len(),
        )
    }
}

#[inline(never)]
fn proved_mixed(
    plan: &[u16],
    step: u16,
    running: u16,
    high: u16,
    low: u16,
    start: u16,
    distances: &[u16],
    echoes: &[u16],
    reflectors: &[u16],
    out: &mut [u16],
) -> usize {
    unsafe {
        slackjib_mixed_profile(
            plan.as_ptr(),
            plan.len(),
            Angle(step),
            running,
            Time(start),
            high,
            low,
            distances.as_ptr(),
            distances.len(),
            echoes.as_ptr(),
            echoes.len(),
            reflectors.as_ptr(),
            reflectors.len(),
            out.as_mut_ptr(),
            out.len(),
        )
    }
}

// Numbers that look random and are the same in every run.
struct Numbers {
    state: u64,
}

impl Numbers {
    fn next(&mut self) -> u64 {
        self.state = self.state.wrapping_mul(6364136223846793005).wrapping_add(1442695040888963407);
        self.state >> 33
    }

    fn below(&mut self, n: u64) -> u64 {
        self.next() % n
    }

    fn words(&mut self, count: usize) -> Vec<u16> {
        let mut list = Vec::new();
        for _ in 0..count {
            list.push(self.next() as u16);
        }
        list
    }
}

const STEPS: [u16; 23] = [1, 2, 3, 4, 5, 6, 8, 9, 10, 12, 15, 16, 18, 20, 24, 30, 32, 36, 40, 45, 48, 60, 64];

// More than the longest profile has, of either kind.
const ROOM: usize = 6600;
const MIXED_ROOM: usize = 7300;

// What the writers are given.
struct Input {
    plan: Vec<u16>,
    step: u16,
    running: u16,
    mask: u16,
    start: u16,
    distances: Vec<u16>,
    echoes: Vec<u16>,
}

fn write(writer: Writer, input: &Input, out: &mut [u16]) -> usize {
    writer(&input.plan, input.step, input.running, input.mask, input.start, &input.distances, &input.echoes, out)
}

// Up to eight sectors with stops that increase by whole steps.
fn some_plan(numbers: &mut Numbers, step: u16) -> Vec<u16> {
    let count = 1 + numbers.below(8);
    let shots = 5760 / step as u64;
    let mut plan = Vec::new();
    let mut stop = numbers.below(shots / 8);
    for _ in 0..count {
        plan.push([1, 3, 3, 3, 4][numbers.below(5) as usize]);
        plan.push(stop as u16 * step);
        stop += 1 + numbers.below(shots / 8);
    }
    plan
}

fn some_input(numbers: &mut Numbers) -> Input {
    let step = STEPS[numbers.below(23) as usize];
    let shots = 5760 / step as usize;
    Input {
        plan: some_plan(numbers, step),
        step,
        running: 5 + numbers.below(4) as u16,
        mask: 1 + numbers.below(0x3FFF) as u16,
        start: numbers.next() as u16,
        distances: numbers.words(shots),
        echoes: numbers.words(shots),
    }
}

// One damage in half of the inputs, in the others none.
fn damage(numbers: &mut Numbers, input: &mut Input) {
    let length = input.plan.len() as u64;
    let shots = input.distances.len() as u64;
    match numbers.below(16) {
        0 => input.step = numbers.below(70) as u16,
        1 => input.running = numbers.below(30) as u16,
        2 => input.mask = numbers.next() as u16,
        3 => input.distances.truncate(numbers.below(shots) as usize),
        4 => input.echoes.push(0),
        5 => input.plan[numbers.below(length) as usize] = [0, 2, 5, 5759, 5760, 65535][numbers.below(6) as usize],
        6 => input.plan.truncate(numbers.below(length) as usize),
        7 => input.plan.extend([numbers.below(5) as u16, numbers.below(5760) as u16, 3]),
        _ => {}
    }
}

// The writers give the same count and leave the same words in a buffer of so many; the count.
fn agree(input: &Input, before: &[u16], room: usize) -> usize {
    let mut out = before.to_vec();
    let count = write(proved, input, &mut out[..room]);
    for writer in [writer::by_remainder as Writer, writer::by_adding] {
        let mut other = before.to_vec();
        assert_eq!(count, write(writer, input, &mut other[..room]), "the counts differ");
        assert!(out == other, "the words differ");
    }
    count
}

// Compares the writers on many inputs, each with room to spare, with just the room and with one word less.
fn compare(inputs: usize) {
    let mut numbers = Numbers { state: 1 };
    let mut accepted = 0;
    for _ in 0..inputs {
        let mut input = some_input(&mut numbers);
        damage(&mut numbers, &mut input);
        let before = numbers.words(ROOM);
        let count = agree(&input, &before, ROOM);
        if count > 0 {
            accepted += 1;
            assert_eq!(agree(&input, &before, count), count);
            assert_eq!(agree(&input, &before, count - 1), 0);
        }
    }
    println!("{inputs} inputs, {accepted} of them accepted: the same counts and the same words");
}

struct Case {
    name: &'static str,
    input: Input,
}

// A case of so many equal sectors of function 3, all fields of the profile selected. The last of them ends at the given stop, so that the
// first begins one step behind it.
fn case(name: &'static str, sectors: u16, last: u16, step: u16, running: u16) -> Case {
    let mut numbers = Numbers { state: 2 };
    let mut plan = Vec::new();
    for k in 1..sectors + 1 {
        plan.push(3);
        plan.push(last - 5760 / sectors * (sectors - k));
    }
    let shots = 5760 / step as usize;
    let input = Input {
        plan,
        step,
        running,
        mask: 0x3FFF,
        start: 0,
        distances: numbers.words(shots),
        echoes: numbers.words(shots),
    };
    Case { name, input }
}

// Nanoseconds a call of one of the four: the two writers in Rust, the proved one, and a copy of the words that they leave. The buffer is
// not cleared between the calls.
fn time(which: usize, input: &Input, words: &[u16], out: &mut [u16], calls: u32) -> f64 {
    let writers: [Writer; 3] = [writer::by_remainder, writer::by_adding, proved];
    let begin = Instant::now();
    for _ in 0..calls {
        if which < 3 {
            black_box(write(writers[which], black_box(input), black_box(&mut *out)));
        } else {
            copy(black_box(words), black_box(&mut *out));
        }
    }
    begin.elapsed().as_nanos() as f64 / calls as f64
}

#[inline(never)]
fn copy(words: &[u16], out: &mut [u16]) {
    out[..words.len()].copy_from_slice(words);
}

fn median(times: &mut Vec<f64>) -> f64 {
    times.sort_by(|a, b| a.total_cmp(b));
    times[times.len() / 2]
}

fn measure(case: &Case, rounds: usize, calls: u32) {
    let mut out = vec![0; ROOM];
    let count = agree(&case.input, &out, ROOM);
    assert!(count > 0, "{} is refused", case.name);
    write(proved, &case.input, &mut out);
    let words = out[..count].to_vec();
    let mut times = [Vec::new(), Vec::new(), Vec::new(), Vec::new()];
    // one round that does not count, and then the four in turn, each first in every fourth round
    for which in 0..4 {
        time(which, &case.input, &words, &mut out, calls);
    }
    for round in 0..rounds {
        for turn in 0..4 {
            let which = (round + turn) % 4;
            times[which].push(time(which, &case.input, &words, &mut out, calls));
        }
    }
    print!("| {} | {count} |", case.name);
    let mut medians = Vec::new();
    for list in &mut times {
        medians.push(median(list));
        print!(" {:.0} | {:.0} |", medians[medians.len() - 1], list[0]);
    }
    println!(" {:.2} |", medians[2] / medians[0].min(medians[1]));
}

// What the writers of mixed profiles are given beside that; the mask of the input is the low word.
struct MixedInput {
    contour: Input,
    high: u16,
    reflectors: Vec<u16>,
}

type MixedWriter = fn(&[u16], u16, u16, u16, u16, u16, &[u16], &[u16], &[u16], &mut [u16]) -> usize;

fn write_mixed(writer: MixedWriter, input: &MixedInput, out: &mut [u16]) -> usize {
    let given = &input.contour;
    writer(
        &given.plan,
        given.step,
        given.running,
        input.high,
        given.mask,
        given.start,
        &given.distances,
        &given.echoes,
        &input.reflectors,
        out,
    )
}

fn agree_mixed(input: &MixedInput, before: &[u16], room: usize) -> usize {
    let mut out = before.to_vec();
    let mut other = before.to_vec();
    let count = write_mixed(proved_mixed, input, &mut out[..room]);
    assert_eq!(count, write_mixed(mixed::mixed, input, &mut other[..room]), "the counts differ");
    assert!(out == other, "the words differ");
    count
}

// As for plain profiles; of sixteen inputs two have a high word that may be no mask's, one a list that may not fit, and one no reflectors.
fn compare_mixed(inputs: usize) {
    let mut numbers = Numbers { state: 3 };
    let mut accepted = 0;
    for _ in 0..inputs {
        let mut contour = some_input(&mut numbers);
        damage(&mut numbers, &mut contour);
        let fields = numbers.below(32) as u16;
        let mut input = MixedInput { contour, high: fields << 2 | 1, reflectors: Vec::new() };
        let many = numbers.below(65) as usize;
        input.reflectors = numbers.words(11 * many);
        match numbers.below(16) {
            0 => input.high = numbers.next() as u16,
            1 => input.high = numbers.below(256) as u16,
            2 => {
                let length = 700 + numbers.below(20) as usize;
                input.reflectors = numbers.words(length);
            }
            3 => input.high = 0,
            _ => {}
        }
        let before = numbers.words(MIXED_ROOM);
        let count = agree_mixed(&input, &before, MIXED_ROOM);
        if count > 0 {
            accepted += 1;
            assert_eq!(agree_mixed(&input, &before, count), count);
            assert_eq!(agree_mixed(&input, &before, count - 1), 0);
        }
    }
    println!("{inputs} inputs of mixed profiles, {accepted} of them accepted: the same counts and the same words");
}

// The plain profile's time stands beside it: the same plan, lists and low word by `slackjib_profile`.
fn time_mixed(which: usize, input: &MixedInput, words: &[u16], out: &mut [u16], calls: u32) -> f64 {
    let writers: [MixedWriter; 2] = [mixed::mixed, proved_mixed];
    let begin = Instant::now();
    for _ in 0..calls {
        if which < 2 {
            black_box(write_mixed(writers[which], black_box(input), black_box(&mut *out)));
        } else if which == 2 {
            black_box(write(proved, black_box(&input.contour), black_box(&mut *out)));
        } else {
            copy(black_box(words), black_box(&mut *out));
        }
    }
    begin.elapsed().as_nanos() as f64 / calls as f64
}

fn measure_mixed(case: Case, high: u16, many: usize, rounds: usize, calls: u32) {
    let mut numbers = Numbers { state: 4 };
    let name = case.name;
    let input = MixedInput { contour: case.input, high, reflectors: numbers.words(11 * many) };
    let mut out = vec![0; MIXED_ROOM];
    let count = agree_mixed(&input, &out, MIXED_ROOM);
    assert!(count > 0, "{name} is refused");
    write_mixed(proved_mixed, &input, &mut out);
    let words = out[..count].to_vec();
    let mut times = [Vec::new(), Vec::new(), Vec::new(), Vec::new()];
    for which in 0..4 {
        time_mixed(which, &input, &words, &mut out, calls);
    }
    for round in 0..rounds {
        for turn in 0..4 {
            let which = (round + turn) % 4;
            times[which].push(time_mixed(which, &input, &words, &mut out, calls));
        }
    }
    print!("| {name} | {high:04X} {:04X} | {many} | {count} |", input.contour.mask);
    let mut medians = Vec::new();
    for list in &mut times {
        medians.push(median(list));
        print!(" {:.0} | {:.0} |", medians[medians.len() - 1], list[0]);
    }
    println!(" {:.2} |", medians[1] / medians[0]);
}

fn main() {
    compare(6000);
    let (rounds, calls) = (32, 2000);
    println!("{rounds} rounds of {calls} calls of each, mask 3FFFh, ns a profile, median and least; the ratio is of medians, to the faster of Rust's:");
    println!("| Plan | Words | Rust by remainder | least | Rust by adding | least | Rattle | least | copy | least | Ratio |");
    println!("|---|---|---|---|---|---|---|---|---|---|---|");
    let cases = [
        case("one sector, step 8, 10 Hz", 1, 5752, 8, 10),
        case("eight sectors, step 8, 10 Hz", 8, 5752, 8, 10),
        case("one sector, step 4, 5 Hz", 1, 5756, 4, 5),
        case("eight sectors, step 4, 5 Hz", 8, 5756, 4, 5),
        case("one sector that passes 5760 midway, step 8, 10 Hz", 1, 2880, 8, 10),
        case("eight sectors, the first passes 5760 midway, step 8, 10 Hz", 8, 5400, 8, 10),
        case("one sector that passes 5760 midway, step 4, 5 Hz", 1, 2880, 4, 5),
        case("eight sectors, the first passes 5760 midway, step 4, 5 Hz", 8, 5400, 4, 5),
    ];
    for case in &cases {
        measure(case, rounds, calls);
    }
    compare_mixed(6000);
    println!("mixed profiles, the same rounds; the plain one beside them is of the same plan and low word:");
    println!("| Plan | Mask | Reflectors | Words | Rust by remainder | least | Rattle | least | Rattle, plain | least | copy | least | Ratio |");
    println!("|---|---|---|---|---|---|---|---|---|---|---|---|---|");
    for (high, many) in [(0x0000, 0), (0x0001, 64), (0x007D, 2), (0x007D, 64)] {
        measure_mixed(case("one sector, step 8, 10 Hz", 1, 5752, 8, 10), high, many, rounds, calls);
        measure_mixed(case("eight sectors, step 8, 10 Hz", 8, 5752, 8, 10), high, many, rounds, calls);
    }
}
