// A model of the rules: it makes cases, answers them, makes input for the
// program and answers that too. Build: rustc --edition 2021 -C opt-level=3 main.rs -o model; tests: rustc --test.

mod case_parts;
mod census;
mod cuts;
mod format;
mod fresh_cases;
mod layout;
mod mask;
mod measure_checks;
mod mixed_reader;
mod plan;
mod program;
mod random;
mod random_mixed_profiles;
mod random_plans;
mod random_profiles;
mod random_requests;
mod random_states;
mod reader;
mod reflectors;
mod revolution;
mod services;
mod state;
mod stored_cases;
mod stored_mixed;
mod stored_mixed_readings;
mod stored_plans;
mod stored_readings;
mod stored_requests;
mod stored_revolutions;
mod stored_samples;
mod stored_settings;
mod stored_states;
mod stored_times;
mod stored_wrong_counts;
mod talk;
#[cfg(test)]
mod tests;
#[cfg(test)]
mod tests_mixed;
#[cfg(test)]
mod tests_settings;
#[cfg(test)]
mod tests_wrong_counts;
mod trial;

use std::io::{self, BufWriter, Read, Write};
use std::process;

const USAGE: &str = "usage: model COMMAND
  answer             cases on standard input: their lines
  cases SEED COUNT   fresh cases
  stored             the cases that are stored
  pick NUMBER        cases on standard input: the one of this number alone
  census             cases on standard input: how many of each kind, refusal, service and step
  cuts               cases on standard input: cases of reading, each profile among them cut to every length below its
                     own. A profile is what kinds 4, 5 and 8 to 11 are given and what kinds 2, 7 and 12 send,
                     where a reader takes it; those that are alike are taken once
  cuts --count       cases on standard input: how many such profiles and cuts they make
  talk SEED COUNT    an input for the program
  program            that input on standard input: what the program prints";

fn whole_input() -> Vec<u8> {
    let mut input = Vec::new();
    if let Err(error) = io::stdin().lock().read_to_end(&mut input) {
        eprintln!("model: standard input: {error}");
        process::exit(1);
    }
    input
}

/// Standard output; where nobody reads it any more, the program ends.
struct Output(BufWriter<io::StdoutLock<'static>>);

impl Output {
    fn new() -> Output {
        Output(BufWriter::new(io::stdout().lock()))
    }

    fn write(&mut self, bytes: &[u8]) {
        if self.0.write_all(bytes).is_err() {
            process::exit(1);
        }
    }

    fn finish(mut self) {
        if self.0.flush().is_err() {
            process::exit(1);
        }
    }
}

fn number(text: &str) -> u64 {
    text.parse().unwrap_or_else(|_| {
        eprintln!("model: {text} is not a number\n{USAGE}");
        process::exit(2);
    })
}

fn answer(output: &mut Output) {
    let mut line = Vec::new();
    for (place, case) in format::cases_of_input(&whole_input()).iter().enumerate() {
        let (refusal, words) = trial::answer(&trial::call_of_case(case));
        line.clear();
        format::push_line(&mut line, place + 1, refusal, &words);
        output.write(&line);
    }
}

fn pick(wanted: u64, output: &mut Output) {
    for (place, case) in format::cases_of_input(&whole_input()).iter().enumerate() {
        if place as u64 + 1 == wanted {
            let mut bytes = Vec::new();
            format::push_case(&mut bytes, case);
            output.write(&bytes);
        }
    }
}

fn main() {
    let arguments: Vec<String> = std::env::args().skip(1).collect();
    let arguments: Vec<&str> = arguments.iter().map(String::as_str).collect();
    let mut output = Output::new();
    match arguments[..] {
        ["answer"] => answer(&mut output),
        ["cases", seed, count] => {
            fresh_cases::write_cases(number(seed), number(count) as usize, &mut |bytes| output.write(bytes))
        }
        ["stored"] => output.write(&stored_cases::input()),
        ["pick", wanted] => pick(number(wanted), &mut output),
        ["cuts"] => cuts::write_cuts(&whole_input(), &mut |bytes| output.write(bytes)),
        ["cuts", "--count"] => output.write(cuts::count(&whole_input()).as_bytes()),
        ["census"] => output.write(census::table_of(&whole_input()).as_bytes()),
        ["talk", seed, count] => output.write(&talk::input(number(seed), number(count) as usize)),
        ["program"] => output.write(&program::run(&whole_input())),
        _ => {
            eprintln!("{USAGE}");
            process::exit(2);
        }
    }
    output.finish();
}
