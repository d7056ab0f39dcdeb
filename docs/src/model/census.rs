// Counts what cases come to: refusals of each call, the parts in which words for the reader end early, served requests and
// answers to a wrong number of words by service and mode, profiles sent by step.

use crate::format;
use crate::mask::Mask;
use crate::mixed_reader;
use crate::reader;
use crate::services::{self, Service};
use crate::state::Mode;
use crate::trial::{self, Call};
use std::collections::BTreeMap;

const CALLS: [&str; 12] = [
    "request",
    "revolution",
    "normal plan",
    "read",
    "stretch",
    "fresh state",
    "plain profile",
    "read mixed",
    "mixed stretch",
    "reflector",
    "all reflectors",
    "mixed profile",
];

/// The refusals of each call in the order in which the rules list them, 0 for none before them.
const REFUSALS: [&[u16]; 12] = [
    &[0, 1, 2, 3, 4, 5, 6],
    &[0, 1, 7, 8, 27, 6],
    &[0, 9, 10, 11],
    &[0, 12, 13, 22, 23, 24, 14, 15, 16],
    &[0, 12, 13, 22, 23, 24, 14, 15, 16, 17],
    &[0],
    &[0, 1, 8, 6],
    &[0, 12, 13, 22, 23, 24, 14, 27, 15, 16],
    &[0, 12, 13, 22, 23, 24, 14, 27, 15, 16, 17],
    &[0, 12, 13, 22, 23, 24, 14, 27, 15, 16, 17],
    &[0, 12, 13, 22, 23, 24, 14, 27, 15, 16],
    &[0, 1, 8, 27, 6],
];

#[derive(Default)]
struct Counts {
    cases: usize,
    refusals: BTreeMap<(usize, u16), usize>,
    parts_of_15: BTreeMap<u16, usize>,
    mixed_parts_of_15: BTreeMap<u16, usize>,
    served: BTreeMap<(u16, usize), usize>,
    answers_to_wrong_counts: BTreeMap<(u16, usize), usize>,
    errors_of_measure: BTreeMap<u16, usize>,
    profiles: BTreeMap<u16, usize>,
    mixed_profiles: BTreeMap<u16, usize>,
    turns_without_job: usize,
    longest_profile: usize,
    longest_mixed_profile: usize,
}

fn mode_number(mode: Mode) -> usize {
    match mode {
        Mode::Idle => 0,
        Mode::Rotate => 1,
        Mode::Measure => 2,
    }
}

/// A service and its counts in each mode.
fn row_of_service(service: &Service, counts: &BTreeMap<(u16, usize), usize>) -> String {
    let mut row = format!("{:04X} {:20}", service.code, service.name);
    for mode in [Mode::Idle, Mode::Rotate, Mode::Measure] {
        if service.modes.contains(&mode) {
            row += &format!("{:8}", counts.get(&(service.code, mode_number(mode))).copied().unwrap_or(0));
        } else {
            row += "       -";
        }
    }
    row + "\n"
}

impl Counts {
    fn refusal(&mut self, kind: usize, refusal: u16) {
        *self.refusals.entry((kind, refusal)).or_default() += 1;
    }

    fn count(&mut self, case: &[u16]) {
        self.cases += 1;
        let call = trial::call_of_case(case);
        let refusal = trial::answer(&call).0;
        match call {
            Call::Request { state, words, .. } => {
                self.refusal(1, refusal);
                if refusal == 0 {
                    let wrong_count = services::service_of(words[0]).is_some_and(|row| row.words_in != words.len());
                    let counts = if wrong_count { &mut self.answers_to_wrong_counts } else { &mut self.served };
                    *counts.entry((words[0], mode_number(state.mode))).or_default() += 1;
                    if words[0] == services::TRANS_MEASURE {
                        let mut room = [0; 8];
                        services::request(&state, &words, &mut room);
                        *self.errors_of_measure.entry(room[3]).or_default() += 1;
                    }
                }
            }
            Call::Revolution { state, turn } => {
                self.refusal(2, refusal);
                let outcome = trial::turn_outcome(&state, &turn).0;
                match state.job.mask() {
                    _ if refusal != 0 => {}
                    None => self.turns_without_job += 1,
                    Some(Mask::Plain(_)) => {
                        *self.profiles.entry(state.step).or_default() += 1;
                        self.longest_profile = self.longest_profile.max(outcome.count);
                    }
                    Some(Mask::Mixed(_)) => {
                        *self.mixed_profiles.entry(state.step).or_default() += 1;
                        self.longest_mixed_profile = self.longest_mixed_profile.max(outcome.count);
                    }
                }
            }
            Call::NormalPlan { .. } => self.refusal(3, refusal),
            Call::Read { words } => {
                self.refusal(4, refusal);
                if let Some(early_end) = reader::read(&words).1.early_end {
                    *self.parts_of_15.entry(early_end.part.number()).or_default() += 1;
                }
            }
            Call::Stretch { .. } => self.refusal(5, refusal),
            Call::FreshState => self.refusal(6, refusal),
            Call::ReadMixed { words } => {
                self.refusal(8, refusal);
                if let Some(early_end) = mixed_reader::read(&words).1.early_end {
                    *self.mixed_parts_of_15.entry(early_end.part.number()).or_default() += 1;
                }
            }
            Call::StretchMixed { .. } => self.refusal(9, refusal),
            Call::Reflector { .. } => self.refusal(10, refusal),
            Call::AllReflectors { .. } => self.refusal(11, refusal),
            // these two calls hand back no refusal: the one of the revolution behind them is counted
            Call::PlainProfile { state, turn } => self.refusal(7, trial::turn_outcome(&state, &turn).0.refusal),
            Call::MixedProfile { state, turn } => self.refusal(12, trial::turn_outcome(&state, &turn).0.refusal),
        }
    }

    fn table(&self) -> String {
        let mut text = format!("{} cases\n\n", self.cases);
        text += "refusals of each call (kind 6 with the kinds that there are not; kinds 7 and 12 by their revolution)\n";
        for kind in 1..=12 {
            text += &format!("{:2} {:14}", kind, CALLS[kind - 1]);
            for refusal in REFUSALS[kind - 1] {
                let count = self.refusals.get(&(kind, *refusal)).copied().unwrap_or(0);
                text += &format!("  {}: {}", refusal, count);
            }
            text.push('\n');
        }
        let [head, sectors, senstat] = [1, 2, 3].map(|part| self.parts_of_15.get(&part).copied().unwrap_or(0));
        text += &format!("places of 15: head {head}, sectors {sectors}, SENSTAT {senstat}\n");
        let [head, sectors, senstat, count, reflectors] =
            [1, 2, 3, 4, 5].map(|part| self.mixed_parts_of_15.get(&part).copied().unwrap_or(0));
        text += &format!("places of 15 in mixed profiles: head {head}, sectors {sectors}, SENSTAT {senstat}, ");
        text += &format!("count {count}, reflectors {reflectors}\n");
        text += "\nserved requests              IDLE  ROTATE MEASURE\n";
        for service in &services::TABLE {
            text += &row_of_service(service, &self.served);
        }
        let all: usize = self.answers_to_wrong_counts.values().sum();
        text += &format!("and {all} answers to a wrong number of words\n");
        for service in services::TABLE.iter().filter(|service| service.on_wrong_count.is_some()) {
            text += &row_of_service(service, &self.answers_to_wrong_counts);
        }
        text += "errors of TRANS_MEASURE";
        for error in [0, 3, 4, 1, 2] {
            text += &format!("  {}: {}", error, self.errors_of_measure.get(&error).copied().unwrap_or(0));
        }
        for (kind, profiles) in [("plain", &self.profiles), ("mixed", &self.mixed_profiles)] {
            text += &format!("\n\n{kind} profiles sent by step (step 1 has no MEASURE)\n");
            for step in crate::random_plans::all_steps() {
                text += &format!("  {}: {}", step, profiles.get(&step).copied().unwrap_or(0));
            }
        }
        text += &format!("\nrevolutions without a job: {}\n", self.turns_without_job);
        text += &format!("longest profile: {} words, mixed {}\n", self.longest_profile, self.longest_mixed_profile);
        text
    }
}

pub fn table_of(input: &[u8]) -> String {
    let mut counts = Counts::default();
    for case in format::cases_of_input(input) {
        counts.count(&case);
    }
    counts.table()
}
