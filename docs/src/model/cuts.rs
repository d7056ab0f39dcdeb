// Cases of cut profiles (rules 5.16 and 5.25), plain and mixed, made from the profiles that other cases have in them.

use crate::case_parts;
use crate::format;
use crate::mixed_reader;
use crate::reader;
use crate::trial::{self, Call};
use std::collections::BTreeSet;

/// The words that a case hands to a reader, or to a call that reads them first, or that its revolution sends.
fn words_of_case(case: &[u16]) -> Vec<u16> {
    match trial::call_of_case(case) {
        Call::Read { words } | Call::Stretch { words, .. } => words,
        Call::ReadMixed { words } | Call::StretchMixed { words, .. } => words,
        Call::Reflector { words, .. } | Call::AllReflectors { words } => words,
        Call::Revolution { state, turn } | Call::PlainProfile { state, turn } | Call::MixedProfile { state, turn } => {
            let (outcome, mut buffer) = trial::turn_outcome(&state, &turn);
            buffer.truncate(outcome.count);
            buffer
        }
        Call::Request { .. } | Call::NormalPlan { .. } | Call::FreshState => Vec::new(),
    }
}

/// The profiles of these cases that this reader takes, each once, in the order in which they come.
fn profiles_for(input: &[u8], reader_takes: fn(&[u16]) -> bool) -> Vec<Vec<u16>> {
    let mut seen = BTreeSet::new();
    let mut profiles = Vec::new();
    for case in format::cases_of_input(input) {
        let words = words_of_case(&case);
        if reader_takes(&words) && seen.insert(words.clone()) {
            profiles.push(words);
        }
    }
    profiles
}

pub fn profiles(input: &[u8]) -> Vec<Vec<u16>> {
    profiles_for(input, |words| reader::read(words).0 == 0)
}

pub fn mixed_profiles(input: &[u8]) -> Vec<Vec<u16>> {
    profiles_for(input, |words| mixed_reader::read(words).0 == 0)
}

/// Of each profile in turn a case for every length below its own, from 0 on; the mixed ones behind the plain ones.
pub fn write_cuts(input: &[u8], output: &mut dyn FnMut(&[u8])) {
    let mut bytes = Vec::new();
    let mut write = |profiles: Vec<Vec<u16>>, case_of: fn(&[u16]) -> Vec<u16>| {
        for profile in profiles {
            for length in 0..profile.len() {
                bytes.clear();
                format::push_case(&mut bytes, &case_of(&profile[..length]));
                output(&bytes);
            }
        }
    };
    write(profiles(input), case_parts::read_case);
    write(mixed_profiles(input), case_parts::read_mixed_case);
}

/// How many profiles there are, and how many cuts: as many for each as it has words. Then how many of them are mixed.
pub fn count(input: &[u8]) -> String {
    let cuts_of = |profiles: &[Vec<u16>]| profiles.iter().map(Vec::len).sum::<usize>();
    let plain = profiles(input);
    let mixed = mixed_profiles(input);
    let all = plain.len() + mixed.len();
    let cuts = cuts_of(&plain) + cuts_of(&mixed);
    format!("{all} profiles, {cuts} cuts; of these mixed {}, {} cuts\n", mixed.len(), cuts_of(&mixed))
}
