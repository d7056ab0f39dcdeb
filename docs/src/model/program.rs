// Rules 7.10 and 7.11, the program: records on standard input, a line for each on standard output.

use crate::format;
use crate::services;
use crate::state::State;

/// More than every answer has.
const ROOM: usize = 8;

/// Record after record, from a fresh sensor on.
pub fn run(input: &[u8]) -> Vec<u8> {
    let mut output = b"nr no n words\n".to_vec();
    let mut state = State::fresh();
    let mut place = 0;
    let mut number = 0;
    while place < input.len() {
        let length = 2 * usize::from(input[place]);
        place += 1;
        // the end cuts it
        if input.len() - place < length {
            output.extend_from_slice(b"end short\n");
            return output;
        }
        let words = format::words_of_bytes(&input[place..place + length]);
        place += length;
        number += 1;
        let mut room = [0; ROOM];
        let outcome = services::request(&state, &words, &mut room);
        state = outcome.state;
        format::push_line(&mut output, number, outcome.refusal, &room[..outcome.count]);
    }
    output.extend_from_slice(b"end\n");
    output
}
