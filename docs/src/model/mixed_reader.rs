// Rules 5.22 to 5.25: the reading of a mixed profile, with 27 behind the numbers of the head and before 15 and 16; its
// stretches, and the words of a reflector and of all of them.

use crate::layout::{self, refused, Contour, EarlyEnd, Layout, Part, Refused};
use crate::mask;
use crate::reflectors;

/// The default is a refused one (rule 5.14), without a place.
#[derive(Clone, Copy, PartialEq, Eq, Debug, Default)]
pub struct MixedReading {
    /// The high word, then the low one.
    pub mask: [Option<u16>; 2],
    pub contour: Contour,
    pub reflector_count: Option<u16>,
    /// Where the first reflector begins, or would.
    pub reflectors_place: usize,
    pub words_of_reflector: usize,
    pub early_end: Option<EarlyEnd>,
}

/// Reads a mixed profile: the refusal, 0 for none, and the reading.
pub fn read(words: &[u16]) -> (u16, MixedReading) {
    match reading_or_refusal(words) {
        Ok(reading) => (0, reading),
        Err(Refused { number, early_end }) => (number, MixedReading { early_end, ..MixedReading::default() }),
    }
}

/// The refusals stand in the order of rule 6.1: the count is taken before the reflectors, so 27 comes before their 15.
fn reading_or_refusal(words: &[u16]) -> Result<MixedReading, Refused> {
    if words.is_empty() || words[0] != 0x9301 {
        return Err(refused(12));
    }
    if words.len() < 4 {
        return Err(refused(13));
    }
    let [high, low] = [words[1], words[2]];
    let mask = mask::mixed_number(high, low);
    let sector_count = layout::sectors_of_head(mask, mask::mixed_in_range(mask), words[3])?;
    let mut layout = Layout { words, mask, place: 4, part: Part::Head };
    let contour = layout.contour(sector_count)?;
    layout.part = Part::Count;
    let reflector_count = layout.field(16)?;
    // rule 5.22: none where bit 16 is clear
    let count = usize::from(reflector_count.unwrap_or(0));
    if count > reflectors::MOST {
        return Err(refused(27));
    }
    let reflectors_place = layout.place;
    let words_of_reflector = reflectors::words_of_each(mask);
    for place in 0..count {
        layout.part = Part::Reflector(place);
        layout.pass(words_of_reflector)?;
    }
    layout.end()?;
    Ok(MixedReading {
        mask: [Some(high), Some(low)],
        contour,
        reflector_count,
        reflectors_place,
        words_of_reflector,
        early_end: None,
    })
}

/// The number beside the stretch of a mixed profile (rules 5.13 and 5.23).
pub fn stretch_refusal(words: &[u16], place: u16) -> u16 {
    let (refusal, reading) = read(words);
    if refusal != 0 {
        return refusal;
    }
    reading.contour.place_refusal(place)
}

/// The points of the sector at a place; none where there is a number for no.
pub fn stretch(words: &[u16], place: u16) -> &[u16] {
    if stretch_refusal(words, place) != 0 {
        return &[];
    }
    read(words).1.contour.points(words, place)
}

/// The number beside a reflector (rule 5.24).
pub fn reflector_refusal(words: &[u16], place: u16) -> u16 {
    let (refusal, reading) = read(words);
    if refusal != 0 {
        return refusal;
    }
    if place >= reading.reflector_count.unwrap_or(0) {
        return 17;
    }
    0
}

/// The words of the reflector at a place; none where there is a number for no (rule 5.24).
pub fn reflector(words: &[u16], place: u16) -> &[u16] {
    if reflector_refusal(words, place) != 0 {
        return &[];
    }
    let reading = read(words).1;
    let first = reading.reflectors_place + usize::from(place) * reading.words_of_reflector;
    &words[first..first + reading.words_of_reflector]
}

/// The words of all reflectors, which stand at the end of the profile; none where the reading is refused (rule 5.24).
pub fn all_reflectors(words: &[u16]) -> &[u16] {
    let (refusal, reading) = read(words);
    if refusal != 0 {
        return &[];
    }
    &words[reading.reflectors_place..]
}
