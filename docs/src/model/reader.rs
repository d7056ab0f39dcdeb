// Rules 5.10 to 5.16, the host's side: the reading of a profile with refusals 12, 13, 22, 23, 24, 14, 15 and 16, the stretch
// of a sector's points and the number beside it, with refusal 17.

use crate::layout::{self, refused, Contour, EarlyEnd, Layout, Part, Refused};
use crate::mask;

/// The default is a refused one (rule 5.14), without a place.
#[derive(Clone, Copy, PartialEq, Eq, Debug, Default)]
pub struct Reading {
    pub mask: Option<u16>,
    pub contour: Contour,
    pub early_end: Option<EarlyEnd>,
}

/// Reads a profile: the refusal, 0 for none, and the reading.
pub fn read(words: &[u16]) -> (u16, Reading) {
    match reading_or_refusal(words) {
        Ok(reading) => (0, reading),
        Err(Refused { number, early_end }) => (number, Reading { early_end, ..Reading::default() }),
    }
}

/// The refusals stand in the order of rule 6.1.
fn reading_or_refusal(words: &[u16]) -> Result<Reading, Refused> {
    if words.is_empty() || words[0] != 0x8301 {
        return Err(refused(12));
    }
    if words.len() < 3 {
        return Err(refused(13));
    }
    let mask = words[1];
    let sector_count = layout::sectors_of_head(u32::from(mask), mask::plain_in_range(mask), words[2])?;
    let mut layout = Layout { words, mask: u32::from(mask), place: 3, part: Part::Head };
    let contour = layout.contour(sector_count)?;
    layout.end()?;
    Ok(Reading { mask: Some(mask), contour, early_end: None })
}

/// The number beside the stretch, which has no place: the reader's own come first (rules 5.13 and 5.16).
pub fn stretch_refusal(words: &[u16], place: u16) -> u16 {
    let (refusal, reading) = read(words);
    if refusal != 0 {
        return refusal;
    }
    reading.contour.place_refusal(place)
}

/// The points of the sector at a place; none where there is a number for no (rules 5.13 and 5.14).
pub fn stretch(words: &[u16], place: u16) -> &[u16] {
    if stretch_refusal(words, place) != 0 {
        return &[];
    }
    read(words).1.contour.points(words, place)
}
