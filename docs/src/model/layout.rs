// What both readers share: rules 5.10 to 5.16 for the words of bits 0 to 13, refusals 22, 23, 24 and 14 with their order, and
// the place that comes with 15.

use crate::mask::has_bit;

/// The words of one sector, points aside, and where its points stand.
#[derive(Clone, Copy, PartialEq, Eq, Debug, Default)]
pub struct SectorReading {
    pub number: Option<u16>,
    pub step: Option<u16>,
    pub points: Option<u16>,
    pub first_time: Option<u16>,
    pub first_direction: Option<u16>,
    pub points_place: usize,
    pub points_length: usize,
    pub last_time: Option<u16>,
    pub last_direction: Option<u16>,
}

/// What the bits 0 to 13 of a mask stand for.
#[derive(Clone, Copy, PartialEq, Eq, Debug, Default)]
pub struct Contour {
    pub sent: Option<u16>,
    pub counter: Option<u16>,
    pub layer: Option<u16>,
    pub sector_count: usize,
    pub sectors: [SectorReading; 8],
    pub senstat: [Option<u16>; 2],
}

/// A part of a profile (rules 5.16 and 5.25); sectors and reflectors go by their places.
#[derive(Clone, Copy, PartialEq, Eq, Debug)]
pub enum Part {
    Head,
    Sector(usize),
    Senstat,
    Count,
    Reflector(usize),
}

impl Part {
    pub fn number(self) -> u16 {
        match self {
            Part::Head => 1,
            Part::Sector(_) => 2,
            Part::Senstat => 3,
            Part::Count => 4,
            Part::Reflector(_) => 5,
        }
    }
}

/// Where words end too early: the first word that is missing, and the part that it is of (rule 5.16).
#[derive(Clone, Copy, PartialEq, Eq, Debug)]
pub struct EarlyEnd {
    pub part: Part,
    pub index: usize,
}

/// A number for no; with 15 its place.
pub struct Refused {
    pub number: u16,
    pub early_end: Option<EarlyEnd>,
}

/// A refusal that has no place.
pub fn refused(number: u16) -> Refused {
    Refused { number, early_end: None }
}

/// 22, 23, 24 and 14 in this order (rule 6.1); where none is due, the number of sectors. The word is the last one of rule
/// 5.4 or 5.19.
pub fn sectors_of_head(mask: u32, mask_fits: bool, word: u16) -> Result<usize, Refused> {
    let layers = word >> 8;
    let sector_count = usize::from(word & 0x00FF);
    if !mask_fits {
        return Err(refused(22));
    }
    if layers != 1 {
        return Err(refused(23));
    }
    if !(1..=8).contains(&sector_count) {
        return Err(refused(24));
    }
    if (8..=10).any(|bit| has_bit(mask, bit)) && !has_bit(mask, 5) {
        return Err(refused(14));
    }
    Ok(sector_count)
}

/// The words given, with the mask that says which fields they have, the place reached and the part that it is in.
pub struct Layout<'a> {
    pub words: &'a [u16],
    pub mask: u32,
    pub place: usize,
    pub part: Part,
}

impl Layout<'_> {
    /// 15: a word of this part is missing, and the first one that is stands right behind those given (rule 5.16).
    fn ends_early(&self) -> Refused {
        let index = self.words.len();
        Refused { number: 15, early_end: Some(EarlyEnd { part: self.part, index }) }
    }

    /// The next word if the mask has the bit, absent if not.
    pub fn field(&mut self, bit: u16) -> Result<Option<u16>, Refused> {
        if !has_bit(self.mask, bit) {
            return Ok(None);
        }
        if self.place >= self.words.len() {
            return Err(self.ends_early());
        }
        let word = self.words[self.place];
        self.place += 1;
        Ok(Some(word))
    }

    pub fn pass(&mut self, length: usize) -> Result<(), Refused> {
        if self.words.len() - self.place < length {
            return Err(self.ends_early());
        }
        self.place += length;
        Ok(())
    }

    fn sector(&mut self) -> Result<SectorReading, Refused> {
        let mut sector = SectorReading {
            number: self.field(3)?,
            step: self.field(4)?,
            points: self.field(5)?,
            first_time: self.field(6)?,
            first_direction: self.field(7)?,
            ..SectorReading::default()
        };
        // rules 5.10 and 5.11
        let words_per_point = (8..=10).filter(|bit| has_bit(self.mask, *bit)).count();
        sector.points_place = self.place;
        sector.points_length = match sector.points {
            Some(points) => usize::from(points) * words_per_point,
            None => 0,
        };
        self.pass(sector.points_length)?;
        sector.last_time = self.field(11)?;
        sector.last_direction = self.field(12)?;
        Ok(sector)
    }

    /// The words of bits 0 to 13. 15 comes of every word that is missing, in the part that is named before its words are taken.
    pub fn contour(&mut self, sector_count: usize) -> Result<Contour, Refused> {
        let mut contour = Contour { sector_count, ..Contour::default() };
        contour.sent = self.field(0)?;
        contour.counter = self.field(1)?;
        contour.layer = self.field(2)?;
        for place in 0..sector_count {
            self.part = Part::Sector(place);
            contour.sectors[place] = self.sector()?;
        }
        self.part = Part::Senstat;
        contour.senstat = [self.field(13)?, self.field(13)?];
        Ok(contour)
    }

    /// 16 where words are left behind the profile.
    pub fn end(&self) -> Result<(), Refused> {
        if self.place != self.words.len() {
            return Err(refused(16));
        }
        Ok(())
    }
}

impl Contour {
    /// 17, or 0 where a sector has the place (rule 5.13).
    pub fn place_refusal(&self, place: u16) -> u16 {
        if usize::from(place) >= self.sector_count {
            return 17;
        }
        0
    }

    /// The points of the sector at a place below the number of sectors, as a part of the words that were read.
    pub fn points<'a>(&self, words: &'a [u16], place: u16) -> &'a [u16] {
        let sector = self.sectors[usize::from(place)];
        &words[sector.points_place..sector.points_place + sector.points_length]
    }
}
