//! The eight slots of one work area that lives through the whole run, beside the model's slots.
//!
//! The area has a copy, brought up to date part by part. Some calls are watched: the area is compared with its copy right before and
//! right after, and nothing but the named slot's part may differ.

use crate::memory::Lent;
use crate::told::{told, Seen, Told};
use crate::whole::off_grid;
use crate::Difference;
use oracle::cases::Case;
use oracle::model::{self, AreaSize};
use oracle::random::Random;
use pylonfrith::sizes::{POINTS, SLOTS, SLOT_FLOATS, SLOT_WORDS, WORK_FLOATS, WORK_WORDS};
use pylonfrith::{lent, Slot};
use std::ops::Range;

/// Places of the lent slices past the work area.
const PAST: usize = 3;
/// Calls of a case.
const CALLS: usize = 10;
/// One call in so many is watched.
const WATCHED: usize = 250;

/// A work area, with places past its size and guard places.
#[derive(Clone)]
pub struct Area {
    pub floats: Lent<f64>,
    pub words: Lent<u32>,
}

impl Area {
    pub fn new(random: &mut Random) -> Area {
        Area {
            floats: Lent::new(WORK_FLOATS + PAST, random),
            words: Lent::new(WORK_WORDS + PAST, random),
        }
    }

    pub fn is(&self, other: &Area) -> bool {
        self.floats.is(&other.floats) && self.words.is(&other.words)
    }

    /// Whether nothing but this slot's part differs.
    pub fn is_but_for(&self, other: &Area, slot: usize) -> bool {
        self.floats.is_but_for(&other.floats, float_part(slot))
            && self.words.is_but_for(&other.words, word_part(slot))
    }

    pub fn is_zero_in(&self, slot: usize) -> bool {
        let floats = &self.floats.slice()[float_part(slot)];
        let words = &self.words.slice()[word_part(slot)];
        floats.iter().all(|float| float.to_bits() == 0) && words.iter().all(|&word| word == 0)
    }

    pub fn take(&mut self, other: &Area, slot: usize) {
        self.floats.take(&other.floats, float_part(slot));
        self.words.take(&other.words, word_part(slot));
    }
}

pub fn float_part(slot: usize) -> Range<usize> {
    slot * SLOT_FLOATS..(slot + 1) * SLOT_FLOATS
}

pub fn word_part(slot: usize) -> Range<usize> {
    slot * SLOT_WORDS..(slot + 1) * SLOT_WORDS
}

/// The lengths that the area is lent with: nearly always enough.
pub fn drawn_size(random: &mut Random) -> AreaSize {
    let mut size = model::FULL;
    match random.below(24) {
        0 => size.floats = random.pick(&[0, WORK_FLOATS - 1]),
        1 => size.words = random.pick(&[0, WORK_WORDS - 1]),
        past => {
            size.floats += past % (PAST + 1);
            size.words += past / 2 % (PAST + 1);
        }
    }
    size
}

/// A slot number: nearly always one that there is.
pub fn drawn_slot(random: &mut Random) -> u32 {
    match random.below(24) {
        0 => 8,
        1 => random.pick(&[9, 255, 256, u32::MAX, 1 << 31]),
        _ => random.below(SLOTS) as u32,
    }
}

/// A line to open, sometimes one that is refused.
pub fn drawn_line(case: &Case, random: &mut Random) -> (Vec<f64>, Vec<f64>, f64) {
    let (mut x, mut y): (Vec<f64>, Vec<f64>) = case.line.iter().copied().unzip();
    let mut tolerance = case.tolerance;
    for _ in 0..random.pick(&[0, 0, 0, 0, 1, 2]) {
        match random.below(8) {
            0 | 1 => drop(x.pop()),
            2 | 3 => tolerance = random.pick(&[f64::NAN, f64::INFINITY, f64::NEG_INFINITY]),
            4 if random.one_in(10) => {
                x.resize(POINTS + 1, 0.0);
                y.resize(POINTS + 1, 0.0);
            }
            _ if !y.is_empty() => {
                let at = random.below(y.len());
                y[at] = off_grid(random);
            }
            _ => {}
        }
    }
    (x, y, tolerance)
}

pub struct Slots {
    area: Area,
    copy: Area,
    model: model::Slots,
    /// The parts of the copy that are not up to date.
    behind: [bool; SLOTS],
}

impl Slots {
    pub fn new(random: &mut Random) -> Slots {
        let area = Area::new(random);
        let mut slots = Slots {
            copy: area.clone(),
            area,
            model: model::Slots::default(),
            behind: [false; SLOTS],
        };
        slots.clear_both(model::FULL);
        slots.copy = slots.area.clone();
        slots
    }

    pub fn check(
        &mut self,
        case: &Case,
        random: &mut Random,
        seen: &mut Seen,
    ) -> Result<(), Difference> {
        for _ in 0..CALLS {
            let size = drawn_size(random);
            let slot = drawn_slot(random);
            let watched = random.one_in(WATCHED);
            if watched {
                self.bring_up_to_date()?;
            }
            match random.below(1_000) {
                0 => self.clear(size, random, seen)?,
                1..=199 => self.open(size, slot, case, random, seen)?,
                200..=249 => self.step_to_the_end(size, slot, seen)?,
                250..=749 => self.step(size, slot, seen).map(|_| ())?,
                750..=899 => self.read(size, slot, random, seen)?,
                _ => self.close(size, slot, seen)?,
            }
            if watched {
                self.check_others(slot)?;
            }
        }
        Ok(())
    }

    /// Compares the parts that no call has named since the last time, and copies the others.
    fn bring_up_to_date(&mut self) -> Result<(), Difference> {
        for slot in 0..SLOTS {
            if self.behind[slot] {
                self.copy.take(&self.area, slot);
            }
        }
        self.behind = [false; SLOTS];
        if self.area.is(&self.copy) {
            Ok(())
        } else {
            Err("slots: a part that no call has named changed".to_string())
        }
    }

    /// Right after a watched call on `slot`.
    fn check_others(&self, slot: u32) -> Result<(), Difference> {
        let named = slot as usize;
        let kept = if named < SLOTS && self.behind[named] {
            self.area.is_but_for(&self.copy, named)
        } else {
            self.area.is(&self.copy)
        };
        if kept {
            Ok(())
        } else {
            Err(format!(
                "slots: a call on slot {slot} changed what it must not"
            ))
        }
    }

    /// Notes the answer and compares it. An accepted call lets the named part change.
    fn note(
        &mut self,
        call: &'static str,
        slot: u32,
        answer: Told,
        wanted: Told,
        seen: &mut Seen,
    ) -> Result<(), Difference> {
        seen.note(call, answer);
        if answer.reason() == 0 && call != "read" {
            self.behind[slot as usize] = true;
        }
        if answer == wanted {
            Ok(())
        } else {
            Err(format!(
                "{call} of slot {slot}: answered {answer:?}, the model {wanted:?}"
            ))
        }
    }

    fn clear_both(&mut self, size: AreaSize) -> (Told, Told) {
        let floats = &mut self.area.floats.slice_mut()[..size.floats];
        let words = &mut self.area.words.slice_mut()[..size.words];
        (
            told(lent::clear(floats, words)),
            told(self.model.clear(size)),
        )
    }

    fn clear(
        &mut self,
        size: AreaSize,
        random: &mut Random,
        seen: &mut Seen,
    ) -> Result<(), Difference> {
        self.bring_up_to_date()?;
        let (answer, wanted) = self.clear_both(size);
        seen.note("clear", answer);
        if answer != wanted {
            return Err(format!("clear: answered {answer:?}, the model {wanted:?}"));
        }
        if answer == Told::Done {
            self.copy.floats.slice_mut()[..WORK_FLOATS].fill(0.0);
            self.copy.words.slice_mut()[..WORK_WORDS].fill(0);
        }
        // The places past the area hold something again that a clear must not touch.
        let drawn = f64::from_bits(random.draw());
        let same = self.area.is(&self.copy);
        self.area.floats.slice_mut()[WORK_FLOATS] = drawn;
        self.copy.floats.slice_mut()[WORK_FLOATS] = drawn;
        if same {
            Ok(())
        } else {
            Err(format!("clear: the area differs after {answer:?}"))
        }
    }

    fn open(
        &mut self,
        size: AreaSize,
        slot: u32,
        case: &Case,
        random: &mut Random,
        seen: &mut Seen,
    ) -> Result<(), Difference> {
        let (x, y, tolerance) = drawn_line(case, random);
        let floats = &mut self.area.floats.slice_mut()[..size.floats];
        let words = &mut self.area.words.slice_mut()[..size.words];
        let answer = told(lent::open(floats, words, Slot(slot), &x, &y, tolerance));
        let wanted = told(self.model.open(size, slot, &x, &y, tolerance));
        self.note("open", slot, answer, wanted, seen)?;
        self.check_mark(slot, answer, true)
    }

    fn step(&mut self, size: AreaSize, slot: u32, seen: &mut Seen) -> Result<Told, Difference> {
        let floats = &mut self.area.floats.slice_mut()[..size.floats];
        let words = &mut self.area.words.slice_mut()[..size.words];
        let answer = told(lent::step(floats, words, Slot(slot)));
        let wanted = told(self.model.step(size, slot));
        self.note("step", slot, answer, wanted, seen)?;
        self.check_mark(slot, answer, true)?;
        Ok(answer)
    }

    /// Until it is finished or refused, and once more.
    fn step_to_the_end(
        &mut self,
        size: AreaSize,
        slot: u32,
        seen: &mut Seen,
    ) -> Result<(), Difference> {
        while let Told::Removed { .. } = self.step(size, slot, seen)? {}
        self.step(size, slot, seen).map(|_| ())
    }

    fn read(
        &mut self,
        size: AreaSize,
        slot: u32,
        random: &mut Random,
        seen: &mut Seen,
    ) -> Result<(), Difference> {
        let places = random.pick(&[0, 2, 3, 5, 12, 40, 41]);
        let mut ours: Lent<u32> = Lent::new(places, random);
        let mut expected = ours.clone();
        let floats = &self.area.floats.slice()[..size.floats];
        let words = &self.area.words.slice()[..size.words];
        let answer = told(lent::read(floats, words, Slot(slot), ours.slice_mut()));
        let wanted = told(self.model.read(size, slot, expected.slice_mut()));
        self.note("read", slot, answer, wanted, seen)?;
        if ours.is(&expected) {
            Ok(())
        } else {
            Err(format!(
                "read of slot {slot}: the output differs after {answer:?}: {:?}, the model {:?}",
                ours.slice(),
                expected.slice()
            ))
        }
    }

    fn close(&mut self, size: AreaSize, slot: u32, seen: &mut Seen) -> Result<(), Difference> {
        let floats = &mut self.area.floats.slice_mut()[..size.floats];
        let words = &mut self.area.words.slice_mut()[..size.words];
        let answer = told(lent::close(floats, words, Slot(slot)));
        let wanted = told(self.model.close(size, slot));
        self.note("close", slot, answer, wanted, seen)?;
        if answer == Told::Done && !self.area.is_zero_in(slot as usize) {
            return Err(format!("close of slot {slot}: its part is not zero"));
        }
        self.check_mark(slot, answer, false)
    }

    /// A slot is open exactly if the first u32 of its part is not 0.
    fn check_mark(&self, slot: u32, answer: Told, open: bool) -> Result<(), Difference> {
        if answer.reason() != 0 {
            return Ok(());
        }
        let first = self.area.words.slice()[word_part(slot as usize).start];
        if (first != 0) == open {
            Ok(())
        } else {
            Err(format!(
                "slot {slot}: its first u32 is {first} after {answer:?}"
            ))
        }
    }
}
