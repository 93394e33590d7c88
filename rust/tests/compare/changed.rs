//! Work areas changed by other hands: no crash, reasons 8 to 11 exact, and only the named slot's part may change.

use crate::memory::Lent;
use crate::slots::{drawn_line, drawn_size, drawn_slot, float_part, word_part, Area};
use crate::told::{told, Told};
use crate::Difference;
use oracle::cases::Case;
use oracle::model::{self, AreaSize};
use oracle::random::Random;
use pylonfrith::sizes::{POINTS, SLOTS, WORK_FLOATS, WORK_WORDS};
use pylonfrith::{lent, Slot};

/// Calls on an area once it was changed.
const CALLS: usize = 6;

pub struct Changed {
    area: Area,
    copy: Area,
}

impl Changed {
    pub fn new(random: &mut Random) -> Changed {
        let area = Area::new(random);
        Changed {
            copy: area.clone(),
            area,
        }
    }

    pub fn check(&mut self, case: &Case, random: &mut Random) -> Result<(), Difference> {
        let slot = random.below(SLOTS);
        self.change(slot, case, random);
        self.copy.take(&self.area, slot);
        for _ in 0..CALLS {
            let size = drawn_size(random);
            let named = match random.below(4) {
                0 => drawn_slot(random),
                _ => slot as u32,
            };
            let told = self.call(size, named, case, random);
            told.map_err(|difference| format!("an area changed by other hands: {difference}"))?;
        }
        Ok(())
    }

    /// Fills a slot's part with garbage, or opens it and changes some places.
    fn change(&mut self, slot: usize, case: &Case, random: &mut Random) {
        let floats = &mut self.area.floats.slice_mut()[float_part(slot)];
        let words = &mut self.area.words.slice_mut()[word_part(slot)];
        match random.below(4) {
            0 => {
                floats.fill_with(|| f64::from_bits(random.draw()));
                words.fill_with(|| random.draw() as u32);
            }
            1 => {
                floats.fill_with(|| random.from_to(-20, 20) as f64);
                words.fill_with(|| random.below(POINTS + 3) as u32);
            }
            2 => {
                let (float, word) = (f64::from_bits(random.draw()), random.draw() as u32);
                floats.fill(float);
                words.fill(random.pick(&[word, u32::MAX, 1, POINTS as u32]));
            }
            _ => self.open_and_change(slot, case, random),
        }
        if random.one_in(6) {
            self.area.words.slice_mut()[word_part(slot).start] = 0;
        }
    }

    fn open_and_change(&mut self, slot: usize, case: &Case, random: &mut Random) {
        let floats = self.area.floats.slice_mut();
        let words = self.area.words.slice_mut();
        floats[float_part(slot)].fill(0.0);
        words[word_part(slot)].fill(0);
        let (x, y): (Vec<f64>, Vec<f64>) = case.line.iter().copied().unzip();
        let number = Slot(slot as u32);
        // Refused or not: what stands there is changed anyway.
        let _ = lent::open(floats, words, number, &x, &y, case.tolerance);
        for _ in 0..random.below(4) {
            let _ = lent::step(floats, words, number);
        }
        let values = [0, 1, 2, 7, POINTS as u32, POINTS as u32 + 1, u32::MAX];
        let used: Vec<usize> = word_part(slot).filter(|&at| words[at] != 0).collect();
        for _ in 0..1 + random.below(6) {
            let at = match used.is_empty() || random.one_in(3) {
                true => word_part(slot).start + random.below(64),
                false => random.pick(&used),
            };
            words[at] = random.pick(&values);
            if random.one_in(3) {
                let at = float_part(slot).start + random.below(64);
                floats[at] = random.pick(&[f64::NAN, f64::INFINITY, -1.0, 0.5, 1e300]);
            }
        }
    }

    /// One call, compared with what is promised of it on any contents.
    fn call(
        &mut self,
        size: AreaSize,
        slot: u32,
        case: &Case,
        random: &mut Random,
    ) -> Result<(), Difference> {
        match random.below(16) {
            0 => self.clear(size),
            1..=3 => self.open(size, slot, case, random),
            4..=10 => self.step(size, slot),
            11..=13 => self.read(size, slot, random),
            _ => self.close(size, slot),
        }
    }

    /// Reasons 8 and 9, and whether the slot is open.
    fn state(&self, size: AreaSize, slot: u32) -> Result<bool, u32> {
        if size.floats < WORK_FLOATS || size.words < WORK_WORDS {
            Err(8)
        } else if slot as usize >= SLOTS {
            Err(9)
        } else {
            Ok(self.area.words.slice()[word_part(slot as usize).start] != 0)
        }
    }

    /// The reason of 8 to 11 that a step, read or close has.
    fn reason(&self, size: AreaSize, slot: u32) -> u32 {
        match self.state(size, slot) {
            Err(reason) => reason,
            Ok(true) => 0,
            Ok(false) => 11,
        }
    }

    /// After a call: the rest of the area is as it was, all of it if the call was refused. Takes the named part over.
    fn settle(&mut self, call: &str, slot: u32, answer: Told) -> Result<(), Difference> {
        let accepted = answer.reason() == 0;
        let kept = if accepted {
            self.area.is_but_for(&self.copy, slot as usize)
        } else {
            self.area.is(&self.copy)
        };
        if !kept {
            return Err(format!(
                "{call} of slot {slot}, {answer:?}: changed what it must not"
            ));
        }
        if accepted {
            self.copy.take(&self.area, slot as usize);
        }
        Ok(())
    }

    fn clear(&mut self, size: AreaSize) -> Result<(), Difference> {
        let wanted = self.state(size, 0).err().unwrap_or(0);
        let floats = &mut self.area.floats.slice_mut()[..size.floats];
        let words = &mut self.area.words.slice_mut()[..size.words];
        let answer = told(lent::clear(floats, words));
        if answer == Told::Done {
            self.copy.floats.slice_mut()[..WORK_FLOATS].fill(0.0);
            self.copy.words.slice_mut()[..WORK_WORDS].fill(0);
        }
        same("clear", 0, answer, wanted)?;
        if self.area.is(&self.copy) {
            Ok(())
        } else {
            Err("clear: the area differs".to_string())
        }
    }

    fn open(
        &mut self,
        size: AreaSize,
        slot: u32,
        case: &Case,
        random: &mut Random,
    ) -> Result<(), Difference> {
        let (x, y, tolerance) = drawn_line(case, random);
        // A slot that is not open takes a line as any other does.
        let fresh = model::Slots::default().open(size, slot, &x, &y, tolerance);
        let wanted = match self.state(size, slot) {
            Ok(true) => 10,
            _ => told(fresh).reason(),
        };
        let floats = &mut self.area.floats.slice_mut()[..size.floats];
        let words = &mut self.area.words.slice_mut()[..size.words];
        let answer = told(lent::open(floats, words, Slot(slot), &x, &y, tolerance));
        same("open", slot, answer, wanted)?;
        self.settle("open", slot, answer)
    }

    fn step(&mut self, size: AreaSize, slot: u32) -> Result<(), Difference> {
        let wanted = self.reason(size, slot);
        let floats = &mut self.area.floats.slice_mut()[..size.floats];
        let words = &mut self.area.words.slice_mut()[..size.words];
        let answer = told(lent::step(floats, words, Slot(slot)));
        same("step", slot, answer, wanted)?;
        self.settle("step", slot, answer)
    }

    /// A read of an open slot may list what it likes within the output, or give 7.
    fn read(&mut self, size: AreaSize, slot: u32, random: &mut Random) -> Result<(), Difference> {
        let wanted = self.reason(size, slot);
        let before: Lent<u32> = Lent::new(random.pick(&[0, 1, 40, POINTS]), random);
        let mut out = before.clone();
        let floats = &self.area.floats.slice()[..size.floats];
        let words = &self.area.words.slice()[..size.words];
        let answer = told(lent::read(floats, words, Slot(slot), out.slice_mut()));
        let short = wanted == 0 && answer.reason() == 7;
        if !short {
            same("read", slot, answer, wanted)?;
        }
        let listed = match answer {
            Told::Count(count) => count as usize,
            _ => 0,
        };
        let within = listed <= out.slice().len();
        if within && out.is_but_for(&before, 0..listed) && self.area.is(&self.copy) {
            Ok(())
        } else {
            Err(format!(
                "read of slot {slot}, {answer:?}: changed what it must not"
            ))
        }
    }

    fn close(&mut self, size: AreaSize, slot: u32) -> Result<(), Difference> {
        let wanted = self.reason(size, slot);
        let floats = &mut self.area.floats.slice_mut()[..size.floats];
        let words = &mut self.area.words.slice_mut()[..size.words];
        let answer = told(lent::close(floats, words, Slot(slot)));
        same("close", slot, answer, wanted)?;
        if answer == Told::Done && !self.area.is_zero_in(slot as usize) {
            return Err(format!("close of slot {slot}: its part is not zero"));
        }
        self.settle("close", slot, answer)
    }
}

fn same(call: &str, slot: u32, answer: Told, wanted: u32) -> Result<(), Difference> {
    if answer.reason() == wanted {
        Ok(())
    } else {
        Err(format!(
            "{call} of slot {slot}: answered {answer:?}, wanted reason {wanted}"
        ))
    }
}
