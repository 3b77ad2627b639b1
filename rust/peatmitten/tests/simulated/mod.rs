//! A simulated storage, and a part over it: what is written does not last until it is waited for, and a cut leaves the worst that docs/STORAGE.md
//! allows. For the crate's own test and for `rust/compare`.

use std::cell::RefCell;
use std::collections::BTreeSet;

use peatmitten::{Part, Table, TABLE_WORDS};

/// The power is gone.
#[derive(Clone, Copy, Debug, PartialEq, Eq)]
pub struct Cut;

/// A slot: its words, what it held when the power came or when it last lasted, whether the words last, and whether they were written and not
/// waited for since.
#[derive(Clone)]
pub struct Slot {
    pub words: Box<Table>,
    before: Box<Table>,
    pub lasts: bool,
    due: bool,
}

impl Slot {
    fn new(words: Box<Table>, lasts: bool) -> Slot {
        Slot { before: words.clone(), words, lasts, due: false }
    }

    pub fn fill(&mut self, words: &Table) {
        *self.words = words.clone();
        (self.lasts, self.due) = (false, true);
    }

    fn wait(&mut self) {
        if self.due {
            self.before = self.words.clone();
            (self.lasts, self.due) = (true, false);
        }
    }

    /// What a cut leaves: its words where they last; else old, new, mixed or any words, as is picked.
    fn cut(&self, pick: &mut dyn FnMut(usize) -> usize) -> Slot {
        if self.lasts {
            return Slot::new(self.words.clone(), true);
        }
        let words = match pick(4) {
            0 => self.before.clone(),
            1 => self.words.clone(),
            2 => {
                let mut mixed = *self.before.words();
                mixed[..TABLE_WORDS / 2].copy_from_slice(&self.words.words()[..TABLE_WORDS / 2]);
                Box::new(Table::from_words(mixed))
            }
            _ => Box::new(Table::from_words([0xa5a5_a5a5_a5a5_a5a5; TABLE_WORDS])),
        };
        Slot::new(words, false)
    }
}

/// What is kept while the power is off, and the highest edition that was told.
#[derive(Clone)]
pub struct Storage {
    /// What reading the mark gives.
    pub mark: u32,
    /// What else it may give after a cut.
    pub wavers: BTreeSet<u32>,
    /// Whether the mark was written and not waited for since.
    due: bool,
    pub slots: [Slot; 2],
    pub told: Option<u32>,
}

impl Storage {
    /// As a terminal leaves its factory, without zones; the other slot may hold anything.
    pub fn new(mark: u32) -> Storage {
        let slot = |slot| Slot::new(Box::new(Table::new()), slot == mark % 2);
        Storage { mark, wavers: BTreeSet::new(), due: false, slots: [slot(0), slot(1)], told: None }
    }

    fn write_mark(&mut self, mark: u32) {
        self.wavers.insert(self.mark);
        (self.mark, self.due) = (mark, true);
    }

    /// What was written lasts; waiting does nothing for what was not.
    fn wait(&mut self) {
        if self.due {
            self.wavers.clear();
        }
        self.due = false;
        self.slots.iter_mut().for_each(Slot::wait);
    }

    pub fn tell(&mut self, edition: u32) {
        self.told = self.told.max(Some(edition));
    }

    /// What a cut leaves: the mark as any that it may be read as, now the one and at another time the other; and the slots. `pick` is given how
    /// many ways there are, and says which.
    pub fn cut(&self, pick: &mut dyn FnMut(usize) -> usize) -> Storage {
        let mut readings = self.wavers.clone();
        readings.insert(self.mark);
        let picked = if readings.len() == 1 { 0 } else { pick(readings.len()) };
        let mark = readings.iter().copied().nth(picked).unwrap_or(self.mark);
        readings.remove(&mark);
        let [first, second] = &self.slots;
        let slots = [first.cut(pick), second.cut(pick)];
        Storage { mark, wavers: readings, due: false, slots, told: self.told }
    }
}

/// A part over a storage, whose power is cut after so many acts.
pub struct Powered<'a> {
    pub storage: &'a RefCell<Storage>,
    pub acts: usize,
}

impl Powered<'_> {
    /// One act less. The power may be cut before it.
    pub fn act(&mut self) -> Result<(), Cut> {
        self.acts = self.acts.checked_sub(1).ok_or(Cut)?;
        Ok(())
    }
}

impl Part for Powered<'_> {
    type Fault = Cut;

    fn write_words(&mut self, slot: usize, table: &Table) -> Result<(), Cut> {
        self.act()?;
        self.storage.borrow_mut().slots[slot].fill(table);
        Ok(())
    }

    fn write_mark(&mut self, mark: u32) -> Result<(), Cut> {
        self.act()?;
        self.storage.borrow_mut().write_mark(mark);
        Ok(())
    }

    fn wait(&mut self) -> Result<(), Cut> {
        self.act()?;
        self.storage.borrow_mut().wait();
        Ok(())
    }
}
