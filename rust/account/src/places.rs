//! Where buffers are kept with their books: two slots and the saved state. What a slot said of a
//! frame, and does not say any more when its buffer is replaced, is noted with the call that did it,
//! and so is a balance that did not hold.

use std::collections::BTreeMap;

use galumper::Buffer;

use crate::balance::Balance;
use crate::book::{Book, Offering};
use crate::kept::{Kept, Outcome};

/// A place for a buffer.
#[derive(Clone, Copy, Debug, PartialEq, Eq)]
pub enum Place {
    /// A slot, from 1.
    Slot(usize),
    /// The saved state.
    Saved,
}

/// A frame of which a book that was replaced said what is not said any more.
#[derive(Clone, Debug, PartialEq, Eq)]
pub struct Vanished {
    /// The frame.
    pub offering: Offering,
    /// What had become of it.
    pub outcome: Outcome,
    /// Whether the frame is still told of, and something else is said.
    pub undone: bool,
}

/// A buffer that a call put another in place of, and what vanished with it.
#[derive(Clone, Debug)]
pub struct Replaced {
    /// Where it was.
    pub place: Place,
    /// The name of the call.
    pub call: &'static str,
    /// The line of the call.
    pub line: usize,
    /// What vanished.
    pub vanished: Vec<Vanished>,
    /// The balance of the buffer as it was then.
    pub balance: Balance,
}

/// The saved state, and the slot and the line that it was saved at.
#[derive(Clone, Debug)]
pub struct Saved {
    /// The state with its book.
    pub kept: Kept,
    /// The slot, from 1.
    pub slot: usize,
    /// The line.
    pub line: usize,
}

/// All places of a script.
#[derive(Clone, Debug, Default)]
pub struct Places {
    slots: [Option<Kept>; 2],
    /// The index of the slot in use.
    in_use: usize,
    saved: Option<Saved>,
    /// Buffers that were replaced, where something vanished with them or their balance did not hold.
    pub replaced: Vec<Replaced>,
}

impl Places {
    /// Takes a slot in use, by its index.
    pub fn take_in_use(&mut self, index: usize) {
        self.in_use = index;
    }

    /// The number of the slot in use.
    pub fn slot(&self) -> usize {
        self.in_use + 1
    }

    /// The buffer in the slot in use.
    pub fn kept(&mut self) -> Option<&mut Kept> {
        self.slots[self.in_use].as_mut()
    }

    /// The buffers in the slots, with the numbers of these.
    pub fn in_slots(&self) -> impl Iterator<Item = (usize, &Kept)> {
        let slots = (1..).zip(&self.slots);
        slots.filter_map(|(slot, kept)| Some((slot, kept.as_ref()?)))
    }

    /// The saved state, if it has frames that no slot has.
    pub fn only_saved(&self) -> Option<&Saved> {
        let elsewhere = Said::by(self.in_slots().map(|(_, kept)| kept));
        self.saved.as_ref().filter(|saved| {
            let mut offered = saved.kept.book.offered.iter();
            offered.any(|offering| !elsewhere.has(offering))
        })
    }

    /// Puts a fresh buffer into the slot in use.
    pub fn create(&mut self, buffer: Box<Buffer>, line: usize) {
        let book = Book::created(line);
        self.put(Kept { buffer, book }, "create", line);
    }

    /// Puts the saved state into the slot in use; nothing if there is none.
    pub fn restore(&mut self, line: usize) -> Option<()> {
        let mut kept = self.saved.as_ref()?.kept.clone();
        kept.book.restored = Some(line);
        self.put(kept, "restore", line);
        Some(())
    }

    /// Saves the state of the slot in use; nothing if there is none.
    pub fn save(&mut self, line: usize) -> Option<()> {
        let kept = self.kept()?.clone();
        let slot = self.slot();
        let old = self.saved.replace(Saved { kept, slot, line });
        if let Some(old) = old {
            let vanished = self.vanished_from_saved(&old.kept);
            self.note(Place::Saved, &old.kept, vanished, "save", line);
        }
        Some(())
    }

    fn put(&mut self, kept: Kept, call: &'static str, line: usize) {
        let said = Said::by([&kept]);
        let old = self.slots[self.in_use].replace(kept);
        if let Some(old) = old {
            let vanished = said.vanished(&old);
            self.note(Place::Slot(self.slot()), &old, vanished, call, line);
        }
    }

    /// Notes a buffer that was replaced, if there is anything to tell of it.
    fn note(
        &mut self,
        place: Place,
        old: &Kept,
        vanished: Vec<Vanished>,
        call: &'static str,
        line: usize,
    ) {
        let balance = old.balance();
        if vanished.is_empty() && balance.holds() {
            return;
        }
        self.replaced.push(Replaced {
            place,
            call,
            line,
            vanished,
            balance,
        });
    }

    /// What vanishes with a saved state. It was shown to nobody, so that where another book has a
    /// frame which it held, nothing does.
    fn vanished_from_saved(&self, old: &Kept) -> Vec<Vanished> {
        let saved = self.saved.iter().map(|saved| &saved.kept);
        let said = Said::by(self.in_slots().map(|(_, kept)| kept).chain(saved));
        let mut vanished = said.vanished(old);
        vanished.retain(|row| !row.undone || row.outcome != Outcome::Held);
        vanished
    }
}

/// What some books say of their frames. A frame is known by its line: its number may be another's
/// too, after a restore.
struct Said(BTreeMap<usize, Vec<Outcome>>);

impl Said {
    fn by<'k>(buffers: impl IntoIterator<Item = &'k Kept>) -> Self {
        let mut said: BTreeMap<usize, Vec<Outcome>> = BTreeMap::new();
        for (offering, outcome) in buffers.into_iter().flat_map(Kept::outcomes) {
            said.entry(offering.line).or_default().push(outcome);
        }
        Self(said)
    }

    /// Whether a book has the frame.
    fn has(&self, offering: &Offering) -> bool {
        self.0.contains_key(&offering.line)
    }

    /// Whether a book has the frame and says this of it.
    fn says(&self, offering: &Offering, outcome: &Outcome) -> bool {
        let said = self.0.get(&offering.line);
        said.is_some_and(|outcomes| outcomes.contains(outcome))
    }

    /// What another buffer's book says and these do not.
    fn vanished(&self, old: &Kept) -> Vec<Vanished> {
        let outcomes = old.outcomes().into_iter();
        outcomes
            .filter(|(offering, outcome)| !self.says(offering, outcome))
            .map(|(offering, outcome)| Vanished {
                undone: self.has(&offering),
                offering,
                outcome,
            })
            .collect()
    }
}
