//! "The whole account": every frame offered is stored, dropped or removed, and that once.

use std::collections::BTreeMap;

use script::Call;
use second::State;

use crate::told::{batch, fates};

/// The frames of one buffer that no fate line has named, each with its track.
#[derive(Clone, Debug, Default)]
struct Account {
    offered: u32,
    living: BTreeMap<u32, u32>,
}

/// The accounts of a session, kept from the answers alone. A buffer into which something was
/// poked has none, as nobody offered what is in it.
#[derive(Debug, Default)]
pub(crate) struct Accounts {
    slots: [Option<Account>; 2],
    in_use: usize,
    saved: Option<Account>,
}

impl Accounts {
    /// Books an answer that is no refusal; tells a line that names a frame not there.
    pub(crate) fn book(&mut self, call: &str, answer: &str) -> Result<(), String> {
        let slot = &mut self.slots[self.in_use];
        match Call::read(call) {
            Some(Call::Create(_)) => *slot = Some(Account::default()),
            Some(Call::Buffer(number)) => self.in_use = number,
            Some(Call::Save) => self.saved = slot.clone(),
            Some(Call::Restore) => *slot = self.saved.clone(),
            Some(Call::Poke(_)) => *slot = None,
            Some(Call::Append(offered, _)) => {
                if let Some(account) = slot {
                    account.open(offered.track);
                    account.close(answer)?;
                }
            }
            Some(Call::Batch(frames, _)) => {
                if let Some(account) = slot {
                    let (accepted, _) = batch(answer).unwrap_or_default();
                    for frame in frames.iter().take(accepted) {
                        account.open(frame.track);
                    }
                    account.close(answer)?;
                }
            }
            Some(Call::Remove(..)) => {
                if let Some(account) = slot {
                    account.close(answer)?;
                }
            }
            _ => {}
        }
        Ok(())
    }

    /// Whether nothing was poked into the buffer in use, so that calls alone led to its state.
    pub(crate) fn is_by_calls(&self) -> bool {
        self.slots[self.in_use].is_some()
    }

    /// Whether the frames without a fate line are those stored, if there is an account of them.
    pub(crate) fn balances(&self, state: &State) -> Option<bool> {
        let account = self.slots[self.in_use].as_ref()?;
        let stored = state.frames[..state.frame_count].iter();
        let stored: BTreeMap<u32, u32> = stored.map(|frame| (frame.number, frame.track)).collect();
        Some(stored == account.living && state.head.last_number == account.offered)
    }
}

impl Account {
    /// A frame is offered and not refused, and takes the next number.
    fn open(&mut self, track: u32) {
        self.offered += 1;
        self.living.insert(self.offered, track);
    }

    fn close(&mut self, answer: &str) -> Result<(), String> {
        for (number, cause) in fates(answer) {
            if self.living.remove(&number).is_none() {
                return Err(format!("no frame for the line ({number},{cause})"));
            }
        }
        Ok(())
    }
}
