//! The limits of document 01 (stop 12), the units begun in a tick with the steps
//! that each caused (document 02, K12), and the narrowings that changed their
//! number (K9).

use std::cell::Cell;

use super::witness::Witness;
use super::{Activation, Machine};
use crate::SimError;
use crate::graph::GateId;

/// The most entries of pending, late, carried, forks and chain stack, each.
pub(super) const LIST: usize = 256;
/// The most delivered events.
pub(super) const DELIVERED: usize = 64;
/// The most fires of a buffer.
pub(super) const FIRES: usize = 32;
/// The most units of a tick.
const UNITS: usize = 1_024;

/// What a tick has begun, and what its ranked lists hold.
#[derive(Default)]
pub(super) struct Tally {
    /// Entries of `pending` over all ranks.
    pub(super) pending: usize,
    /// Entries of `late` over all ranks.
    pub(super) late: usize,
    /// Calls found and not yet made, of the chain and of every body that runs
    /// inside it: document 02's one chain stack (K5).
    pub(super) stack: usize,
    /// Gate and form of each unit begun, in the order begun.
    pub(super) begun: Vec<(GateId, u16)>,
    /// The steps of the tick when each of them began.
    pub(super) begun_at: Vec<u64>,
    /// How many of them the late pass began.
    pub(super) late_units: usize,
    /// A list would have passed its limit.
    pub(super) passed: bool,
    /// The tick's narrowings that changed their number; `countdown` of the
    /// source counts here and only borrows the machine.
    pub(super) changed: Cell<usize>,
    /// What the units saw when they began, if that is looked at.
    pub(super) witness: Option<Witness>,
}

impl Tally {
    pub(super) fn next_tick(&mut self) {
        self.stack = 0;
        self.begun.clear();
        self.begun_at.clear();
        self.late_units = 0;
        self.changed.set(0);
    }

    /// The source narrows `x` here. It counts if the hardware's f32 is not equal
    /// to it, unless the tick is to stop: what follows a full list is not made.
    pub(super) fn narrow(&self, x: f64) {
        if !self.passed && f64::from(x as f32) != x {
            self.changed.set(self.changed.get() + 1);
        }
    }

    /// Whether a list of `held` entries takes one more.
    pub(super) fn room(&mut self, held: usize, limit: usize) -> bool {
        self.passed |= held >= limit;
        held < limit
    }

    pub(super) fn raise_late(&mut self) -> bool {
        let room = self.room(self.late, LIST);
        self.late += usize::from(room);
        room
    }

    pub(super) fn raise_pending(&mut self) -> bool {
        let room = self.room(self.pending, LIST);
        self.pending += usize::from(room);
        room
    }

    /// An output's calls are on the forks, which are so many now, and on the
    /// chain stack, so many of them.
    pub(super) fn hold(&mut self, forks: usize, found: usize) {
        self.stack += found;
        self.passed |= forks > LIST || self.stack > LIST;
    }

    /// The source has come to a place that the questions leave no way to.
    pub(super) fn never(&self, why: &str) {
        unreachable!("{why}");
    }
}

impl Machine {
    /// The unit joins the units begun, unless they are at their limit.
    pub(super) fn begin(&mut self, g: GateId, act: &Activation) -> Result<(), SimError> {
        if self.tally.room(self.tally.begun.len(), UNITS) {
            self.tally.begun.push((g, form(act)));
            self.tally.begun_at.push(self.steps);
            self.tally.late_units += usize::from(self.in_late);
            self.look_first();
        }
        self.within_limits()
    }

    /// The stop of the tick once a list would have passed its limit.
    pub(super) fn within_limits(&self) -> Result<(), SimError> {
        if self.tally.passed {
            return Err(self.error(0, "a list would pass its limit"));
        }
        Ok(())
    }
}

/// The form the log shows.
pub(super) fn form(act: &Activation) -> u16 {
    match act {
        Activation::Fire => 0,
        Activation::Event(_) => 1,
        Activation::World(..) => 2,
        Activation::Pin(pin) => 16 + pin,
        Activation::Output(output) => 32 + output,
    }
}
