//! What the player is compared on.

use crate::Lent;
use crate::build::{Circuit, Script, bytes_of};
use crate::class::{ClassAnswer, Held, call, class};
use crate::hours::{self, Named};
use crate::size::{self, Figures};

/// A circuit with its script and the bytes lent for it.
#[derive(Clone, Debug)]
pub struct Case {
    pub name: String,
    pub shows: String,
    pub circuit: Vec<u8>,
    pub script: Vec<u8>,
    pub lent: Lent,
    /// The places where a port goes wrong (docs/CIRCUITS.md) that it tells.
    pub trap: Vec<u8>,
}

impl Case {
    pub fn new(name: impl Into<String>, shows: impl Into<String>, c: &Circuit, s: &Script) -> Self {
        Self::of_bytes(name, shows, c.bytes(), s.bytes())
    }

    pub fn of_words(
        name: impl Into<String>,
        shows: impl Into<String>,
        circuit: &[i64],
        script: &[i64],
    ) -> Self {
        Self::of_bytes(name, shows, bytes_of(circuit), bytes_of(script))
    }

    pub fn of_bytes(
        name: impl Into<String>,
        shows: impl Into<String>,
        circuit: Vec<u8>,
        script: Vec<u8>,
    ) -> Self {
        Case {
            name: name.into(),
            shows: shows.into(),
            circuit,
            script,
            lent: Lent::default(),
            trap: Vec::new(),
        }
    }

    /// The case as one that tells these places.
    pub fn tells(mut self, trap: &[u8]) -> Self {
        self.trap = trap.to_vec();
        self
    }

    /// The case with a log of this many bytes.
    pub fn log(mut self, bytes: usize) -> Self {
        self.lent.log = bytes;
        self
    }

    /// The case with delays of this many bytes.
    pub fn delays(mut self, bytes: usize) -> Self {
        self.lent.delays = bytes;
        self
    }
}

/// A circuit with a book of scripts and what is lent for both.
#[derive(Clone, Debug)]
pub struct Class {
    pub name: String,
    pub shows: String,
    pub circuit: Vec<u8>,
    pub book: Vec<u8>,
    pub lent: Lent,
    /// Words lent for what is told.
    pub told: usize,
}

impl Class {
    /// A class with what each of 16 scripts is told.
    pub fn new(name: impl Into<String>, shows: impl Into<String>, circuit: Vec<u8>, book: Vec<u8>) -> Self {
        let (name, shows) = (name.into(), shows.into());
        Class { name, shows, circuit, book, lent: Lent::default(), told: 48 }
    }

    pub fn answer(&self) -> ClassAnswer {
        class(&self.circuit, &self.book, &self.lent)
    }

    /// The number answered, and what is left of what was lent with this byte
    /// everywhere.
    pub fn call(&self, byte: u8) -> (u8, Held) {
        call(&self.circuit, &self.book, Held::filled(&self.lent, self.told, byte))
    }
}

/// A circuit with a finished log, what is named of it, and what is lent.
#[derive(Clone, Debug)]
pub struct Report {
    pub name: String,
    pub shows: String,
    pub circuit: Vec<u8>,
    pub log: Vec<u8>,
    pub named: Named,
    /// Bytes lent for the report.
    pub room: usize,
    /// Words lent for what is told.
    pub told: usize,
}

impl Report {
    /// A report with room for more than any has, and for two words told.
    pub fn new(
        name: impl Into<String>,
        shows: impl Into<String>,
        circuit: Vec<u8>,
        log: Vec<u8>,
        named: Named,
    ) -> Self {
        let (name, shows) = (name.into(), shows.into());
        Report { name, shows, circuit, log, named, room: 6_000, told: 2 }
    }

    /// The bytes of the report, or the number of the refusal.
    pub fn answer(&self) -> Result<Vec<u8>, u8> {
        hours::hours(&self.circuit, &self.log, &self.named, self.room)
    }

    /// The number answered, and what is left of what was lent with this byte
    /// everywhere.
    pub fn call(&self, byte: u8) -> (u8, hours::Held) {
        let before = hours::Held::filled(self.room, self.told, byte);
        hours::call(&self.circuit, &self.log, &self.named, before)
    }
}

/// A circuit with so many ticks, and the words lent for both figures.
#[derive(Clone, Debug)]
pub struct Size {
    pub name: String,
    pub shows: String,
    pub circuit: Vec<u8>,
    pub ticks: u64,
    /// Words lent for what is told.
    pub told: usize,
}

impl Size {
    /// A size for ten ticks, with a word more than is told.
    pub fn new(name: impl Into<String>, shows: impl Into<String>, circuit: Vec<u8>) -> Self {
        let (name, shows) = (name.into(), shows.into());
        Size { name, shows, circuit, ticks: 10, told: 3 }
    }

    /// Both figures, or the number of the refusal.
    pub fn answer(&self) -> Result<Figures, u8> {
        size::size(&self.circuit, self.ticks)
    }

    /// The number answered, and what is left of words that had this byte
    /// everywhere.
    pub fn call(&self, byte: u8) -> (u8, Vec<u64>) {
        size::call(&self.circuit, self.ticks, vec![u64::from_le_bytes([byte; 8]); self.told])
    }
}
