//! What the two programs have to print for a trace, by the Rust.

use super::engine::{Answer, Engine};
use super::kinds::{self, Kind};
use super::setting::{Alone, Branch, Writes, corrected};
use super::trace::{Event, Header, MESSAGE};
use super::{places, words};
use crate::protocol_layer::script::Action;

/// The texts of the entries of a trace.
#[derive(Default)]
pub struct Expected {
    pub listing: Vec<String>,
    pub explanation: Vec<String>,
    /// False if the run left the domain, and the rest is not compared.
    pub complete: bool,
    /// Entries at which document 01 stands in for a panic of the Rust.
    pub panics: usize,
    /// Entries beyond document 01's domain.
    pub beyond: usize,
    /// Entries after a data role that the harness wrote.
    pub swapped: usize,
    /// Entries under "standard"; those after a `vconn_source` that the harness changed, and those at which it is another than that of the creation.
    pub standard: usize,
    pub vconn_written: usize,
    pub vconn_swapped: usize,
    /// What the harness wrote there.
    pub vconn_writes: Writes,
    /// Those of them at which it has another text than the Rust alone, beside the value of `vconn_source`.
    pub departures: Vec<Departure>,
    /// The place of each event that was compared, and its kind.
    pub pairs: Vec<(String, Kind)>,
}

/// What the setting makes of an entry.
#[derive(Clone, Copy)]
pub enum By {
    Give,
    Branch(Branch),
}

/// An entry that is not that of the Rust alone, and what that would be.
pub struct Departure {
    pub number: usize,
    pub by: By,
    listed: String,
    explained: String,
}

impl Departure {
    /// The text of the Rust alone, as this program would print it.
    pub fn own(&self, program: &str) -> &str {
        match program {
            "list" => &self.listed,
            _ => &self.explained,
        }
    }
}

impl Expected {
    fn push(&mut self, (listed, explained): (String, String)) {
        self.listing.push(listed);
        self.explanation.push(explained);
    }

    fn entry(&mut self, answer: Answer, met: bool, engine: &Engine, alone: Option<Alone>) {
        self.beyond += usize::from(!engine.in_domain);
        self.swapped += usize::from(engine.role_written);
        self.standard += usize::from(engine.header().standard());
        self.vconn_written += usize::from(engine.vconn_writes.changed());
        self.vconn_swapped += usize::from(engine.vconn_swapped());
        let number = self.listing.len();
        let texts = |engine: &Engine, actions: &[Action]| {
            (words::listed(number, answer, engine, actions), words::explained(number, answer, met, engine, actions))
        };
        let own = texts(engine, &engine.actions);
        if let Some(actions) = corrected(answer, engine) {
            self.push(texts(engine, &actions));
            self.depart(By::Give, own);
        } else {
            self.push(own);
        }
        let branch = alone.as_ref().and_then(|alone| Some((alone, alone.branch(answer, engine)?)));
        if let Some((alone, branch)) = branch {
            self.depart(By::Branch(branch), texts(&alone.engine, &alone.engine.actions));
        }
    }

    /// Take the next event of a file. False where nothing behind it is compared.
    fn event(&mut self, engine: &mut Engine, bytes: &[u8]) -> bool {
        let number = self.listing.len();
        if bytes.len() < 12 {
            self.push(words::malformed(number, "partial event"));
            return false;
        }
        let Some(event) = Event::read(bytes) else {
            self.push(words::malformed(number, "bad event"));
            return false;
        };
        let pair = (places::name(engine), kinds::kind(&event));
        let met = event.code == MESSAGE && engine.in_ready();
        let alone = Alone::take(engine, &event);
        let Some(answer) = engine.take(&event) else {
            self.complete = false;
            return false;
        };
        self.pairs.push(pair);
        self.entry(answer, met, engine, alone);
        true
    }

    /// The last entry is not that of the Rust alone, which would have these texts.
    fn depart(&mut self, by: By, (listed, explained): (String, String)) {
        self.departures.push(Departure { number: self.listing.len() - 1, by, listed, explained });
    }
}

/// Run a trace file.
pub fn run(file: &[u8]) -> Expected {
    let mut expected = Expected { complete: true, ..Expected::default() };
    let Some(header) = Header::read(file) else {
        expected.push(words::malformed(0, "bad header"));
        return expected;
    };
    if header.is_refused() {
        expected.push(words::refused_creation());
        return expected;
    }
    let Some((mut engine, answer)) = Engine::create(header) else {
        expected.complete = false;
        return expected;
    };
    expected.entry(answer, false, &engine, None);
    for bytes in file[8..].chunks(12) {
        if !expected.event(&mut engine, bytes) {
            break;
        }
    }
    expected.panics = engine.panics;
    expected.vconn_writes = engine.vconn_writes;
    expected
}
