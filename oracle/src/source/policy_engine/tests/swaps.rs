//! Runs of VCONN swaps, one after the other: each asked for by anyone who can, anything that may come between, and each end.

use super::engine::{Engine, Status};
use super::trace::{self, Event, Header, RE_ENTRY};

/// The sink's VCONN_Swap, and the event by which the device policy manager asks for one.
pub const SINK_ASKS: Event = Event::new(5, 3, 11);
pub const MANAGER_ASKS: Event = Event::new(9, 6, 0);

pub const DONE: Event = Event::new(1, 0, 0);
pub const ACCEPT: Event = Event::new(5, 3, 3);
pub const PS_RDY: Event = Event::new(5, 3, 6);
pub const YES: Event = Event::new(8, 1, 0);
const HARD_RESET: Event = Event::new(2, 0, 0);
const TIMEOUT: Event = Event::new(2, 1, 0);
const DPM_FAILED: Event = Event::new(3, 0, 0);
const NO: Event = Event::new(8, 0, 0);
const WAIT: Event = Event::new(5, 3, 12);

/// The event that leads on to Ready, by way of everything that a VCONN swap or Startup awaits; none in Ready and at the end.
pub fn leading_on(engine: &Engine) -> Option<Event> {
    match engine.status {
        Status::Waiting(awaited) => match (awaited.number, awaited.argument) {
            (11, _) => None,
            // Capabilities are not sent: so a re-entry leads to Ready, and no contract is made.
            (4, _) => Some(TIMEOUT),
            (17, 5) => Some(PS_RDY),
            (17, _) => Some(ACCEPT),
            (23, _) => Some(YES),
            _ => Some(DONE),
        },
        Status::Stopped => Some(Event::new(RE_ENTRY, 2, 0)),
        Status::HandedOver => Some(Event::new(RE_ENTRY, 2, 2)),
        Status::Finished => None,
    }
}

/// A run that is being made.
struct Run {
    engine: Engine,
    events: Vec<Event>,
}

impl Run {
    fn take(&mut self, events: &[Event]) {
        for event in events {
            self.engine.take(event);
            self.events.push(*event);
        }
    }

    /// Go on to Ready, or to where one of these actions is awaited.
    fn go_on(&mut self, actions: &[(u8, u8)]) {
        let is_there = |engine: &Engine| match engine.status {
            Status::Waiting(awaited) => actions.contains(&(awaited.number, awaited.argument)),
            _ => false,
        };
        while let Some(event) = leading_on(&self.engine).filter(|_| !is_there(&self.engine)) {
            self.take(&[event]);
        }
    }
}

/// A part of a run. It begins in Ready, and unless it ends the run it comes back there.
type Part = fn(&mut Run);

const SWAPS: [Part; 3] = [
    |run| run.take(&[SINK_ASKS]),
    |run| run.take(&[MANAGER_ASKS]),
    // EPR_Mode Enter, or Exit where the mode is entered: handed over, and the host then asks for the swap.
    |run| run.take(&[Event::with_word(2, if run.engine.is_epr() { 5 } else { 1 } << 24), Event::new(RE_ENTRY, 10, 0)]),
];

const BETWEEN: [Part; 6] = [
    |_| {},
    |run| run.take(&[SINK_ASKS, NO]),
    |run| run.take(&[MANAGER_ASKS, DONE, WAIT]),
    // PS_RDY does not come, or is not sent once VCONN is on.
    |run| {
        run.take(&[MANAGER_ASKS]);
        run.go_on(&[(17, 5), (8, 6)]);
        run.take(&[TIMEOUT]);
    },
    |run| run.take(&[HARD_RESET, Event::new(RE_ENTRY, 3, 0)]),
    |run| run.take(&[HARD_RESET, Event::new(RE_ENTRY, 9, 0)]),
];

/// The run just ends, or VCONN cannot be driven: in a swap, off in a Hard Reset, on in a Hard Reset.
const ENDS: [Part; 4] = [
    |_| {},
    |run| {
        run.take(&[SINK_ASKS]);
        run.go_on(&[(14, 0), (14, 1)]);
        run.take(&[DPM_FAILED, DONE]);
    },
    |run| {
        run.take(&[HARD_RESET, Event::new(RE_ENTRY, 4, 0)]);
        run.go_on(&[(14, 0)]);
        run.take(&[DPM_FAILED, DONE]);
    },
    |run| {
        run.take(&[HARD_RESET, Event::new(RE_ENTRY, 4, 0)]);
        run.go_on(&[(14, 1)]);
        run.take(&[DPM_FAILED, DONE]);
    },
];

/// All runs of so many swaps on a port, each with so many of the four ends: if not with all, the runs take turns.
pub fn runs(header: Header, swaps: usize, ends: usize) -> Vec<Vec<u8>> {
    let mut ways: Vec<Vec<Part>> = SWAPS.map(|swap| vec![swap]).into();
    for _ in 1..swaps {
        let longer = |way: &Vec<Part>| BETWEEN.map(|between| SWAPS.map(|swap| [&way[..], &[between, swap]].concat()));
        ways = ways.iter().flat_map(longer).flatten().collect();
    }
    let runs = ways.iter().enumerate().flat_map(|(turn, way)| {
        let ends = (turn..turn + ends).map(|turn| ENDS[turn % ENDS.len()]);
        ends.map(|end| run(header, way, end))
    });
    runs.collect()
}

fn run(header: Header, way: &[Part], end: Part) -> Vec<u8> {
    let (engine, _) = Engine::create(header).expect("a limit that the crate has");
    let mut run = Run { engine, events: Vec::new() };
    run.go_on(&[]);
    for part in way {
        part(&mut run);
        run.go_on(&[]);
    }
    end(&mut run);
    trace::file(header, &run.events)
}
