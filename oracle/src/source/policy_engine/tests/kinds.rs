//! Kinds of events: what coverage is counted by, and one event of each kind.

use super::trace::{Event, RE_ENTRY};

/// A kind by the event's code and a number of its own under that code.
pub type Kind = (u8, u8);

/// The words of the requests, with the bits at both ends set, so that a lost one shows.
pub const WORD: u32 = 0xb105_d12d;
pub const SECOND: u32 = 0xa5c3_0f1f;

/// The kind of an event.
pub fn kind(event: &Event) -> Kind {
    let sub = match event.code {
        2 => event.a.min(3),
        5 => message_kind(event),
        6..=10 => event.a,
        RE_ENTRY => event.a.min(12) * 4 + event.b.min(3) as u8,
        _ => 0,
    };
    (event.code, sub)
}

fn message_kind(event: &Event) -> u8 {
    match event.a {
        0 => event.b as u8,
        1 => 10 + event.b as u8,
        2 => 20 + epr_mode_kind(event),
        3 => 32 + event.b as u8,
        4 => 70 + extended_kind(event),
        5 => 80,
        6 => 82 + event.b as u8,
        _ => 84 + event.b as u8,
    }
}

fn epr_mode_kind(event: &Event) -> u8 {
    match (event.b, event.words[0] >> 24) {
        (0, _) => 0,
        (_, 1) => 1,
        (_, 5) => 2,
        (_, 2..=4) => 3,
        _ => 4,
    }
}

fn extended_kind(event: &Event) -> u8 {
    match (event.b, event.words[0]) {
        (0, _) => 0,
        (_, number @ 1..=4) => number as u8,
        _ => 5,
    }
}

/// One event of each kind.
pub fn all() -> Vec<Event> {
    let mut events = vec![Event::new(1, 0, 0), Event::new(3, 0, 0), Event::new(4, 0, 0)];
    events.extend([0, 1, 2, 5].map(|number| Event::new(2, number, 0)));
    events.extend(messages());
    for (code, numbers) in [(6, 0..=5), (7, 0..=2), (8, 0..=1), (9, 0..=8), (10, 1..=3)] {
        events.extend(numbers.map(|number| Event::new(code, number, 0)));
    }
    for target in 0..=12 {
        events.extend((0..=3).map(|change| Event::new(RE_ENTRY, target, change)));
    }
    events
}

fn messages() -> Vec<Event> {
    let mut events = Vec::new();
    for class in [0, 1] {
        events.push(Event::new(5, class, 0));
        events.extend((0..=5).map(|kind| Event::request(class, kind, [WORD, SECOND])));
    }
    events.push(Event::new(5, 2, 0));
    events.extend([1, 5, 3, 6].map(|action| Event::with_word(2, action << 24)));
    events.extend((0..=31).map(|number| Event::new(5, 3, number)));
    events.push(Event::new(5, 4, 0));
    events.extend([1, 2, 3, 4, 9].map(|number| Event::with_word(4, number)));
    events.push(Event::new(5, 5, 0));
    for class in [6, 7] {
        events.extend([Event::new(5, class, 0), Event::new(5, class, 1)]);
    }
    events
}

/// The small alphabet of the exhaustive runs: what leads to different places.
pub fn alphabet() -> Vec<Event> {
    let mut events = vec![
        Event::new(1, 0, 0),
        Event::new(2, 0, 0),
        Event::new(2, 1, 0),
        Event::new(2, 7, 0),
        Event::new(3, 0, 0),
        Event::request(0, 2, [WORD, 0]),
        Event::request(0, 4, [WORD, 0]),
        Event::request(1, 5, [WORD, SECOND]),
        Event::with_word(2, 1 << 24),
        Event::with_word(2, 5 << 24),
        Event::with_word(4, 1),
        Event::with_word(4, 2),
        Event::with_word(4, 3),
        Event::new(5, 6, 1),
        Event::new(5, 7, 1),
        Event::new(6, 0, 0),
        Event::new(6, 4, 0),
        Event::new(8, 0, 0),
        Event::new(8, 1, 0),
    ];
    events.extend([3, 4, 6, 7, 9, 11, 12, 13, 16, 19].map(|number| Event::new(5, 3, number)));
    events.extend([0, 1, 2].map(|number| Event::new(7, number, 0)));
    events.extend([1, 2, 3, 6, 7].map(|number| Event::new(9, number, 0)));
    events.extend([1, 2, 3].map(|number| Event::new(10, number, 0)));
    events.extend([(0, 0), (1, 0), (2, 0), (2, 2), (3, 0), (5, 0), (9, 0), (10, 1)].map(|(a, b)| Event::new(RE_ENTRY, a, b)));
    events
}
