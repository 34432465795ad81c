//! The traces that are compared.

use std::collections::HashMap;

use super::engine::{Answer, Engine, Status};
use super::fits::fits;
use super::kinds;
use super::places::{self, Place, node};
use super::swaps;
use super::trace::{self, Event, Header, MAX_SIZE, RE_ENTRY};

/// Numbers that look random and are the same in every run (SplitMix64).
pub struct Random(pub u64);

impl Random {
    pub fn next(&mut self) -> u64 {
        self.0 = self.0.wrapping_add(0x9e37_79b9_7f4a_7c15);
        let mut z = self.0;
        z = (z ^ (z >> 30)).wrapping_mul(0xbf58_476d_1ce4_e5b9);
        z = (z ^ (z >> 27)).wrapping_mul(0x94d0_49bb_1331_11eb);
        z ^ (z >> 31)
    }

    /// A number below `bound`.
    pub fn below(&mut self, bound: usize) -> usize {
        (self.next() % bound as u64) as usize
    }

    fn pick<T: Copy>(&mut self, items: &[T]) -> T {
        items[self.below(items.len())]
    }
}

/// Whether the engine took an event, rather than refusing it or leaving the domain.
fn accepts(engine: &mut Engine, event: &Event) -> bool {
    !matches!(engine.take(event), None | Some(Answer::Refused(_)))
}

/// Each kind of event at a place. Those that leave the engine where it is share one trace, the others have one each. Each trace
/// ends with one more event, which shows what the record has become.
pub fn pairs(place: &Place) -> Vec<Vec<u8>> {
    let home = node(&place.engine);
    let mut traces = Vec::new();
    let mut chain = place.prefix.clone();
    for event in kinds::all() {
        let mut engine = place.engine.fork();
        let answer = engine.take(&event);
        let last = match answer {
            // Refused, but the mode might have been changed.
            Some(Answer::Refused(6)) => Event::new(RE_ENTRY, 2, 0),
            Some(_) if node(&engine) == home => {
                chain.push(event);
                continue;
            }
            _ => Event::new(1, 0, 0),
        };
        traces.push(trace::file(place.header, &[&place.prefix[..], &[event, last]].concat()));
    }
    chain.extend(places::successors(&place.engine, &kinds::all()).first().map(|(event, _)| event));
    traces.push(trace::file(place.header, &chain));
    traces
}

/// All runs of accepted events of the alphabet, to a depth, from a place. An event that leads back to where the engine stood is
/// not followed: the run after it is another run of the same depth less one.
pub fn exhaustive(place: &Place, depth: usize) -> Vec<Vec<u8>> {
    let mut traces = Vec::new();
    deepen(&place.engine, depth, &kinds::alphabet(), &mut place.prefix.clone(), &mut traces);
    traces
}

fn deepen(engine: &Engine, depth: usize, alphabet: &[Event], events: &mut Vec<Event>, traces: &mut Vec<Vec<u8>>) {
    let here = node(engine);
    let mut is_last = true;
    let successors = if depth > 0 { places::successors(engine, alphabet) } else { Vec::new() };
    for (event, next) in successors.iter().filter(|(_, next)| node(next) != here) {
        is_last = false;
        events.push(*event);
        deepen(next, depth - 1, alphabet, events, traces);
        events.pop();
    }
    if is_last {
        traces.push(trace::file(engine.header(), events));
    }
}

/// Each error number, each extended control type and each EPR_Mode action, at a place where it fits. Without `every`, a place to
/// which there is no short way back gets only the numbers at which something might change.
pub fn numbers(place: &Place, every: bool) -> Vec<Vec<u8>> {
    let error = |number: u32| Event::new(2, number as u8, 0);
    let extended = |number: u32| Event::with_word(4, number);
    let epr_mode = |number: u32| Event::with_word(2, number << 24 | 0x0055_aa55);
    let mut traces = Vec::new();
    for event in [error, extended, epr_mode] {
        let mut engine = place.engine.fork();
        if accepts(&mut engine, &event(7)) {
            let all = every || places::way(&engine, &node(&place.engine)).is_some();
            let numbers = (0..=255).filter(|number| all || matches!(number, 0..=6 | 127 | 128 | 254 | 255));
            tour(place, numbers.map(event), &mut traces);
        }
    }
    traces
}

/// All events at the same place, in one trace as far as there is a way back after each.
fn tour(place: &Place, events: impl Iterator<Item = Event>, traces: &mut Vec<Vec<u8>>) {
    let home = node(&place.engine);
    let mut ways = HashMap::new();
    let mut engine = place.engine.fork();
    let mut walked = place.prefix.clone();
    for event in events {
        walked.push(event);
        let left = engine.take(&event).is_none();
        let way = ways.entry(node(&engine)).or_insert_with(|| if left { None } else { places::way(&engine, &home) });
        for step in way.iter().flatten() {
            engine.take(step);
            walked.push(*step);
        }
        if node(&engine) != home || walked.len() > 4_000 {
            traces.push(trace::file(place.header, &walked));
            engine = place.engine.fork();
            walked = place.prefix.clone();
        }
    }
    traces.push(trace::file(place.header, &walked));
}

/// A long run under either setting, mostly of outcomes that fit and lead on.
pub fn random(port: Header, length: usize, random: &mut Random) -> Vec<u8> {
    let header = random.pick(&[port, port.under_standard()]);
    let (mut engine, _) = Engine::create(header).expect("a limit that the crate has");
    let mut events = Vec::new();
    while events.len() < length {
        let mut event = choose(&engine, random);
        // An end is put off, so that the run gets long.
        for _ in 0..8 {
            let mut next = engine.fork();
            if next.take(&event).is_some() && !is_finished(&next) {
                break;
            }
            event = choose(&engine, random);
        }
        events.push(event);
        if engine.take(&event).is_none() || (is_finished(&engine) && random.below(4) == 0) {
            break;
        }
    }
    trace::file(header, &events)
}

fn is_finished(engine: &Engine) -> bool {
    matches!(engine.status, Status::Finished)
}

fn choose(engine: &Engine, random: &mut Random) -> Event {
    if let Some(event) = swapping(engine, random) {
        return event;
    }
    let wanted = random.below(100);
    if matches!(engine.status, Status::HandedOver) && wanted < 70 {
        // The one re-entry after a handover that is in the domain: Ready in EPR.
        return Event::new(RE_ENTRY, 2, 2);
    }
    loop {
        let event = if wanted < 75 { leading(random) } else { any(random) };
        let fitting = match engine.status {
            Status::Waiting(action) => fits(&action, &event),
            Status::Stopped | Status::HandedOver => event.code == RE_ENTRY,
            Status::Finished => true,
        };
        if fitting || wanted >= 85 {
            return event;
        }
    }
}

/// Now and then what begins a VCONN swap, and mostly what leads on in one: without, few would be made, and hardly two of them in a run.
fn swapping(engine: &Engine, random: &mut Random) -> Option<Event> {
    let now = random.below(16);
    match engine.status {
        Status::HandedOver if now < 2 => Some(Event::new(RE_ENTRY, 10, random.below(3) as u16)),
        _ if engine.in_ready() && now < 4 => Some([swaps::SINK_ASKS, swaps::MANAGER_ASKS][now % 2]),
        _ if places::swaps_vconn(engine) && now < 14 => swaps::leading_on(engine),
        _ => None,
    }
}

/// An event that leads on.
fn leading(random: &mut Random) -> Event {
    let word = random.next() as u32;
    let second = random.next() as u32;
    match random.below(13) {
        0 | 1 => Event::new(1, 0, 0),
        2 => Event::request(0, random.below(6) as u16, [word, second]),
        3 => Event::request(1, random.below(6) as u16, [word, second]),
        4 => Event::new(5, 3, random.pick(&[3, 4, 6, 7, 9, 11, 12, 13, 16, 19])),
        5 => Event::new(6, random.below(6) as u8, 0),
        6 => Event::new(7, random.pick(&[0, 0, 1, 2]), 0),
        7 => Event::new(8, random.below(2) as u8, 0),
        8 => Event::new(9, random.below(9) as u8, 0),
        9 => Event::new(5, random.pick(&[6, 7]), 1),
        10 => Event::new(2, random.pick(&[0, 1, 2, 7]), 0),
        11 => Event::with_word(4, random.pick(&[1, 2, 3])),
        _ => Event::new(RE_ENTRY, random.pick(&[0, 1, 2, 2, 3, 4, 5, 6, 7, 9, 10]), 0),
    }
}

/// Any event of any kind, with any numbers.
fn any(random: &mut Random) -> Event {
    let mut event = random.pick(&kinds::all());
    let number = random.next() as u32;
    match (event.code, event.a, event.b) {
        (2, _, _) => event.a = number as u8,
        (5, 0 | 1, 1..) => event = Event::request(event.a, event.b - 1, [number, random.next() as u32]),
        (5, 2, 1) => event.words[0] = event.words[0] & 0xff00_0000 | number & 0x00ff_ffff,
        (5, 4, 1) if number & 1 == 0 => event.words[0] = number >> 24,
        (RE_ENTRY, 12, _) => event.a = number as u8,
        (RE_ENTRY, _, 3) => event.b = number as u16,
        _ => {}
    }
    event
}

/// A short run with damage done to it.
pub fn damaged(header: Header, source: &mut Random) -> Vec<u8> {
    let length = 1 + source.below(20);
    let mut file = random(header, length, source);
    for _ in 0..1 + source.below(2) {
        damage(&mut file, source);
    }
    file
}

fn damage(file: &mut Vec<u8>, random: &mut Random) {
    let at = random.below(file.len().max(1));
    match random.below(7) {
        0 => file.truncate(at),
        1 => file.extend((0..1 + random.below(13)).map(|i| i as u8)),
        2 if !file.is_empty() => file[at] = random.next() as u8,
        3 if !file.is_empty() => file[at] ^= 1 << random.below(8),
        4 if !file.is_empty() => _ = file.remove(at),
        5 if file.len() >= 8 => file[random.below(8)] = random.pick(&[0, 1, 2, 3, 5, 7, 8, 15, 16, 50]),
        6 if file.len() > 8 => {
            // A field of an event: code, a or b, with a small number.
            let event = 8 + (at.saturating_sub(8)) / 12 * 12;
            let field = (event + random.below(4)).min(file.len() - 1);
            file[field] = random.below(14) as u8;
        }
        _ => file.insert(at, random.next() as u8),
    }
}

/// The edges of the format: each byte of the header and of each shape of event one up and one down, all sizes about the limits, and all flags, each
/// with a way to a give and to the second of two VCONN swaps.
pub fn edges(header: Header) -> Vec<Vec<u8>> {
    let mut shapes: Vec<Event> = [1, 2, 3, 4].map(|code| Event::new(code, 0, 0)).into();
    let largest = [(6, 5, 0), (7, 2, 0), (8, 1, 0), (9, 8, 0), (10, 1, 0), (10, 3, 0), (RE_ENTRY, 255, 65_535)];
    shapes.extend(largest.map(|(code, a, b)| Event::new(code, a, b)));
    let messages = [(0, 0), (1, 0), (2, 0), (3, 31), (4, 0), (5, 0), (6, 0), (6, 1), (7, 0), (7, 1)];
    shapes.extend(messages.map(|(class, b)| Event::new(5, class, b)));
    shapes.extend([0, 1].map(|class| Event::request(class, 4, [kinds::WORD, 0])));
    shapes.extend([0, 1].map(|class| Event::request(class, 5, [kinds::WORD, kinds::SECOND])));
    shapes.extend([Event::with_word(2, 5 << 24), Event::with_word(4, 255)]);
    let mut traces = Vec::new();
    for (index, shape) in shapes.iter().enumerate() {
        let file = trace::file(header, &[*shape]);
        for at in if index == 0 { 0 } else { 8 }..file.len() {
            for change in [1, 255] {
                let mut file = file.clone();
                file[at] = file[at].wrapping_add(change);
                traces.push(file);
            }
        }
    }
    for size in (0..=20).chain([MAX_SIZE - 12, MAX_SIZE - 5, MAX_SIZE, MAX_SIZE + 1, MAX_SIZE + 12]) {
        let mut file = trace::file(header, &[]);
        fill(&mut file, size);
        traces.push(file);
    }
    let done = Event::new(1, 0, 0);
    let give = [done, done, Event::new(2, 7, 0), Event::new(RE_ENTRY, 2, 0), Event::with_word(4, 1), done];
    // Whichever branch it takes: what does not belong to it is refused.
    let swap = [swaps::MANAGER_ASKS, done, swaps::ACCEPT, swaps::PS_RDY, done, done];
    traces.extend((0..=255).map(|flags| trace::file(Header { flags, ..header }, &[&give[..], &swap, &swap].concat())));
    traces
}

/// Bring a file to a size, with events that are done.
fn fill(file: &mut Vec<u8>, size: usize) {
    while file.len() < size {
        file.extend(Event::new(1, 0, 0).bytes());
    }
    file.truncate(size);
}
