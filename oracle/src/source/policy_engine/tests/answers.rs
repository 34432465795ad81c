//! The fixed list of the Rust's answers, for machines without Rust. `README.md` describes the form.

use std::collections::BTreeMap;
use std::fmt::Write;
use std::fs;
use std::path::Path;

use super::compare::ends;
use super::engine::Answer;
use super::expected;
use super::kinds;
use super::places::{self, DOMAIN, Place, node};
use super::trace::{self, Event, Header};

/// Write the answers for each place of the domain, with the least and the most in the record, and each kind of event.
pub fn write(directory: &Path) {
    let all = places::search_all();
    for (file, port) in [("single.txt", 0), ("dual.txt", 1), ("swapped.txt", 2)] {
        let header = DOMAIN[port];
        let mut text = format!("port {} {} {}\n", header.flags, header.hard_limit, header.caps_limit);
        text += &format!("{}\n", last_answer(header, &[]));
        for (least, most) in ends(&all[port..=port], true) {
            // What a swapped port does after its start is what a dual one does.
            if port == 2 && !least.name.contains("Startup") {
                continue;
            }
            text += &answers(least);
            if most.load > least.load {
                text += &answers(most);
            }
        }
        fs::write(directory.join(file), text).expect("the answers are written");
    }
}

/// The answers at one place.
fn answers(place: &Place) -> String {
    let mut text = format!("at {}\nby {}\nas {}\n", place.name, in_words(&place.prefix), listed(place));
    let mut refused: BTreeMap<u8, Vec<Event>> = BTreeMap::new();
    let mut staying = Vec::new();
    for event in kinds::all() {
        let mut engine = place.engine.fork();
        match engine.take(&event) {
            // Events that leave the domain, or at which the Rust panics, have no answer of the Rust.
            None => {}
            Some(_) if engine.panics > place.engine.panics => {}
            Some(Answer::Refused(number)) => refused.entry(number).or_default().push(event),
            Some(_) if node(&engine) == node(&place.engine) => staying.push(event),
            Some(_) => {
                let events = [&place.prefix[..], &[event]].concat();
                writeln!(text, "> {}\n{}", in_words(&[event]), last_answer(place.header, &events)).expect("memory");
            }
        }
    }
    for (number, events) in refused {
        writeln!(text, "R{number} {}", in_words(&events)).expect("memory");
    }
    // The last event of the trace shows that the refused ones have changed nothing.
    staying.extend(places::successors(&place.engine, &kinds::all()).first().map(|(event, _)| event));
    text + &stays(place, &staying)
}

/// Events that leave the engine where it was, and one more: one trace for all of them.
fn stays(place: &Place, events: &[Event]) -> String {
    let mut text = String::new();
    let mut walked = place.prefix.clone();
    for event in events {
        walked.push(*event);
        writeln!(text, "= {}\n{}", in_words(&[*event]), last_answer(place.header, &walked)).expect("memory");
    }
    text
}

/// The listing of the way to a place, without the numbers.
fn listed(place: &Place) -> String {
    let expected = expected::run(&trace::file(place.header, &place.prefix));
    let lines: Vec<&str> = expected.listing.iter().map(|line| line.trim_end().split_once(' ').expect("a number").1).collect();
    lines.join("|")
}

/// The last entry of a run: the listing without its number, then the explanation without labels, and without the row and the attempts that
/// remain, which are not the Rust's.
fn last_answer(header: Header, events: &[Event]) -> String {
    let expected = expected::run(&trace::file(header, events));
    let listed = expected.listing.last().expect("an entry").trim_end();
    let explained = expected.explanation.last().expect("an entry").trim_end();
    let (_, listed) = listed.split_once(' ').expect("a number");
    let (_, explained) = explained.split_once(": ").expect("a number");
    let mut lines = explained.lines();
    let mut text = lines.next().expect("an answer").to_string();
    for line in lines.filter(|line| !line.starts_with("  row ") && !line.starts_with("  remaining ")) {
        text += "|";
        text += &line[12..];
    }
    format!("{listed}\n{text}")
}

/// Events as code.a.b.word.word, with zeros at the end left out, and the words in hexadecimal digits.
fn in_words(events: &[Event]) -> String {
    let words: Vec<String> = events.iter().map(event_in_words).collect();
    words.join(" ")
}

fn event_in_words(event: &Event) -> String {
    let [first, second] = event.words;
    let text = format!("{}.{}.{}.{first:x}.{second:x}", event.code, event.a, event.b);
    let mut text = text.as_str();
    while let Some(shorter) = text.strip_suffix(".0") {
        text = shorter;
    }
    text.to_string()
}
