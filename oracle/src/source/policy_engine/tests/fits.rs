//! What fits an awaited action: document 01's table, read once more for this harness. No evidence from the Rust.

use super::trace::Event;
use crate::protocol_layer::script::Action;

/// Whether an outcome fits the awaited action. A re-entry is no outcome.
pub fn fits(action: &Action, event: &Event) -> bool {
    let number = action.number;
    match event.code {
        1 => !matches!(number, 5 | 6 | 7 | 11 | 12 | 17 | 19 | 23 | 24 | 27 | 29),
        2 => matches!(number, 4 | 5 | 8 | 11 | 12 | 13 | 16 | 17 | 20 | 22 | 29),
        3 => matches!(number, 9 | 10 | 14 | 15),
        4 => number == 10,
        5 => message_fits(action, event),
        6 => number == 6,
        7 => number == 7,
        8 => matches!(number, 23 | 24 | 27),
        9 => matches!(number, 11 | 19),
        10 => timeout_fits(action, event.a),
        _ => false,
    }
}

fn message_fits(action: &Action, event: &Event) -> bool {
    let control = |number: u16| event.a == 3 && event.b == number;
    match (action.number, action.argument) {
        (5, class) => event.a == class,
        (11 | 12, _) | (17, 6) => true,
        (17, 1) => event.a == 6,
        (17, 2) => event.a == 7,
        (17, 3) => control(3),
        (17, 4 | 5) => control(6),
        (29, _) => control(3) || control(4) || control(12),
        _ => false,
    }
}

/// The timeouts of Ready fit only where they are armed.
fn timeout_fits(action: &Action, timeout: u8) -> bool {
    match (action.number, timeout) {
        (11, 1) => action.argument & 1 != 0,
        (11, 2) => action.argument & 2 != 0,
        (19, 3) => true,
        _ => false,
    }
}
