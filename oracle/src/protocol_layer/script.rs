//! The script: what each awaited call of the policy engine is answered with, and the record of what it called.
//!
//! A run is loaded with outcomes and polled once. Each awaited call takes the next outcome that it can take; the first that finds
//! none stays pending, and is then what the engine waits for. Timers and the device policy manager have no common owner in the
//! crate (a timer has not even a receiver), so that the script belongs to the thread.

extern crate std;

use core::cell::RefCell;
use core::future::{Future, poll_fn};
use core::task::Poll;
use std::vec::Vec;

use super::message::Message;
use super::message::data::request::PowerSource;
use super::message::data::source_capabilities::{Kind, PowerDataObject, SourceCapabilities, parse_raw_pdo};
use super::{ProtocolError, RxError};
use crate::source::device_policy_manager::{CapabilityResponse, Event};

/// An action by its number and argument, with the request that it carries.
#[derive(Debug, Clone, Copy)]
pub struct Action {
    /// 1 to 29.
    pub number: u8,
    /// 0 where there is none.
    pub argument: u8,
    /// The request that the policy engine handed over with the call.
    pub request: Option<PowerSource>,
}

impl Action {
    /// An action that carries no request.
    pub fn new(number: u8, argument: u8) -> Self {
        Self { number, argument, request: None }
    }

    /// An action that carries a request.
    pub fn with(number: u8, request: &PowerSource) -> Self {
        Self { number, argument: 0, request: Some(*request) }
    }
}

/// A single thing awaited. `Ready` and `WaitNewCapabilities` await several at once.
#[derive(Debug, Clone, Copy)]
pub enum Await {
    /// A call that is an action by itself.
    Call(Action),
    /// Any message.
    Receive,
    /// An event of the device policy manager.
    Event,
    /// A timer of so many milliseconds.
    Timer(u64),
}

/// What a call is answered with.
#[derive(Debug, Clone)]
pub enum Outcome {
    /// The call succeeded, or the timer ran out.
    Done,
    /// Protocol error by its number.
    Failed(u8),
    /// The device policy manager failed.
    DpmFailed,
    /// There is no 5 V supply to fall back to.
    NoSafe,
    /// A message arrived.
    Message(Message),
    /// The kind of supply found at an object position, if any.
    Lookup(Option<Kind>, u8),
    /// The request was evaluated.
    Evaluation(CapabilityResponse),
    /// No or yes.
    Answer(bool),
    /// An event of the device policy manager.
    Event(Event),
    /// Timeout by its number: 1 PPS, 2 keep-alive, 3 five seconds.
    Timeout(u8),
}

impl Await {
    /// Whether it is this one, of those awaited at once, that an outcome is for.
    fn takes(&self, outcome: &Outcome) -> bool {
        matches!(
            (self, outcome),
            (Await::Call(_), _)
                | (Await::Receive, Outcome::Message(_) | Outcome::Failed(_))
                | (Await::Event, Outcome::Event(_))
                | (Await::Timer(13_500), Outcome::Timeout(1))
                | (Await::Timer(875), Outcome::Timeout(2))
                | (Await::Timer(5_000), Outcome::Timeout(3))
                | (Await::Timer(20 | 30 | 150), Outcome::Done)
        )
    }
}

#[derive(Default)]
struct Script {
    outcomes: Vec<Outcome>,
    next: usize,
    awaited: Vec<Await>,
    resets: usize,
    offered: bool,
}

std::thread_local! {
    static SCRIPT: RefCell<Script> = RefCell::default();
}

/// Begin an entry: nothing has been called yet.
pub fn begin() {
    SCRIPT.with_borrow_mut(|script| script.resets = 0);
}

/// Load the outcomes for one run of a state from its start.
pub fn load(outcomes: &[Outcome]) {
    SCRIPT.with_borrow_mut(|script| {
        script.outcomes = outcomes.to_vec();
        script.next = 0;
        script.awaited.clear();
        script.offered = false;
    });
}

/// Add outcomes to a run that waits, before it is polled again.
pub fn push(outcomes: &[Outcome]) {
    SCRIPT.with_borrow_mut(|script| {
        script.outcomes.extend_from_slice(outcomes);
        script.awaited.clear();
    });
}

/// The protocol resets since the last outcome that was taken, and what is awaited now.
pub fn recorded() -> (usize, Vec<Await>) {
    SCRIPT.with_borrow(|script| (script.resets, script.awaited.clone()))
}

/// Whether the run took all its outcomes.
pub fn is_used_up() -> bool {
    SCRIPT.with_borrow(|script| script.next == script.outcomes.len())
}

/// Record a protocol reset, which nobody awaits.
pub fn reset() {
    SCRIPT.with_borrow_mut(|script| script.resets += 1);
}

/// Await one thing.
pub fn wait(awaited: Await) -> impl Future<Output = Outcome> {
    poll_fn(move |_| {
        SCRIPT.with_borrow_mut(|script| match script.outcomes.get(script.next) {
            Some(outcome) if awaited.takes(outcome) => {
                let outcome = outcome.clone();
                script.next += 1;
                script.awaited.clear();
                script.resets = 0;
                Poll::Ready(outcome)
            }
            _ => {
                script.awaited.push(awaited);
                Poll::Pending
            }
        })
    })
}

/// Await a call that only succeeds.
pub async fn done(number: u8, argument: u8) {
    let outcome = wait(Await::Call(Action::new(number, argument))).await;
    assert!(matches!(outcome, Outcome::Done), "{outcome:?} for action {number}");
}

/// Await a call that succeeds or fails with a protocol error.
pub async fn sent(number: u8, argument: u8) -> Result<(), ProtocolError> {
    match wait(Await::Call(Action::new(number, argument))).await {
        Outcome::Done => Ok(()),
        Outcome::Failed(number) => Err(error(number)),
        other => panic!("{other:?} for action {number}"),
    }
}

/// Await a message, or the failure to receive one.
pub async fn received(awaited: Await) -> Result<Message, ProtocolError> {
    match wait(awaited).await {
        Outcome::Message(message) => Ok(message),
        Outcome::Failed(number) => Err(error(number)),
        other => panic!("{other:?} for {awaited:?}"),
    }
}

/// A protocol error by its number.
fn error(number: u8) -> ProtocolError {
    match number {
        0 => ProtocolError::RxError(RxError::HardReset),
        1 => ProtocolError::RxError(RxError::ReceiveTimeout),
        2 => ProtocolError::UnexpectedMessage,
        _ => ProtocolError::Other(number),
    }
}

/// The source capabilities, which the policy engine reads without awaiting them.
///
/// A scripted lookup decides what stands at its object position, and only there; a scripted lack of 5 V leaves nothing.
pub fn offer() -> SourceCapabilities {
    SCRIPT.with_borrow_mut(|script| {
        script.offered = true;
        match script.outcomes.get(script.next).cloned() {
            Some(Outcome::Lookup(kind, position)) => {
                script.next += 1;
                SourceCapabilities::new_with_pdos(supplies(kind, position).into_iter().collect())
            }
            Some(Outcome::NoSafe) => SourceCapabilities::new_with_pdos(Default::default()),
            _ => SourceCapabilities::new_vsafe5v_only(300),
        }
    })
}

/// Whether the capabilities were read since the state began.
pub fn offered() -> bool {
    SCRIPT.with_borrow(|script| script.offered)
}

/// Sixteen supplies of which the one at the position has the kind, and the others another one.
fn supplies(kind: Option<Kind>, position: u8) -> Vec<PowerDataObject> {
    let (word, other) = match kind {
        None => (0xf000_0000, 0x0000_0000),
        Some(Kind::FixedSupply) => (0x0000_0000, 0x4000_0000),
        Some(Kind::Battery) => (0x4000_0000, 0x8000_0000),
        Some(Kind::VariableSupply) => (0x8000_0000, 0xc000_0000),
        Some(Kind::Pps) => (0xc000_0000, 0xd000_0000),
        Some(Kind::Avs) => (0xd000_0000, 0x0000_0000),
    };
    // The Rust takes position 0 as position 1.
    let index = usize::from(position.saturating_sub(1));
    (0..16).map(|i| parse_raw_pdo(if i == index { word } else { other })).collect()
}
