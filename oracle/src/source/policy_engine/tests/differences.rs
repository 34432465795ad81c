//! Where the Rust and document 01 differ, each shown by a run: one line with the smallest input and what the Rust did.

use core::future::Future;
use core::pin::pin;
use core::task::{Context, Poll, Waker};
use std::collections::BTreeSet;

use super::engine::{Answer, Engine, Port, role_of};
use super::outcomes::{message, request};
use super::places::{self, DOMAIN};
use super::swaps::{DONE, PS_RDY, SINK_ASKS, YES};
use super::trace::{Event, Header, RE_ENTRY};
use super::{super::*, expect_panic, kinds, words};
use crate::counters::CounterType;
use crate::dummy::{Manager, Wire};
use crate::protocol_layer::script::{self, Action, Await, Outcome};
use crate::source::device_policy_manager::Event as DpmEvent;

/// Print them all.
pub fn print() {
    let lines = [
        ("EPR_Mode actions", epr_mode_actions()),
        ("hard reset counter", hard_reset_counter()),
        ("capabilities counter", capabilities_counter()),
        ("limit 255", limit_255()),
        ("no safe request", no_safe_request()),
        ("role_swap without dual role", swapped_single()),
        ("SPR sink capabilities", sink_capabilities()),
        ("EPR sink capabilities", epr_sink_capabilities()),
        ("Request in EPR", wrong_mode()),
        ("EprRequest in SPR", wrong_mode_spr()),
        ("unhandled errors", unhandled_errors()),
        ("object position 0", position_0()),
        ("a counter set too high", counter_set()),
        ("two data role swaps", two_data_swaps()),
        ("Not_Supported to DR_Swap", swap_not_supported()),
        ("a timeout of sending DR_Swap", swap_not_sent()),
        ("data role after a Hard Reset", hard_reset_as_ufp()),
        ("Get_Source_Cap in EPR", given(Mode::Epr, Event::new(5, 3, 7), "Source_Capabilities")),
        ("EPR_Get_Source_Cap in SPR", given(Mode::Spr, Event::with_word(4, 1), "EPR_Source_Capabilities")),
        ("VCONN after a swap", vconn_after_swap(4, "PS_RDY, done", &OFF)),
        ("VCONN after a swap, created without", vconn_after_swap(0, "done, done", &[DONE, DONE])),
        ("VCONN after a swap and a Hard Reset", vconn_after_swap(4, "PS_RDY, done, Hard Reset, Ready", &off_and_reset())),
    ];
    for (name, line) in lines {
        eprintln!("{name}: {line}");
    }
}

/// What a future comes to when polled once; none if it waits.
fn poll<T>(future: impl Future<Output = T>) -> Option<T> {
    match pin!(future).poll(&mut Context::from_waker(Waker::noop())) {
        Poll::Ready(value) => Some(value),
        Poll::Pending => None,
    }
}

/// What a run that ought to panic says.
fn panic_message(run: impl FnOnce()) -> String {
    match expect_panic(run) {
        Ok(()) => "does not panic".to_string(),
        Err(message) => format!("panics, \"{message}\""),
    }
}

/// A port in a state, with outcomes at hand.
fn port(state: State, mode: Mode, outcomes: &[Outcome]) -> Port {
    script::begin();
    script::load(outcomes);
    let mut port = Source::new(Wire, Manager, false);
    port.state = state;
    port.mode = mode;
    port
}

fn received(event: Event) -> Outcome {
    Outcome::Message(message(&event, 0))
}

fn epr_mode_actions() -> String {
    let panicking = (0..=255).filter(|action| {
        let mut port = port(State::Ready, Mode::Spr, &[received(Event::with_word(2, action << 24))]);
        expect_panic(|| poll(port.update_state())).is_err()
    });
    let panicking: Vec<u32> = panicking.collect();
    let all = panicking[0] == 0 && panicking[1..] == *(6..=255).collect::<Vec<u32>>();
    format!("Ready, EPR_Mode with action 0, or any of 6 to 255 ({} of 256 tried): panics, as said: {all}", panicking.len())
}

fn walk(events: impl IntoIterator<Item = Event>) -> (Engine, Option<Answer>) {
    let (mut engine, answer) = Engine::create(DOMAIN[0]).expect("the domain's limits");
    let mut answer = Some(answer);
    for event in events {
        answer = engine.take(&event);
    }
    (engine, answer)
}

fn hard_reset_counter() -> String {
    let again = [Event::new(2, 7, 0), Event::new(RE_ENTRY, 3, 0)];
    let (engine, answer) = walk([Event::new(1, 0, 0)].into_iter().chain(again.into_iter().cycle().take(8)));
    let mut counter = Counter::new(CounterType::HardReset);
    let values: Vec<_> = (0..5).map(|_| (counter.increment().is_ok(), counter.value())).collect();
    format!(
        "four Hard Resets with no capabilities sent: {answer:?}, count left at {}; five increments of the counter: {values:?}",
        engine.counts().0
    )
}

fn capabilities_counter() -> String {
    let mut port = port(State::Discovery, Mode::Spr, &[]);
    port.caps_counter = Counter::new_from_value(CounterType::Caps, 50);
    let ended = poll(port.update_state()).is_some();
    let (state, count) = (format!("{:?}", port.state), port.caps_counter.value());
    port.state = State::Discovery;
    let waits = poll(port.update_state()).is_none();
    format!(
        "Discovery at count 50 ends: {ended}, state {state}, count left at {count}; Discovery once more waits: {waits}, count {}",
        port.caps_counter.value()
    )
}

/// The crate makes no counter of maximum 255, and its fields are private: the bytes of one that it makes are changed.
fn limit_255() -> String {
    let known: [u8; 2] = unsafe { core::mem::transmute(Counter::new(CounterType::Caps)) };
    let mut counter: Counter = unsafe { core::mem::transmute(known.map(|byte| if byte == 50 { 255 } else { byte })) };
    let maximum = counter.max_value();
    let panicked = panic_message(|| _ = counter.increment());
    format!("a counter of maximum {maximum}, its first increment: {panicked}")
}

fn no_safe_request() -> String {
    let mut port = port(State::Disabled, Mode::Spr, &[Outcome::NoSafe]);
    let panicked = panic_message(|| _ = poll(port.update_state()));
    format!("Disabled, the source offers nothing: {panicked}")
}

fn swapped_single() -> String {
    let mut port: Port = Source::new(Wire, Manager, true);
    script::begin();
    script::load(&[]);
    let waits = poll(port.update_state()).is_none();
    let (resets, awaited) = script::recorded();
    format!(
        "Source::new(.., true): taken, dual_role {}, contract {:?}; waits: {waits}, {resets} reset, then {awaited:?}",
        port.dual_role, port.contract
    )
}

/// Bytes as they come from the wire, read by the crate's own parser, and given to the engine.
fn parsed(mode: Mode, bytes: &[u8]) -> String {
    let message = Message::from_bytes(bytes).expect("a message");
    let kind = message.header.message_type();
    let payload = format!("{:?}", message.payload);
    let mut port = port(State::GetSinkCap, mode, &[Outcome::Done, Outcome::Message(message)]);
    let waits = poll(port.update_state()).is_none();
    let (_, awaited) = script::recorded();
    format!("{bytes:02x?} is read as {kind:?} with {payload}; waits: {waits}, {awaited:?}")
}

fn sink_capabilities() -> String {
    parsed(Mode::Spr, &[0x84, 0x10, 0x2c, 0x91, 0x01, 0x00])
}

fn epr_sink_capabilities() -> String {
    parsed(Mode::Epr, &[0x92, 0x90, 0x04, 0x00, 0x2c, 0x91, 0x01, 0x00])
}

/// One `run_step`, which has the error handling, and then what the next one awaits.
fn handled(state: State, mode: Mode, outcomes: &[Outcome]) -> String {
    let mut port = port(state, mode, outcomes);
    let ended = poll(port.run_step()).is_some();
    let left = format!("{:?}", port.state);
    script::load(&[]);
    let waits = poll(port.update_state()).is_none();
    let (_, awaited) = script::recorded();
    format!("run_step ends: {ended}, state {left}; the next one waits: {waits}, {awaited:?}")
}

fn wrong_mode() -> String {
    handled(State::Ready, Mode::Epr, &[received(Event::request(0, 0, [kinds::WORD, 0]))])
}

fn wrong_mode_spr() -> String {
    handled(State::Ready, Mode::Spr, &[received(Event::request(1, 5, [kinds::WORD, kinds::SECOND]))])
}

/// The states in which `run_step` leaves an error that it does not know, and which no re-entry target names.
fn unhandled_errors() -> String {
    let named = [
        "Discovery",
        "SendCapabilities",
        "Ready",
        "HardReset",
        "HardResetReceived",
        "SendSoftReset",
        "SoftReset",
        "SendNotSupported",
        "ErrorRecovery",
        "Startup { role_swap: false }",
    ];
    let mut left = BTreeSet::new();
    for place in places::search_all().iter().take(DOMAIN.len()).flatten() {
        if place.engine.fork().take(&Event::new(2, 7, 0)) != Some(Answer::Stopped(7)) {
            continue;
        }
        let before = format!("{:?}", place.engine.state());
        if format!("{:?}", place.engine.fork().handle(7)) == before && !named.contains(&before.as_str()) {
            left.insert(before);
        }
    }
    format!("error 7 is left standing in {} states that no target names: {left:?}", left.len())
}

fn position_0() -> String {
    let capabilities = SourceCapabilities::new_vsafe5v_only(300);
    let asked = request(4, [0x0000_0000, 0]).object_position();
    let found = capabilities.at_object_position(asked);
    format!("a request with object position {asked} is looked up as position 1: {found:?}")
}

fn counter_set() -> String {
    let mut counter = Counter::new(CounterType::HardReset);
    counter.set(6);
    format!("said to be clamped; a counter of maximum 3 set to 6 has {}", counter.value())
}

const SEND_DATA_SWAP: State = State::DrpSwap(SwapState::Data(DataRoleSwap::Send));

/// Run until something is awaited for which there is no outcome, and return what that is.
fn awaited(port: &mut Port) -> Vec<Await> {
    while poll(port.update_state()).is_some() {}
    script::recorded().1
}

/// The data role that is handed to the device policy manager, if it is that which is awaited.
fn handed_out(port: &mut Port) -> Option<DataRole> {
    match awaited(port)[..] {
        [Await::Call(action @ Action { number: 28, .. })] => Some(role_of(&action)),
        _ => None,
    }
}

fn two_data_swaps() -> String {
    let swap = [Outcome::Event(DpmEvent::RequestDataRoleSwap), Outcome::Done, received(Event::new(5, 3, 3))];
    let mut port = port(State::Ready, Mode::Spr, &swap);
    let first = handed_out(&mut port);
    script::push(&[Outcome::Done]);
    script::push(&swap);
    let second = handed_out(&mut port);
    let role = port.protocol_layer.header().port_data_role();
    format!("event 7, done, Accept, done, and once more: {first:?} is handed out, then {second:?}; the header still has {role:?}")
}

fn swap_not_supported() -> String {
    handled(SEND_DATA_SWAP, Mode::Spr, &[Outcome::Done, received(Event::new(5, 3, 16))])
}

fn swap_not_sent() -> String {
    handled(SEND_DATA_SWAP, Mode::Spr, &[Outcome::Failed(1)])
}

/// The role is set inside the crate, since the Rust never writes one.
fn hard_reset_as_ufp() -> String {
    let mut port = port(State::HardReset, Mode::Spr, &vec![Outcome::Done; 5]);
    port.protocol_layer.set_data_role(DataRole::Ufp);
    let awaited = awaited(&mut port);
    let role = port.protocol_layer.header().port_data_role();
    format!("a Hard Reset with Ufp in the header, up to state {:?}, {awaited:?}: the header has {role:?}", port.state)
}

/// What answers a message in Ready that asks for the capabilities of the other mode, where PD 3.2 says another.
fn given(mode: Mode, asks: Event, paper: &str) -> String {
    let mut port = port(State::Ready, mode, &[received(asks)]);
    let sent = match awaited(&mut port)[..] {
        [Await::Call(Action { number: 4, argument: 0, .. })] => "4.0, Source_Capabilities",
        [Await::Call(Action { number: 4, argument: 1, .. })] => "4.1, EPR_Source_Capabilities",
        ref other => panic!("{asks:?} is answered by {other:?}"),
    };
    format!("Ready in {mode:?}, this message: state {:?}, which sends {sent}; PD 3.2 says {paper}", port.state)
}

/// What turns VCONN off in WaitForVconn: PS_RDY, and the drive is done.
const OFF: [Event; 2] = [PS_RDY, DONE];

/// The same, then from Ready by a Hard Reset to Startup, and as the capabilities are not sent by a re-entry back to Ready.
fn off_and_reset() -> Vec<Event> {
    let re_entry = |target: u8| Event::new(RE_ENTRY, target, 0);
    [&OFF[..], &[Event::new(2, 0, 0), re_entry(4)], &[DONE; 5], &[Event::new(2, 7, 0), re_entry(2)]].concat()
}

/// Where the sink's second VCONN_Swap leads once Accept is sent, after a first one that was ended so: under "crate", which is the Rust alone, and under
/// "standard", where `vconn_source` is written and the same Rust reads it.
fn vconn_after_swap(flags: u8, ended: &str, end: &[Event]) -> String {
    let asked = [SINK_ASKS, YES, DONE];
    let ready = [DONE, Event::new(2, 7, 0), Event::new(RE_ENTRY, 2, 0)];
    let header = Header { flags, ..DOMAIN[0] };
    let [rust, standard] = [header, header.under_standard()].map(|header| {
        let (mut engine, _) = Engine::create(header).expect("the domain's limits");
        let mut driven = Vec::new();
        for event in [&ready[..], &asked, end, &asked].concat() {
            driven.extend(engine.actions.iter().filter(|action| action.number == 14).map(|action| action.argument == 1));
            engine.take(&event);
        }
        (driven, format!("{}, vconn_source {}", words::place(&engine), engine.port().0))
    });
    assert_eq!(rust.0, standard.0);
    format!(
        "Ready, VCONN_Swap, yes, done, {ended}, VCONN_Swap, yes, done: VCONN was driven {:?}; the Rust is now at {}; under standard at {}",
        rust.0, rust.1, standard.1
    )
}
