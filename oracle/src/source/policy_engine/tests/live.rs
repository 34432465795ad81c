//! A check of the way in which `engine.rs` runs the Rust: a future that stays alive, and is given one outcome after the other, awaits
//! the same.

use core::future::Future;
use core::pin::Pin;
use core::task::{Context, Poll, Waker};

use super::super::*;
use super::engine::{Answer, Engine, Port, Status, action, handover, role_of, target_state};
use super::generate::{self, Random};
use super::outcomes::outcomes;
use super::places::DOMAIN;
use super::setting::write_vconn_source;
use super::trace::{Event, Header};
use crate::dummy::{Manager, Wire};
use crate::protocol_layer::script::{self, Action, Outcome};

/// What a run did at an accepted event: took outcomes at an await, or re-entered.
enum Step {
    Taken(Action, Vec<Outcome>),
    ReEntered(u8, u16),
}

/// The header of a random run, and its accepted events up to where the Rust panics, ends or leaves the domain.
fn steps(seed: u64) -> (Header, Vec<Step>) {
    let file = generate::random(DOMAIN[1], 400, &mut Random(seed));
    let header = Header::read(&file).expect("a good header");
    let (mut engine, _) = Engine::create(header).expect("the domain's limits");
    let mut steps = Vec::new();
    for bytes in file[8..].chunks(12) {
        let event = Event::read(bytes).expect("a good event");
        let before = engine.status;
        let answer = engine.take(&event);
        if answer.is_none() || engine.panics > 0 {
            break;
        }
        match (answer, before) {
            (Some(Answer::Refused(_)), _) => {}
            (_, Status::Waiting(awaited)) => steps.push(Step::Taken(awaited, outcomes(&event, &awaited, engine.entries()))),
            _ => steps.push(Step::ReEntered(event.a, event.b)),
        }
    }
    (header, steps)
}

/// The future of one state, by `run_step` where that answers a timeout: it tells no errors.
fn future_of(source: &mut Port) -> Pin<Box<dyn Future<Output = Result<PolicyEngineResult, Error>> + '_>> {
    match source.state {
        State::DrpSwap(SwapState::Data(DataRoleSwap::Send)) => Box::pin(source.run_step()),
        _ => Box::pin(source.update_state()),
    }
}

/// Run one state with one future. True if it ended with a new state, false if with an error.
fn run_state(source: &mut Port, header: Header, steps: &mut impl Iterator<Item = Step>) -> Option<bool> {
    let left = source.state.clone();
    let looks_up = matches!(source.state, State::NegotiateCapability(PowerSource::Unknown(_)));
    let sends_swap = matches!(source.state, State::DrpSwap(SwapState::Data(DataRoleSwap::Send)));
    let (mut stops, mut role) = (false, None);
    let mut future = future_of(source);
    script::load(&[]);
    if looks_up {
        let Some(Step::Taken(Action { number: 6, .. }, lookup)) = steps.next() else { return None };
        script::push(&lookup);
    }
    let goes_on = loop {
        match future.as_mut().poll(&mut Context::from_waker(Waker::noop())) {
            Poll::Ready(result) => break matches!(result, Ok(PolicyEngineResult::Continue)) && !stops,
            Poll::Pending => {
                let found = action(&script::recorded().1);
                let Some(Step::Taken(awaited, outcomes)) = steps.next() else { return None };
                assert_eq!(format!("{found:?}"), format!("{awaited:?}"));
                stops = sends_swap && stops_swap(&awaited, &outcomes);
                role = (awaited.number == 28).then(|| role_of(&awaited));
                script::push(&outcomes);
            }
        }
    };
    drop(future);
    // As in `engine.rs`, since the Rust does not.
    role.into_iter().for_each(|role| source.protocol_layer.set_data_role(role));
    if goes_on {
        write_vconn_source(source, header, Some(&left));
    }
    Some(goes_on)
}

/// Whether an outcome in Send stops the engine: each failure but the timeout of the answer.
fn stops_swap(awaited: &Action, outcomes: &[Outcome]) -> bool {
    match outcomes {
        [Outcome::Failed(number)] => (awaited.number, *number) != (29, 1),
        _ => false,
    }
}

#[test]
fn a_living_future_awaits_the_same() {
    super::hush_expected_panics();
    for seed in 0..600 {
        let (header, steps) = steps(seed);
        let mut steps = steps.into_iter();
        let mut source = Source::new_dual_role(Wire, Manager, false);
        while let Some(goes_on) = run_state(&mut source, header, &mut steps) {
            if goes_on && handover(&source.state).is_none() {
                continue;
            }
            let Some(Step::ReEntered(target, change)) = steps.next() else { break };
            source.state = target_state(target);
            write_vconn_source(&mut source, header, None);
            source.mode = [source.mode, Mode::Spr, Mode::Epr][usize::from(change)];
        }
        assert!(steps.next().is_none(), "run {seed} ended early");
    }
}
