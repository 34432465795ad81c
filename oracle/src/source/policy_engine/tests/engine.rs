//! The Rust's policy engine, run entry by entry.
//!
//! A future that waits has borrowed the engine, and nobody can look inside. So each entry runs the present state again from its
//! start: the fields are put back to what they were there, the script holds all outcomes of the state so far, and `update_state`
//! is polled once. It either stays pending at the next await, or ends the state, and the next state is run. A pending future is
//! dropped, and the fields are then what the Rust left in them.

use core::future::Future;
use core::pin::pin;
use core::task::{Context, Poll, Waker};

use super::fits::fits;
use super::outcomes::{outcomes, remote_capabilities};
use super::setting::{self, Writes};
use super::trace::{Event, FAILED, Header, MESSAGE, NO_SAFE, RE_ENTRY};
use super::{super::*, expect_panic};
use crate::counters::CounterType;
use crate::dummy::{Clock, Manager, Wire};
use crate::protocol_layer::script::{self, Action, Await, Outcome};

/// The Rust's engine, with the stand-ins for what it needs.
pub type Port = Source<Wire, Clock, Manager>;

/// An answer by its letter and number.
#[derive(Debug, Clone, Copy, PartialEq, Eq)]
pub enum Answer {
    Waiting,
    Stopped(u8),
    Finished(u8),
    HandedOver(u8),
    Refused(u8),
}

/// What the record is doing.
#[derive(Debug, Clone, Copy)]
pub enum Status {
    Waiting(Action),
    Stopped,
    HandedOver,
    Finished,
}

/// The fields of the engine at the start of a state.
#[derive(Debug, Clone)]
struct Start {
    state: State,
    mode: Mode,
    contract: Contract,
    hard: Counter,
    caps: Counter,
}

/// The Rust's engine and what this harness knows of it.
pub struct Engine {
    source: Port,
    header: Header,
    start: Start,
    /// The outcomes of the present state so far.
    given: Vec<Outcome>,
    /// Which capabilities the last outcome asked for, if any: in GiveSourceCap the Rust no longer knows it.
    asked: Option<Mode>,
    pub status: Status,
    /// The actions of the last entry.
    pub actions: Vec<Action>,
    /// What the last entry's increment left of its limit: 0 where it failed, none where there was no increment.
    pub remaining: Option<u8>,
    /// A failed increment left a value that is not compared. After one of the hard resets the record is finished.
    pub hard_lost: bool,
    pub caps_lost: bool,
    /// Entries at which the Rust panicked and document 01's answer stands in.
    pub panics: usize,
    /// Whether the run is in document 01's domain, or goes on beyond it from something else set inside the crate.
    pub in_domain: bool,
    /// Whether a data role was written into the Rust's header, which the Rust itself never does.
    pub role_written: bool,
    /// What was written into the Rust's `vconn_source` under "standard", which the Rust itself never does.
    pub vconn_writes: Writes,
    entries: usize,
}

impl Engine {
    /// Create the engine, or none if the crate has no counter with such a limit. The header must not be one that R7 refuses.
    pub fn create(header: Header) -> Option<(Self, Answer)> {
        let mut source = match header.dual_role() {
            true => Source::new_dual_role(Wire, Manager, header.role_swapped()),
            false => Source::new(Wire, Manager, false),
        };
        // With limits 3 and 50 and a VCONN source, these three lines write what is there already.
        source.hard_reset_counter = counter(header.hard_limit)?;
        source.caps_counter = counter(header.caps_limit)?;
        source.vconn_source = header.vconn_source();
        let mut engine = Self {
            start: Start::of(&source),
            source,
            header,
            given: Vec::new(),
            asked: None,
            status: Status::Finished,
            actions: Vec::new(),
            remaining: None,
            hard_lost: false,
            caps_lost: false,
            panics: 0,
            in_domain: header.in_domain(),
            role_written: false,
            vconn_writes: Writes::default(),
            entries: 0,
        };
        script::begin();
        let answer = engine.advance()?;
        Some((engine, answer))
    }

    /// A second engine that stands where this one does.
    pub fn fork(&self) -> Self {
        let mut source = Source::new(Wire, Manager, false);
        Start::of(&self.source).put(&mut source);
        source.dual_role = self.source.dual_role;
        source.vconn_source = self.source.vconn_source;
        source.protocol_layer.set_data_role(self.data_role());
        Self {
            source,
            header: self.header,
            start: self.start.clone(),
            given: self.given.clone(),
            status: self.status,
            actions: self.actions.clone(),
            ..*self
        }
    }

    /// A second engine that stands where this one does, with the `vconn_source` of the creation; none where this one has it.
    pub fn with_created_vconn_source(&self) -> Option<Self> {
        let mut engine = self.vconn_swapped().then(|| self.fork())?;
        engine.source.vconn_source = self.header.vconn_source();
        Some(engine)
    }

    /// Take one event of a trace. None means that the run leaves the domain here, and is compared no further.
    pub fn take(&mut self, event: &Event) -> Option<Answer> {
        self.entries += 1;
        if event.code == RE_ENTRY {
            return self.re_enter(event.a, event.b);
        }
        let awaited = match self.status {
            Status::Finished => return Some(Answer::Refused(2)),
            Status::Stopped | Status::HandedOver => return Some(Answer::Refused(4)),
            Status::Waiting(action) => action,
        };
        if !fits(&awaited, event) {
            return Some(Answer::Refused(5));
        }
        script::begin();
        if (awaited.number, event.code) == (10, NO_SAFE) {
            return None;
        }
        if (awaited.number, event.code) == (20, FAILED) {
            self.fail_remote(awaited.argument == 1, event.a);
        }
        self.asked = asked_for(event);
        self.given.extend(outcomes(event, &awaited, self.entries));
        self.advance()
    }

    /// Action 20 is two awaits in the Rust: sending, then receiving. Wherever it fails, the Rust has to do the same.
    fn fail_remote(&self, epr: bool, number: u8) {
        let mut ways = vec![vec![Outcome::Failed(number)], vec![Outcome::Done, Outcome::Failed(number)]];
        if number == 2 {
            ways.push(vec![Outcome::Done, Outcome::Message(remote_capabilities(epr, false))]);
        }
        let results = ways.iter().map(|way| {
            let mut engine = self.fork();
            engine.given = way.clone();
            (engine.advance(), format!("{:?} {:?}", engine.start, engine.status))
        });
        let results: Vec<_> = results.collect();
        assert!(results.iter().all(|result| *result == results[0]), "action 20 fails in two ways: {results:?}");
    }

    /// Re-entry: what error handling above `update_state` would do, or the setting of state and mode after a handover.
    fn re_enter(&mut self, target: u8, change: u16) -> Option<Answer> {
        let (targets, changes) = match self.status {
            Status::Finished => return Some(Answer::Refused(2)),
            Status::Waiting(_) => return Some(Answer::Refused(3)),
            Status::Stopped => (9, 0),
            Status::HandedOver => (11, 2),
        };
        if target > targets || change > changes {
            return Some(Answer::Refused(6));
        }
        if let Status::HandedOver = self.status {
            self.in_domain = self.header.in_domain() && (target, change) == (2, 2);
        }
        match change {
            1 => self.source.mode = Mode::Spr,
            2 => self.source.mode = Mode::Epr,
            _ => {}
        }
        self.source.state = target_state(target);
        self.write_vconn_source(None);
        self.enter();
        script::begin();
        self.advance()
    }

    /// Run until the engine waits, stops, ends or hands over.
    fn advance(&mut self) -> Option<Answer> {
        self.actions.clear();
        self.remaining = None;
        loop {
            if let Some(number) = handover(&self.source.state) {
                self.status = Status::HandedOver;
                return Some(Answer::HandedOver(number));
            }
            if self.given.is_empty() {
                if let State::NegotiateCapability(request @ PowerSource::Unknown(_)) = &self.source.state {
                    return Some(self.wait(Action::with(6, request)));
                }
                if matches!(self.source.state, State::Discovery) && self.caps_lost {
                    return None;
                }
            }
            match self.poll() {
                Ok(Poll::Pending) => {
                    let (resets, awaited) = script::recorded();
                    self.actions = vec![Action::new(1, 0); resets];
                    return Some(self.wait(action(&awaited)));
                }
                Ok(Poll::Ready(Ok(PolicyEngineResult::Continue))) => self.go_on(),
                Ok(Poll::Ready(Ok(PolicyEngineResult::Exit(_)))) => return Some(self.finish(0)),
                Ok(Poll::Ready(Err(Error::PortPartnerUnresponsive))) => return Some(self.finish(1)),
                Ok(Poll::Ready(Err(Error::ReconnectionRequired))) => return Some(self.finish(2)),
                Ok(Poll::Ready(Err(Error::Protocol(error)))) if self.is_swap_timeout(&error) => {
                    self.run_step();
                    self.enter();
                }
                Ok(Poll::Ready(Err(Error::Protocol(error)))) => {
                    self.status = Status::Stopped;
                    return Some(Answer::Stopped(error_number(&error)));
                }
                Err(message) => self.stand_in_for_panic(&message),
            }
        }
    }

    fn wait(&mut self, action: Action) -> Answer {
        if let State::GiveSourceCap = self.source.state {
            let (asked, mode) = (self.asked, self.source.mode);
            assert!(asked.is_some_and(|asked| asked != mode), "in {mode:?} {asked:?} was asked for, and led to GiveSourceCap");
        }
        self.status = Status::Waiting(action);
        self.actions.push(action);
        Answer::Waiting
    }

    fn finish(&mut self, number: u8) -> Answer {
        self.status = Status::Finished;
        Answer::Finished(number)
    }

    /// The only panic that is known: at an EPR_Mode action that the crate does not know. Document 01 answers it.
    fn stand_in_for_panic(&mut self, panic_message: &str) {
        assert!(self.given.last().is_some_and(is_unknown_action), "the Rust panicked: {panic_message}");
        self.panics += 1;
        self.start.put(&mut self.source);
        self.source.state = State::SendNotSupported;
        self.enter();
    }

    /// Whether no answer to DR_Swap came in time. Of all that `run_step` makes of errors this alone is inside our engine, and only at action 29:
    /// the crate asks for the state alone, and so takes a timeout of sending DR_Swap in the same way.
    fn is_swap_timeout(&self, error: &ProtocolError) -> bool {
        let awaits_answer = matches!(self.status, Status::Waiting(Action { number: 29, .. }));
        awaits_answer && matches!(error, ProtocolError::RxError(RxError::ReceiveTimeout))
    }

    /// The present state has ended well, and the next begins. Between the two is written what the Rust writes nowhere.
    fn go_on(&mut self) {
        self.write_data_role();
        self.write_vconn_source(Some(self.start.state.clone()));
        self.enter();
    }

    /// After a data role swap the Rust has the new role nowhere: the one that it handed out goes into its header, from which it makes the next.
    fn write_data_role(&mut self) {
        let State::DrpSwap(SwapState::Data(DataRoleSwap::Change)) = self.start.state else { return };
        let Status::Waiting(handed_out) = self.status else { panic!("a swap that was not awaited") };
        self.source.protocol_layer.set_data_role(role_of(&handed_out));
        self.role_written = true;
    }

    /// After a VCONN swap the Rust has nowhere who feeds VCONN: under "standard" its own field is written, from which it takes the next branch.
    fn write_vconn_source(&mut self, left: Option<State>) {
        let written = setting::write_vconn_source(&mut self.source, self.header, left.as_ref());
        written.into_iter().for_each(|write| self.vconn_writes.count(write));
    }

    /// A new state begins with the fields as they are.
    fn enter(&mut self) {
        self.start = Start::of(&self.source);
        self.given.clear();
    }

    /// Run the present state from its start with all its outcomes. An error is the message of a panic.
    fn poll(&mut self) -> Result<Poll<Result<PolicyEngineResult, Error>>, String> {
        self.start.put(&mut self.source);
        script::load(&self.given);
        let source = &mut self.source;
        let result = expect_panic(|| pin!(source.update_state()).poll(&mut Context::from_waker(Waker::noop())));
        assert!(result.is_err() || script::is_used_up(), "{:?} left some of {:?}", self.start.state, self.given);
        match self.start.state {
            State::Startup { .. } => self.caps_lost = false,
            State::Discovery => self.caps_lost |= self.tried(self.source.caps_counter.value(), self.header.caps_limit),
            State::HardReset => self.hard_lost |= self.tried(self.source.hard_reset_counter.value(), self.header.hard_limit),
            _ => {}
        }
        result
    }

    /// Whether the increment failed that the present state begins with: the Rust's count is 0 then. An entry that goes on inside the state makes none.
    fn tried(&mut self, value: u8, limit: u8) -> bool {
        if self.given.is_empty() {
            self.remaining = Some(if value == 0 { 0 } else { limit - value });
        }
        value == 0
    }

    /// The state that the crate's own error handling leaves after an error at the present await.
    pub fn handle(&mut self, number: u8) -> &State {
        self.given.push(Outcome::Failed(number));
        self.run_step();
        &self.source.state
    }

    /// Run the present state from its start with all its outcomes, the last an error, by `run_step`, the crate's own error handling.
    fn run_step(&mut self) {
        self.start.put(&mut self.source);
        script::load(&self.given);
        let result = pin!(self.source.run_step()).poll(&mut Context::from_waker(Waker::noop()));
        assert!(matches!(result, Poll::Ready(Ok(PolicyEngineResult::Continue))));
    }

    /// How many events were taken, accepted or not.
    pub fn entries(&self) -> usize {
        self.entries
    }

    pub fn header(&self) -> Header {
        self.header
    }

    pub fn state(&self) -> &State {
        &self.source.state
    }

    /// Whether Ready's wait, action 11, awaits its outcome.
    pub fn in_ready(&self) -> bool {
        matches!(self.status, Status::Waiting(action) if action.number == 11)
    }

    pub fn is_epr(&self) -> bool {
        self.source.mode == Mode::Epr
    }

    /// Which capabilities were asked for, where the engine stands in GiveSourceCap.
    pub fn asked(&self) -> Option<Mode> {
        match (self.status, &self.source.state) {
            (Status::Waiting(_), State::GiveSourceCap) => self.asked,
            _ => None,
        }
    }

    pub fn contract(&self) -> Contract {
        self.source.contract
    }

    /// The two counts: hard resets, capabilities.
    pub fn counts(&self) -> (u8, u8) {
        (self.source.hard_reset_counter.value(), self.source.caps_counter.value())
    }

    /// Whether the present `vconn_source` is another than that of the creation.
    pub fn vconn_swapped(&self) -> bool {
        self.source.vconn_source != self.header.vconn_source()
    }

    /// The present `vconn_source`, and `dual_role`.
    pub fn port(&self) -> (bool, bool) {
        (self.source.vconn_source, self.source.dual_role)
    }

    /// The present data role: what the Rust makes the next one from.
    pub fn data_role(&self) -> DataRole {
        self.source.protocol_layer.header().port_data_role()
    }
}

impl Start {
    fn of(source: &Port) -> Self {
        Self {
            state: source.state.clone(),
            mode: source.mode,
            contract: source.contract,
            hard: source.hard_reset_counter,
            caps: source.caps_counter,
        }
    }

    fn put(&self, source: &mut Port) {
        source.state = self.state.clone();
        source.mode = self.mode;
        source.contract = self.contract;
        source.hard_reset_counter = self.hard;
        source.caps_counter = self.caps;
    }
}

/// A counter of the crate with this limit, if it has one.
fn counter(limit: u8) -> Option<Counter> {
    let counter_type = match limit {
        2 => CounterType::Retry,
        3 => CounterType::HardReset,
        5 => CounterType::Busy,
        7 => CounterType::MessageId,
        20 => CounterType::DiscoverIdentity,
        50 => CounterType::Caps,
        _ => return None,
    };
    Some(Counter::new(counter_type))
}

/// The state that a re-entry target names.
pub fn target_state(target: u8) -> State {
    match target {
        0 => State::Discovery,
        1 => State::SendCapabilities,
        2 => State::Ready,
        3 => State::HardReset,
        4 => State::HardResetReceived,
        5 => State::SendSoftReset,
        6 => State::SoftReset,
        7 => State::SendNotSupported,
        8 => State::ErrorRecovery,
        9 => State::Startup { role_swap: false },
        10 => State::VconnSwap { source: VcsSwapSource::Epr, state: VcsState::SendSwap },
        _ => State::PrSwapToSinkStartup,
    }
}

/// The number of a state that is handed over, and never run here. 1 and 2 were those of a data role swap, which is run.
pub fn handover(state: &State) -> Option<u8> {
    match state {
        State::DrpSwap(SwapState::Power(PowerRoleSwap::Evaluate)) => Some(3),
        State::DrpSwap(SwapState::Power(PowerRoleSwap::Send)) => Some(4),
        State::EprMode(EprState::Entry) => Some(5),
        State::EprMode(EprState::ExitReceived) => Some(6),
        State::EprMode(EprState::SendExit) => Some(7),
        State::EprMode(EprState::DiscoverCable) => Some(8),
        State::DrpSwap(SwapState::Power(_)) | State::EprMode(_) => panic!("{state:?} was entered"),
        _ => None,
    }
}

/// Which capabilities a message asks for: Get_Source_Cap the SPR ones, EPR_Get_Source_Cap the EPR ones.
fn asked_for(event: &Event) -> Option<Mode> {
    match (event.code, event.a, event.b, event.words[0]) {
        (MESSAGE, 3, 7, _) => Some(Mode::Spr),
        (MESSAGE, 4, 1, 1) => Some(Mode::Epr),
        _ => None,
    }
}

/// The data role that action 28 hands out.
pub fn role_of(action: &Action) -> DataRole {
    assert_eq!(action.number, 28, "no data role is handed out");
    DataRole::from(action.argument == 1)
}

/// Whether this is an EPR_Mode message with an action that the crate does not know.
fn is_unknown_action(outcome: &Outcome) -> bool {
    let Outcome::Message(message) = outcome else { return false };
    matches!(message.payload, Some(Payload::Data(Data::EprMode(word))) if !(1..=5).contains(&(word.0 >> 24)))
}

/// The action that a set of awaits amounts to.
pub fn action(awaited: &[Await]) -> Action {
    match *awaited {
        // The sending half of action 20; nothing else sends these two.
        [Await::Call(Action { number: 8, argument: 7, .. })] => Action::new(20, 0),
        [Await::Call(Action { number: 16, argument: 1, .. })] => Action::new(20, 1),
        [Await::Call(action)] => action,
        [Await::Timer(20)] => Action::new(2, 1),
        [Await::Timer(150)] => Action::new(2, 2),
        [Await::Timer(30)] => Action::new(2, 3),
        [Await::Receive] => Action::new(12, 0),
        [Await::Receive, Await::Event] => Action::new(11, 0),
        [Await::Receive, Await::Event, Await::Timer(13_500)] => Action::new(11, 1),
        [Await::Receive, Await::Event, Await::Timer(875)] => Action::new(11, 2),
        [Await::Receive, Await::Event, Await::Timer(13_500), Await::Timer(875)] => Action::new(11, 3),
        [Await::Event, Await::Timer(5_000)] => Action::new(19, 0),
        ref other => panic!("no action awaits {other:?}"),
    }
}

fn error_number(error: &ProtocolError) -> u8 {
    match error {
        ProtocolError::RxError(RxError::HardReset) => 0,
        ProtocolError::RxError(RxError::ReceiveTimeout) => 1,
        ProtocolError::UnexpectedMessage => 2,
        ProtocolError::Other(number) => *number,
        other => panic!("no number for {other:?}"),
    }
}
