//! The setting "standard", of which the Rust knows nothing: the one place where a run is made to differ from the Rust's.
//!
//! Two things are. The entry of a give gets the capabilities that were asked for, since the Rust sends by its mode. And `vconn_source`, which the Rust
//! reads and never writes, is written between two states; whoever reads it then, and takes the branch, is the Rust.

use core::mem::replace;

use super::super::{Mode, State, VcsState, VcsSwapSource};
use super::engine::{Answer, Engine, Port};
use super::trace::{Event, Header};
use super::words;
use crate::protocol_layer::script::Action;

/// The actions of an entry where the setting has others than the Rust; none where the entry is the Rust's own.
///
/// In GiveSourceCap the Rust sends the capabilities of its mode. Under "standard" they are those that the message asked for. An event that is refused
/// there issues nothing, and changes nothing of that.
pub fn corrected(answer: Answer, engine: &Engine) -> Option<[Action; 1]> {
    let (true, Answer::Waiting, Some(asked)) = (engine.header().standard(), answer, engine.asked()) else { return None };
    let [Action { number: 4, .. }] = engine.actions[..] else { panic!("GiveSourceCap issued {:?}", engine.actions) };
    let argument = match asked {
        Mode::Spr => 0,
        Mode::Epr => 1,
    };
    Some([Action::new(4, argument)])
}

/// Why `vconn_source` is written.
#[derive(Debug, Clone, Copy)]
pub enum Write {
    /// The device policy manager has driven VCONN off in TurnOffVconn.
    Cleared,
    /// It has driven VCONN on in TurnOnVconn, or in VcsForceVconn, which nothing enters.
    Set,
    /// Startup begins, with what the port was created with.
    Restored,
}

impl Write {
    /// The write that belongs between two states. `left` has ended well, and is none where a re-entry names the other.
    ///
    /// The states of the swap await nothing but the drive, and where it fails they end the run: that they ended well is its success. What
    /// TransitionToDefault drives is not remembered: Startup follows it.
    fn between(left: Option<&State>, entered: &State) -> Option<Self> {
        match (left, entered) {
            (_, State::Startup { .. }) => Some(Self::Restored),
            (Some(State::VconnSwap { state: VcsState::TurnOffVconn, .. }), _) => Some(Self::Cleared),
            (Some(State::VconnSwap { state: VcsState::TurnOnVconn | VcsState::VcsForceVconn, .. }), _) => Some(Self::Set),
            _ => None,
        }
    }
}

/// Write `vconn_source` under "standard", as a state begins: why, and whether that changed it. Under "crate" nothing is written.
pub fn write_vconn_source(port: &mut Port, header: Header, left: Option<&State>) -> Option<(Write, bool)> {
    let write = if header.standard() { Write::between(left, &port.state)? } else { return None };
    let value = match write {
        Write::Cleared => false,
        Write::Set => true,
        Write::Restored => header.vconn_source(),
    };
    Some((write, replace(&mut port.vconn_source, value) != value))
}

/// How often `vconn_source` was written for each reason, and how often that changed it.
#[derive(Debug, Clone, Copy, Default)]
pub struct Writes {
    made: [usize; 3],
    changing: [usize; 3],
}

impl Writes {
    pub fn count(&mut self, (write, changed): (Write, bool)) {
        self.made[write as usize] += 1;
        self.changing[write as usize] += usize::from(changed);
    }

    pub fn add(&mut self, other: &Self) {
        for reason in 0..3 {
            self.made[reason] += other.made[reason];
            self.changing[reason] += other.changing[reason];
        }
    }

    /// Whether any has changed the value.
    pub fn changed(&self) -> bool {
        self.changing.iter().any(|changing| *changing > 0)
    }

    /// How many there were for a reason, and how many of them changed the value.
    pub fn of(&self, write: Write) -> (usize, usize) {
        (self.made[write as usize], self.changing[write as usize])
    }
}

/// Who asked for a VCONN swap: the sink by VCONN_Swap, the device policy manager by its event 6, or the host for EPR.
#[derive(Debug, Clone, Copy)]
pub enum Asking {
    Sink,
    Manager,
    Epr,
}

/// A branch after Accept that the Rust alone would not take: to TurnOnVconn, or else to WaitForVconn.
#[derive(Debug, Clone, Copy)]
pub struct Branch {
    pub asking: Asking,
    pub turns_on: bool,
}

/// The Rust alone, into which nobody writes: it stands where a run does, with the `vconn_source` of its creation, and takes the same event.
pub struct Alone {
    from: State,
    answer: Option<Answer>,
    pub engine: Engine,
}

impl Alone {
    /// None where the value is that of the creation: the run is the Rust's alone then.
    pub fn take(run: &Engine, event: &Event) -> Option<Self> {
        let mut engine = run.with_created_vconn_source()?;
        let answer = engine.take(event);
        Some(Self { from: run.state().clone(), answer, engine })
    }

    /// The branch that the run took at this event, if there was one. It has to be the one that the Rust alone does not take, and anywhere else the two
    /// have to do the same, or the harness fails.
    pub fn branch(&self, answer: Answer, run: &Engine) -> Option<Branch> {
        assert_eq!(self.answer, Some(answer), "in {:?}", self.from);
        let came_to = |engine: &Engine| if let Answer::Waiting = answer { branch_of(engine.state()) } else { None };
        let Some((source, turns_on)) = came_to(run) else {
            assert_eq!(shown(answer, run, &["port"]), shown(answer, &self.engine, &["port"]), "in {:?}", self.from);
            return None;
        };
        assert_eq!(came_to(&self.engine), Some((source, !turns_on)), "a branch that the Rust alone takes too");
        let where_they_part = ["port", "state", "action"];
        assert_eq!(shown(answer, run, &where_they_part), shown(answer, &self.engine, &where_they_part));
        Some(Branch { asking: self.asking(), turns_on })
    }

    fn asking(&self) -> Asking {
        match &self.from {
            State::VconnSwap { source: VcsSwapSource::Message, state: VcsState::AcceptSwap } => Asking::Sink,
            State::VconnSwap { source: VcsSwapSource::Message, state: VcsState::SendSwap } => Asking::Manager,
            State::VconnSwap { source: VcsSwapSource::Epr, state: VcsState::SendSwap } => Asking::Epr,
            other => panic!("{other:?} branched by vconn_source"),
        }
    }
}

/// For whom, and whether to turn VCONN on, in one of the two branches. No accepted event leaves the engine waiting there: it has just come.
fn branch_of(state: &State) -> Option<(VcsSwapSource, bool)> {
    match state {
        State::VconnSwap { source, state: VcsState::TurnOnVconn } => Some((*source, true)),
        State::VconnSwap { source, state: VcsState::WaitForVconn } => Some((*source, false)),
        _ => None,
    }
}

/// An entry in words, without the lines of these labels.
fn shown(answer: Answer, engine: &Engine, labels: &[&str]) -> String {
    let text = words::explained(0, answer, false, engine, &engine.actions);
    let label = |line: &&str| line.split_whitespace().next().is_some_and(|label| !labels.contains(&label));
    text.lines().filter(label).collect::<Vec<_>>().join("\n")
}
