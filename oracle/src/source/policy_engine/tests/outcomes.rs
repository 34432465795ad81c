//! From a trace's events to what the Rust is answered with: real messages of the crate's own types.

use super::trace::Event;
use crate::counters::{Counter, CounterType};
use crate::protocol_layer::message::data::Data;
use crate::protocol_layer::message::data::epr_mode::EprModeDataObject;
use crate::protocol_layer::message::data::request::{
    Avs, Battery, EprRequestDataObject, FixedVariableSupply, PowerSource, Pps, RawDataObject,
};
use crate::protocol_layer::message::data::sink_capabilities::SinkCapabilities;
use crate::protocol_layer::message::data::source_capabilities::{Kind, SourceCapabilities, parse_raw_pdo};
use crate::protocol_layer::message::extended::Extended;
use crate::protocol_layer::message::extended::extended_control::ExtendedControl;
use crate::protocol_layer::message::header::{DataMessageType, ExtendedMessageType, Header, SpecificationRevision};
use crate::protocol_layer::message::{Message, Payload};
use crate::protocol_layer::script::{Action, Outcome};
use crate::source::device_policy_manager::{CapabilityResponse, Event as DpmEvent};
use crate::{DataRole, PowerRole};

/// What the Rust is answered with for an event, at an action that it fits. Action 20 is two awaits, and fails at the second. `salt`
/// picks among the messages of class 5.
pub fn outcomes(event: &Event, awaited: &Action, salt: usize) -> Vec<Outcome> {
    let epr = awaited.argument == 1;
    match (awaited.number, outcome(event, awaited, salt)) {
        (20, Outcome::Done) => vec![Outcome::Done, Outcome::Message(remote_capabilities(epr, true))],
        (20, failed) => vec![Outcome::Done, failed],
        (_, outcome) => vec![outcome],
    }
}

fn outcome(event: &Event, awaited: &Action, salt: usize) -> Outcome {
    match event.code {
        1 => Outcome::Done,
        2 => Outcome::Failed(event.a),
        3 => Outcome::DpmFailed,
        4 => Outcome::NoSafe,
        5 => Outcome::Message(message(event, salt)),
        6 => {
            let position = awaited.request.expect("action 6 has a request").object_position();
            Outcome::Lookup(supply(event.a), position)
        }
        7 => Outcome::Evaluation(match event.a {
            0 => CapabilityResponse::Accept,
            1 => CapabilityResponse::Reject,
            _ => CapabilityResponse::Wait,
        }),
        8 => Outcome::Answer(event.a == 1),
        9 => Outcome::Event(dpm_event(event.a)),
        10 => Outcome::Timeout(event.a),
        code => panic!("code {code} is no outcome"),
    }
}

fn supply(number: u8) -> Option<Kind> {
    match number {
        0 => None,
        1 => Some(Kind::FixedSupply),
        2 => Some(Kind::VariableSupply),
        3 => Some(Kind::Battery),
        4 => Some(Kind::Pps),
        _ => Some(Kind::Avs),
    }
}

/// Events in the order of the arms of `Ready`.
fn dpm_event(number: u8) -> DpmEvent {
    match number {
        0 => DpmEvent::None,
        1 => DpmEvent::UpdatedSourceCapabilities,
        2 => DpmEvent::RequestSinkCapabilities,
        3 => DpmEvent::RequestSourceCapabilities,
        4 => DpmEvent::RequestEprSourceCapabilities,
        5 => DpmEvent::ExitEprMode,
        6 => DpmEvent::RequestVconnSwap,
        7 => DpmEvent::RequestDataRoleSwap,
        _ => DpmEvent::RequestPowerRoleSwap,
    }
}

fn template() -> Header {
    Header::new_template(DataRole::Ufp, PowerRole::Sink, SpecificationRevision::R3_X)
}

fn identity() -> Counter {
    Counter::new(CounterType::MessageId)
}

fn data(message_type: DataMessageType, objects: u8, data: Data) -> Message {
    Message::new_with_data(Header::new_data(template(), identity(), message_type, objects), data)
}

fn extended(message_type: ExtendedMessageType, payload: Extended) -> Message {
    let mut message = Message::new(Header::new_extended(template(), identity(), message_type, 1));
    message.payload = Some(Payload::Extended(payload));
    message
}

/// The message of an event.
pub fn message(event: &Event, salt: usize) -> Message {
    match event.a {
        0 => data(DataMessageType::Request, 1, requested(event)),
        1 => data(DataMessageType::EprRequest, 2, requested(event)),
        2 => data(
            DataMessageType::EprMode,
            1,
            match event.b {
                0 => Data::Unknown,
                _ => Data::EprMode(EprModeDataObject(event.words[0])),
            },
        ),
        // The type goes in as a raw number, so that the reserved ones are told apart up to the Rust's own reading.
        3 => Message::new(template().with_message_type_raw(event.b as u8)),
        4 => extended(
            ExtendedMessageType::ExtendedControl,
            match event.b {
                0 => Extended::Unknown,
                _ => Extended::ExtendedControl(ExtendedControl(event.words[0] as u16)),
            },
        ),
        5 => other(salt),
        6 => data(
            DataMessageType::SinkCapabilities,
            1,
            match event.b {
                0 => Data::Unknown,
                _ => Data::SinkCapabilities(SinkCapabilities::new_vsafe5v_only(300)),
            },
        ),
        _ => extended(
            ExtendedMessageType::EprSinkCapabilities,
            match event.b {
                0 => Extended::Unknown,
                _ => Extended::EprSinkCapabilities(SinkCapabilities::new_vsafe5v_only(300).0),
            },
        ),
    }
}

fn requested(event: &Event) -> Data {
    match event.b {
        0 => Data::Unknown,
        _ => Data::Request(request(event.b - 1, event.words)),
    }
}

/// A request of a kind.
pub fn request(kind: u16, words: [u32; 2]) -> PowerSource {
    let [word, second] = words;
    match kind {
        0 => PowerSource::FixedVariableSupply(FixedVariableSupply(word)),
        1 => PowerSource::Battery(Battery(word)),
        2 => PowerSource::Pps(Pps(word)),
        3 => PowerSource::Avs(Avs(word)),
        4 => PowerSource::Unknown(RawDataObject(word)),
        _ => PowerSource::EprRequest(EprRequestDataObject { rdo: word, pdo: parse_raw_pdo(second) }),
    }
}

/// A message of none of the other classes: all such types, one after the other.
fn other(salt: usize) -> Message {
    const DATA: [u8; 25] = [0, 1, 3, 5, 6, 7, 8, 11, 12, 13, 14, 15, 16, 17, 18, 19, 20, 21, 22, 23, 24, 25, 26, 29, 31];
    const EXTENDED: [u8; 25] = [0, 1, 2, 3, 4, 5, 6, 7, 8, 9, 10, 11, 12, 13, 14, 15, 17, 19, 20, 21, 22, 27, 28, 30, 31];
    let index = salt / 2 % 25;
    let (mut message, number) = match salt & 1 {
        0 => (data(DataMessageType::Reserved, 1, Data::Unknown), DATA[index]),
        _ => (extended(ExtendedMessageType::Reserved, Extended::Unknown), EXTENDED[index]),
    };
    message.header = message.header.with_message_type_raw(number);
    message
}

/// The answer that action 20 waits for, with a good payload or a bad one.
pub fn remote_capabilities(epr: bool, good: bool) -> Message {
    let caps = SourceCapabilities::new_vsafe5v_only(300);
    match (epr, good) {
        (false, true) => data(DataMessageType::SourceCapabilities, 1, Data::SourceCapabilities(caps)),
        (false, false) => data(DataMessageType::SourceCapabilities, 1, Data::Unknown),
        (true, true) => extended(
            ExtendedMessageType::EprSourceCapabilities,
            Extended::EprSourceCapabilities(caps.pdos().iter().copied().collect()),
        ),
        (true, false) => extended(ExtendedMessageType::EprSourceCapabilities, Extended::Unknown),
    }
}
