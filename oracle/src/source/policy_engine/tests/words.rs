//! Entries in words: the lines that `list` and `explain` have to print.
//!
//! A number that is not compared is written as `?`.

use super::super::*;
use super::engine::{Answer, Engine, Status};
use crate::protocol_layer::script::Action;

/// The line of the listing, with these actions.
pub fn listed(number: usize, answer: Answer, engine: &Engine, actions: &[Action]) -> String {
    if let Answer::Refused(refusal) = answer {
        return format!("{number} R{refusal}\n");
    }
    let (hard, caps) = counts(engine);
    let mut line = format!("{number} {} {} {hard} {caps}", short(answer), letter(&engine.contract()));
    for action in actions {
        line += &format!(" {}.{}", action.number, action.argument);
    }
    line + "\n"
}

/// The lines of the explanation, with these actions. Rows are not the Rust's: where a message met one, its number is not compared. The Rust tells
/// no attempts that remain either; they are what its own counter has left.
pub fn explained(number: usize, answer: Answer, met: bool, engine: &Engine, actions: &[Action]) -> String {
    let mut text = format!("entry {number}: {}, {}\n", short(answer), meaning(answer));
    if let Answer::Refused(_) = answer {
        return text;
    }
    if met {
        text += "  row       ?\n";
    }
    if let Some(remaining) = engine.remaining {
        text += &format!("  remaining {remaining}\n");
    }
    let (hard, caps) = counts(engine);
    let header = engine.header();
    let (vconn_source, dual_role) = engine.port();
    let data_role = engine.data_role();
    let mode = if engine.is_epr() { "Epr" } else { "Spr" };
    let setting = if header.standard() { "standard" } else { "crate" };
    text += &format!("  state     {}\n", place(engine));
    text += &format!("  mode      {mode}\n");
    text += &format!("  contract  {}\n", contract(&engine.contract()));
    text += &format!("  counts    hard reset {hard} of {}, capabilities {caps} of {}\n", header.hard_limit, header.caps_limit);
    let vconn_source = format!("{vconn_source} (created {})", header.vconn_source());
    text += &format!("  port      vconn_source {vconn_source}, dual_role {dual_role}, data_role {data_role:?}, setting {setting}\n");
    for action in actions {
        text += &format!("  action    {}.{}, {}\n", action.number, action.argument, action_words(action));
    }
    text
}

/// The two lines of an entry that the reading of the file refuses.
pub fn malformed(number: usize, what: &str) -> (String, String) {
    (format!("{number} R8\n"), format!("entry {number}: R8, malformed trace: {what}\n"))
}

/// The two lines of a refused creation.
pub fn refused_creation() -> (String, String) {
    let answer = Answer::Refused(7);
    ("0 R7\n".to_string(), format!("entry 0: R7, {}\n", meaning(answer)))
}

fn counts(engine: &Engine) -> (String, String) {
    let (hard, caps) = engine.counts();
    let shown = |lost: bool, value: u8| if lost { "?".to_string() } else { value.to_string() };
    (shown(engine.hard_lost, hard), shown(engine.caps_lost, caps))
}

fn short(answer: Answer) -> String {
    match answer {
        Answer::Waiting => "W".to_string(),
        Answer::Stopped(number) => format!("S.{number}"),
        Answer::Finished(number) => format!("F.{number}"),
        Answer::HandedOver(number) => format!("H.{number}"),
        Answer::Refused(number) => format!("R{number}"),
    }
}

fn meaning(answer: Answer) -> String {
    let text = match answer {
        Answer::Waiting => "waiting",
        Answer::Stopped(0) => "stopped by RxError::HardReset",
        Answer::Stopped(1) => "stopped by RxError::ReceiveTimeout",
        Answer::Stopped(2) => "stopped by UnexpectedMessage",
        Answer::Stopped(number) => return format!("stopped by protocol error {number}"),
        Answer::Finished(0) => "finished: SwapToSink",
        Answer::Finished(1) => "finished: PortPartnerUnresponsive",
        Answer::Finished(_) => "finished: ReconnectionRequired",
        Answer::HandedOver(number) => return format!("handed over: {}", handed_over(number)),
        Answer::Refused(2) => "the record is finished",
        Answer::Refused(3) => "a re-entry, and the record waits",
        Answer::Refused(4) => "an outcome, and the record does not wait",
        Answer::Refused(5) => "the outcome does not fit the awaited action",
        Answer::Refused(6) => "the target or the mode change is not allowed",
        Answer::Refused(_) => "a limit is 0, or role_swapped without dual_role",
    };
    text.to_string()
}

fn handed_over(number: u8) -> &'static str {
    match number {
        3 => "DrpSwap(Power(Evaluate))",
        4 => "DrpSwap(Power(Send))",
        5 => "EprMode(Entry)",
        6 => "EprMode(ExitReceived)",
        7 => "EprMode(SendExit)",
        _ => "EprMode(DiscoverCable)",
    }
}

/// A request by its kind and words.
pub fn request(request: &PowerSource) -> String {
    match request {
        PowerSource::FixedVariableSupply(word) => format!("FixedVariableSupply {:#010x}", word.0),
        PowerSource::Battery(word) => format!("Battery {:#010x}", word.0),
        PowerSource::Pps(word) => format!("Pps {:#010x}", word.0),
        PowerSource::Avs(word) => format!("Avs {:#010x}", word.0),
        PowerSource::Unknown(word) => format!("Unknown {:#010x}", word.0),
        PowerSource::EprRequest(words) => format!("EprRequest {:#010x} {:#010x}", words.rdo, words.pdo.to_raw()),
    }
}

fn letter(contract: &Contract) -> char {
    match contract {
        Contract::Safe5V => 'D',
        Contract::Implicit => 'I',
        Contract::TransitionToExplicit => 'T',
        Contract::Explicit(_) => 'E',
        Contract::_Invalid => 'N',
    }
}

/// The contract by letter and name, with its request.
pub fn contract(contract: &Contract) -> String {
    match contract {
        Contract::Explicit(power_source) => format!("E, Explicit: {}", request(power_source)),
        Contract::_Invalid => "N, Invalid".to_string(),
        other => format!("{}, {other:?}", letter(other)),
    }
}

/// The state and the await inside it, with the request that the state holds.
pub fn place(engine: &Engine) -> String {
    let Status::Waiting(action) = engine.status else { return "none".to_string() };
    match (engine.state(), action.request) {
        (State::NegotiateCapability(_), Some(carried)) => {
            format!("NegotiateCapability, {}: {}", await_words(engine), request(&carried))
        }
        (State::TransitionSupply(held), _) => {
            format!("TransitionSupply, {}: {}", await_words(engine), request(held))
        }
        _ => bare_place(engine),
    }
}

/// The state and the await inside it, without a request.
pub fn bare_place(engine: &Engine) -> String {
    let state = match (engine.state(), engine.asked()) {
        (State::NegotiateCapability(_), _) => "NegotiateCapability".to_string(),
        (State::TransitionSupply(_), _) => "TransitionSupply".to_string(),
        (State::GiveSourceCap, Some(asked)) => format!("GiveSourceCap({asked:?})"),
        (state, _) => format!("{state:?}"),
    };
    match engine.status {
        Status::Waiting(_) => format!("{state}, {}", await_words(engine)),
        Status::Stopped => "stopped".to_string(),
        Status::HandedOver => "handed over".to_string(),
        Status::Finished => "finished".to_string(),
    }
}

fn await_words(engine: &Engine) -> &'static str {
    let Status::Waiting(action) = engine.status else { return "none" };
    match (engine.state(), action.number, action.argument) {
        (State::TransitionSupply(_), 8, 3) => "transmit Accept",
        (State::TransitionSupply(_), 8, _) => "transmit PsRdy",
        (State::NotSupportedReceived, _, _) => "inform",
        (_, 2, 1) => "SwapSourceStart timer",
        (_, 2, 2) => "SourceCapability timer",
        (_, 2, _) => "PSHardReset timer",
        (_, 3, _) => "wait for VBUS",
        (_, 4 | 8 | 16 | 22, _) => "transmit",
        (_, 5 | 12 | 17 | 29, _) => "receive",
        (_, 6, _) => "look up",
        (_, 7, _) => "evaluate",
        (_, 9 | 10, _) => "supply",
        (_, 11 | 19, _) => "wait",
        (_, 13, _) => "signal",
        (_, 14, 0) => "drive_vconn false",
        (_, 14, _) => "drive_vconn true",
        (_, 15, _) => "hard_reset",
        (_, 18, 16..) => "inform none",
        (_, 18, _) => "inform some",
        (_, 20, _) => "get",
        (_, 21, _) => "read",
        (_, 23 | 24 | 27, _) => "ask",
        (_, 25, _) => "discharge_vbus",
        (_, 26, _) => "cc_sink",
        (_, 28, _) => "swap_data_role",
        other => panic!("no words for {other:?}"),
    }
}

fn action_words(action: &Action) -> String {
    let text = match action.number {
        1 => "protocol reset",
        2 => ["timer: SwapSourceStart", "timer: SourceCapability", "timer: PSHardReset"][usize::from(action.argument) - 1],
        3 => "wait for VBUS",
        5 => ["await request: Request", "await request: EprRequest"][usize::from(action.argument)],
        6 => "look up object position",
        7 => "evaluate",
        8 => return format!("send control message: {:?}", ControlMessageType::from(action.argument)),
        9 => "supply",
        10 => "supply to safe 5 V",
        11 => return format!("wait in Ready: {}", ready_words(action.argument)),
        12 => "receive anything",
        13 => "Hard Reset signalling",
        14 => ["drive_vconn: false", "drive_vconn: true"][usize::from(action.argument)],
        15 => "DPM hard_reset",
        16 => ["EprGetSinkCap", "EprKeepAliveAck"][usize::from(action.argument) / 2 - 1],
        17 => return format!("receive: {}", reception_words(action.argument)),
        18 => return format!("inform: {}", inform_words(action.argument)),
        19 => "await new capabilities",
        21 => "read own sink capabilities",
        23 => "ask: VCONN swap",
        24 => "ask: fr_swap_signaled",
        25 => "discharge_vbus",
        26 => "cc_sink",
        27 => "ask: data role swap",
        28 => ["swap_data_role: Ufp", "swap_data_role: Dfp"][usize::from(action.argument)],
        29 => "receive: Accept, Reject or Wait under SenderResponse",
        number => return format!("{}: {}", ranged_words(number), ["SPR", "EPR"][usize::from(action.argument)]),
    };
    match (action.number, &action.request) {
        (16, _) => format!("send extended control message: {text}"),
        (_, Some(carried)) => format!("{text}: {}", request(carried)),
        _ => text.to_string(),
    }
}

fn ranged_words(number: u8) -> &'static str {
    match number {
        4 => "send capabilities",
        20 => "get remote capabilities",
        22 => "send sink capabilities",
        _ => panic!("no words for action {number}"),
    }
}

fn ready_words(argument: u8) -> &'static str {
    ["no timeout", "PPS timeout", "keep-alive timeout", "PPS and keep-alive timeouts"][usize::from(argument)]
}

fn reception_words(argument: u8) -> &'static str {
    match argument {
        1 => "SPR sink capabilities under SenderResponse",
        2 => "EPR sink capabilities under SenderResponse",
        3 => "Accept under SenderResponse",
        4 => "PsRdy under PSSourceOnSpr",
        5 => "PsRdy under VCONNOn",
        _ => "any message under SenderResponse",
    }
}

fn inform_words(argument: u8) -> &'static str {
    match argument {
        1 => "SPR sink capabilities",
        2 => "EPR sink capabilities",
        3 => "remote source capabilities",
        4 => "not supported",
        17 => "SPR sink capabilities, none received",
        18 => "EPR sink capabilities, none received",
        _ => "remote source capabilities, none received",
    }
}
