//! Stand-ins for what a user of the crate supplies: driver, timer and device policy manager. All answer from the script.

use usbpd_traits::Driver;

use crate::protocol_layer::message::data::request::PowerSource;
use crate::protocol_layer::message::data::sink_capabilities::SinkCapabilities;
use crate::protocol_layer::message::data::source_capabilities::SourceCapabilities;
use crate::protocol_layer::script::{self, Action, Await, Outcome};
use crate::source::device_policy_manager::{
    CapabilityResponse, DevicePolicyManager, DrpDevicePolicyManager, EprDevicePolicyManager, Event, Info, SourceDpm,
};
use crate::timers::Timer;
use crate::{DataRole, SwapType};

/// A driver that nobody calls.
#[derive(Debug)]
pub struct Wire;

impl Driver for Wire {}

/// Timers that run out when the script says so.
#[derive(Debug)]
pub struct Clock;

impl Timer for Clock {
    async fn after_millis(milliseconds: u64) {
        script::wait(Await::Timer(milliseconds)).await;
    }
}

/// A device policy manager that answers from the script.
#[derive(Debug)]
pub struct Manager;

/// The request for 5 V, as the crate makes it from the capabilities that the script offers.
const SAFE_5V: u32 = 0x1304_b12c;

async fn ask(number: u8) -> bool {
    match script::wait(Await::Call(Action::new(number, 0))).await {
        Outcome::Answer(yes) => yes,
        other => panic!("{other:?} for a question"),
    }
}

async fn try_call(action: Action) -> Result<(), ()> {
    match script::wait(Await::Call(action)).await {
        Outcome::Done => Ok(()),
        Outcome::DpmFailed => Err(()),
        other => panic!("{other:?} for action {}", action.number),
    }
}

impl DevicePolicyManager for Manager {
    fn source_capabilities(&mut self) -> SourceCapabilities {
        script::offer()
    }

    async fn evaluate_request(&mut self, request: &PowerSource) -> CapabilityResponse {
        match script::wait(Await::Call(Action::with(7, request))).await {
            Outcome::Evaluation(response) => response,
            other => panic!("{other:?} for an evaluation"),
        }
    }

    /// Action 10 if the capabilities were read just before, as only `Disabled` does; else action 9.
    async fn transition_power(&mut self, request: &PowerSource) -> Result<(), ()> {
        if !script::offered() {
            return try_call(Action::with(9, request)).await;
        }
        assert!(matches!(request, PowerSource::FixedVariableSupply(word) if word.0 == SAFE_5V));
        try_call(Action::new(10, 0)).await
    }

    async fn hard_reset(&mut self) -> Result<(), ()> {
        try_call(Action::new(15, 0)).await
    }

    async fn evaluate_vconn_swap_request(&mut self) -> bool {
        ask(23).await
    }

    async fn drive_vconn(&mut self, on: bool) -> Result<(), ()> {
        try_call(Action::new(14, on.into())).await
    }

    async fn get_event(&mut self) -> Event {
        match script::wait(Await::Event).await {
            Outcome::Event(event) => event,
            other => panic!("{other:?} for an event"),
        }
    }

    async fn inform(&mut self, info: Info) {
        let (base, none) = match info {
            Info::SprSinkCapabilities(caps) => (1, caps.is_none()),
            Info::EprSinkCapabilities(caps) => (2, caps.is_none()),
            Info::RemoteSourceCapabilities(caps) => (3, caps.is_none()),
            Info::NotSupportedReceived => (4, false),
        };
        script::done(18, if none { base + 16 } else { base }).await;
    }
}

impl EprDevicePolicyManager for Manager {}

impl DrpDevicePolicyManager for Manager {
    async fn sink_capabilities(&mut self) -> SinkCapabilities {
        script::done(21, 0).await;
        SinkCapabilities::new_vsafe5v_only(300)
    }

    /// Only the data swap is run; the power swap is handed over before it asks.
    async fn evaluate_swap_request(&mut self, swap: SwapType) -> bool {
        match swap {
            SwapType::Data => ask(27).await,
            SwapType::Power => unreachable!("a power swap was run"),
        }
    }

    async fn swap_data_role(&mut self, role: DataRole) {
        script::done(28, bool::from(role).into()).await;
    }

    async fn fr_swap_signaled(&mut self) -> bool {
        ask(24).await
    }

    async fn discharge_vbus(&mut self) {
        script::done(25, 0).await;
    }

    async fn cc_sink(&mut self) {
        script::done(26, 0).await;
    }
}

impl SourceDpm for Manager {}
