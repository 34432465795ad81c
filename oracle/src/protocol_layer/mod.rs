//! Stand-in for the protocol layer: a recorder with the method names of the original. Each awaited call is one action of the
//! script, and is answered by it. The messages under `message` are original.

pub mod message;
pub mod script;

use core::marker::PhantomData;

use message::Message;
use message::data::sink_capabilities::SinkCapabilities;
use message::data::source_capabilities::SourceCapabilities;
use message::extended::extended_control::ExtendedControlMessageType;
use message::header::{ControlMessageType, DataMessageType, ExtendedMessageType, Header, MessageType};
use script::{Action, Await};
use usbpd_traits::Driver;

use crate::DataRole;
use crate::timers::{Timer, TimerType};

/// Errors that can occur in the protocol layer: those that the policy engine names, and one that carries any other number.
#[derive(Debug)]
pub enum ProtocolError {
    /// An error during reception.
    RxError(RxError),
    /// An error during transmission.
    TxError(TxError),
    /// Transmission failed after all retries.
    TransmitRetriesExceeded(u8),
    /// An unexpected message was received.
    UnexpectedMessage,
    /// Any other error, by its number. The original has no such case; the policy engine passes it through.
    Other(u8),
}

/// Errors that can occur during reception, as far as the policy engine names them.
#[derive(Debug)]
pub enum RxError {
    /// Port partner requested soft reset.
    SoftReset,
    /// Driver reported a hard reset.
    HardReset,
    /// A timeout during message reception.
    ReceiveTimeout,
    /// An unsupported message was received.
    UnsupportedMessage,
}

/// Errors that can occur during transmission, as far as the policy engine names them.
#[derive(Debug)]
pub enum TxError {
    /// Driver reported a hard reset.
    HardReset,
}

/// The recorder in the place of the source's protocol layer.
#[derive(Debug)]
pub(crate) struct SourceProtocolLayer<DRIVER: Driver, TIMER: Timer> {
    driver: DRIVER,
    header: Header,
    _timer: PhantomData<TIMER>,
}

impl<DRIVER: Driver, TIMER: Timer> SourceProtocolLayer<DRIVER, TIMER> {
    pub fn new(driver: DRIVER, header: Header) -> Self {
        Self { driver, header, _timer: PhantomData }
    }

    pub fn deconstruct(self) -> DRIVER {
        self.driver
    }

    pub fn header(&self) -> &Header {
        &self.header
    }

    /// Put a data role into the header. The policy engine writes none: only the harness calls this, after a data role swap.
    pub fn set_data_role(&mut self, role: DataRole) {
        self.header = self.header.with_port_data_role(role);
    }

    pub fn reset(&mut self) {
        script::reset();
    }

    pub async fn wait_for_vbus(&mut self) {
        script::done(3, 0).await;
    }

    pub async fn transmit_source_capabilities(&mut self, _: &SourceCapabilities) -> Result<(), ProtocolError> {
        script::sent(4, 0).await
    }

    pub async fn transmit_epr_source_capabilities(&mut self, _: &SourceCapabilities) -> Result<(), ProtocolError> {
        script::sent(4, 1).await
    }

    pub async fn wait_for_request(&mut self) -> Result<Message, ProtocolError> {
        script::received(Await::Call(Action::new(5, 0))).await
    }

    pub async fn wait_for_epr_request(&mut self) -> Result<Message, ProtocolError> {
        script::received(Await::Call(Action::new(5, 1))).await
    }

    pub async fn transmit_control_message(&mut self, message_type: ControlMessageType) -> Result<(), ProtocolError> {
        script::sent(8, message_type as u8).await
    }

    pub async fn receive_message(&mut self) -> Result<Message, ProtocolError> {
        script::received(Await::Receive).await
    }

    pub async fn hard_reset(&mut self) -> Result<(), ProtocolError> {
        script::sent(13, 0).await
    }

    pub async fn transmit_extended_control_message(
        &mut self,
        message_type: ExtendedControlMessageType,
    ) -> Result<(), ProtocolError> {
        script::sent(16, message_type.into()).await
    }

    pub async fn receive_message_type(
        &mut self,
        message_types: &[MessageType],
        timer_type: TimerType,
    ) -> Result<Message, ProtocolError> {
        script::received(Await::Call(reception(message_types, timer_type))).await
    }

    pub async fn transmit_sink_capabilities(&mut self, _: SinkCapabilities) -> Result<(), ProtocolError> {
        script::sent(22, 0).await
    }

    pub async fn transmit_epr_sink_capabilities(&mut self, _: SinkCapabilities) -> Result<(), ProtocolError> {
        script::sent(22, 1).await
    }

    /// Only the EPR states call it, and these are handed over.
    pub async fn transmit_epr_mode(&mut self, _: message::data::epr_mode::Action, _: u8) -> Result<(), ProtocolError> {
        unreachable!("an EPR state was run")
    }
}

/// The action for the messages that are let through and the timer: 29, or 17 with the arguments 1 to 6 as in the list of actions. 17.7 and
/// 17.8 are the receiving half of action 20, which the harness joins with its sending half.
fn reception(message_types: &[MessageType], timer_type: TimerType) -> Action {
    use ControlMessageType::{Accept, NotSupported, PsRdy, Reject, Wait};
    use MessageType::{Control, Data, Extended};
    let argument = match (message_types, timer_type) {
        // A power swap awaits the same, and is handed over.
        ([Control(Accept), Control(Reject), Control(Wait)], TimerType::SenderResponse) => return Action::new(29, 0),
        ([Data(DataMessageType::SinkCapabilities)], TimerType::SenderResponse) => 1,
        ([Extended(ExtendedMessageType::EprSinkCapabilities)], TimerType::SenderResponse) => 2,
        ([Control(Accept)], TimerType::SenderResponse) => 3,
        ([Control(PsRdy)], TimerType::PSSourceOnSpr) => 4,
        ([Control(PsRdy)], TimerType::VCONNOn) => 5,
        ([Control(Accept), Control(Reject), Control(Wait), Control(NotSupported)], TimerType::SenderResponse) => 6,
        ([Data(DataMessageType::SourceCapabilities)], TimerType::SenderResponse) => 7,
        ([Extended(ExtendedMessageType::EprSourceCapabilities)], TimerType::SenderResponse) => 8,
        other => panic!("no action receives {other:?}"),
    };
    Action::new(17, argument)
}
