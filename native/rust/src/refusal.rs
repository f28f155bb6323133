//! Why a call is refused.

use std::error::Error;
use std::fmt;

/// Why a call was refused. A call says in its own documentation which of these it may answer, and in which order. A
/// refused call changes nothing, but for what is said beside it.
///
/// ```
/// use hillgauze::{Config, Policy, Refusal, Sequencer};
///
/// let config = Config { extra: 0, policy: Policy::DropOldest, ..Config::default() };
/// let refusal = Sequencer::<u64>::new(config).err();
/// assert_eq!(refusal, Some(Refusal::PolicyNeedsBuffer));
/// assert_eq!(Refusal::PolicyNeedsBuffer.number(), 2);
/// ```
#[derive(Clone, Copy, Debug, PartialEq, Eq, Hash)]
#[non_exhaustive]
pub enum Refusal {
    /// The capacity of a flow is over 65,536.
    TooLarge,
    /// A policy that drops values wants a flow with a capacity above 0.
    PolicyNeedsBuffer,
    /// Subscribers, emissions in flight or seats are 0 or over 1,024, or the first number is over 2^62.
    BadLimit,
    /// There was no memory.
    NoMemory,
    /// Each place for a subscriber, or each seat, is taken.
    SubscribersFull,
    /// The emission would have to wait, and each ticket is out.
    EmitsFull,
    /// The numbers below 2^62 are used up.
    Spent,
    /// A prelude of more than 16 values.
    PreludeTooLong,
}

impl Refusal {
    /// The number of the refusal, as in `hillgauze.h`.
    pub fn number(self) -> u8 {
        match self {
            Refusal::TooLarge => 1,
            Refusal::PolicyNeedsBuffer => 2,
            Refusal::BadLimit => 3,
            Refusal::NoMemory => 4,
            Refusal::SubscribersFull => 5,
            Refusal::EmitsFull => 6,
            Refusal::Spent => 7,
            Refusal::PreludeTooLong => 10,
        }
    }

    /// The refusal with a number that the library answered.
    pub(crate) fn numbered(number: u32) -> Refusal {
        match number {
            1 => Refusal::TooLarge,
            2 => Refusal::PolicyNeedsBuffer,
            3 => Refusal::BadLimit,
            4 => Refusal::NoMemory,
            5 => Refusal::SubscribersFull,
            6 => Refusal::EmitsFull,
            7 => Refusal::Spent,
            10 => Refusal::PreludeTooLong,
            _ => panic!(
                "the library refused a call as {number}, which the types of this crate rule out"
            ),
        }
    }
}

impl fmt::Display for Refusal {
    fn fmt(&self, f: &mut fmt::Formatter<'_>) -> fmt::Result {
        f.write_str(match self {
            Refusal::TooLarge => "a capacity is over 65,536",
            Refusal::PolicyNeedsBuffer => "a policy that drops values needs a capacity above 0",
            Refusal::BadLimit => "a limit is out of its range",
            Refusal::NoMemory => "out of memory",
            Refusal::SubscribersFull => "each place for a subscription is taken",
            Refusal::EmitsFull => "each ticket for an emission is out",
            Refusal::Spent => "the numbers below 2^62 are used up",
            Refusal::PreludeTooLong => "a prelude has more than 16 values",
        })
    }
}

impl Error for Refusal {}
