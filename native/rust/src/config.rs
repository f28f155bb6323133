//! What a shared flow is made with.

/// What a flow without room does with an emission: Kotlin's `BufferOverflow`.
#[derive(Clone, Copy, Debug, PartialEq, Eq, Hash, Default)]
pub enum Policy {
    /// A try is full, and an emission waits.
    #[default]
    Suspend,
    /// It is accepted, and each subscriber without room loses its oldest pending value.
    DropOldest,
    /// It is dropped.
    DropLatest,
}

impl Policy {
    /// The number of the policy, as in `hillgauze.h`.
    pub(crate) fn number(self) -> u32 {
        match self {
            Policy::Suspend => 0,
            Policy::DropOldest => 1,
            Policy::DropLatest => 2,
        }
    }
}

/// What a shared flow is made with. `replay` and `extra` together are the places of each subscriber.
///
/// ```
/// use hillgauze::{Config, Policy};
///
/// let config = Config { replay: 1, extra: 15, policy: Policy::DropOldest, ..Config::default() };
/// assert_eq!(config.subscribers, 8);
/// ```
#[derive(Clone, Copy, Debug, PartialEq, Eq, Hash)]
pub struct Config {
    /// How many of the latest values a new subscriber gets. Together with `extra` at most 65,536.
    pub replay: u64,
    /// How many values more than these a subscriber may have pending.
    pub extra: u64,
    /// What a flow without room does with an emission. One that drops values wants a place, by `replay` or by `extra`.
    pub policy: Policy,
    /// How many subscribers there may be at once: 1 to 1,024.
    pub subscribers: u32,
    /// How many tickets may be out at once: 1 to 1,024.
    pub emits: u32,
    /// The number of the first emission, of the first subscriber and of the first ticket: at most 2^62.
    pub first: u64,
}

impl Default for Config {
    /// No replay, 64 places, 8 subscribers and 8 tickets, counted from 0; a flow without room lets emissions wait.
    ///
    /// Kotlin's `MutableSharedFlow()` has no places: that is `extra: 0`, where each emission waits until every subscriber
    /// has its value, and a try is `Full` for as long as somebody is subscribed.
    fn default() -> Config {
        Config {
            replay: 0,
            extra: 64,
            policy: Policy::Suspend,
            subscribers: 8,
            emits: 8,
            first: 0,
        }
    }
}
