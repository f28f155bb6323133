//! The functions of `hillgauze.h`, as the linker finds them, and a place for a handle.

use crate::config::Config;
use crate::reply::Reply;
use std::cell::UnsafeCell;
use std::ffi::c_void;
use std::ptr;

/// A kind of handle, which is null or has one object.
pub(crate) trait Kind {
    const NULL: Self;

    /// Frees the object, if there is one.
    ///
    /// # Safety
    /// The handle is one of this kind, and no other call has it.
    unsafe fn free(handle: *mut Self) -> Reply;
}

macro_rules! handles {
    ($($kind:ident is freed by $free:ident;)*) => {$(
        #[repr(C)]
        pub(crate) struct $kind {
            object: *mut c_void,
        }

        impl Kind for $kind {
            const NULL: $kind = $kind { object: ptr::null_mut() };

            unsafe fn free(handle: *mut $kind) -> Reply {
                // SAFETY: as this function asks.
                unsafe { $free(handle) }
            }
        }
    )*};
}

handles! {
    Shared is freed by hillgauze_shared_free;
    Sequencer is freed by hillgauze_lane_free;
    Reader is freed by hillgauze_reader_close;
    State is freed by hillgauze_state_free;
    Collector is freed by hillgauze_collector_free;
}

/// A handle, which is freed when it is dropped. One thread has it at a time, so it isn't `Sync`.
pub(crate) struct Handle<K: Kind>(UnsafeCell<K>);

impl<K: Kind> Handle<K> {
    pub(crate) fn null() -> Handle<K> {
        Handle(UnsafeCell::new(K::NULL))
    }

    /// Where the handle is. The library may write it during a call, also where this crate has it by a shared reference.
    pub(crate) fn at(&self) -> *mut K {
        self.0.get()
    }
}

impl<K: Kind> Drop for Handle<K> {
    fn drop(&mut self) {
        // SAFETY: this is the last that has the handle. Where it is null, the call is refused and does nothing.
        let _refused_where_null = unsafe { K::free(self.at()) };
    }
}

// SAFETY: each kind of handle may go from thread to thread, as its header says, and handles of one flow may be used at
// once. Two calls on one handle never overlap, since it isn't `Sync` and no call calls back; and where a value goes to
// another thread, safe Rust orders what was done with it before what is done after.
unsafe impl<K: Kind> Send for Handle<K> {}

/// What a flow is made with, as the library takes it.
#[repr(C)]
pub(crate) struct RawConfig {
    replay: u64,
    extra: u64,
    first: u64,
    policy: u32,
    subscribers: u32,
    emits: u32,
}

impl RawConfig {
    pub(crate) fn of(config: Config) -> RawConfig {
        RawConfig {
            replay: config.replay,
            extra: config.extra,
            first: config.first,
            policy: config.policy.number(),
            subscribers: config.subscribers,
            emits: config.emits,
        }
    }
}

/// Declares the functions of the library. Where the library isn't there, as `build.rs` found, each is one that says so:
/// then a program that calls it compiles and links, and ends with that.
macro_rules! functions {
    ($(pub(crate) fn $name:ident($($parameter:ident: $kind:ty),* $(,)?) -> Reply;)*) => {
        #[cfg(not(hillgauze_absent))]
        unsafe extern "C" {
            $(pub(crate) fn $name($($parameter: $kind),*) -> Reply;)*
        }

        $(
            #[cfg(hillgauze_absent)]
            pub(crate) unsafe fn $name($($parameter: $kind),*) -> Reply {
                let _unused = ($($parameter),*);
                absent(stringify!($name))
            }
        )*
    };
}

#[cfg(hillgauze_absent)]
#[cold]
fn absent(name: &str) -> Reply {
    panic!(
        "{name}: this program was built without the library of the proved flows, which `build.rs` of the crate \
         hillgauze didn't find. Its README says how to build it, and where it is looked for."
    )
}

functions! {
    pub(crate) fn hillgauze_shared_new(flow: *mut Shared, config: *const RawConfig) -> Reply;
    pub(crate) fn hillgauze_shared_try_emit(flow: *mut Shared, emitter: u32, value: u64) -> Reply;
    pub(crate) fn hillgauze_shared_try_emit_all(
        flow: *mut Shared,
        emitter: u32,
        values: *const u64,
        count: usize,
    ) -> Reply;
    pub(crate) fn hillgauze_shared_start_emit(flow: *mut Shared, emitter: u32, value: u64)
        -> Reply;
    pub(crate) fn hillgauze_shared_poll_emit(flow: *mut Shared, ticket: u64) -> Reply;
    pub(crate) fn hillgauze_shared_cancel_emit(flow: *mut Shared, ticket: u64) -> Reply;
    pub(crate) fn hillgauze_shared_subscribe(flow: *mut Shared) -> Reply;
    pub(crate) fn hillgauze_shared_subscribe_with(
        flow: *mut Shared,
        values: *const u64,
        count: usize,
    ) -> Reply;
    pub(crate) fn hillgauze_shared_next(flow: *mut Shared, subscription: u64) -> Reply;
    pub(crate) fn hillgauze_shared_try_next_all(
        flow: *mut Shared,
        subscription: u64,
        values: *mut u64,
        count: usize,
    ) -> Reply;
    pub(crate) fn hillgauze_shared_cancel(flow: *mut Shared, subscription: u64) -> Reply;
    pub(crate) fn hillgauze_shared_pending(flow: *mut Shared, subscription: u64) -> Reply;
    pub(crate) fn hillgauze_shared_count(flow: *mut Shared) -> Reply;
    pub(crate) fn hillgauze_shared_cache_len(flow: *mut Shared) -> Reply;
    pub(crate) fn hillgauze_shared_cache_at(flow: *mut Shared, index: u64) -> Reply;
    pub(crate) fn hillgauze_shared_reset(flow: *mut Shared) -> Reply;
    pub(crate) fn hillgauze_shared_free(flow: *mut Shared) -> Reply;

    pub(crate) fn hillgauze_lane_new(sequencer: *mut Sequencer, config: *const RawConfig) -> Reply;
    pub(crate) fn hillgauze_lane_try_emit(
        sequencer: *mut Sequencer,
        emitter: u32,
        value: u64,
    ) -> Reply;
    pub(crate) fn hillgauze_lane_try_emit_all(
        sequencer: *mut Sequencer,
        emitter: u32,
        values: *const u64,
        count: usize,
    ) -> Reply;
    pub(crate) fn hillgauze_lane_start_emit(
        sequencer: *mut Sequencer,
        emitter: u32,
        value: u64,
    ) -> Reply;
    pub(crate) fn hillgauze_lane_poll_emit(sequencer: *mut Sequencer, ticket: u64) -> Reply;
    pub(crate) fn hillgauze_lane_cancel_emit(sequencer: *mut Sequencer, ticket: u64) -> Reply;
    pub(crate) fn hillgauze_lane_scan(sequencer: *mut Sequencer) -> Reply;
    pub(crate) fn hillgauze_lane_admit(sequencer: *mut Sequencer, reader: *mut Reader) -> Reply;
    pub(crate) fn hillgauze_lane_count(sequencer: *mut Sequencer) -> Reply;
    pub(crate) fn hillgauze_lane_cache_len(sequencer: *mut Sequencer) -> Reply;
    pub(crate) fn hillgauze_lane_cache_at(sequencer: *mut Sequencer, index: u64) -> Reply;
    pub(crate) fn hillgauze_lane_reset(sequencer: *mut Sequencer) -> Reply;
    pub(crate) fn hillgauze_lane_free(sequencer: *mut Sequencer) -> Reply;

    pub(crate) fn hillgauze_reader_try_next(reader: *mut Reader) -> Reply;
    pub(crate) fn hillgauze_reader_try_next_all(
        reader: *mut Reader,
        values: *mut u64,
        count: usize,
    ) -> Reply;
    pub(crate) fn hillgauze_reader_start(reader: *mut Reader) -> Reply;
    pub(crate) fn hillgauze_reader_received(reader: *mut Reader) -> Reply;
    pub(crate) fn hillgauze_reader_dropped(reader: *mut Reader) -> Reply;
    pub(crate) fn hillgauze_reader_close(reader: *mut Reader) -> Reply;

    pub(crate) fn hillgauze_state_new(seat: *mut State, value: u64, seats: u32) -> Reply;
    pub(crate) fn hillgauze_state_value(seat: *mut State) -> Reply;
    pub(crate) fn hillgauze_state_set(seat: *mut State, value: u64) -> Reply;
    pub(crate) fn hillgauze_state_compare_and_set(
        seat: *mut State,
        expect: u64,
        update: u64,
    ) -> Reply;
    pub(crate) fn hillgauze_state_collectors(seat: *mut State) -> Reply;
    pub(crate) fn hillgauze_state_spare(seat: *mut State) -> Reply;
    pub(crate) fn hillgauze_state_take_seat(
        seat: *mut State,
        share: u32,
        other: *mut State,
    ) -> Reply;
    pub(crate) fn hillgauze_state_give_back(seat: *mut State, other: *mut State) -> Reply;
    pub(crate) fn hillgauze_state_collect(seat: *mut State, collector: *mut Collector) -> Reply;
    pub(crate) fn hillgauze_state_free(seat: *mut State) -> Reply;

    pub(crate) fn hillgauze_collector_try_next(collector: *mut Collector) -> Reply;
    pub(crate) fn hillgauze_collector_cancel(collector: *mut Collector, seat: *mut State) -> Reply;
    pub(crate) fn hillgauze_collector_free(collector: *mut Collector) -> Reply;
}
