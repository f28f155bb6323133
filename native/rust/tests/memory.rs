//! Want of memory: where `malloc` gives none, each call that takes memory is refused as `NoMemory`, nothing has changed
//! and nothing is lost.
//!
//! This program has a `malloc`, a `realloc` and a `free` of its own, which the static library calls; what Rust
//! allocates goes past them. Only glibc gives its own functions a second name for that.
#![cfg(all(target_os = "linux", target_env = "gnu"))]

use hillgauze::{
    Config, Emitted, Reader, Receiver, Refusal, Sender, Sequencer, SharedState, StateSeat, Taken,
    Tried,
};
use std::alloc::{GlobalAlloc, Layout};
use std::cell::Cell;
use std::ffi::c_void;
use std::ops::RangeInclusive;
use std::ptr;

unsafe extern "C" {
    fn __libc_malloc(size: usize) -> *mut c_void;
    fn __libc_memalign(alignment: usize, size: usize) -> *mut c_void;
    fn __libc_realloc(block: *mut c_void, size: usize) -> *mut c_void;
    fn __libc_free(block: *mut c_void);
}

thread_local! {
    // Neither has a destructor, so a thread begins to use them without an allocation.
    /// How many blocks this thread took by `malloc` and didn't give back.
    static BLOCKS: Cell<i64> = const { Cell::new(0) };
    /// How many requests it made since some were to be refused, and the first and the last of those.
    static REQUESTS: Cell<(u32, u32, u32)> = const { Cell::new((0, 1, 0)) };
}

fn is_refused() -> bool {
    let (made, first, last) = REQUESTS.get();
    let number = made.wrapping_add(1);
    REQUESTS.set((number, first, last));
    first <= number && number <= last
}

fn count(blocks: i64) {
    BLOCKS.set(BLOCKS.get() + blocks);
}

#[no_mangle]
unsafe extern "C" fn malloc(size: usize) -> *mut c_void {
    if is_refused() {
        return ptr::null_mut();
    }
    // SAFETY: asked for as `malloc` is.
    let block = unsafe { __libc_malloc(size) };
    count(i64::from(!block.is_null()));
    block
}

#[no_mangle]
unsafe extern "C" fn realloc(block: *mut c_void, size: usize) -> *mut c_void {
    if is_refused() {
        return ptr::null_mut();
    }
    // SAFETY: asked for as `realloc` is.
    let moved = unsafe { __libc_realloc(block, size) };
    count(i64::from(block.is_null() && !moved.is_null()));
    moved
}

#[no_mangle]
unsafe extern "C" fn free(block: *mut c_void) {
    count(-i64::from(!block.is_null()));
    // SAFETY: asked for as `free` is.
    unsafe { __libc_free(block) }
}

/// What Rust allocates: neither refused nor counted.
struct Past;

// SAFETY: glibc's own functions, which keep these rules.
unsafe impl GlobalAlloc for Past {
    unsafe fn alloc(&self, layout: Layout) -> *mut u8 {
        // SAFETY: an alignment is a power of two.
        unsafe { __libc_memalign(layout.align().max(16), layout.size()) }.cast()
    }

    unsafe fn dealloc(&self, block: *mut u8, _layout: Layout) {
        // SAFETY: `alloc` gave the block.
        unsafe { __libc_free(block.cast()) }
    }
}

#[global_allocator]
static PAST: Past = Past;

/// Runs a call some of whose requests are refused, counted from 1, and says how many it made.
fn refusing<T>(numbers: RangeInclusive<u32>, call: impl FnOnce() -> T) -> (T, u32) {
    REQUESTS.set((0, *numbers.start(), *numbers.end()));
    let answer = call();
    let (made, _, _) = REQUESTS.get();
    REQUESTS.set((0, 1, 0));
    (answer, made)
}

/// Makes a call again and again, with its first, its second .. request refused, alone and with all that come after it,
/// until there is none to refuse. Says how many there are.
fn refuse_each<F, T>(
    flows: &mut F,
    call: impl Fn(&mut F) -> Result<T, Refusal>,
    end: impl Fn(&mut F, T),
    assert_unchanged: impl Fn(&mut F),
) -> u32 {
    let before = BLOCKS.get();
    for number in 1.. {
        for last in [number, u32::MAX] {
            let (answer, made) = refusing(number..=last, || call(flows));
            if made < number {
                end(flows, answer.unwrap());
                return number - 1;
            }
            assert_eq!(answer.err(), Some(Refusal::NoMemory), "request {number}");
            assert_eq!(BLOCKS.get(), before, "request {number}");
            assert_unchanged(flows);
        }
        let made = call(flows).unwrap();
        assert!(BLOCKS.get() > before);
        end(flows, made);
        assert_eq!(BLOCKS.get(), before);
        assert_unchanged(flows);
    }
    unreachable!("a call has a last request");
}

fn config() -> Config {
    Config {
        replay: 1,
        extra: 3,
        ..Config::default()
    }
}

#[test]
fn a_shared_flow_is_refused() {
    let requests = refuse_each(
        &mut (),
        |()| SharedState::<u64>::new(config()),
        |(), flow| drop(flow),
        |()| (),
    );
    assert!(requests > 0);
}

#[test]
fn a_lane_is_refused() {
    let requests = refuse_each(
        &mut (),
        |()| Sequencer::<u64>::new(config()),
        |(), sequencer| drop(sequencer),
        |()| (),
    );
    assert!(requests > 0);
}

#[test]
fn a_reader_is_refused() {
    let mut sequencer = Sequencer::new(config()).unwrap();
    let mut reader = sequencer.admit().unwrap();
    for value in [7u64, 8] {
        assert!(matches!(
            sequencer.try_emit(0, value),
            Ok(Tried::Accepted(_))
        ));
    }
    assert_eq!(reader.try_next(), Taken::Value(7));
    let mut flows = (sequencer, reader);
    let requests = refuse_each(
        &mut flows,
        |(sequencer, _)| sequencer.admit(),
        |_, late: Reader<u64>| assert_eq!(late.close().received, 0),
        |(sequencer, reader)| {
            assert_eq!((sequencer.live(), sequencer.replay_at(0)), (1, Some(8)));
            assert_eq!((reader.received(), reader.dropped()), (1, 0));
        },
    );
    assert_eq!(requests, 2, "for itself, and for what it takes at once");
    assert_eq!(flows.1.try_next(), Taken::Value(8));
    assert_eq!(flows.1.try_next(), Taken::Nothing);
}

#[test]
fn a_state_is_refused() {
    let requests = refuse_each(
        &mut (),
        |()| StateSeat::new(7u64, 2),
        |(), seat| drop(seat),
        |()| (),
    );
    assert!(requests > 0);
}

#[test]
fn a_seat_is_refused() {
    let mut seat = StateSeat::new(7u64, 3).unwrap();
    let mut collector = seat.take_seat(0).unwrap().collect();
    assert_eq!(collector.try_next(), Some(7));
    let mut flows = (seat, collector);
    let requests = refuse_each(
        &mut flows,
        |(seat, _)| seat.take_seat(0),
        |(seat, _), other| seat.give_back(other).unwrap(),
        |(seat, collector)| {
            let counts = (seat.value(), seat.spare(), seat.collectors());
            assert_eq!(counts, (7, 1, 1));
            assert_eq!(collector.try_next(), None);
        },
    );
    assert!(requests > 0);
    flows.0.set(8);
    assert_eq!(flows.1.try_next(), Some(8));
}

#[test]
fn a_flow_of_senders_is_refused() {
    let requests = refuse_each(
        &mut (),
        |()| Sender::<String>::new(config()),
        |(), sender| drop(sender),
        |()| (),
    );
    assert!(requests > 0);
}

/// Where a receiver is refused nobody waits for it, and no value is kept for it.
#[test]
fn a_receiver_is_refused() {
    let sender = Sender::new(config()).unwrap();
    let mut receiver = sender.subscribe().unwrap();
    for value in ["7", "8"] {
        assert!(matches!(
            sender.try_emit(value.to_string()),
            Ok(Emitted::Accepted(_))
        ));
    }
    assert_eq!(receiver.try_recv().unwrap(), "7");
    let mut flows = (sender, receiver);
    for by_receiver in [false, true] {
        let requests = refuse_each(
            &mut flows,
            |(sender, receiver)| {
                if by_receiver {
                    receiver.resubscribe()
                } else {
                    sender.subscribe()
                }
            },
            |_, mut late: Receiver<String>| assert_eq!(late.try_recv().unwrap(), "8"),
            |(sender, receiver)| {
                assert_eq!((sender.receiver_count(), sender.replay_len()), (1, 1));
                assert_eq!((receiver.received(), receiver.dropped()), (1, 0));
            },
        );
        assert_eq!(requests, 2);
    }
    let (sender, mut receiver) = flows;
    for number in 0..9 {
        assert_eq!(
            receiver.try_recv().unwrap(),
            if number == 0 { "8" } else { "9" }
        );
        assert!(sender.try_emit("9".to_string()).is_ok());
    }
}
