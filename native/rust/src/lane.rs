//! The library's calls on a lane's sequencer and on a reader, over words. None of them wakes anybody.

use crate::answers::{Begun, Emit, FlowId, Taken, Ticket, Tried, Withdrawn};
use crate::blocks::{add_all, Room, BLOCK};
use crate::config::Config;
use crate::raw::{self, Handle, RawConfig};
use crate::refusal::Refusal;
use crate::reply::Reply;
use crate::word::Word;

/// The one party of a lane that emits.
pub(crate) struct Lane {
    handle: Handle<raw::Sequencer>,
    flow: FlowId,
}

impl Lane {
    pub(crate) fn new(config: Config) -> Result<Lane, Refusal> {
        let handle = Handle::null();
        let config = RawConfig::of(config);
        // SAFETY: the handle is null, and both pointers are good for the call.
        unsafe { raw::hillgauze_lane_new(handle.at(), &config) }
            .granted()?
            .done();
        Ok(Lane {
            handle,
            flow: FlowId::next(),
        })
    }

    #[inline]
    pub(crate) fn try_emit(&mut self, emitter: u32, word: u64) -> Result<Tried, Refusal> {
        // SAFETY: the handle is live, and no other call has it.
        let reply = unsafe { raw::hillgauze_lane_try_emit(self.handle.at(), emitter, word) };
        reply.granted().map(Reply::tried)
    }

    #[inline]
    pub(crate) fn try_emit_all(&mut self, emitter: u32, words: &[u64]) -> Result<u64, Refusal> {
        let (words, count) = (words.as_ptr(), words.len());
        // SAFETY: the handle is live, no other call has it, and there are `count` words.
        let reply =
            unsafe { raw::hillgauze_lane_try_emit_all(self.handle.at(), emitter, words, count) };
        reply.granted().map(Reply::count)
    }

    #[inline]
    pub(crate) fn start_emit(&mut self, emitter: u32, word: u64) -> Result<Begun, Refusal> {
        // SAFETY: the handle is live, and no other call has it.
        let reply = unsafe { raw::hillgauze_lane_start_emit(self.handle.at(), emitter, word) };
        reply.granted().map(|reply| reply.begun(self.flow))
    }

    #[inline]
    pub(crate) fn poll_emit(&mut self, ticket: Ticket) -> Emit {
        let Some(ticket) = ticket.of(self.flow) else {
            return Emit::Gone;
        };
        // SAFETY: the handle is live, and no other call has it.
        unsafe { raw::hillgauze_lane_poll_emit(self.handle.at(), ticket) }.emit()
    }

    #[inline]
    pub(crate) fn cancel_emit(&mut self, ticket: Ticket) -> Withdrawn {
        let Some(ticket) = ticket.of(self.flow) else {
            return Withdrawn::Gone;
        };
        // SAFETY: the handle is live, and no other call has it.
        unsafe { raw::hillgauze_lane_cancel_emit(self.handle.at(), ticket) }.withdrawn()
    }

    #[inline]
    pub(crate) fn scan(&mut self) -> u32 {
        // SAFETY: the handle is live, and no other call has it.
        unsafe { raw::hillgauze_lane_scan(self.handle.at()) }.small_count()
    }

    pub(crate) fn admit(&mut self) -> Result<Cursor, Refusal> {
        let reader = Handle::null();
        // SAFETY: the sequencer's handle is live, the reader's is null, and no other call has them.
        unsafe { raw::hillgauze_lane_admit(self.handle.at(), reader.at()) }
            .granted()?
            .done();
        Ok(Cursor {
            handle: reader,
            room: Room::default(),
        })
    }

    pub(crate) fn live(&self) -> u32 {
        // SAFETY: the handle is live, and no other call has it.
        unsafe { raw::hillgauze_lane_count(self.handle.at()) }.small_count()
    }

    pub(crate) fn reset_replay(&mut self) {
        // SAFETY: the handle is live, and no other call has it.
        unsafe { raw::hillgauze_lane_reset(self.handle.at()) }.done();
    }

    pub(crate) fn replay_len(&self) -> u64 {
        // SAFETY: the handle is live, and no other call has it.
        unsafe { raw::hillgauze_lane_cache_len(self.handle.at()) }.count()
    }

    pub(crate) fn replay_at<T: Word>(&self, index: u64) -> Option<T> {
        // SAFETY: the handle is live, and no other call has it.
        unsafe { raw::hillgauze_lane_cache_at(self.handle.at(), index) }.value()
    }
}

/// A party of a lane that receives. Where it is dropped it is closed.
pub(crate) struct Cursor {
    handle: Handle<raw::Reader>,
    room: Room,
}

impl Cursor {
    /// One that isn't at any lane: no call but its drop is made on it.
    pub(crate) fn nowhere() -> Cursor {
        Cursor {
            handle: Handle::null(),
            room: Room::default(),
        }
    }

    #[inline]
    pub(crate) fn try_next<T: Word>(&mut self) -> Taken<T> {
        // SAFETY: the handle is live, and no other call has it.
        unsafe { raw::hillgauze_reader_try_next(self.handle.at()) }.taken()
    }

    #[inline]
    pub(crate) fn try_next_all<T: Word>(&mut self, values: &mut Vec<T>, most: usize) -> Taken<u64> {
        let block = self.room.words();
        let (words, room) = (block.as_mut_ptr(), most.min(BLOCK));
        // SAFETY: the handle is live, no other call has it, and there are at least `room` words, all of them set.
        let reply = unsafe { raw::hillgauze_reader_try_next_all(self.handle.at(), words, room) };
        let taken = reply.taken_at_once();
        if let Taken::Value(count) = taken {
            add_all(values, &block[..count as usize]);
        }
        taken
    }

    pub(crate) fn start(&self) -> u64 {
        // SAFETY: the handle is live, and no other call has it.
        unsafe { raw::hillgauze_reader_start(self.handle.at()) }.count()
    }

    pub(crate) fn received(&self) -> u64 {
        // SAFETY: the handle is live, and no other call has it.
        unsafe { raw::hillgauze_reader_received(self.handle.at()) }.count()
    }

    pub(crate) fn dropped(&self) -> u64 {
        // SAFETY: the handle is live, and no other call has it.
        unsafe { raw::hillgauze_reader_dropped(self.handle.at()) }.count()
    }
}
