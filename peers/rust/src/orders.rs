//! The orderings by which a ring's ends meet.

use std::sync::atomic::Ordering;
use std::sync::atomic::Ordering::{AcqRel, Acquire, Relaxed, Release, SeqCst};

/// The orderings of a ring's steps.
pub trait Orders: Send + Sync + 'static {
    const RING: &'static str;
    const LOSSY: &'static str;
    const LOAD: Ordering;
    const STORE: Ordering;
    const SWAP: Ordering;
    /// Of a word that another word's store publishes.
    const INNER_LOAD: Ordering;
    const INNER_STORE: Ordering;
}

/// All sequentially consistent.
pub struct Strong;

impl Orders for Strong {
    const RING: &'static str = "limit-ring-seqcst";
    const LOSSY: &'static str = "limit-lossy-seqcst";
    const LOAD: Ordering = SeqCst;
    const STORE: Ordering = SeqCst;
    const SWAP: Ordering = SeqCst;
    const INNER_LOAD: Ordering = SeqCst;
    const INNER_STORE: Ordering = SeqCst;
}

/// Acquire and release.
pub struct Weak;

impl Orders for Weak {
    const RING: &'static str = "limit-ring-acqrel";
    const LOSSY: &'static str = "limit-lossy-acqrel";
    const LOAD: Ordering = Acquire;
    const STORE: Ordering = Release;
    const SWAP: Ordering = AcqRel;
    const INNER_LOAD: Ordering = Relaxed;
    const INNER_STORE: Ordering = Relaxed;
}
