//! What the tests of tokio's `broadcast` and `watch` show, as far as there is a counterpart here, written anew.
//! TOKIO.md says what differs and why.

mod broadcast;
mod task;
mod watch;
