//! Senders and receivers: who gets what, who waits and who is woken, when values are let go, and that nothing is lost or
//! dropped twice between threads.

mod calls;
mod counted;
mod foreign;
mod lets_go;
#[path = "../tokio/task.rs"]
mod task;
mod threads;
mod waits;
