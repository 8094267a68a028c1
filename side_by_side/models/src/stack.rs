//! Threads with a stack of a known size.
use std::thread::{Builder, scope};

/// The stack of a thread that compares: the crate's walk calls itself for every triangle of a fan. On Arm a quad fan of
/// 65,536 faces takes between 24 and 32 MiB.
pub const CRATE: usize = 256 << 20;

/// The stack of the plain walk of step 6, which calls itself for every triangle of a group too.
pub const MODEL: usize = 1 << 30;

/// The stack in which ours is called on a large mesh: the walk's places stand in the work list.
pub const OURS: usize = 256 << 10;

/// Runs something in a thread with a stack of so many bytes.
pub fn within<T: Send>(bytes: usize, run: impl FnOnce() -> T + Send) -> T {
    scope(|scope| {
        Builder::new()
            .stack_size(bytes)
            .spawn_scoped(scope, run)
            .expect("no thread")
            .join()
            .expect("it panicked")
    })
}
