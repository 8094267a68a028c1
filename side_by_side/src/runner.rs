//! Many cases, on every processor.
use crate::compare::examine;
use crate::kinds::Kind;
use crate::spoil::Spoil;
use crate::stack;
use crate::tally::Tally;
use std::sync::atomic::{AtomicU64, Ordering::Relaxed};
use std::sync::mpsc::{RecvTimeoutError, Sender, channel};
use std::thread::{Builder, available_parallelism, scope};
use std::time::Duration;

/// How often a line says how far a run has come.
const PROGRESS: Duration = Duration::from_secs(10);

/// What is to be run.
#[derive(Clone, Copy)]
pub struct Plan<'a> {
    pub kind: &'a Kind,
    pub seed: u64,
    pub count: u64,
    pub spoil: Option<Spoil>,
}

/// How far a run has come.
#[derive(Default)]
struct Progress {
    next: AtomicU64,
    done: AtomicU64,
    differed: AtomicU64,
}

/// What a run saw, and the number of the first case that differed.
#[derive(Default)]
pub struct Ran {
    pub tally: Tally,
    pub first: Option<u64>,
}

/// Compares all cases of a plan.
pub fn run(plan: Plan) -> Ran {
    let progress = Progress::default();
    let threads = available_parallelism().map_or(1, usize::from);
    let (sender, receiver) = channel();
    let mut ran = Ran::default();
    scope(|scope| {
        for _ in 0..threads {
            let (sender, progress) = (sender.clone(), &progress);
            Builder::new()
                .stack_size(stack::CRATE)
                .spawn_scoped(scope, move || work(plan, progress, sender))
                .expect("no thread");
        }
        drop(sender);
        loop {
            match receiver.recv_timeout(PROGRESS) {
                Ok(part) => ran.add(part),
                Err(RecvTimeoutError::Timeout) => report(plan, &progress),
                Err(RecvTimeoutError::Disconnected) => break,
            }
        }
    });
    ran
}

/// Takes one case after the other until all are taken.
fn work(plan: Plan, progress: &Progress, sender: Sender<Ran>) {
    let mut ran = Ran::default();
    loop {
        let i = progress.next.fetch_add(1, Relaxed);
        if i >= plan.count {
            break;
        }
        let case = plan.kind.case(plan.seed, i);
        let seen = examine(&case, plan.spoil);
        ran.tally.count(&case, &seen);
        if seen.difference.is_some() {
            ran.first = ran.first.or(Some(i));
            progress.differed.fetch_add(1, Relaxed);
        }
        progress.done.fetch_add(1, Relaxed);
    }
    sender.send(ran).expect("nobody listens");
}

impl Ran {
    /// Adds what another thread saw.
    fn add(&mut self, part: Ran) {
        self.tally.add(&part.tally);
        self.first = self.first.into_iter().chain(part.first).min();
    }
}

/// The progress line.
fn report(plan: Plan, progress: &Progress) {
    let (done, differed) = (progress.done.load(Relaxed), progress.differed.load(Relaxed));
    eprintln!(
        "{}: {done} of {}, {differed} differed so far",
        plan.kind.name, plan.count
    );
}
