//! A shared table used by several threads, captured as a trace: replayed by the twin it has to end in the same table, with as many
//! refusals as the threads met.

use crate::plain;
use sockhurdle::Shared;
use std::thread;
use twin::random::Random;
use twin::replay;
use twin::table::Table;
use twin::trace;

pub const THREADS: u64 = 4;
/// So few that all calls have room in a trace.
const STEPS: u64 = 60;

/// Calls of one thread, with guards that overlap. How many were refused.
fn work(shared: &Shared, mut random: Random) -> usize {
    let (mut transactions, mut pins, mut refused) = (Vec::new(), Vec::new(), 0);
    for _ in 0..STEPS {
        match random.below(9) {
            0 | 1 => transactions.extend(shared.begin()),
            2 | 3 => match shared.pin() {
                Ok(pin) => pins.push(pin),
                Err(_) => refused += 1,
            },
            4 => drop(pins.pop()),
            5 => {
                let place = random.below(4) as usize;
                if let Some(transaction) = transactions.get_mut(place) {
                    transaction.snapshot();
                }
            }
            6 => {
                shared.vacuum();
            }
            7 => {
                shared.oldest();
                shared.snapshot();
                shared.stamp().expect("the clock goes on");
            }
            _ => {
                if let Some(transaction) = transactions.pop() {
                    transaction.finish().expect("the clock goes on");
                }
            }
        }
        thread::yield_now();
    }
    // some are left to the drop of the guards
    transactions.truncate(3);
    refused
}

pub fn replays(seed: u64) -> bool {
    // every other run begins with a table that has been used
    let shared = if seed.is_multiple_of(2) {
        Shared::fresh()
    } else {
        Shared::after(seed * 1_000)
    };
    assert!(shared.record(), "nothing is taken yet");
    // pins that are never released, so that some are refused
    let held: Vec<_> = (0..50).map(|_| shared.pin()).collect();
    let refused: usize = thread::scope(|scope| {
        let spawned: Vec<_> = (0..THREADS)
            .map(|who| {
                let random = Random::new(seed * THREADS + who);
                let shared = &shared;
                scope.spawn(move || work(shared, random))
            })
            .collect();
        let joined = spawned.into_iter().map(|thread| thread.join());
        joined
            .map(|refused| refused.expect("no thread panics"))
            .sum()
    });
    let text = shared.trace().expect("it was recorded");
    let trace = trace::read(text.as_bytes()).expect("a good trace");
    let mut table = Table::fresh();
    let answers = trace
        .records
        .iter()
        .map(|record| replay::run(&mut table, record));
    let refusals = answers.filter(|answer| answer.number != 0).count();
    let same = shared.look(|shared| shared.words() == plain::words(&table));
    drop(held);
    same && refusals == refused
}
