//! Plain threads that only watch the clock, as long as the busy wires of slow_wires.rattle do: 8
//! settings of 4096 words, 6 microseconds a word. One thread starts all others in turn, or each
//! starts another for half of its work, as the workers of a run do. Each time is that of the
//! quickest of fifteen.

use std::thread::scope;
use std::time::{Duration, Instant};

const SETTINGS: usize = 8;
const WORDS: usize = 4096;
const WORD: Duration = Duration::from_micros(6);

/// Watches the clock for so many words.
fn busy(words: usize) {
    for _ in 0..words {
        let start = Instant::now();
        while start.elapsed() < WORD {}
    }
}

/// Threads that one thread starts in turn, for equal parts of the words.
fn in_turn(threads: usize) {
    scope(|all| {
        for _ in 1..threads {
            all.spawn(|| busy(WORDS / threads));
        }
        busy(WORDS / threads);
    });
}

/// Threads that start another for half of their words, until each is to have one part.
fn halved(threads: usize, words: usize) {
    if threads < 2 {
        return busy(words);
    }
    scope(|both| {
        both.spawn(|| halved(threads / 2, words / 2));
        halved(threads / 2, words / 2);
    });
}

/// The time of all settings, the quickest of fifteen.
fn quickest(setting: impl Fn()) -> Duration {
    let once = || {
        let start = Instant::now();
        (0..SETTINGS).for_each(|_| setting());
        start.elapsed()
    };
    (0..15).map(|_| once()).min().unwrap_or_default()
}

fn main() {
    for threads in [1, 2, 4, 16] {
        let turn = quickest(|| in_turn(threads)).as_micros();
        let halves = quickest(|| halved(threads, WORDS)).as_micros();
        println!(
            "plain, {threads} threads: {turn} microseconds where one starts all, \
             {halves} where each halves its work"
        );
    }
}
