//! How often a shortest schedule of a small batch changes the switch at least,
//! since all are tried: fewest_changes BATCH
//!
//! It stands on no law of the program. A run is the settings between two changes, so it joins the
//! same pairs throughout. Runs may stand in any order: what counts is how long each is, and which
//! pairs it joins. So all lengths are tried that add up to the settings, and for each pair all sets
//! of runs that are as long as it has transfers.

use std::{env, fs};

const MODULES: usize = 32;

/// How many transfers go from a module to a module.
struct Pair {
    from: usize,
    to: usize,
    transfers: usize,
}

/// The runs in which each module sends, and those in which each receives: a bit for each run.
#[derive(Clone, Copy)]
struct Taken {
    sends: [u32; MODULES],
    receives: [u32; MODULES],
    /// The runs that are as long as the one before, and join the same pairs up to now.
    like_last: u32,
}

impl Taken {
    fn may_take(&self, pair: &Pair, runs: u32) -> bool {
        let held = self.sends[pair.from] | self.receives[pair.to];
        // Of runs that are alike the first ones are as good as any
        runs & held == 0 && runs & self.like_last & !(runs << 1) == 0
    }

    fn with(mut self, pair: &Pair, runs: u32) -> Taken {
        self.sends[pair.from] |= runs;
        self.receives[pair.to] |= runs;
        self.like_last &= !(runs ^ runs << 1);
        self
    }
}

/// Whether all pairs can be joined: `sets` has the sets of runs of each length.
fn can_join(pairs: &mut Vec<&Pair>, sets: &[Vec<u32>], taken: Taken) -> bool {
    let ways = |pair: &Pair| {
        sets[pair.transfers].iter().filter(|&&runs| taken.may_take(pair, runs)).count()
    };
    let Some(hardest) = (0..pairs.len()).min_by_key(|&at| ways(pairs[at])) else {
        return true;
    };
    let pair = pairs.swap_remove(hardest);
    let can = sets[pair.transfers]
        .iter()
        .any(|&runs| taken.may_take(pair, runs) && can_join(pairs, sets, taken.with(pair, runs)));
    pairs.push(pair);
    can
}

/// The most transfers that a pair has. No run is longer, since it joins some pair.
fn most_of(pairs: &[Pair]) -> usize {
    pairs.iter().map(|pair| pair.transfers).max().unwrap_or(0)
}

/// Whether some schedule has runs of these lengths.
fn have_schedule(pairs: &[Pair], lengths: &[usize]) -> bool {
    let most = most_of(pairs);
    let mut sets = vec![vec![]; most + 1];
    for runs in 1..1u32 << lengths.len() {
        let length: usize = lengths
            .iter()
            .enumerate()
            .filter(|(run, _)| runs >> run & 1 == 1)
            .map(|(_, length)| length)
            .sum();
        if length <= most {
            sets[length].push(runs);
        }
    }
    let like_last = (1..lengths.len())
        .filter(|&run| lengths[run] == lengths[run - 1])
        .map(|run| 1 << run)
        .sum();
    let taken = Taken { sends: [0; MODULES], receives: [0; MODULES], like_last };
    can_join(&mut pairs.iter().collect(), &sets, taken)
}

/// Whether some schedule has so many runs more, of so many settings, none longer than `most`.
fn can_end(
    pairs: &[Pair],
    lengths: &mut Vec<usize>,
    runs: usize,
    settings: usize,
    most: usize,
) -> bool {
    if runs == 0 {
        return settings == 0 && have_schedule(pairs, lengths);
    }
    (settings.div_ceil(runs)..=most.min(settings.saturating_sub(runs - 1))).any(|length| {
        lengths.push(length);
        let can = can_end(pairs, lengths, runs - 1, settings - length, length);
        lengths.pop();
        can
    })
}

fn main() {
    let text = fs::read_to_string(env::args().nth(1).expect("a batch")).expect("a text");
    let mut counts = [[0; MODULES]; MODULES];
    for line in text.lines().skip(1) {
        let words: Vec<usize> =
            line.split(' ').skip(1).map(|word| word.parse().expect("a number")).collect();
        counts[words[0]][words[2]] += 1;
    }
    let all = (0..MODULES * MODULES).map(|at| Pair {
        from: at / MODULES,
        to: at % MODULES,
        transfers: counts[at / MODULES][at % MODULES],
    });
    let pairs: Vec<Pair> = all.filter(|pair| pair.transfers > 0).collect();
    let sent = |m: usize| {
        pairs.iter().filter(|pair| pair.from == m).map(|pair| pair.transfers).sum::<usize>()
    };
    let received =
        |m: usize| pairs.iter().filter(|pair| pair.to == m).map(|pair| pair.transfers).sum();
    let settings = (0..MODULES).map(|m| sent(m).max(received(m))).max().unwrap_or(0);
    let fewest = (0..).find(|&runs| can_end(&pairs, &mut vec![], runs, settings, most_of(&pairs)));
    println!("{}", fewest.expect("a schedule"));
}
