//! Timing: the candidates take turns, so that what else the machine does falls on all of them.

use std::hint::black_box;
use std::time::{Duration, Instant};

use crate::candidates::Candidate;

/// How long one turn of a candidate lasts at least.
const TURN: Duration = Duration::from_micros(200);
/// How many turns each candidate gets.
const ROUNDS: usize = 41;
/// How many a slow one gets.
const FEW_ROUNDS: usize = 5;
/// From where on a single run counts as slow.
const SLOW: Duration = Duration::from_millis(10);
/// How long the machine is kept busy before the first turn that counts.
const WARM: Duration = Duration::from_millis(500);

/// The time of one run in each turn, in nanoseconds.
#[derive(Clone, Debug)]
pub struct Timed {
    turns: Vec<f64>,
}

/// The middle one of some numbers.
fn middle(mut numbers: Vec<f64>) -> f64 {
    numbers.sort_by(f64::total_cmp);
    numbers[numbers.len() / 2]
}

impl Timed {
    /// The best turn.
    pub fn best(&self) -> f64 {
        self.turns.iter().copied().fold(f64::MAX, f64::min)
    }

    /// The middle turn by the best one.
    pub fn noise(&self) -> f64 {
        middle(self.turns.clone()) / self.best()
    }

    /// Whether it was slow, so that few turns were made.
    pub fn is_slow(&self) -> bool {
        self.turns.len() < ROUNDS
    }

    /// How often this time holds another one. The turns of one round are next to each other, so
    /// each round gives a ratio that the machine's pace hardly alters; the middle one counts.
    pub fn over(&self, other: &Timed) -> f64 {
        let rounds = self.turns.iter().zip(&other.turns);
        middle(rounds.map(|(own, theirs)| own / theirs).collect())
    }
}

/// The time of so many runs.
fn turn(candidate: &mut dyn Candidate, runs: u32) -> Duration {
    let start = Instant::now();
    for _ in 0..runs {
        black_box(black_box(&mut *candidate).run());
    }
    start.elapsed()
}

/// How many runs fill a turn.
fn runs_a_turn(candidate: &mut dyn Candidate) -> u32 {
    let mut runs = 1;
    while turn(candidate, runs) < TURN {
        runs *= 2;
    }
    runs
}

/// Keeps the machine busy with these candidates until it has its full pace.
pub fn warm_up(candidates: &mut [Box<dyn Candidate + '_>]) {
    let start = Instant::now();
    while start.elapsed() < WARM {
        for candidate in candidates.iter_mut() {
            turn(candidate.as_mut(), 8);
        }
    }
}

/// Times so many candidates, and that of an earlier build if it stands behind them.
pub fn compare_named<const N: usize>(
    candidates: &mut [Box<dyn Candidate + '_>],
) -> ([Timed; N], Option<Timed>) {
    let mut times = compare(candidates).into_iter();
    let named = [(); N].map(|()| times.next().expect("each of them is timed"));
    (named, times.next())
}

/// Times all candidates.
pub fn compare(candidates: &mut [Box<dyn Candidate + '_>]) -> Vec<Timed> {
    let runs: Vec<u32> = candidates.iter_mut().map(|c| runs_a_turn(c.as_mut())).collect();
    let mut times = vec![Timed { turns: Vec::new() }; candidates.len()];
    for round in 0..ROUNDS {
        for (place, candidate) in candidates.iter_mut().enumerate() {
            let turns = &mut times[place].turns;
            let is_slow = turns.first().is_some_and(|time| *time > SLOW.as_nanos() as f64);
            if is_slow && round >= FEW_ROUNDS {
                continue;
            }
            let time = turn(candidate.as_mut(), runs[place]).as_nanos() as f64;
            turns.push(time / f64::from(runs[place]));
        }
    }
    times
}
