//! Our answers against what they have to be.
use crate::case::{Input, Output};
use crate::fault::{self, Saying};
use crate::judge::{expected, wrong};
use crate::lent::{Lent, Placing};
use crate::lockstep::large::Large;
use crate::lockstep::Lockstep;
use crate::padded_inputs;
use crate::rng::Rng;
use crate::table::{functions, Function};
use std::collections::BTreeMap;
use std::io::{IsTerminal, Write};
use std::time::{Duration, Instant};

/// How a run goes on: its seed, for how long in all, whether again without end, and what alone is compared.
pub struct Run {
    pub seed: u64,
    pub seconds: u64,
    pub long: bool,
    pub only: Option<String>,
}

/// What comparing a part found: how many inputs and calls of ours, how many inputs differ, and how many are answered by each listed
/// difference; and of those that differ the smallest.
#[derive(Default)]
pub struct Found {
    pub inputs: u64,
    pub calls: u64,
    pub differ: u64,
    pub listed: BTreeMap<&'static str, u64>,
    /// How many kinds of calls that must be met weren't.
    pub unmet: u64,
    pub smallest: Option<Smallest>,
}

/// The smallest input that differs: its size, what is wrong, in which round it came, and the input.
pub struct Smallest {
    pub size: (usize, u64),
    pub what: String,
    pub round: u64,
    pub input: String,
}

impl Found {
    /// Notes an input that differs.
    pub fn differs(&mut self, smallest: Smallest) {
        self.differ += 1;
        if self.smallest.as_ref().is_none_or(|s| smallest.size < s.size) {
            self.smallest = Some(smallest);
        }
    }
}

/// A part of the comparison: a function, the calls on slices of 2^32 elements, the book, or the book on large bodies.
pub struct Part {
    pub name: &'static str,
    round: Round,
    /// How many shares of the time the part has.
    shares: u32,
}

/// What compares a round of a part.
enum Round {
    Function(&'static Function, u64),
    Huge,
    Book,
    Large,
}

/// What the parts work on: the memory that functions are lent, and both books.
#[derive(Default)]
struct Memory {
    lent: Lent,
    books: Lockstep,
    large: Large,
}

/// How many shares of the time the book has, where a function has one.
const BOOK_SHARES: u32 = 30;
/// And how many it has on large bodies.
const LARGE_SHARES: u32 = 3;

/// Every part, by name.
pub fn parts() -> Vec<Part> {
    let of = |(place, f): (usize, &'static Function)| Part { name: f.name, round: Round::Function(f, place as u64), shares: 1 };
    let mut out: Vec<Part> = functions().enumerate().map(of).collect();
    out.push(Part { name: "huge", round: Round::Huge, shares: 0 });
    out.push(Part { name: "book", round: Round::Book, shares: BOOK_SHARES });
    out.push(Part { name: "large", round: Round::Large, shares: LARGE_SHARES });
    out
}

/// A call of ours on an input.
struct OnInput<'a>(&'a Function, &'a Input, u64);

impl Saying for OnInput<'_> {
    fn say(&self, wrong: &str) -> String {
        format!("{}, round {}: {wrong}; {}", self.0.name, self.2, self.1.shown())
    }
}

/// Compares a function on one input, in each placing of what it is lent.
fn compare_input(function: &Function, input: &Input, round: u64, lent: &Lent, wanted: &mut Output, found: &mut Found) {
    if let Some(name) = expected(function, input, wanted) {
        *found.listed.entry(name).or_default() += 1;
    }
    found.inputs += 1;
    for placing in [Placing::End, Placing::Start, Placing::Null] {
        if placing == Placing::Null && !lent.asked_for_none() {
            break;
        }
        lent.lend(input, placing);
        let refusal = fault::during(&OnInput(function, input, round), || (function.ours)(input, lent));
        found.calls += 1;
        if let Some(what) = wrong(wanted, refusal, lent) {
            found.differs(Smallest { size: input.size(), what, round, input: input.shown() });
            return;
        }
    }
}

impl Part {
    /// Compares a round.
    fn compare(&self, run: &Run, round: u64, memory: &mut Memory, found: &mut Found) {
        match self.round {
            Round::Function(function, place) => {
                let mut rng = Rng(run.seed ^ place << 56 ^ round << 24);
                let mut wanted = Output::default();
                let mut each = |input: &Input| compare_input(function, input, round, &memory.lent, &mut wanted, found);
                (function.inputs)(&mut rng, round, &mut each);
                padded_inputs::inputs(function.name, &mut rng, round, &mut each);
            }
            Round::Huge => crate::huge::compare(found),
            Round::Book => memory.books.compare(run.seed, round, found),
            Round::Large => memory.large.compare(run.seed, round, found),
        }
    }

    /// Compares rounds from one on for a time, and tells which is the next.
    fn compare_rounds(&self, run: &Run, first: u64, share: Duration, memory: &mut Memory, found: &mut Found) -> u64 {
        let start = Instant::now();
        let mut round = first;
        while round == first || start.elapsed() < share * self.shares {
            let before = found.inputs;
            self.compare(run, round, memory, found);
            round += 1;
            if found.inputs == before {
                break;
            }
            if std::io::stdout().is_terminal() {
                print!("\r{} {} compared, {} differ   ", self.name, found.inputs, found.differ);
                let _ = std::io::stdout().flush();
            }
        }
        let listed: String = found.listed.iter().map(|(name, n)| format!(", {n} by {name}")).collect();
        println!("\r{}: {} compared in {} calls, {} differ{listed}", self.name, found.inputs, found.calls, found.differ);
        if let Some(s) = &found.smallest {
            println!("smallest of {}, round {}: {}; {}", self.name, s.round, s.what, s.input);
        }
        match self.round {
            Round::Book => found.unmet = memory.books.print(),
            Round::Large => found.unmet = memory.large.print(),
            _ => {}
        }
        round
    }
}

/// Compares every part, round 0 first and then random rounds for its share of the time, and again without end where the run is long.
/// Tells whether no difference was found that isn't listed.
pub fn compare(run: &Run) -> bool {
    let chosen: Vec<Part> = parts().into_iter().filter(|p| run.only.as_deref().is_none_or(|n| n == p.name)).collect();
    let share = Duration::from_secs(run.seconds) / chosen.iter().map(|p| p.shares).sum::<u32>().max(1);
    let mut all: Vec<Found> = chosen.iter().map(|_| Found::default()).collect();
    let mut memory = Memory::default();
    let mut first = 0;
    fault::watch();
    println!("seed {}", run.seed);
    loop {
        let mut next = first;
        for (part, found) in chosen.iter().zip(&mut all) {
            next = next.max(part.compare_rounds(run, first, share, &mut memory, found));
        }
        first = next;
        let right = total(&all);
        if !run.long {
            return right;
        }
    }
}

/// Prints the totals, and tells whether nothing differs.
fn total(all: &[Found]) -> bool {
    let sum = |of: fn(&Found) -> u64| all.iter().map(of).sum::<u64>();
    let listed = sum(|f| f.listed.values().sum());
    let (calls, differ) = (sum(|f| f.calls), sum(|f| f.differ));
    println!("{calls} calls of ours; {listed} answers are those that docs/DIFFERENCES.md names");
    println!("{} compared, {differ} differ", sum(|f| f.inputs));
    differ == 0 && sum(|f| f.unmet) == 0
}
