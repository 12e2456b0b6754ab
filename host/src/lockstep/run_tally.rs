//! What histories met of runs, and how often: why a list of freed pages couldn't be searched, runs out of freed pages by how long they are
//! and what they leave, and runs at the mark or refused by 36 while pages are freed.
use crate::lockstep::pair::{Answer, Call, FAMILIES};
use crate::second_book::runs::{stretches, STRAYS, TWICE};
use crate::second_book::space::{rounded, State, PAGE};
use crate::second_book::Refused;
use oracle::scripthash_pages::sh_page_chunk_ranges;
use oracle::Fk;
use std::collections::BTreeMap;

/// The longest runs out of freed pages that are counted by themselves.
const LONGEST: u64 = 10;

/// Whether there is room for a run at the mark.
const ROOM: [&str; 2] = ["where the body's end is too near", "where the mark has room"];

/// A list that comes back, counted as no list can be: only the core meets it, since counts are judged before by the book's calls.
const ENDLESS: &str = "core 42: a page twice, where more pages are counted than the body has";

/// What is told of a run out of freed pages: another stretch serves too, a higher one is shorter, some of its stretch stays, it is a page
/// that isn't the list's top, the top goes and others stay, a page loses the one behind it, several stay, none does, the mark is within a
/// page, the stretch adjoins the mark.
const OUT_OF_FREED: [&str; 10] = [
    "while another stretch serves",
    "while a shorter stretch serves, which is higher",
    "of a longer stretch",
    "one page that isn't the top of the list",
    "the top of the list among them, others left",
    "from the midst of the list",
    "several pages left",
    "all freed pages",
    "while the mark is within a page",
    "up to the mark",
];

/// What is freed while a run is taken at the mark, or refused by 36.
const FREED: [&str; 4] =
    ["nothing freed", "fewer pages freed than wanted", "pages enough freed, but apart", "freed pages that adjoin the mark"];
const JOINED: &str = "36: a run that freed pages would serve with those past the mark";

/// Counts of what was met.
#[derive(Default)]
pub struct Runs(BTreeMap<String, u64>);

/// A load that wanted a run: the family, the state before it, the freed pages then, and how long the body is.
pub struct Wanted<'a> {
    pub family: &'static str,
    pub state: &'a State,
    pub freed: &'a Result<Vec<u64>, Refused>,
    pub body: usize,
}

/// How many pages the run of a load has.
pub fn pages_of_run(call: &Call) -> u64 {
    let Call::Load { fks, .. } = call else { return 0 };
    let numbers: Vec<Fk> = fks.iter().map(|fk| Fk(*fk)).collect();
    sh_page_chunk_ranges(&numbers).map_or(0, |parts| parts.len() as u64)
}

impl Runs {
    fn add(&mut self, kind: String) {
        *self.0.entry(kind).or_default() += 1;
    }

    /// Counts a load that took a run, or that was refused while it wanted one.
    pub fn count(&mut self, call: &Call, wanted: &Wanted, answer: &Answer) {
        let pages = if answer.refusal == 0 { answer.told[0] } else { pages_of_run(call) };
        let (mark, end) = (wanted.state.mark, wanted.body as u64);
        let room = ROOM[usize::from(rounded(mark) + pages * PAGE as u64 <= end)];
        match (answer.refusal, wanted.freed) {
            (42, Err(Refused::Strays(why))) => {
                self.add(format!("{}42: {why}", wanted.family));
                self.add(format!("{}42: {room}", wanted.family));
                if *why == TWICE && wanted.state.counts.freed > end / PAGE as u64 {
                    self.add(ENDLESS.into());
                }
            }
            (0, Ok(freed)) => match stretches(freed).iter().find(|(_, long)| *long >= pages) {
                Some(&(off, long)) => self.taken_out(pages, off, long, freed, mark, room),
                None => self.add(format!("a run at the mark, {}", Runs::freed(pages, freed, mark))),
            },
            (36, Ok(freed)) => {
                self.add(format!("36: a run, {}", Runs::freed(pages, freed, mark)));
                let adjoining = stretches(freed).last().filter(|(off, long)| off + long * PAGE as u64 == mark).map_or(0, |(_, long)| *long);
                if adjoining > 0 && mark + (pages - adjoining) * PAGE as u64 <= end {
                    self.add(JOINED.into());
                }
            }
            _ => {}
        }
    }

    /// What is freed where no stretch serves.
    fn freed(pages: u64, freed: &[u64], mark: u64) -> &'static str {
        match freed.len() as u64 {
            0 => FREED[0],
            _ if freed.iter().any(|page| page + PAGE as u64 == mark) => FREED[3],
            few if few < pages => FREED[1],
            _ => FREED[2],
        }
    }

    /// Counts a run out of freed pages: where it begins, and how long the stretch is.
    fn taken_out(&mut self, pages: u64, off: u64, long: u64, freed: &[u64], mark: u64, room: &str) {
        let end = off + pages * PAGE as u64;
        let goes: Vec<bool> = freed.iter().map(|page| (off..end).contains(page)).collect();
        let (left, serve) = (freed.len() as u64 - pages, stretches(freed).into_iter().filter(|(at, n)| *at > off && *n >= pages));
        let others: Vec<u64> = serve.map(|(_, n)| n).collect();
        let is = [
            !others.is_empty(),
            others.iter().any(|n| *n < long),
            long > pages,
            pages == 1 && !goes[0],
            goes[0] && left > 0,
            goes.windows(2).any(|both| !both[0] && both[1]) && !goes[goes.len() - 1],
            left > 1,
            left == 0,
            mark % PAGE as u64 != 0,
            end == mark,
        ];
        let name = if pages <= LONGEST { pages.to_string() } else { "more".into() };
        self.add(format!("a run out of freed pages, of {name}"));
        self.add(format!("a run out of freed pages, {room}"));
        for (what, _) in OUT_OF_FREED.iter().zip(is).filter(|(_, is)| *is) {
            self.add(format!("a run out of freed pages, {what}"));
        }
    }

    /// All that must be met, with how often it was.
    pub fn kinds(&self) -> Vec<(String, u64)> {
        let mut out = Vec::new();
        for family in FAMILIES {
            out.extend(STRAYS.iter().chain(&ROOM).map(|why| format!("{family}42: {why}")));
        }
        out.extend((1..=LONGEST).map(|pages| format!("a run out of freed pages, of {pages}")));
        out.extend(OUT_OF_FREED.iter().chain(&ROOM).map(|what| format!("a run out of freed pages, {what}")));
        out.extend(FREED.map(|what| format!("a run at the mark, {what}")));
        out.extend(FREED.map(|what| format!("36: a run, {what}")));
        out.extend([JOINED, ENDLESS].map(String::from));
        out.into_iter().map(|kind| (kind.clone(), self.0.get(&kind).copied().unwrap_or(0))).collect()
    }
}
