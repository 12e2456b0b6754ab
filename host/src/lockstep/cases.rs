//! Histories by hand: the run case of docs/FORMAT.md, pages, desks, what is turned back, and damage.
use crate::lent::Placing;
use crate::lockstep::pair::{Call, Given, Pair};
use crate::lockstep::record::Record;
use crate::second_book::desks::{By, NO_LIMITS};
use crate::second_book::space::{State, WORDS};
use crate::second_book::Fit;

/// A step of a history: a call of the book or of the core, or a byte of the body or a word of the state that somebody else writes.
#[derive(Clone)]
enum Step {
    Call(Call),
    Core(Call),
    Byte(usize, u8),
    State(usize, u64),
}

/// A history: the body's length, the desk of each key, and the steps after a fresh book without limits was made.
struct Case {
    body: usize,
    desks: &'static [u8],
    steps: Vec<Step>,
}

/// The places of the free head of pages and of counts among the words of a state: freed pages, and the pages of desk 0.
const HEAD: usize = 9;
const FREED: usize = 10;
const HELD: usize = 11;

/// A making with the reserves and ceilings of some desks.
fn fresh(desks: &[(usize, u64, u64)]) -> Step {
    let mut limits = NO_LIMITS;
    desks.iter().for_each(|&(desk, reserve, ceiling)| (limits.reserve[desk], limits.ceiling[desk]) = (reserve, ceiling));
    Step::Call(Call::Fresh(limits))
}

/// Steps by the core.
fn by_core(steps: Vec<Step>) -> Vec<Step> {
    let core = |step| if let Step::Call(call) = step { Step::Core(call) } else { step };
    steps.into_iter().map(core).collect()
}

fn load(key: u64, fks: Vec<u64>) -> Step {
    Step::Call(Call::Load { key, fks, fit: Fit::Spare })
}

fn load_tight(key: u64, fks: Vec<u64>) -> Step {
    Step::Call(Call::Load { key, fks, fit: Fit::Tight })
}

/// The numbers from 1 to one.
fn row(last: u64) -> Vec<u64> {
    (1..=last).collect()
}

fn append(key: u64, fks: &[u64]) -> Vec<Step> {
    fks.iter().map(|&fk| Step::Call(Call::Append { key, fk })).collect()
}

fn read(key: u64, room: usize) -> Step {
    Step::Call(Call::Read { key, room })
}

fn drop_key(key: u64) -> Step {
    Step::Call(Call::Drop { key })
}

/// Creates of the page at an offset, which somebody else writes.
fn total(page: usize, creates: u32) -> Vec<Step> {
    (page + 20..).zip(creates.to_le_bytes()).map(|(at, byte)| Step::Byte(at, byte)).collect()
}

/// The link of the freed page at an offset, which somebody else writes.
fn link(page: usize, next: u64) -> Vec<Step> {
    (page..).zip(next.to_le_bytes()).map(|(at, byte)| Step::Byte(at, byte)).collect()
}

fn cases() -> Vec<Case> {
    let two = append(0, &[1, 2]);
    vec![
        // The run case.
        Case {
            body: 8192,
            desks: &[0; 2],
            steps: [append(0, &[5, 300, 301, 302, 303]), append(1, &[9, 10]), vec![read(0, 16), read(1, 16)]]
                .into_iter()
                .flatten()
                .collect(),
        },
        // A page of 4,072 bytes is full, so that the next number begins another; a drop frees the first page first, and the last one is taken again.
        Case {
            body: 16_384,
            desks: &[0; 2],
            steps: [
                vec![load(0, row(4072))],
                append(0, &[4073, 4074]),
                vec![read(0, 4100), drop_key(0), load(1, row(256))],
                append(1, &[257]),
                vec![read(1, 4100)],
            ]
            .into_iter()
            .flatten()
            .collect(),
        },
        // A list of 4,073 goes to a run of two pages behind the mark rounded up; the body is full then, but the gap before the run was carved.
        Case {
            body: 16_384,
            desks: &[0; 3],
            steps: [
                two,
                vec![load(1, row(4073))],
                append(1, &[4074]),
                vec![load(2, row(300)), load(2, row(256)), read(1, 4100), read(2, 255)],
            ]
            .into_iter()
            .flatten()
            .collect(),
        },
        // Of 14 numbers a slab with a spare slot takes one more, and a tight one moves; of 4 likewise; 256 take a page with the next either way.
        Case {
            body: 16_384,
            desks: &[0; 6],
            steps: [
                vec![
                    load(0, row(14)),
                    load_tight(1, row(14)),
                    load(2, row(4)),
                    load_tight(3, row(4)),
                    load(4, row(256)),
                    load_tight(5, row(256)),
                ],
                append(0, &[15]),
                append(1, &[15]),
                append(2, &[5]),
                append(3, &[5]),
                append(4, &[257]),
                append(5, &[257]),
            ]
            .into_iter()
            .flatten()
            .collect(),
        },
        // What is turned back: a key beyond the heads, numbers that can't be offered, a key in use, a list too short.
        Case {
            body: 8192,
            desks: &[0; 3],
            steps: [
                append(3, &[5]),
                append(0, &[0, 1 << 63, 1 << 62, 5, 5, 6]),
                vec![load(0, Vec::new()), load_tight(0, vec![7]), read(0, 1)],
            ]
            .into_iter()
            .flatten()
            .collect(),
        },
        // Totals near 2^32 that somebody else wrote, with 300 numbers: one goes on, the largest becomes unknown, in place and where the next page
        // begins. Then the key reads again.
        Case {
            body: 16_384,
            desks: &[0; 2],
            steps: [
                vec![load(0, row(300))],
                total(4096, u32::MAX - 1),
                vec![read(0, 400)],
                append(0, &[301]),
                vec![read(0, 400)],
                append(0, &[302, 303]),
                vec![read(0, 400), drop_key(0), load(1, row(4072))],
                total(8192, u32::MAX),
                vec![read(1, 4100)],
                append(1, &[4073, 4074]),
                vec![read(1, 4100), drop_key(1)],
            ]
            .into_iter()
            .flatten()
            .collect(),
        },
        // A slab whose stored count isn't its head's is no sound key.
        Case {
            body: 8192,
            desks: &[0; 3],
            steps: [append(0, &[5, 6]), vec![Step::Byte(4096, 3), read(0, 16)], append(0, &[7]), vec![drop_key(0)]]
                .into_iter()
                .flatten()
                .collect(),
        },
        // A free head that no block can have, no room, a mark that is no multiple of 16, and one beyond the body.
        Case {
            body: 8192,
            desks: &[0; 3],
            steps: [
                append(1, &[1]),
                vec![Step::State(0, 4112), Step::State(1, 4104)],
                append(1, &[2]),
                vec![Step::State(0, 8192), Step::State(1, 0)],
                append(1, &[2]),
                vec![Step::State(0, 4104)],
                append(1, &[2]),
                vec![Step::State(0, 8208)],
                append(1, &[2]),
            ]
            .into_iter()
            .flatten()
            .collect(),
        },
        // Desk 1 has two pages of four in reserve. An import by desk 0 that would take two is turned back, one of a page isn't; then desk 1 gets its
        // pages by appends, and nobody else one.
        Case {
            body: 20_480,
            desks: &[0, 1, 0],
            steps: [
                vec![fresh(&[(1, 2, 2)]), load_tight(1, row(256)), load(0, row(4073)), load(0, row(4072))],
                append(0, &[4073]),
                append(1, &[257]),
                vec![load(2, vec![1, 2]), load(2, row(300))],
                by_core(vec![load(2, row(300)), read(1, 300), drop_key(0), load(2, row(300))]),
                append(2, &[301]),
            ]
            .into_iter()
            .flatten()
            .collect(),
        },
        // A ceiling of one page, by both families; a drop gives it back.
        Case {
            body: 20_480,
            desks: &[3, 3],
            steps: [
                vec![fresh(&[(3, 1, 1)]), load(0, row(4073)), load(0, row(4072))],
                append(0, &[4073]),
                by_core(append(0, &[4073])),
                by_core(vec![load(1, row(300)), load(1, vec![1, 2]), drop_key(0), load(0, row(300))]),
                append(1, &[3]),
            ]
            .into_iter()
            .flatten()
            .collect(),
        },
        // Makings that are turned back: a reserve above the body's pages, reserves above those to be had, and one above its ceiling.
        Case {
            body: 8192,
            desks: &[0, 15],
            steps: vec![
                fresh(&[(0, 3, 3)]),
                fresh(&[(0, 2, 2)]),
                fresh(&[(0, 1, 1), (9, 1, 1)]),
                fresh(&[(0, 1, 0)]),
                fresh(&[(0, 1 << 63, 1 << 63), (1, 1 << 63, 1 << 63)]),
                fresh(&[(15, 1, 1)]),
            ],
        },
        // Counts that somebody else wrote: freed pages without a free head, fewer pages than the key has, and more than the body has.
        Case {
            body: 16_384,
            desks: &[0, 1],
            steps: [
                vec![load(0, row(4072)), Step::State(FREED, 1)],
                append(0, &[4073]),
                by_core(append(0, &[4073])),
                vec![Step::State(FREED, 0), Step::State(HELD, 0), read(0, 4100), drop_key(0)],
                by_core(vec![drop_key(0)]),
                vec![Step::State(HELD, 1), Step::State(FREED, 5), read(0, 4100)],
                by_core(vec![read(0, 4100), load(1, vec![1, 2]), drop_key(0)]),
                by_core(append(1, &[1])),
                vec![Step::State(FREED, 4), drop_key(0), read(1, 16)],
            ]
            .into_iter()
            .flatten()
            .collect(),
        },
        // Runs out of freed pages: of a list 4, 3, 6, 2, 1 from the top the lowest stretch, with the mark within a page and no room behind
        // it; those left keep their order, and an append's page is the top.
        Case {
            body: 32_768,
            desks: &[0; 6],
            steps: [
                vec![load(0, row(5000)), load(1, row(5000)), load(2, row(300)), load(3, row(300)), load_tight(4, row(200)), drop_key(0)],
                vec![drop_key(3), drop_key(1), load(0, row(20_000)), load_tight(0, row(300)), load(1, row(9000)), drop_key(2)],
                by_core(vec![load(2, row(8000)), drop_key(1), load_tight(3, row(4072)), load(5, row(300))]),
                append(3, &[4073]),
                vec![read(1, 9000), load(1, row(256))],
                append(1, &[257]),
                vec![drop_key(3), drop_key(0)],
                by_core(vec![load(0, row(300)), read(0, 300)]),
            ]
            .into_iter()
            .flatten()
            .collect(),
        },
        // A list of freed pages that can't be searched, though there is room at the mark: counted wrong, without a head, without a count,
        // unaligned, at the mark, across it, and coming back. Appends, slabs and drops go on.
        Case {
            body: 32_768,
            desks: &[0; 4],
            steps: [
                vec![load(0, row(4072)), load(1, row(9000)), drop_key(1), Step::State(FREED, 4), load(1, row(300))],
                by_core(vec![load_tight(1, row(300)), load(1, row(256)), drop_key(1)]),
                vec![Step::State(FREED, 2), load(1, row(300)), Step::State(FREED, 0), load(1, row(300)), Step::State(FREED, 3)],
                vec![Step::State(HEAD, 0), load_tight(1, row(300)), Step::State(HEAD, 16_384)],
                [8200, 20_480, 16_384].into_iter().flat_map(|to| [link(16_384, to), vec![load(1, row(300))]].concat()).collect(),
                by_core(vec![Step::State(FREED, u64::MAX), load(1, row(300)), Step::State(FREED, 3)]),
                link(16_384, 12_288),
                vec![Step::State(0, 20_464), load(1, row(9000)), Step::State(0, 20_480), Step::State(9, 16_384), load(1, row(9000))],
                vec![drop_key(1), Step::State(FREED, 2)],
                append(0, &[4073]),
                vec![load(1, row(300)), Step::State(FREED, 2), load(1, row(5000)), read(1, 5000)],
            ]
            .into_iter()
            .flatten()
            .collect(),
        },
    ]
}

/// The lines of the histories by hand.
pub fn lines(pair: &mut Pair) -> Vec<String> {
    let mut lines = Vec::new();
    for case in cases() {
        let mut record = Record::default();
        let heads = case.desks.len();
        let book = Given { body: case.body, heads, by: By::List(case.desks) };
        pair.begin(vec![0xa5; case.body], vec![7; heads], State::of_words(&[9; WORDS]), Placing::End);
        record.begin(pair);
        for step in [Step::Call(Call::Fresh(NO_LIMITS))].into_iter().chain(case.steps) {
            let given = match &step {
                Step::Core(call) => Given { by: By::Desk(case.desks[call.key().unwrap_or(0) as usize].into()), ..book },
                _ => book,
            };
            match step {
                Step::Call(call) | Step::Core(call) => {
                    let answer = pair.call(&call, given, "by hand").unwrap_or_else(|what| panic!("{what}"));
                    record.call(&call, given, &answer, pair);
                    continue;
                }
                Step::Byte(at, byte) => pair.body[at] = byte,
                Step::State(at, word) => {
                    let mut words = pair.state.words();
                    words[at] = word;
                    pair.state = State::of_words(&words);
                }
            }
            pair.copy();
            record.written(pair);
        }
        lines.extend(record.lines);
    }
    lines
}

#[cfg(test)]
mod tests {
    use super::*;

    /// The refusals of the histories with desks and with freed pages, which are the last six.
    #[test]
    fn refusals_of_desks_and_runs() {
        let lines = lines(&mut Pair::default());
        let number = |line: &String| u64::from_str_radix(&line[2..4], 16).unwrap();
        let histories: Vec<Vec<u64>> = lines
            .chunk_by(|_, next| !next.starts_with("36"))
            .map(|history| history.iter().filter(|line| !line.starts_with("36") && !line.starts_with("35")).map(number).collect())
            .collect();
        let [kept, ceiling, makings, counts, runs, strays] = &histories[histories.len() - 6..] else { panic!("six histories") };
        assert_eq!(kept[..], [0, 0, 0, 41, 0, 41, 0, 41, 41, 41, 0, 0, 0, 0]);
        assert_eq!(ceiling[..], [0, 0, 40, 0, 40, 40, 40, 0, 0, 0, 0]);
        assert_eq!(makings[..], [0, 1, 39, 39, 39, 1, 0]);
        assert_eq!(counts[..], [0, 0, 35, 35, 0, 31, 31, 1, 0, 1, 1, 0, 0, 1]);
        assert_eq!(runs[..], [0, 0, 0, 0, 0, 0, 0, 0, 0, 36, 0, 0, 0, 0, 0, 0, 0, 0, 0, 0, 36, 0, 0, 0, 0]);
        assert_eq!(strays[..], [0, 0, 0, 0, 42, 42, 0, 0, 42, 42, 42, 42, 42, 42, 42, 42, 0, 0, 0, 42, 0, 0]);
    }
}
