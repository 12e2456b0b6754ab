//! Histories as lines, for the program `histories`: what each call was given and answered, and what it changed. host/README.md has the format.
use crate::lockstep::pair::{Answer, Call, Given, Pair, EXTEND};
use crate::second_book::desks::By;
use crate::second_book::space::WORDS;
use std::fmt::Write;

/// The numbers of the kinds of calls, and what a call of the core has above them; a line that says what somebody else wrote, and one that
/// begins a history. There are none of extends.
const CALLS: [usize; EXTEND] = [0x30, 0x31, 0x32, 0x33, 0x34, 0x37];
const CORE: usize = 0x10;
const WRITTEN: usize = 0x35;
const BEGIN: usize = 0x36;

/// A history that is written down, with what the lines so far have left.
#[derive(Default)]
pub struct Record {
    pub lines: Vec<String>,
    /// The longest list that a call was offered or lent.
    pub longest: usize,
    body: Vec<u8>,
    words: Vec<u64>,
}

/// The memory of the program that replays: all of it is written where a history begins.
const MOST_BODY: usize = 61_440;
const MOST_WORDS: usize = WORDS + 6;

/// A field of numbers, with a space behind each.
fn numbers(out: &mut String, list: &[u64]) {
    list.iter().for_each(|n| write!(out, "{n:x} ").unwrap());
}

/// A field of a list: numbers, and where several rise by one difference, the first, the difference and how many follow, with colons between.
fn list(out: &mut String, list: &[u64]) {
    let mut rest = list;
    while let [first, more @ ..] = rest {
        let step = more.first().map_or(0, |next| next.wrapping_sub(*first));
        let follow = rest.windows(2).take_while(|w| w[1].wrapping_sub(w[0]) == step).count();
        if follow > 1 {
            write!(out, "{first:x}:{step:x}:{follow:x} ").unwrap();
            rest = &rest[1 + follow..];
        } else {
            numbers(out, &[*first]);
            rest = more;
        }
    }
}

/// The words of a pair: the state's, then the heads.
fn words_of(pair: &Pair) -> Vec<u64> {
    [&pair.state.words()[..], &pair.heads].concat()
}

impl Record {
    /// The first line: all that body, state and heads hold, and behind them zeros.
    pub fn begin(&mut self, pair: &Pair) {
        self.body = Vec::new();
        self.words = Vec::new();
        self.line(format!("{BEGIN:02x}000000|||||"), pair);
    }

    /// What was written between calls.
    pub fn written(&mut self, pair: &Pair) {
        self.line(format!("{WRITTEN:02x}000000|||||"), pair);
    }

    /// A call on what it was given.
    pub fn call(&mut self, call: &Call, lent: Given, answer: &Answer, pair: &Pair) {
        let function = CALLS[call.kind()] + CORE * lent.family();
        let mut out = format!("{function:02x}{:02x}{:04x}|{:x} ", answer.refusal, lent.body, lent.heads);
        self.longest = self.longest.max(pair.list.len());
        let (given, offered, told): (Vec<u64>, &[u64], usize) = match call {
            Call::Fresh(limits) => ([limits.reserve, limits.ceiling].concat(), &[], 0),
            Call::Load { key, fks, .. } => (vec![*key], fks, 1),
            Call::Append { key, fk } => (vec![*key, *fk], &[], 5),
            Call::Read { key, room } => (vec![*key, *room as u64], &[], 2),
            Call::Drop { key } => (vec![*key], &[], 1),
            Call::Extend { .. } => panic!("histories that are written down have no extends"),
        };
        numbers(&mut out, &given);
        out.push('|');
        match lent.by {
            By::List(desks) => desks.iter().for_each(|desk| write!(out, "{desk:02x}").unwrap()),
            By::Desk(desk) => write!(out, "{desk:x}").unwrap(),
        }
        out.push('|');
        list(&mut out, offered);
        out.push('|');
        numbers(&mut out, &answer.told[..told]);
        out.push('|');
        if let (Call::Read { .. }, 0) = (call, answer.refusal) {
            list(&mut out, &pair.list[..answer.told[0] as usize]);
        }
        self.line(out, pair);
    }

    /// Ends a line with what changed: parts of the body by runs, and words. Where a history begins, all of it did.
    fn line(&mut self, mut out: String, pair: &Pair) {
        out.push('|');
        let (mut body, mut words) = (pair.body.clone(), words_of(pair));
        body.resize(MOST_BODY, 0);
        words.resize(MOST_WORDS, 0);
        let changed: Vec<usize> = (0..MOST_BODY).filter(|&k| self.body.get(k) != Some(&body[k])).collect();
        for part in changed.chunk_by(|a, b| a + 1 == *b) {
            write!(out, "b{:04x}", part[0]).unwrap();
            for run in body[part[0]..part[0] + part.len()].chunk_by(|a, b| a == b).flat_map(|run| run.chunks(256)) {
                write!(out, "{:02x}{:02x}", run.len() - 1, run[0]).unwrap();
            }
            out.push(' ');
        }
        for (place, word) in words.iter().enumerate().filter(|(place, word)| self.words.get(*place) != Some(word)) {
            write!(out, "w{place:02x}{word:x} ").unwrap();
        }
        self.lines.push(out);
        (self.body, self.words) = (body, words);
    }
}

#[cfg(test)]
mod tests {
    use crate::lent::Placing;
    use crate::lockstep::pair::{Call, Given, Pair};
    use crate::lockstep::record::{BEGIN, CALLS, CORE, MOST_BODY, MOST_WORDS, WRITTEN};
    use crate::lockstep::{written, TESTED};
    use crate::second_book::desks::{By, Limits};
    use crate::second_book::space::{State, WORDS};
    use crate::second_book::Fit;

    fn hex(text: &str) -> u64 {
        u64::from_str_radix(text, 16).unwrap()
    }

    /// The byte of two digits.
    fn byte(digits: &[u8]) -> u8 {
        hex(std::str::from_utf8(digits).unwrap()) as u8
    }

    fn numbers(field: &str) -> Vec<u64> {
        field.split_whitespace().map(hex).collect()
    }

    /// The numbers of an item: one, or the first of a run and those that follow.
    fn run(item: &str) -> Vec<u64> {
        let run: Vec<u64> = item.split(':').map(hex).collect();
        (0..=run.get(2).copied().unwrap_or(0)).map(|k| run[0].wrapping_add(k.wrapping_mul(*run.get(1).unwrap_or(&0)))).collect()
    }

    /// The list of a field.
    fn list(field: &str) -> Vec<u64> {
        field.split_whitespace().flat_map(run).collect()
    }

    /// Makes body, state and heads hold what the last field of a line changes.
    fn change(field: &str, body: &mut [u8], words: &mut [u64]) {
        for item in field.split_whitespace() {
            if let Some(word) = item.strip_prefix('w') {
                words[hex(&word[..2]) as usize] = hex(&word[2..]);
                continue;
            }
            let mut at = hex(&item[1..5]) as usize;
            for run in item.as_bytes()[5..].chunks(4) {
                let (len, byte) = (hex(std::str::from_utf8(&run[..2]).unwrap()) as usize + 1, hex(std::str::from_utf8(&run[2..]).unwrap()));
                body[at..at + len].fill(byte as u8);
                at += len;
            }
        }
    }

    /// The call of a line, by its number and the numbers given after how many heads there are.
    fn call_of(function: u64, given: &[u64], offered: &str) -> Call {
        match function {
            0x30 => Call::Fresh(Limits { reserve: given[..16].try_into().unwrap(), ceiling: given[16..].try_into().unwrap() }),
            0x31 => Call::Load { key: given[0], fks: list(offered), fit: Fit::Spare },
            0x32 => Call::Append { key: given[0], fk: given[1] },
            0x33 => Call::Read { key: given[0], room: given[1] as usize },
            0x34 => Call::Drop { key: given[0] },
            _ => Call::Load { key: given[0], fks: list(offered), fit: Fit::Tight },
        }
    }

    /// Lines say enough to make the calls again, and what both books then answer and leave.
    #[test]
    fn lines_can_be_replayed() {
        let mut pair = Pair::default();
        let lines: Vec<String> = (0..TESTED).flat_map(|number| written(number, &mut pair).0).collect();
        let (mut body, mut words) = (vec![0; MOST_BODY], vec![0; MOST_WORDS]);
        for line in &lines {
            let fields: Vec<&str> = line.split('|').collect();
            let (function, refusal, len) = (hex(&line[..2]), hex(&line[2..4]), hex(&line[4..8]) as usize);
            let given = numbers(fields[1]);
            change(fields[6], &mut body, &mut words);
            if [WRITTEN, BEGIN].contains(&(function as usize)) {
                pair.begin(body.clone(), words[WORDS..].to_vec(), State::of_words(words[..WORDS].try_into().unwrap()), Placing::End);
                continue;
            }
            let (core, kind) = (function as usize >= CALLS[0] + CORE, function & 0xf | 0x30);
            let call = call_of(kind, &given[1..], fields[3]);
            let desks: Vec<u8> = if core { Vec::new() } else { fields[2].as_bytes().chunks(2).map(byte).collect() };
            let by = if core { By::Desk(hex(fields[2])) } else { By::List(&desks) };
            let answer = pair.call(&call, Given { body: len, heads: given[0] as usize, by }, "a line").unwrap();
            let told = numbers(fields[4]);
            assert_eq!((answer.refusal as u64, &answer.told[..told.len()]), (refusal, &told[..]), "{line}");
            if kind == 0x33 && refusal == 0 {
                assert_eq!(pair.list[..told[0] as usize], list(fields[5]), "{line}");
            }
            assert!(pair.body == body && pair.state.words() == words[..WORDS] && pair.heads == words[WORDS..], "{line}");
        }
        assert!(lines.len() > 100);
    }
}
