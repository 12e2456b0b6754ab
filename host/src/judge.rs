//! What our answer to an input has to be: the published source's, save where docs/DIFFERENCES.md lists a difference, which names ours.
use crate::case::{Input, Output};
use crate::lent::Lent;
use crate::table::Function;

/// The document that lists the differences.
const DOCUMENT: &str = concat!(env!("CARGO_MANIFEST_DIR"), "/../docs/DIFFERENCES.md");

/// A difference that can be told from the input: its name in the document, the functions and inputs that it is about, and our answer.
struct Rule {
    name: &'static str,
    of: fn(&str) -> bool,
    when: fn(&Input) -> bool,
    ours: fn(&Input, &mut Output),
}

const RULES: &[Rule] = &[
    Rule { name: "slab_cap-shift", of: |f| f == "slab_cap", when: |i| i.numbers[0] >= 32, ours: |_, o| o.numbers.push(0) },
    Rule { name: "slab_bytes-shift", of: |f| f == "slab_bytes", when: |i| i.numbers[0] >= 64, ours: |_, o| o.numbers.push(0) },
    Rule {
        name: "free-checked",
        of: |f| f == "push_free_head",
        when: |i| !is_block(i.numbers[0], i.numbers[1], i.bytes.len() as u64),
        ours: |_, o| o.refusal = 35,
    },
    Rule {
        name: "free-checked",
        of: |f| f == "pop_free_head",
        when: |i| {
            let head = i.list.get(i.numbers[0] as usize).copied().unwrap_or(0);
            head != 0 && !is_block(i.numbers[0], head, i.numbers[1].min(i.bytes.len() as u64))
        },
        ours: |_, o| o.refusal = 35,
    },
    Rule {
        name: "free-checked",
        of: |f| f == "carve_gap_into_freelist",
        when: |i| {
            let (from, to) = (i.numbers[0], i.numbers[1]);
            from < to && (!from.is_multiple_of(16) || from < 4096 || to > i.bytes.len() as u64)
        },
        ours: |_, o| o.refusal = 35,
    },
    Rule {
        name: "page-length",
        // Their last one takes a slice, and says itself that it is no page.
        of: |f| f.starts_with("sh_page_") && f != "sh_page_chunk_ranges" && f != "sh_page_decode_slice_into",
        when: |i| i.bytes.len() != 4096,
        ours: |_, o| o.refusal = 4,
    },
    Rule {
        name: "lent-list",
        of: |f| f == "split_last_chunk_for_extent",
        when: |i| i.numbers[0] > i.ranges.len() as u64,
        ours: |_, o| o.refusal = 34,
    },
    Rule {
        name: "range-outside",
        of: |f| f == "split_last_chunk_for_extent",
        when: |i| (i.numbers[0] as usize).checked_sub(1).is_some_and(|k| i.ranges[k][0] < i.ranges[k][1] && i.ranges[k][1] > i.list.len()),
        ours: |i, o| o.numbers.push(i.numbers[0]),
    },
];

/// The difference that can be told only from their answer: a list of theirs that grew beyond the one that was lent.
const LENT_LIST: &str = "lent-list";

/// Whether a block of a class from 0 to 8 can stand at an offset, below an end.
fn is_block(class: u64, off: u64, end: u64) -> bool {
    let unit = if class == 8 { 4096 } else { 16 };
    class <= 8 && off.is_multiple_of(unit) && off >= 4096 && off.checked_add(16 << class).is_some_and(|e| e <= end)
}

/// The names of all differences, in the order of the rules.
pub fn names() -> Vec<&'static str> {
    let mut out: Vec<&str> = RULES.iter().map(|r| r.name).collect();
    out.dedup();
    out
}

/// The names that the document lists: of each row of its table the first cell.
pub fn listed() -> Vec<String> {
    let text = std::fs::read_to_string(DOCUMENT).unwrap_or_else(|e| panic!("{DOCUMENT}: {e}"));
    let rows = text.lines().filter_map(|line| line.strip_prefix("| `"));
    rows.filter_map(|row| row.split('`').next()).map(String::from).collect()
}

/// Puts the answer that ours has to be into an output, and tells the listed difference by which it is that.
pub fn expected(function: &Function, input: &Input, out: &mut Output) -> Option<&'static str> {
    out.start(input);
    if let Some(rule) = RULES.iter().find(|r| (r.of)(function.name) && (r.when)(input)) {
        (rule.ours)(input, out);
        return Some(rule.name);
    }
    (function.theirs)(input, out);
    let grew = out.list.len() > input.list.len() || out.ranges.len() > input.ranges.len();
    if out.refusal != 0 || grew {
        let refusal = if out.refusal != 0 { out.refusal } else { 34 };
        out.start(input);
        out.refusal = refusal;
    }
    (out.refusal == 34).then_some(LENT_LIST)
}

/// What is wrong with an answer of ours, if something is: a refusal hands out zeros and leaves every buffer.
pub fn wrong(expected: &Output, refusal: u32, lent: &Lent) -> Option<String> {
    if refusal != expected.refusal {
        return Some(format!("answers {refusal} in place of {}", expected.refusal));
    }
    let told = lent.told();
    let values = [&expected.numbers[..], &expected.apart].concat();
    let right = if refusal == 0 { told == values } else { told.iter().all(|n| *n == 0) };
    if !right {
        let wanted = if refusal == 0 { format!("{values:x?}") } else { "zeros".into() };
        return Some(format!("answers {refusal} and hands out {told:x?} in place of {wanted}"));
    }
    let (bytes, list, ranges) = lent.held();
    let place = if let Some(at) = place_of(bytes, &expected.bytes) {
        format!("byte {at}")
    } else if let Some(at) = place_of(list, &expected.list) {
        format!("number {at} of the list")
    } else {
        format!("range {}", place_of(ranges, &expected.ranges)?)
    };
    Some(format!("answers {refusal} and leaves another {place}"))
}

/// Where two slices of a length first differ.
pub fn place_of<T: PartialEq>(a: &[T], b: &[T]) -> Option<usize> {
    assert_eq!(a.len(), b.len());
    if a == b {
        None
    } else {
        a.iter().zip(b).position(|(x, y)| x != y)
    }
}

#[cfg(test)]
mod tests {
    use super::*;
    use crate::lent::Placing;
    use crate::table::functions;

    /// The differences that are known are those of the document, name for name.
    #[test]
    fn differences_are_those_of_the_document() {
        let (mut known, mut listed) = (names(), listed());
        known.sort();
        known.dedup();
        listed.sort();
        assert_eq!(known, listed);
    }

    /// What a function has to answer to an input: the difference by which, the refusal and the numbers.
    fn answer(name: &str, input: Input) -> (Option<&'static str>, u32, Vec<u64>) {
        let function = functions().find(|f| f.name == name).unwrap();
        let mut out = Output::default();
        let by = expected(function, &input, &mut out);
        assert!(out.refusal == 0 || (out.bytes == input.bytes && out.list == input.list && out.ranges == input.ranges));
        (by, out.refusal, out.numbers)
    }

    /// Whether the source's own answer is another: a refusal, a number or a buffer.
    fn source_differs(name: &str, input: &Input) -> bool {
        let function = functions().find(|f| f.name == name).unwrap();
        let (mut ours, mut theirs) = (Output::default(), Output::default());
        expected(function, input, &mut ours);
        theirs.start(input);
        (function.theirs)(input, &mut theirs);
        ours != theirs
    }

    /// The smallest inputs of the document show their differences, and those beside them don't.
    #[test]
    fn smallest_inputs_differ() {
        let numbers = |n: &[u64]| Input::new(n, &[], &[]);
        assert_eq!(answer("slab_cap", numbers(&[32])), (Some("slab_cap-shift"), 0, vec![0]));
        assert_eq!(answer("slab_cap", numbers(&[31])), (None, 0, vec![0]));
        assert_eq!(answer("slab_bytes", numbers(&[64])), (Some("slab_bytes-shift"), 0, vec![0]));
        assert_eq!(answer("slab_bytes", numbers(&[63])), (None, 0, vec![0]));
        assert!(source_differs("slab_cap", &numbers(&[32])) && source_differs("slab_bytes", &numbers(&[64])));
        assert_eq!(answer("sh_page_is_last", numbers(&[])), (Some("page-length"), 4, vec![]));
        assert_eq!(answer("decode_fk_delta_stream_into", Input::new(&[1], &[1], &[])), (Some("lent-list"), 34, vec![]));
        assert_eq!(answer("sh_page_chunk_ranges", Input::with_ranges(&[], &[1], vec![])), (Some("lent-list"), 34, vec![]));
        let split = |count: u64, ranges: Vec<[usize; 2]>| answer("split_last_chunk_for_extent", Input::with_ranges(&[count], &[1], ranges));
        assert_eq!(split(1, vec![]), (Some("lent-list"), 34, vec![]));
        assert_eq!(split(1, vec![[0, 2]]), (Some("range-outside"), 0, vec![1]));
        assert_eq!(split(1, vec![[0, 1]]), (None, 0, vec![1]));
    }

    /// The same of pushes, pops and gaps: those on the left are refused and the source takes them, those on the right are accepted.
    #[test]
    fn smallest_blocks_differ() {
        let input = |n: [u64; 2], body: usize, head: u64| Input::new(&n, &vec![0; body], &[head, 0, 0, 0, 0, 0, 0, 0, 0]);
        let (push, pop, carve) = ("push_free_head", "pop_free_head", "carve_gap_into_freelist");
        for (name, bad, good) in [
            (push, input([0, 0], 8, 0), input([0, 4096], 4112, 0)),
            (pop, input([0, 4112], 9, 1), input([0, 4112], 4112, 4096)),
            (carve, input([0, 1], 0, 0), input([1, 1], 0, 0)),
            (carve, input([4096, 8200], 8192, 0), input([4096, 8192], 8192, 0)),
        ] {
            assert!(source_differs(name, &bad) && !source_differs(name, &good), "{name}");
            assert_eq!(answer(name, bad), (Some("free-checked"), 35, vec![]));
            let (by, refusal, _) = answer(name, good);
            assert_eq!((by, refusal), (None, 0));
        }
    }

    /// Each way in which an answer can be wrong is seen.
    #[test]
    fn wrong_answers_are_seen() {
        let input = Input { numbers: vec![], bytes: vec![1], list: vec![2], ranges: vec![[3, 4]] };
        let judged = |refusal: u32, value: u64, change: fn(&Lent), wanted: &Output| {
            let lent = Lent::default();
            lent.lend(&input, Placing::End);
            *lent.out::<u64>() = value;
            change(&lent);
            wrong(wanted, refusal, &lent)
        };
        type Change = fn(&Lent);
        let none: Change = |_| {};
        let changes: [Change; 3] = [|l| unsafe { *l.bytes().0 = 9 }, |l| unsafe { *l.list().0 = 9 }, |l| unsafe { *l.ranges().0 = [9, 9] }];
        let mut accepted = Output { numbers: vec![7], ..Output::default() };
        accepted.start(&input);
        accepted.numbers.push(7);
        assert_eq!(judged(0, 7, none, &accepted), None);
        let mut refused = accepted.clone();
        refused.refusal = 35;
        assert_eq!(judged(35, 0, none, &refused), None);
        for (ours, value, wanted) in [(17, 0, &accepted), (0, 6, &accepted), (36, 0, &refused), (0, 0, &refused), (35, 7, &refused)] {
            assert!(judged(ours, value, none, wanted).is_some());
        }
        for change in changes {
            assert!(judged(0, 7, change, &accepted).is_some() && judged(35, 0, change, &refused).is_some());
        }
    }
}
