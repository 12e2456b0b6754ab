//! A fixed list of their answers, and of ours where a listed difference names it, in the files that the program `replay` reads, and histories
//! of the second book in those that `histories` reads: neither needs Rust to run.
use crate::case::{Input, Output};
use crate::judge::expected;
use crate::pages;
use crate::rng::Rng;
use crate::table::{functions, Function};
use std::fmt::Write;

/// The most answers of a function, and of one on pages.
const MOST: usize = 300;
const MOST_OF_PAGES: usize = 150;
/// How many shares of them accepted calls have, where each refusal has one.
const ACCEPTED: usize = 4;
/// The most bytes, numbers and ranges of an answer, which the program has room for.
const MOST_BYTES: usize = 4096;
const MOST_NUMBERS: usize = 512;
const MOST_RANGES: usize = 8;
/// Bytes of a body before its first block. They hold 0 in every answer, and are left out.
const FRONT: usize = 4096;
/// The most text of an answer, and of each of a function's answers.
const MOST_LINE: usize = 12_000;
const TEXT_EACH: usize = 100;

/// A field of numbers: 16 digits and a space each.
fn numbers(out: &mut String, list: &[u64]) {
    list.iter().for_each(|n| write!(out, "{n:016x} ").unwrap());
}

/// The runs of a byte in some bytes, without the zeros at the end; a run has up to 256 bytes.
fn runs(bytes: &[u8]) -> impl Iterator<Item = &[u8]> {
    let len = bytes.iter().rposition(|b| *b != 0).map_or(0, |k| k + 1);
    bytes[..len].chunk_by(|a, b| a == b).flat_map(|run| run.chunks(256))
}

/// A field of bytes, by runs: how often a byte stands, less one, and the byte, two digits each.
fn bytes(out: &mut String, bytes: &[u8]) {
    runs(bytes).for_each(|run| write!(out, "{:02x}{:02x}", run.len() - 1, run[0]).unwrap());
}

/// Numbers, bytes and a list, as a line has them.
#[derive(Default)]
struct Fields {
    numbers: Vec<u64>,
    bytes: Vec<u8>,
    list: Vec<u64>,
}

/// The word of eight bytes, which a line has as a number.
fn word_of(bytes: &[u8]) -> u64 {
    u64::from_le_bytes(bytes.try_into().expect("eight bytes"))
}

/// Whether a function is on free lists.
fn is_free(function: &Function) -> bool {
    ["push_free_head", "pop_free_head", "carve_gap_into_freelist"].contains(&function.name)
}

/// What a line has of a body: the bytes after its front.
fn after_front(body: &[u8]) -> Option<Vec<u8>> {
    let (front, rest) = body.split_at_checked(FRONT)?;
    front.iter().all(|b| *b == 0).then(|| rest.to_vec())
}

/// What a line says that a call is given. Ranges go as numbers: how many are lent, and for a split also how many count, and the last of those.
fn given(function: &Function, input: &Input) -> Option<Fields> {
    let mut out = Fields { numbers: input.numbers.clone(), bytes: input.bytes.clone(), list: input.list.clone() };
    let last = input.numbers.first().and_then(|count| input.ranges.get((*count as usize).checked_sub(1)?));
    match function.name {
        "sh_page_chunk_ranges" => out.numbers = vec![input.ranges.len() as u64],
        "split_last_chunk_for_extent" => {
            let [start, end] = last.map_or([0, 0], |r| r.map(|n| n as u64));
            out.numbers = vec![input.ranges.len() as u64, input.numbers[0], start, end];
        }
        "pack8_bytes" => out.bytes.clear(),
        "unpack8_bytes" => {
            out.numbers = vec![word_of(&input.bytes)];
            out.bytes.clear();
        }
        _ if is_free(function) => out.bytes = after_front(&input.bytes)?,
        _ => {}
    }
    let text = 17 * out.list.len() + 4 * runs(&out.bytes).take(MOST_LINE).count();
    let fits = out.bytes.len() <= MOST_BYTES && out.list.len() <= MOST_NUMBERS && input.ranges.len() <= MOST_RANGES && text <= MOST_LINE;
    (fits && out.numbers.len() <= 4).then_some(out)
}

/// What a line says that a call tells and leaves. Ranges that a call wrote stand over the first numbers of the list, as far as it reaches.
fn told(function: &Function, input: &Input, wanted: &Output) -> Option<Fields> {
    let mut out = Fields { numbers: wanted.numbers.clone(), bytes: wanted.bytes.clone(), list: wanted.list.clone() };
    match function.name {
        "pack8_bytes" if wanted.refusal == 0 => out.numbers = vec![word_of(&wanted.bytes)],
        _ if is_free(function) => out.bytes = after_front(&wanted.bytes)?,
        _ => {}
    }
    if function.name.ends_with("pack8_bytes") {
        out.bytes.clear();
    }
    if !input.ranges.is_empty() && wanted.refusal == 0 {
        let first = input.numbers.first().map_or(0, |count| count.saturating_sub(1) as usize);
        let new = &wanted.ranges[first..wanted.numbers[0] as usize];
        out.list.iter_mut().zip(new.iter().flatten()).for_each(|(place, n)| *place = *n as u64);
    }
    Some(out)
}

/// The line of an answer. A refused call leaves what it was given, and hands out zeros.
fn line(place: usize, function: &Function, input: &Input, wanted: &Output) -> Option<String> {
    let (given, told) = (given(function, input)?, told(function, input, wanted)?);
    let mut out = format!("{place:02x}{:02x}{:04x}|", wanted.refusal, given.bytes.len());
    for (k, fields) in [given, told].iter().enumerate() {
        numbers(&mut out, &fields.numbers);
        out.push('|');
        bytes(&mut out, &fields.bytes);
        out.push('|');
        numbers(&mut out, &fields.list);
        out.push_str(if k == 0 { "|" } else { "" });
    }
    Some(out)
}

/// The kind of an answer: its refusal, and of a page whether the first number told is 0, as that of a full page is.
type Kind = (u32, bool);

/// How many shares of a function's answers a kind has.
fn shares(kind: &Kind) -> usize {
    if kind.0 == 0 {
        ACCEPTED
    } else {
        1
    }
}

/// The lines of a function: inputs of the first rounds, thinned out so that those of every kind and every refusal stay.
fn lines(place: usize, function: &Function) -> Vec<String> {
    let mut all: Vec<(Kind, String)> = Vec::new();
    let is_page = pages::FUNCTIONS.iter().any(|f| f.name == function.name);
    for round in 0..4 {
        let mut rng = Rng(place as u64 ^ round << 24);
        let mut wanted = Output::default();
        (function.inputs)(&mut rng, round, &mut |input| {
            expected(function, input, &mut wanted);
            if let Some(line) = line(place, function, input, &wanted) {
                let full = is_page && wanted.refusal == 0 && wanted.numbers.first() == Some(&0);
                all.push(((wanted.refusal, full), line));
            }
        });
    }
    let mut out = Vec::new();
    let mut kinds: Vec<Kind> = all.iter().map(|a| a.0).collect();
    kinds.sort();
    kinds.dedup();
    for kind in &kinds {
        let of: Vec<&String> = all.iter().filter(|a| a.0 == *kind && a.1.len() <= MOST_LINE).map(|a| &a.1).collect();
        let most = if is_page { MOST_OF_PAGES } else { MOST } * shares(kind) / kinds.iter().map(shares).sum::<usize>();
        let mut text = 0;
        for k in 0..of.len().min(most) {
            let one = of[k * of.len() / of.len().min(most)];
            if text + one.len() <= TEXT_EACH * most {
                text += one.len();
                out.push(one.clone());
            }
        }
    }
    out.dedup();
    out
}

/// Writes a file: its lines, and after them one with what they are about.
fn write_file(path: &str, lines: &[String], name: &str) {
    std::fs::write(path, format!("{}\n={name}\n", lines.join("\n"))).unwrap_or_else(|e| panic!("{path}: {e}"));
}

/// Writes a file for each function to a folder.
pub fn answers(folder: &str) {
    for (place, function) in functions().enumerate() {
        write_file(&format!("{folder}/{place:02}"), &lines(place, function), function.name);
    }
}

/// Writes histories of the book to the folder `data` of a program, and what it has to say of them.
pub fn histories(program: &str) {
    let mut said = String::new();
    for (k, lines) in crate::lockstep::written_histories().iter().enumerate() {
        let name = if k == 0 { "by hand".into() } else { format!("file {k}") };
        write_file(&format!("{program}/data/h{k}"), lines, &name);
        let begun = lines.iter().filter(|line| line.starts_with("36")).count();
        writeln!(said, "{name}: {begun} histories, {} lines replayed, 0 differ", lines.len()).unwrap();
    }
    std::fs::write(format!("{program}/stdout"), said).unwrap_or_else(|e| panic!("{program}/stdout: {e}"));
}
