//! Hands an account book over to another host: checks the old host's book and the new host's copy, reads every account on both, and writes a
//! list that both sides can sign. docs/HANDOVER.md says what it is good for.
//!
//!     handover OLD NEW ACCOUNTS    compares two files, and writes the list where nothing differs
//!     handover BOOK ACCOUNTS       the list of one file, where the other can't be brought to the same machine: the two lists must be the same
//!
//! A file is what the examples write: state, head words and body, with as many head words as there are accounts. The status is 1 where a book
//! is no good start, or anything differs, which is said with the account's number; 2 where a file can't be read.
use ouriscado::limits::STATE_WORDS;
use ouriscado::{Book, Refusal, State};
use sha256::sha256;
use std::fmt::Write;
use std::process::ExitCode;
use std::{env, fs};

mod sha256;

type Owned = Book<Vec<u8>, Vec<u64>>;
type List = Result<Vec<u64>, Refusal>;

/// The words of bytes, the lowest byte of each first.
fn words(bytes: &[u8]) -> Vec<u64> {
    bytes.chunks_exact(8).map(|word| u64::from_le_bytes(word.try_into().expect("8 bytes"))).collect()
}

/// The bytes of words.
fn bytes(words: &[u64]) -> Vec<u8> {
    words.iter().flat_map(|word| word.to_le_bytes()).collect()
}

/// The book of a file. Nothing of it is judged yet.
fn stored(path: &str, accounts: usize) -> Result<Owned, String> {
    let whole = fs::read(path).map_err(|why| format!("{path}: {why}"))?;
    let heads_end = accounts.checked_mul(8).and_then(|heads| heads.checked_add(8 * STATE_WORDS));
    let Some(heads_end) = heads_end.filter(|&end| end <= whole.len()) else {
        return Err(format!("{path} has {} bytes, too few for a state and {accounts} head words", whole.len()));
    };
    let state = State(words(&whole[..8 * STATE_WORDS]).try_into().expect("as many words"));
    Ok(Book::from_parts(whole[heads_end..].to_vec(), words(&whole[8 * STATE_WORDS..heads_end]), state))
}

/// What an account's list is, in words.
fn told(list: &List) -> String {
    match list {
        Ok(list) => format!("{} records", list.len()),
        Err(why) => format!("refused with {}: {}", why.number(), why.text()),
    }
}

/// What differs in an account, with its number; nothing where both lists were read and are the same.
fn account_fault(key: u64, old: &List, new: &List) -> Option<String> {
    let mut fault = format!("account {key}: old {}, new {}", told(old), told(new));
    if let (Ok(old), Ok(new)) = (old, new) {
        if old == new {
            return None;
        }
        let same = old.iter().zip(new).take_while(|(was, is)| was == is).count();
        write!(fault, "; they differ from the record at {same} on").expect("text is written");
    }
    Some(fault)
}

/// Where two parts first differ, in words.
fn part_fault<T: PartialEq>(part: &str, old: &[T], new: &[T]) -> Option<String> {
    let at = old.iter().zip(new).take_while(|(was, is)| was == is).count();
    (old != new).then(|| format!("{part}: old has {}, new has {}, and they differ from {at} on", old.len(), new.len()))
}

/// How many units of a good start belong to nobody, or why it is none.
fn judged(side: &str, book: &Owned) -> Result<u64, String> {
    book.check().map_err(|why| format!("{side} is no good start: {why}"))
}

/// Everything that is wrong with one of two books, or differs between them: accounts first, then starts, then parts.
fn faults(old: &Owned, new: &Owned) -> Vec<String> {
    let mut out: Vec<String> = old.lists().zip(new.lists()).filter_map(|((key, was), (_, is))| account_fault(key, &was, &is)).collect();
    out.extend(judged("old", old).err());
    out.extend(judged("new", new).err());
    out.extend(part_fault("state, in words", &old.state().0, &new.state().0));
    out.extend(part_fault("head words", old.heads(), new.heads()));
    out.extend(part_fault("body, in bytes", old.body(), new.body()));
    out
}

/// The hash of a list: of its numbers in decimal, one a line, as an enquiry would print them.
fn list_hash(list: &[u64]) -> String {
    sha256(list.iter().map(|number| format!("{number}\n")).collect::<String>().as_bytes())
}

/// The list that is signed: what the book is made of, each account with how many records it has and their hash, and totals. Of units that
/// belong to nobody there are none in a book that began fresh: others may be those of a list whose head word was lost.
fn signed_list(book: &Owned, lost: u64) -> Result<String, (u64, Refusal)> {
    let mut out = format!("An account book, found a good start by Ouriscado {}\n", env!("CARGO_PKG_VERSION"));
    writeln!(out, "units of 16 bytes that belong to nobody: {lost}").expect("text is written");
    let parts = [("state", bytes(&book.state().0)), ("heads", bytes(book.heads())), ("body", book.body().to_vec())];
    for (part, bytes) in parts {
        writeln!(out, "{part}: {} bytes, sha256 {}", bytes.len(), sha256(&bytes)).expect("text is written");
    }
    let (mut records, mut used) = (0, 0);
    for (key, list) in book.lists() {
        let list = list.map_err(|why| (key, why))?;
        writeln!(out, "account {key}: {} records, sha256 {}", list.len(), list_hash(&list)).expect("text is written");
        records += list.len();
        used += usize::from(!list.is_empty());
    }
    writeln!(out, "total: {} accounts, {used} with records, {records} records", book.heads().len()).expect("text is written");
    let hash = sha256(out.as_bytes());
    writeln!(out, "sha256 of the lines above: {hash}").expect("text is written");
    Ok(out)
}

/// Compares the books, or judges the only one: what is wrong, else the list.
fn handed_over(old: &Owned, new: Option<&Owned>) -> Result<String, Vec<String>> {
    let wrong = new.map_or(vec![], |new| faults(old, new));
    if !wrong.is_empty() {
        return Err(wrong);
    }
    let lost = judged("the book", old).map_err(|why| vec![why])?;
    signed_list(old, lost).map_err(|(key, why)| vec![format!("account {key}: {why}")])
}

/// The books that are asked for: the old one, and the new one where two are.
fn asked() -> Result<(Owned, Option<Owned>), String> {
    let words: Vec<String> = env::args().skip(1).collect();
    let Some((accounts, paths @ ([_] | [_, _]))) = words.split_last() else {
        return Err("usage: handover OLD NEW ACCOUNTS, or handover BOOK ACCOUNTS".to_string());
    };
    let accounts = accounts.parse().map_err(|_| format!("{accounts} is no number of accounts"))?;
    let new = paths.get(1).map(|path| stored(path, accounts)).transpose()?;
    Ok((stored(&paths[0], accounts)?, new))
}

fn main() -> ExitCode {
    let (old, new) = match asked() {
        Ok(books) => books,
        Err(why) => {
            eprintln!("handover: {why}");
            return ExitCode::from(2);
        }
    };
    match handed_over(&old, new.as_ref()) {
        Ok(list) => {
            print!("{list}");
            ExitCode::SUCCESS
        }
        Err(wrong) => {
            wrong.iter().for_each(|fault| eprintln!("handover: {fault}"));
            ExitCode::FAILURE
        }
    }
}
