//! Extends: many numbers for one account in one call, beside appends of the same numbers, which leave the same book.
use ouriscado::limits::*;
use ouriscado::{Appended, Book, Desks, Extended, Place, Refusal};

type Owned = Book<Vec<u8>, Vec<u64>>;

/// The numbers from one to another.
fn row(first: u64, last: u64) -> Vec<u64> {
    (first..=last).collect()
}

/// What appends of numbers tell, one after another until one is refused, on a book whose account stands at a place.
fn by_appends(book: &mut Owned, key: u64, numbers: &[u64]) -> Extended {
    let mut told = Extended { accepted: 0, stopped: None, place: book.place(key).unwrap(), moves: 0, rewritten: 0 };
    for &number in numbers {
        match book.append(key, number) {
            Ok(Appended { place, rewritten }) => {
                told.accepted += 1;
                told.place = place;
                told.moves += u64::from(rewritten > 0);
                told.rewritten += rewritten;
            }
            Err(why) => {
                told.stopped = Some(why);
                break;
            }
        }
    }
    told
}

/// Extends a book, and a copy of it by appends: both tell and leave the same.
fn same(book: &mut Owned, key: u64, numbers: &[u64]) -> Extended {
    let mut beside = book.clone();
    let told = book.extend(key, numbers).unwrap();
    assert_eq!(told, by_appends(&mut beside, key, numbers));
    assert!(*book == beside, "an extend leaves another book than its appends");
    told
}

/// A book with accounts that are empty, inline, in a slab, in a page and in a chain.
fn of_each_kind() -> Owned {
    let mut book = Book::fresh(vec![0x3c; 16 * PAGE_BYTES], vec![0; 5]).unwrap();
    book.append(1, 5).unwrap();
    book.load(2, &row(1, 20)).unwrap();
    book.load(3, &row(1, 300)).unwrap();
    book.load(4, &row(1, 9_000)).unwrap();
    book
}

#[test]
fn from_nothing_to_a_chain() {
    let mut book = Book::fresh(vec![0xff; 8 * PAGE_BYTES], vec![0; 1]).unwrap();
    for (last, place) in [
        (1, Place::Inline(1)),
        (2, Place::Slab { class: 0, used: 2, offset: 4096 }),
        (256, Place::Slab { class: 6, used: 256, offset: 5104 }),
        (257, Place::Pages { last: 8192 }),
        (4_072, Place::Pages { last: 8192 }),
        (12_000, Place::Pages { last: 16_384 }),
    ] {
        let first = book.length(0).unwrap() as u64 + 1;
        assert_eq!(same(&mut book, 0, &row(first, last)).place, place);
    }
    let mut at_once = Book::fresh(vec![0xff; 8 * PAGE_BYTES], vec![0; 1]).unwrap();
    let told = same(&mut at_once, 0, &row(1, 12_000));
    assert_eq!(told, Extended { accepted: 12_000, stopped: None, place: Place::Pages { last: 16_384 }, moves: 8, rewritten: 509 });
    assert!(at_once == book, "in pieces or at once");
    assert_eq!((book.read(0), book.check()), (Ok(row(1, 12_000)), Ok(0)));
}

#[test]
fn a_refused_number_ends_it() {
    for key in 0..5 {
        let (mut book, last) = (of_each_kind(), of_each_kind().read(key).unwrap().last().copied().unwrap_or(0));
        for (bad, why) in [
            (0, Refusal::OfferedFirstZero),
            (1 << 63, Refusal::OfferedBit63),
            (1 << 62, Refusal::OfferedTooLarge),
            (last + 7, Refusal::OfferedNotRising),
        ] {
            let mut book = book.clone();
            let told = same(&mut book, key, &[last + 6, last + 7, bad, last + 8]);
            assert_eq!((told.accepted, told.stopped), (2, Some(why)), "key {key}");
            let told = same(&mut book, key, &[bad, last + 8]);
            assert_eq!((told.accepted, told.stopped, told.place), (0, Some(why), book.place(key).unwrap()), "key {key}");
        }
        let told = same(&mut book, key, &[last + 6, MOST_NUMBER]);
        assert_eq!((told.accepted, told.stopped), (2, None));
        assert_eq!(same(&mut book, key, &[MOST_NUMBER + 1]).stopped, Some(Refusal::OfferedTooLarge));
    }
}

#[test]
fn a_book_that_is_full() {
    let mut book = Book::fresh(vec![0; 3 * PAGE_BYTES], vec![0; 2]).unwrap();
    let told = same(&mut book, 0, &row(1, 9_000));
    assert_eq!((told.accepted, told.stopped), (4_072, Some(Refusal::NoRoom)));
    let told = same(&mut book, 1, &row(1, 9_000));
    assert_eq!(told.stopped, Some(Refusal::NoRoom));
    assert_eq!((book.read(0), book.length(1), book.check()), (Ok(row(1, 4_072)), Ok(told.accepted), Ok(0)));
    book.grow(8 * PAGE_BYTES, 2).unwrap();
    assert_eq!(same(&mut book, 0, &row(4_073, 9_000)).stopped, None);
    assert_eq!((book.read(0), book.check()), (Ok(row(1, 9_000)), Ok(0)));
}

#[test]
fn without_numbers() {
    let mut book = of_each_kind();
    let before = book.clone();
    for key in 0..5 {
        let place = book.place(key).unwrap();
        assert_eq!(book.extend(key, &[]), Ok(Extended { accepted: 0, stopped: None, place, moves: 0, rewritten: 0 }));
    }
    assert_eq!(book.extend(5, &[]), Err(Refusal::KeyBeyond));
    assert!(book == before, "an extend by nothing has changed something");
}

#[test]
fn the_account_is_judged_before_the_numbers() {
    let (body, heads, state) = of_each_kind().into_parts();
    let last = |key: usize| (heads[key] & !(3 << 62)) as usize;
    let damaged = |at: usize, byte: u8| {
        let mut body = body.clone();
        body[at] = byte;
        Book::from_parts(body, heads.clone(), state)
    };
    let slab = (heads[2] & 0xff_ffff_ffff) as usize;
    for (key, at, byte) in [(2, slab, 0), (2, slab + 2, 0), (3, last(3) + 24, 0), (3, last(3), 9), (4, last(4) + 24, 0), (4, last(4), 9)] {
        let mut book = damaged(at, byte);
        let before = book.clone();
        for numbers in [&[][..], &[0], &[5], &[20_000, 20_001]] {
            assert_eq!(book.extend(key, numbers), Err(Refusal::KeyUnsound), "key {key}, byte {at}");
        }
        assert_eq!(book.append(key, 20_000), Err(Refusal::KeyUnsound));
        assert!(book == before, "a refused extend has changed something");
        assert_eq!(book.extend(key + 9, &[0]), Err(Refusal::KeyBeyond));
    }
    // Of a chain the last page alone is looked at, as by an append.
    let mut book = damaged(last(4) - 4096, 9);
    assert_eq!(same(&mut book, 4, &[20_000, 20_001]).accepted, 2);
    assert_eq!(book.read(4), Err(Refusal::KeyUnsound));
    let mut book = Book::from_parts(body[..5_000].to_vec(), heads.clone(), state);
    assert_eq!((book.extend(9, &[0]), book.extend(0, &[])), (Err(Refusal::ShapeBad), Err(Refusal::ShapeBad)));
    let mut book = Book::from_parts_with(body.clone(), heads.clone(), state, vec![0, 16, 0, 0, 0]);
    assert_eq!((book.extend(1, &[9]), book.extend(0, &[9]).map(|told| told.accepted)), (Err(Refusal::DesksBad), Ok(1)));
}

/// Random numbers, always the same ones (xorshift).
struct Random(u64);

impl Random {
    fn below(&mut self, n: u64) -> u64 {
        self.0 ^= self.0 << 13;
        self.0 ^= self.0 >> 7;
        self.0 ^= self.0 << 17;
        self.0 % n
    }

    /// Numbers that rise above one, now and then with one among them that doesn't.
    fn more(&mut self, last: u64) -> Vec<u64> {
        let len = [0, 1, 3, 20, 300, 1_500][self.below(6) as usize];
        let bits = [1, 6, 8, 15, 30][self.below(5) as usize];
        let mut out: Vec<u64> = (0..self.below(len + 1))
            .scan(last, |last, _| {
                *last += 1 + self.below(1 << bits);
                Some(*last)
            })
            .collect();
        if self.below(5) == 0 && !out.is_empty() {
            let at = self.below(out.len() as u64) as usize;
            out[at] = [0, last, MOST_NUMBER + 1, u64::MAX][self.below(4) as usize];
        }
        out
    }
}

/// Books of desks with reserves and ceilings, whose accounts are loaded, extended and dropped.
#[test]
fn random_books() {
    const KEYS: u64 = 6;
    let mut stops = Vec::new();
    for seed in 1..=40u64 {
        let mut random = Random(seed.wrapping_mul(0x9e37_79b9_7f4a_7c15));
        let desks = Desks::new([0, 1, 2, 0, 1, 2]).ceiling(0, 1 + seed % 3).reserve(1, seed % 4);
        let mut book = Book::fresh_with(vec![seed as u8; 12 * PAGE_BYTES], vec![0; KEYS as usize], desks).unwrap();
        for _ in 0..120 {
            let key = random.below(KEYS);
            match random.below(10) {
                0 => drop(book.drop_key(key).unwrap()),
                1 => {
                    let list = random.more(0);
                    let load = [Book::load, Book::load_tight][random.below(2) as usize];
                    let _ = load(&mut book, key, &list);
                }
                _ => {
                    let last = book.read(key).unwrap().last().copied().unwrap_or(0);
                    let more = random.more(last);
                    let told = same(&mut book, key, &more);
                    stops.extend(told.stopped);
                    assert_eq!(told.accepted == more.len(), told.stopped.is_none());
                }
            }
        }
        assert_eq!(book.check(), Ok(0));
    }
    use Refusal::{IntoReserves, NoRoom, OfferedBit63, OfferedFirstZero, OfferedNotRising, OfferedTooLarge, PastCeiling};
    for why in [IntoReserves, NoRoom, OfferedBit63, OfferedFirstZero, OfferedNotRising, OfferedTooLarge, PastCeiling] {
        assert!(stops.contains(&why), "{why} was never met");
    }
}
