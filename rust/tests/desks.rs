//! Desks that share a book: what is kept for them, what they get, and counts and lists that aren't true.
use ouriscado::limits::*;
use ouriscado::{Book, Desks, Refusal, StartError};

type Owned = Book<Vec<u8>, Vec<u64>>;

/// The numbers from 1 to n.
fn numbers(n: u64) -> Vec<u64> {
    (1..=n).collect()
}

/// A book with so many pages for lists.
fn made(pages: usize, desks: Desks, heads: usize) -> Result<Owned, Refusal> {
    Book::fresh_with(vec![0xcc; (1 + pages) * PAGE_BYTES], vec![0; heads], desks)
}

/// The first words of a state: those of counts, of held pages, of reserves and of ceilings.
const COUNTS: usize = 1 + FREE_HEADS;
const HELD: usize = COUNTS + 1;
const RESERVE: usize = HELD + DESKS;
const CEILING: usize = RESERVE + DESKS;

#[test]
fn a_ceiling_holds() {
    let mut book = made(8, Desks::new(vec![3, 3, 4]).ceiling(3, 1), 3).unwrap();
    assert_eq!(book.load(0, &numbers(300)), Ok(1));
    let before = book.clone();
    assert_eq!(book.load(1, &numbers(300)), Err(Refusal::PastCeiling));
    assert_eq!(book.load_tight(1, &numbers(300)), Err(Refusal::PastCeiling));
    assert_eq!(book, before, "a refused call changes nothing");
    assert_eq!(book.load(1, &numbers(256)), Ok(0), "a slab is no page");
    assert_eq!(book.append(1, 257), Err(Refusal::PastCeiling));
    assert_eq!(book.load(2, &numbers(300)), Ok(1), "another desk goes on");
    assert_eq!(book.drop_key(0), Ok(300));
    assert!(book.append(1, 257).is_ok());
    assert_eq!((book.state().held_pages(3), book.state().held_pages(4), book.check()), (1, 1, Ok(0)));
    assert_eq!((book.append(3, 1), book.drop_key(3)), (Err(Refusal::KeyBeyond), Err(Refusal::KeyBeyond)));
}

#[test]
fn a_desk_below_its_reserve_gets_its_page() {
    let mut book = made(3, Desks::new(vec![0, 0, 1]).reserve(1, 1), 3).unwrap();
    assert_eq!(book.load(2, &numbers(256)), Ok(0)); // in a slab, which has a page of its own
    assert_eq!(book.load(0, &numbers(300)), Ok(1));
    for call in [Owned::load, Owned::load_tight] {
        assert_eq!(call(&mut book, 1, &numbers(300)), Err(Refusal::IntoReserves));
    }
    assert!(book.append(2, 257).is_ok(), "the page that was kept");
    assert_eq!((book.read(2).unwrap(), book.state().held_pages(1), book.check()), (numbers(257), 1, Ok(0)));
    assert_eq!(book.load(1, &numbers(300)), Err(Refusal::NoRoom), "and now there is none");
}

#[test]
fn slabs_leave_reserves() {
    let mut book = made(1, Desks::new(vec![0, 1]).reserve(1, 1), 2).unwrap();
    assert_eq!(book.load(0, &[1, 2]), Err(Refusal::IntoReserves));
    assert!(book.append(0, 1).is_ok(), "a number in the head word takes nothing");
    assert_eq!(book.append(0, 2), Err(Refusal::IntoReserves));
    book.grow(3 * PAGE_BYTES, 2).unwrap();
    assert!(book.append(0, 2).is_ok());
    assert_eq!(book.load(1, &numbers(300)), Ok(1));
}

#[test]
fn makings_that_are_refused() {
    let desks = || Desks::new(vec![0, 15]);
    assert!(made(4, desks().reserve(0, 2).reserve(15, 2).ceiling(15, 2), 2).is_ok());
    for (desks, refusal) in [
        (Desks::new(vec![0]), Refusal::DesksBad),
        (Desks::new(vec![0, 0, 0]), Refusal::DesksBad),
        (Desks::new(vec![0, 16]), Refusal::DesksBad),
        (desks().reserve(0, 3).reserve(15, 2), Refusal::DesksBad),
        (desks().reserve(7, 2).ceiling(7, 1), Refusal::DesksBad),
        (desks().reserve(0, 6), Refusal::ShapeBad),
    ] {
        assert_eq!(made(4, desks.clone(), 2).err(), Some(refusal), "{desks:?}");
    }
}

/// A book of two desks, with a page of each, one that is freed, and none past the mark.
fn used() -> Owned {
    let mut book = made(3, Desks::new(vec![2, 5, 2]), 3).unwrap();
    for key in 0..3 {
        book.load(key, &numbers(300)).unwrap();
    }
    book.drop_key(2).unwrap();
    assert_eq!(book.check(), Ok(0));
    book
}

#[test]
fn false_counts_are_told_by_their_ground() {
    let (body, heads, good, desks) = used().into_parts_with();
    for (changes, why) in [
        (&[(HELD + 1, 1)][..], StartError::CountsExceed),
        (&[(COUNTS, 0)], StartError::FreedUntrue),
        (&[(HELD + 2, 0)], StartError::HeldUntrue { desk: 2 }),
        (&[(HELD + 2, 0), (HELD + 6, 1)], StartError::HeldUntrue { desk: 2 }),
        (&[(CEILING + 5, 0)], StartError::PastCeiling { desk: 5 }),
        (&[(CEILING + 9, 0), (RESERVE + 9, 1)], StartError::ReserveHigh { desk: 9 }),
        (&[(RESERVE + 9, 2)], StartError::ReservesLack),
        (&[(COUNTS, 5)], StartError::Refused(Refusal::ShapeBad)),
    ] {
        let mut state = good;
        changes.iter().for_each(|&(word, to)| state.0[word] = to);
        let error = Book::open_with(body.clone(), heads.clone(), state, desks.clone()).unwrap_err();
        assert_eq!(error.why, why, "{changes:?}");
        assert_eq!((error.state, &error.desks), (state, &desks), "what was handed over comes back");
    }
    for list in [vec![2, 5], vec![2, 5, 16], vec![2, 5, 2, 0]] {
        let error = Book::open_with(body.clone(), heads.clone(), good, list).unwrap_err();
        assert_eq!(error.why, StartError::Refused(Refusal::DesksBad));
    }
    let error = Book::open(body.clone(), heads.clone(), good).unwrap_err();
    assert_eq!(error.why, StartError::HeldUntrue { desk: 0 }, "without the list");
    let mut again = Book::open_with(body, heads, good, desks).unwrap();
    assert_eq!((again.drop_key(0), again.state().freed_pages(), again.check()), (Ok(300), 2, Ok(0)));
}

#[test]
fn growing_desks() {
    let mut book = used();
    book.grow(5 * PAGE_BYTES, 4).unwrap();
    assert_eq!((book.desks(), book.check()), (&[2, 5, 2, 0][..], Ok(0)));
    assert_eq!(book.grow_with(5 * PAGE_BYTES, &[16]), Err(Refusal::DesksBad));
    assert_eq!(book.grow_with(4 * PAGE_BYTES, &[1]), Err(Refusal::ShapeBad));
    book.grow_with(6 * PAGE_BYTES, &[7]).unwrap();
    book.load(4, &numbers(300)).unwrap();
    assert_eq!((book.desks(), book.state().held_pages(7), book.check()), (&[2, 5, 2, 0, 7][..], 1, Ok(0)));
    let mut plain = Book::fresh(vec![0; 2 * PAGE_BYTES], vec![0; 2]).unwrap();
    plain.grow(3 * PAGE_BYTES, 3).unwrap();
    assert!(plain.desks().is_empty());
    plain.grow_with(3 * PAGE_BYTES, &[4]).unwrap();
    assert_eq!((plain.desks(), plain.check()), (&[0, 0, 0, 4][..], Ok(0)));
}

/// A list that doesn't fit the head words is refused by what it is asked for.
#[test]
fn lists_from_elsewhere() {
    let (body, heads, state, _) = used().into_parts_with();
    let mut book = Book::from_parts_with(body, heads, state, vec![2, 200]);
    assert_eq!(book.read(1).unwrap(), numbers(300), "a read needs no desk");
    assert_eq!((book.append(1, 301), book.append(2, 1)), (Err(Refusal::DesksBad), Err(Refusal::DesksBad)));
    assert_eq!((book.drop_key(1), book.load(2, &[1])), (Err(Refusal::DesksBad), Err(Refusal::DesksBad)));
    assert_eq!(book.append(3, 1), Err(Refusal::KeyBeyond));
    assert_eq!(book.grow(6 * PAGE_BYTES, 4), Err(Refusal::DesksBad));
    assert!(book.append(0, 301).is_ok());
}
