//! Books that grow: what was refused for lack of room is accepted afterwards, and everything else is as it was.
use ouriscado::limits::*;
use ouriscado::{Book, Refusal, State};

type Owned = Book<Vec<u8>, Vec<u64>>;

/// The numbers from 1 to n.
fn numbers(n: u64) -> Vec<u64> {
    (1..=n).collect()
}

/// The lists of all accounts.
fn lists(book: &Owned) -> Vec<Vec<u64>> {
    book.lists().map(|(key, list)| list.unwrap_or_else(|why| panic!("account {key}: {why}"))).collect()
}

/// A body of three pages in which every block is taken, with slabs, a chain of pages, and freed blocks of some classes.
fn full() -> Owned {
    let mut book = Book::fresh(vec![0x5a; 3 * PAGE_BYTES], vec![0; 5]).unwrap();
    book.load(0, &numbers(40)).unwrap();
    book.load(1, &numbers(90)).unwrap();
    book.drop_key(0).unwrap();
    (1..=300).for_each(|n| assert!(book.append(2, 7 * n).is_ok()));
    book.append(3, 1 << 40).unwrap();
    assert_eq!(book.append(2, 1 << 60).map(|to| to.rewritten), Ok(0));
    book
}

#[test]
fn a_call_refused_for_room_is_accepted() {
    let mut book = full();
    let before = lists(&book);
    let day = numbers(9_000);
    assert_eq!(book.load(4, &day), Err(Refusal::NoRoom));
    assert_eq!(book.grow(8 * PAGE_BYTES, 5), Ok(()));
    assert_eq!((lists(&book), book.check()), (before.clone(), Ok(0)));
    assert_eq!(book.load(4, &day), Ok(3));
    assert_eq!((&lists(&book)[..4], book.read(4), book.check()), (&before[..4], Ok(day), Ok(0)));
}

/// Appends until there is no room, grows by a page, and so on: each record is kept, and the number that was refused is the next one.
#[test]
fn page_by_page() {
    let mut book = Book::fresh(vec![0xff; 2 * PAGE_BYTES], vec![0; 3]).unwrap();
    let mut plain = vec![Vec::new(); 3];
    let mut grown = 0;
    for n in 1..=20_000 {
        let key = n % 3;
        if book.append(key, n) == Err(Refusal::NoRoom) {
            let before = lists(&book);
            book.grow(book.body().len() + PAGE_BYTES, 3).unwrap();
            assert_eq!((lists(&book), book.check()), (before, Ok(0)));
            assert!(book.append(key, n).is_ok(), "{n} after growing");
            grown += 1;
        }
        plain[key as usize].push(n);
    }
    assert_eq!((lists(&book), book.check()), (plain, Ok(0)));
    assert!(grown >= 5, "grown {grown} times only");
}

#[test]
fn more_accounts() {
    let mut book = full();
    let (before, state) = (lists(&book), *book.state());
    assert_eq!(book.append(7, 5), Err(Refusal::KeyBeyond));
    assert_eq!(book.grow(3 * PAGE_BYTES, 8), Ok(()));
    assert_eq!((*book.state(), &lists(&book)[..5], &lists(&book)[5..]), (state, &before[..], &[vec![], vec![], vec![]][..]));
    book.append(7, 5).unwrap();
    assert_eq!((book.read(7), book.check()), (Ok(vec![5]), Ok(0)));
}

#[test]
fn what_is_added_is_zero_and_the_rest_stays() {
    let (mut book, before) = (full(), full());
    assert_eq!(book.grow(5 * PAGE_BYTES, 6), Ok(()));
    let old = before.body().len();
    assert_eq!((&book.body()[..old], &book.body()[old..]), (before.body(), &[0; 2 * PAGE_BYTES][..]));
    assert_eq!((&book.heads()[..5], book.heads()[5], book.state()), (before.heads(), 0, before.state()));
}

#[test]
fn up_to_the_limits() {
    let mut book = full();
    let before = book.clone();
    let (bytes, heads) = (3 * PAGE_BYTES, 5);
    for (new_bytes, new_heads) in [
        (bytes + 1, heads),
        (bytes + 16, heads),
        (bytes - PAGE_BYTES, heads),
        (bytes, heads - 1),
        (0, heads),
        (bytes, 0),
        (MOST_BODY_BYTES + PAGE_BYTES, heads),
        (usize::MAX / PAGE_BYTES * PAGE_BYTES, heads),
        (bytes, MOST_HEADS + 1),
        (bytes, usize::MAX),
    ] {
        assert_eq!(book.grow(new_bytes, new_heads), Err(Refusal::ShapeBad), "{new_bytes} {new_heads}");
        assert!(book == before, "a refused growth has changed something");
    }
    assert_eq!(Refusal::ShapeBad.number(), 1);
    assert_eq!(book.grow(bytes, heads), Ok(()));
    assert!(book == before, "nothing was asked for");
    // The longest body that this test has memory for; tests/large.rs has the largest.
    let long = 1 << 24;
    assert_eq!(book.grow(long, MOST_HEADS), Ok(()));
    assert_eq!((book.body().len(), book.heads().len(), &lists(&book)[..5]), (long, MOST_HEADS, &lists(&before)[..]));
}

/// Growing mends no book: one that is out of shape stays so.
#[test]
fn a_book_out_of_shape() {
    let (body, heads, state) = full().into_parts();
    let mark = State::without_desks(4_100, [0; 9], 0, 0);
    let short = body[..5_000].to_vec();
    for mut book in [Book::from_parts(body, heads.clone(), mark), Book::from_parts(short, heads, state)] {
        assert_eq!(book.grow(8 * PAGE_BYTES, 5), Err(Refusal::ShapeBad));
    }
}
