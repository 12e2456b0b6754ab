//! Runs out of freed pages: which pages a load gets, what is left of the freed ones, and lists of them that can't be searched.
use ouriscado::limits::*;
use ouriscado::{Book, Place, Refusal, State};

type Owned = Book<Vec<u8>, Vec<u64>>;

const PAGE: u64 = PAGE_BYTES as u64;

/// The numbers from 1 on for so many pages.
fn for_pages(pages: u64) -> Vec<u64> {
    (1..=4000 * pages).collect()
}

/// A book whose keys have the pages 1, 2 and 3, then 4, then 5 and 6, then 7, with no page behind them; there are eight keys.
fn full() -> Owned {
    let mut book = Book::fresh(vec![0xcc; 8 * PAGE_BYTES], vec![0; 8]).unwrap();
    for (key, pages) in [(0, 3), (1, 1), (2, 2), (3, 1)] {
        assert_eq!(book.load(key, &for_pages(pages)), Ok(pages));
    }
    assert_eq!(book.load(4, &for_pages(1)), Err(Refusal::NoRoom));
    book
}

/// The last page of a key.
fn last_page(book: &Owned, key: u64) -> u64 {
    match book.place(key) {
        Ok(Place::Pages { last }) => last / PAGE,
        place => panic!("{place:?}"),
    }
}

/// The freed pages, from the top of their list.
fn freed(book: &Owned) -> Vec<u64> {
    let mut at = book.state().free_heads()[PAGE_CLASS as usize];
    let mut out = Vec::new();
    while at != 0 {
        out.push(at / PAGE);
        at = u64::from_le_bytes(book.body()[at as usize..][..8].try_into().unwrap());
    }
    out
}

#[test]
fn the_lowest_stretch_is_taken() {
    let mut book = full();
    book.drop_key(2).unwrap();
    book.drop_key(0).unwrap();
    assert_eq!(freed(&book), [3, 2, 1, 6, 5]);
    assert_eq!(book.load(4, &for_pages(4)), Err(Refusal::NoRoom), "no four are side by side");
    assert_eq!((book.load(4, &for_pages(2)), last_page(&book, 4)), (Ok(2), 2));
    assert_eq!((freed(&book), book.state().freed_pages(), book.state().mark()), (vec![3, 6, 5], 3, 8 * PAGE));
    assert_eq!((book.load_tight(5, &for_pages(1)), last_page(&book, 5)), (Ok(1), 3));
    assert_eq!((book.load_tight(6, &for_pages(2)), last_page(&book, 6), freed(&book)), (Ok(2), 6, vec![]));
    for (key, pages) in [(1, 1), (3, 1), (4, 2), (5, 1), (6, 2)] {
        assert_eq!(book.read(key), Ok(for_pages(pages)));
    }
    assert_eq!(book.check(), Ok(0));
}

#[test]
fn an_appends_page_is_the_top_of_the_list() {
    let mut book = full();
    book.drop_key(1).unwrap();
    book.drop_key(3).unwrap();
    assert_eq!((book.load(1, &(1..=256).collect::<Vec<u64>>()), freed(&book)), (Err(Refusal::NoRoom), vec![7, 4]));
    let full_page: Vec<u64> = (1..=4072).collect();
    assert_eq!((book.load(1, &full_page), last_page(&book, 1)), (Ok(1), 4));
    assert!(book.append(1, 4073).is_ok());
    assert_eq!((last_page(&book, 1), freed(&book)), (7, vec![]));
}

/// A book with three freed pages 3, 2, 1, after somebody changed its parts.
fn changed(change: impl Fn(&mut Vec<u8>, &mut State)) -> Owned {
    let mut book = full();
    book.drop_key(0).unwrap();
    let (mut body, heads, mut state) = book.into_parts();
    change(&mut body, &mut state);
    Book::from_parts(body, heads, state)
}

/// The word of a state that counts freed pages.
const FREED: usize = 1 + FREE_HEADS;

#[test]
fn a_list_that_strays_is_turned_back() {
    let link =
        |page: usize, to: u64| move |body: &mut Vec<u8>, _: &mut State| body[page * PAGE_BYTES..][..8].copy_from_slice(&to.to_le_bytes());
    let counts = [0, 1, 2, 4, 8].map(|count| changed(|_, state| state.0[FREED] = count));
    let heads = [0, 8, 3 * PAGE + 16, 8 * PAGE, u64::MAX].map(|head| changed(|_, state| state.0[FREE_HEADS] = head));
    let links = [8, 2048, 8 * PAGE, 2 * PAGE, 3 * PAGE, 4 * PAGE, u64::MAX].map(|to| changed(link(2, to)));
    let loops = [9, 1 << 40, u64::MAX].map(|count| {
        changed(|body, state| {
            link(1, 3 * PAGE)(body, state);
            state.0[FREED] = count;
        })
    });
    for mut book in counts.into_iter().chain(heads).chain(links).chain(loops) {
        let before = book.clone();
        assert_eq!(book.load(4, &for_pages(1)), Err(Refusal::FreeListBad));
        assert_eq!(book.load_tight(4, &for_pages(9)), Err(Refusal::FreeListBad), "before there is no room");
        assert!(book == before && book.check().is_err());
        assert_eq!((book.read(2), book.append(4, 5).is_ok()), (Ok(for_pages(2)), true), "other calls go on");
    }
    let mut good = changed(|_, _| {});
    assert_eq!((good.load(4, &for_pages(3)), last_page(&good, 4), good.check()), (Ok(3), 3, Ok(0)));
}
