//! The book through the safe calls: the run case of docs/FORMAT.md, each limit tried at and beyond it, each refusal, and damaged books.
use ouriscado::limits::*;
use ouriscado::{Appended, Book, Listed, Place, Refusal, State};

/// A fresh book with a body of so many pages and so many accounts.
fn book(pages: usize, keys: usize) -> Book<Vec<u8>, Vec<u64>> {
    Book::fresh(vec![0xff; pages * PAGE_BYTES], vec![u64::MAX; keys]).unwrap()
}

/// A copy of a book in which something is damaged.
fn damaged(sound: &Book<Vec<u8>, Vec<u64>>, what: impl Fn(&mut [u8], &mut [u64], &mut State)) -> Book<Vec<u8>, Vec<u64>> {
    let (mut body, mut heads, mut state) = sound.clone().into_parts();
    what(&mut body, &mut heads, &mut state);
    Book::from_parts(body, heads, state)
}

/// The numbers from 1 to n.
fn numbers(n: u64) -> Vec<u64> {
    (1..=n).collect()
}

#[test]
fn run_case() {
    let mut book = book(16, 2);
    let slab = |class, used, offset, rewritten| Ok(Appended { place: Place::Slab { class, used, offset }, rewritten });
    assert_eq!(book.append(0, 5), Ok(Appended { place: Place::Inline(5), rewritten: 0 }));
    assert_eq!(book.append(0, 300), slab(0, 2, 4096, 1));
    assert_eq!(book.append(0, 301), slab(0, 3, 4096, 0));
    assert_eq!(book.append(0, 302), slab(0, 4, 4096, 0));
    assert_eq!(book.append(0, 303), slab(1, 5, 4112, 4));
    assert_eq!(book.append(1, 9), Ok(Appended { place: Place::Inline(9), rewritten: 0 }));
    assert_eq!(book.append(1, 10), slab(0, 2, 4096, 1));
    assert_eq!(book.read(0).unwrap(), [5, 300, 301, 302, 303]);
    assert_eq!(book.read(1).unwrap(), [9, 10]);
    assert_eq!((book.drop_key(0), book.drop_key(0), book.read(0)), (Ok(5), Ok(0), Ok(vec![])));
    assert_eq!(book.state().mark(), 4144);
    assert_eq!(book.state().free_heads(), [0, 4112, 0, 0, 0, 0, 0, 0, 0]);
}

#[test]
fn chains() {
    let mut book = book(64, 2);
    assert_eq!(book.load(0, &numbers(10_000)), Ok(3));
    for n in 10_001..=20_000 {
        assert!(matches!(book.append(0, n), Ok(Appended { place: Place::Pages { .. }, rewritten: 0 })));
    }
    let mut list = vec![7; 20_001];
    assert_eq!(book.read_into(0, &mut list), Ok(Listed { length: 20_000, pages: 5, padded: 0 }));
    assert_eq!((&list[..20_000], list[20_000]), (&numbers(20_000)[..], 7));
    assert_eq!(book.read(0), Ok(numbers(20_000)));
    assert_eq!(book.drop_key(0), Ok(20_000));
    assert_ne!(book.state().free_heads()[usize::from(PAGE_CLASS)], 0);
}

#[test]
fn limits_of_the_shape() {
    let makes = |bytes: usize, heads: usize| Book::fresh(vec![0; bytes], vec![0; heads]).map(|_| ());
    assert_eq!(makes(LEAST_BODY_BYTES, 1), Ok(()));
    assert_eq!(makes(LEAST_BODY_BYTES, MOST_HEADS), Ok(()));
    for (bytes, heads) in [
        (LEAST_BODY_BYTES - PAGE_BYTES, 1),
        (LEAST_BODY_BYTES + PAGE_BYTES - 1, 1),
        (LEAST_BODY_BYTES, 0),
        (LEAST_BODY_BYTES, MOST_HEADS + 1),
    ] {
        assert_eq!(makes(bytes, heads), Err(Refusal::ShapeBad), "{bytes} {heads}");
    }
}

#[test]
fn limits_of_lists() {
    let mut book = book(64, 4);
    assert_eq!(book.load(0, &numbers(MOST_LOADED as u64 + 1)), Err(Refusal::TooManyOffered));
    assert_eq!(book.load(0, &numbers(MOST_LOADED as u64)), Ok(17));
    assert_eq!(book.append(1, MOST_NUMBER + 1), Err(Refusal::OfferedTooLarge));
    assert_eq!(book.append(1, MOST_NUMBER).map(|a| a.place), Ok(Place::Inline(MOST_NUMBER)));
    let most = MOST_IN_SLAB as u64;
    book.load(2, &numbers(most)).unwrap();
    assert!(matches!(book.place(2), Ok(Place::Slab { used: 256, .. })));
    assert!(matches!(book.append(2, most + 1), Ok(Appended { place: Place::Pages { .. }, rewritten: 256 })));
    assert_eq!(book.load(3, &numbers(2 * MOST_IN_PAGE as u64)), Ok(3));
    let (body, _, _) = book.into_parts();
    assert!(body.chunks(PAGE_BYTES).any(|page| page[..3] == [1, 0xf8, 0x0f]), "no page with {MOST_IN_PAGE} numbers");
}

/// A loaded list of 14 numbers of a byte each takes one more where it is, and one that was loaded tight moves.
#[test]
fn a_loaded_list_has_a_spare_slot() {
    let mut book = book(2, 2);
    assert_eq!((book.load(0, &numbers(14)), book.load_tight(1, &numbers(14))), (Ok(0), Ok(0)));
    assert_eq!(book.place(0), Ok(Place::Slab { class: 2, used: 14, offset: 4096 }));
    assert_eq!(book.place(1), Ok(Place::Slab { class: 0, used: 14, offset: 4160 }));
    assert_eq!(book.append(0, 15), Ok(Appended { place: Place::Slab { class: 2, used: 15, offset: 4096 }, rewritten: 0 }));
    assert_eq!(book.append(1, 15), Ok(Appended { place: Place::Slab { class: 2, used: 15, offset: 4176 }, rewritten: 14 }));
    assert_eq!((book.read(0), book.read(1)), (Ok(numbers(15)), Ok(numbers(15))));
}

/// At the most numbers of a slab there is no slot more, and one number or pages are the same by both loads.
#[test]
fn both_loads_at_the_limits() {
    for (count, pages) in [(0, 0), (1, 0), (256, 0), (257, 1), (4_073, 2)] {
        let (mut spare, mut tight) = (book(4, 1), book(4, 1));
        assert_eq!((spare.load(0, &numbers(count)), tight.load_tight(0, &numbers(count))), (Ok(pages), Ok(pages)), "{count}");
        assert_eq!((spare.read(0), tight.read(0)), (Ok(numbers(count)), Ok(numbers(count))), "{count}");
        match (spare.place(0).unwrap(), tight.place(0).unwrap()) {
            (Place::Slab { class: of_spare, .. }, Place::Slab { class: of_tight, .. }) => {
                assert_eq!((of_spare, of_tight), (6, 5), "{count}")
            }
            _ => assert!(spare == tight, "{count}"),
        }
    }
}

#[test]
fn refused_loads_and_appends() {
    let mut book = book(2, 2);
    book.append(0, 9).unwrap();
    let before = book.clone();
    for load in [Book::load, Book::load_tight] {
        assert_eq!(load(&mut book, 2, &[1]), Err(Refusal::KeyBeyond));
        assert_eq!(load(&mut book, 0, &[]), Err(Refusal::KeyInUse));
        assert_eq!(load(&mut book, 1, &[0]), Err(Refusal::OfferedFirstZero));
        assert_eq!(load(&mut book, 1, &[5, 1 << 63]), Err(Refusal::OfferedBit63));
        assert_eq!(load(&mut book, 1, &[5, 1 << 62]), Err(Refusal::OfferedTooLarge));
        assert_eq!(load(&mut book, 1, &[5, 5]), Err(Refusal::OfferedNotRising));
        assert_eq!(load(&mut book, 1, &numbers(MOST_LOADED as u64 + 1)), Err(Refusal::TooManyOffered));
        assert_eq!(load(&mut book, 1, &numbers(5_000)), Err(Refusal::NoRoom));
    }
    assert_eq!(book.append(2, 1), Err(Refusal::KeyBeyond));
    assert_eq!(book.append(0, 0), Err(Refusal::OfferedFirstZero));
    assert_eq!(book.append(0, 1 << 63), Err(Refusal::OfferedBit63));
    assert_eq!(book.append(0, 9), Err(Refusal::OfferedNotRising));
    assert_eq!(
        (book.drop_key(2), book.read(2), book.length(2), book.place(2)),
        (Err(Refusal::KeyBeyond), Err(Refusal::KeyBeyond), Err(Refusal::KeyBeyond), Err(Refusal::KeyBeyond))
    );
    assert!(book == before, "a refused call has changed something");
}

#[test]
fn a_short_list_is_refused() {
    let mut book = book(8, 1);
    for n in 1..=600 {
        book.append(0, n).unwrap();
        let mut list = vec![77; n as usize - 1];
        assert_eq!(book.read_into(0, &mut list), Err(Refusal::ListTooShort), "{n}");
        assert!(list.iter().all(|&x| x == 77), "a refused read has written");
        assert_eq!((book.read(0), book.length(0)), (Ok(numbers(n)), Ok(n as usize)));
    }
}

#[test]
fn damaged_books() {
    let mut sound = book(8, 3);
    sound.load(0, &[5, 300, 301]).unwrap();
    sound.load(1, &numbers(5_000)).unwrap();
    sound.load(2, &[7, 8]).unwrap();
    sound.drop_key(2).unwrap();
    let slab = damaged(&sound, |body, _, _| body[4096] = 0); // the slab's count
    assert_eq!((slab.read(0), slab.read(1).map(|l| l.len())), (Err(Refusal::KeyUnsound), Ok(5_000)));
    assert_eq!((slab.length(0), slab.length(1)), (Err(Refusal::KeyUnsound), Ok(5_000)));
    let page = damaged(&sound, |body, _, _| body[8193..8195].fill(0)); // a page's count
    assert_eq!((page.read(1), page.clone().drop_key(1)), (Err(Refusal::KeyUnsound), Err(Refusal::KeyUnsound)));
    let word = damaged(&sound, |_, heads, _| heads[0] = 2 << 62);
    assert_eq!((word.read(0), word.place(0)), (Err(Refusal::KeyUnsound), Err(Refusal::ModeTwo)));
    let creates = damaged(&sound, |body, heads, _| body[(heads[1] & 0xffff_ffff) as usize + 23] = 0xff); // of the last page
    assert_eq!(creates.read(1), Err(Refusal::KeyUnsound));
    let mut free = damaged(&sound, |_, _, state| state.0[1] = 8);
    assert_eq!(free.load(2, &[7, 8]), Err(Refusal::FreeHeadBad));
    let mark = damaged(&sound, |_, _, state| state.0[0] = 100);
    assert_eq!(mark.read(0), Err(Refusal::ShapeBad));
}

#[test]
fn totals_that_were_never_counted() {
    let mut sound = book(8, 1);
    sound.load(0, &numbers(5_000)).unwrap();
    let creates = |book: &Book<Vec<u8>, Vec<u64>>| book.heads()[0] as u32 as usize + 20; // of the last page
    let at = creates(&sound);
    let mut unknown = damaged(&sound, |body, _, _| body[at..at + 4].fill(0));
    assert_eq!(unknown.read(0), Ok(numbers(5_000)));
    unknown.append(0, 5_001).unwrap();
    let at = creates(&unknown);
    assert_eq!((unknown.read(0), &unknown.body()[at..at + 4]), (Ok(numbers(5_001)), &[0; 4][..]));
    assert_eq!((unknown.drop_key(0), unknown.read(0)), (Ok(5_001), Ok(vec![])));
}

#[test]
fn lists_of_all_accounts() {
    let mut sound = book(8, 4);
    sound.load(0, &[5, 300, 301]).unwrap();
    sound.load(2, &numbers(5_000)).unwrap();
    sound.append(3, 9).unwrap();
    let slab = damaged(&sound, |body, _, _| body[4096] = 0); // the slab's count
    assert_eq!(slab.lists().len(), 4);
    let told: Vec<_> = slab.lists().collect();
    let wanted = [(0, Err(Refusal::KeyUnsound)), (1, Ok(vec![])), (2, Ok(numbers(5_000))), (3, Ok(vec![9]))];
    assert_eq!(told, wanted, "an account that isn't sound is told as such, and those behind it are read");
    let shapeless = damaged(&sound, |_, _, state| state.0[0] = 100);
    assert!(shapeless.lists().all(|(_, list)| list == Err(Refusal::ShapeBad)));
}

#[test]
fn places_in_words() {
    let mut book = book(8, 4);
    book.append(1, 5).unwrap();
    book.load(2, &[9, 10]).unwrap();
    book.load(3, &numbers(300)).unwrap();
    let words: Vec<String> = book.places().map(|place| place.unwrap().to_string()).collect();
    assert_eq!(words, ["empty", "inline 5", "slab class 0, used 2, offset 4096", "pages, the last at offset 8192"]);
}

#[test]
fn owned_or_borrowed() {
    let mut array = Book::fresh([0; 8192], [0; 1]).unwrap();
    array.append(0, 1).unwrap();
    let (mut body, mut heads) = (vec![0; 8192].into_boxed_slice(), [0; 2]);
    let mut lent = Book::fresh(&mut body, &mut heads).unwrap();
    lent.load(1, &[3, 4]).unwrap();
    let state = *lent.state();
    let shared = Book::from_parts(&body, &heads, state);
    assert_eq!((shared.read(1), shared.read(0)), (Ok(vec![3, 4]), Ok(vec![])));
    assert_eq!(shared.places().len(), 2);
}

#[test]
fn threads() {
    let mut shared = book(64, 2);
    shared.load(1, &numbers(10_000)).unwrap();
    std::thread::scope(|scope| {
        for _ in 0..4 {
            scope.spawn(|| assert_eq!(shared.read(1), Ok(numbers(10_000)))); // several reads of one book
            scope.spawn(|| {
                let mut own = book(4, 1);
                (1..=2_000).for_each(|n| assert!(own.append(0, n).is_ok())); // other books meanwhile
                assert_eq!(own.read(0), Ok(numbers(2_000)));
            });
        }
    });
}

#[test]
fn refusals_know_their_numbers() {
    for refusal in Refusal::ALL {
        assert_eq!(Refusal::of_number(refusal.number()), Some(*refusal));
        assert!(refusal.text().starts_with(char::is_lowercase) && !refusal.text().ends_with('.'), "{refusal}");
    }
    assert_eq!(Refusal::of_number(0), None);
    assert_eq!(Refusal::of_number(1_000), Some(Refusal::Unknown(1_000)));
    assert_eq!(Refusal::Unknown(1_000).number(), 1_000);
    assert_eq!(Refusal::UlebOverflow.number(), 18);
}
