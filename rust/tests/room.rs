//! How much room a read takes: never more than a little before the account was judged, whatever its fields say.
use ouriscado::limits::PAGE_BYTES;
use ouriscado::{Book, Place, Refusal};
use std::alloc::{GlobalAlloc, Layout, System};
use std::sync::atomic::{AtomicUsize, Ordering};

/// The system's memory, with the largest piece that was asked for.
struct Watched;

static LARGEST: AtomicUsize = AtomicUsize::new(0);

unsafe impl GlobalAlloc for Watched {
    unsafe fn alloc(&self, layout: Layout) -> *mut u8 {
        LARGEST.fetch_max(layout.size(), Ordering::SeqCst);
        System.alloc(layout)
    }

    unsafe fn alloc_zeroed(&self, layout: Layout) -> *mut u8 {
        LARGEST.fetch_max(layout.size(), Ordering::SeqCst);
        System.alloc_zeroed(layout)
    }

    unsafe fn realloc(&self, at: *mut u8, layout: Layout, size: usize) -> *mut u8 {
        LARGEST.fetch_max(size, Ordering::SeqCst);
        System.realloc(at, layout, size)
    }

    unsafe fn dealloc(&self, at: *mut u8, layout: Layout) {
        System.dealloc(at, layout);
    }
}

#[global_allocator]
static MEMORY: Watched = Watched;

type Owned = Book<Vec<u8>, Vec<u64>>;

/// An account's list, and the largest piece of memory that was asked for meanwhile.
fn read(book: &Owned, key: u64) -> (Result<Vec<u64>, Refusal>, usize) {
    LARGEST.store(0, Ordering::SeqCst);
    let list = book.read(key);
    (list, LARGEST.load(Ordering::SeqCst))
}

/// The book with another total in the last page of account 0.
fn with_total(book: &Owned, total: u32) -> Owned {
    let (mut body, heads, state) = book.clone().into_parts();
    let Ok(Place::Pages { last }) = book.place(0) else { panic!("account 0 is in pages") };
    body[last as usize + 20..][..4].copy_from_slice(&total.to_le_bytes());
    Book::from_parts(body, heads, state)
}

/// One test, since the largest piece is counted for the whole program.
#[test]
fn a_read_trusts_no_field() {
    let mut book = Book::fresh(vec![0; 16_384 * PAGE_BYTES], vec![0; 1]).unwrap(); // 64 MiB
    let long: Vec<u64> = (1..=200_000).collect();
    book.load(0, &long[..60_000]).unwrap();
    long[60_000..].iter().for_each(|&number| assert!(book.append(0, number).is_ok()));

    for lie in [1, 199_999, 200_001, 1 << 26, u32::MAX] {
        let (list, largest) = read(&with_total(&book, lie), 0);
        assert_eq!(list, Err(Refusal::KeyUnsound), "{lie}");
        assert!(largest <= 1 << 20, "{largest} bytes for an account that says {lie}");
    }
    let (list, largest) = read(&book, 0);
    assert_eq!((list.as_ref(), largest), (Ok(&long), 8 * long.len()), "a sound account's list is made in one piece");
    let (list, largest) = read(&with_total(&book, 0), 0); // never counted
    assert_eq!((list.as_ref(), largest), (Ok(&long), 8 * long.len()), "so is one that was never counted");
}
