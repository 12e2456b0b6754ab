//! Bodies of up to 2^41 bytes, in ranges of addresses behind which memory stands only where it is touched. Where the machine refuses such a
//! range, the tests have nothing to try and say so.
use ouriscado::limits::*;
use ouriscado::{Book, Place, Refusal, State};
use std::ffi::c_void;

extern "C" {
    fn mmap(at: *mut c_void, len: usize, access: i32, flags: i32, file: i32, off: i64) -> *mut c_void;
    fn munmap(at: *mut c_void, len: usize) -> i32;
}

/// Memory that may be read and written, private, of no file, and not set aside before it is touched.
const READ_WRITE: i32 = 3;
const SPARSE: i32 = 0x02 | 0x20 | 0x4000;

/// Bytes that are 0 until they are written.
struct Sparse {
    at: *mut u8,
    len: usize,
}

impl Sparse {
    fn new(len: usize) -> Option<Sparse> {
        let at = unsafe { mmap(std::ptr::null_mut(), len, READ_WRITE, SPARSE, -1, 0) };
        if at as isize == -1 {
            println!("this machine refuses a range of {len} bytes");
            return None;
        }
        Some(Sparse { at: at.cast(), len })
    }
}

impl Drop for Sparse {
    fn drop(&mut self) {
        unsafe { munmap(self.at.cast(), self.len) };
    }
}

impl AsRef<[u8]> for Sparse {
    fn as_ref(&self) -> &[u8] {
        unsafe { std::slice::from_raw_parts(self.at, self.len) }
    }
}

impl AsMut<[u8]> for Sparse {
    fn as_mut(&mut self) -> &mut [u8] {
        unsafe { std::slice::from_raw_parts_mut(self.at, self.len) }
    }
}

/// The largest book with a mark and nothing freed.
fn largest(mark: u64) -> Option<Book<Sparse, Vec<u64>>> {
    let state = State::without_desks(mark, [0; 9], 0, 0);
    Sparse::new(MOST_BODY_BYTES).map(|body| Book::from_parts(body, vec![0; 8], state))
}

/// The numbers from 1 to n.
fn numbers(n: u64) -> Vec<u64> {
    (1..=n).collect()
}

#[test]
fn the_largest_body() {
    assert_eq!((MOST_BODY_BYTES, SLABS_END), (1 << 41, 1 << 40));
    let makes = |bytes| Sparse::new(bytes).map(|body| Book::fresh(body, vec![0; MOST_HEADS]).map(|book| book.state().mark()));
    for (bytes, wanted) in [
        (1 << 30, Ok(4096)),
        ((1 << 30) + PAGE_BYTES, Ok(4096)),
        (MOST_BODY_BYTES, Ok(4096)),
        (MOST_BODY_BYTES + PAGE_BYTES, Err(Refusal::ShapeBad)),
        (2 * MOST_BODY_BYTES, Err(Refusal::ShapeBad)),
    ] {
        assert!(makes(bytes).is_none_or(|made| made == wanted), "{bytes}");
    }
}

/// A slab ends at the end of slabs and not past it, a page anywhere up to the body's end.
#[test]
fn the_end_of_slabs() {
    let Some(mut book) = largest(SLABS_END - 16) else {
        return;
    };
    assert_eq!(book.load(0, &numbers(4)), Err(Refusal::NoRoom)); // 32 bytes, with a spare slot
    assert_eq!(book.load_tight(0, &numbers(4)), Ok(0));
    assert_eq!(book.place(0), Ok(Place::Slab { class: 0, used: 4, offset: SLABS_END - 16 }));
    assert_eq!((book.load(1, &[1, 2]), book.append(0, 5)), (Err(Refusal::NoRoom), Err(Refusal::NoRoom)));
    assert_eq!(book.load(1, &numbers(5000)), Ok(2));
    assert_eq!(book.place(1), Ok(Place::Pages { last: SLABS_END + 4096 }));
    assert_eq!((book.read(0), book.read(1)), (Ok(numbers(4)), Ok(numbers(5000))));
    assert_eq!((book.drop_key(1), book.state().free_heads()[8]), (Ok(5000), SLABS_END + 4096));
}

/// The last pages of the body, and none behind them.
#[test]
fn the_end_of_the_body() {
    let Some(mut book) = largest(MOST_BODY_BYTES as u64 - 8192) else {
        return;
    };
    assert_eq!(book.load(0, &numbers(9000)), Err(Refusal::NoRoom));
    assert_eq!(book.load(0, &numbers(4072)), Ok(1));
    assert_eq!(book.append(0, 4073).map(|a| a.place), Ok(Place::Pages { last: MOST_BODY_BYTES as u64 - 4096 }));
    assert_eq!((book.load(1, &numbers(300)), book.state().mark()), (Err(Refusal::NoRoom), MOST_BODY_BYTES as u64));
    assert_eq!(book.read(0), Ok(numbers(4073)));
}

/// The gap before a page is carved up to the end of slabs, and past it goes on no list.
#[test]
fn gaps() {
    for (mark, freed) in [(SLABS_END - 16, SLABS_END - 16), (SLABS_END + 16, 0)] {
        let Some(mut book) = largest(mark) else {
            return;
        };
        assert_eq!((book.load(0, &numbers(300)), book.state().free_heads()[0]), (Ok(1), freed));
    }
}

/// A slab across the end of slabs is read, appended to and dropped; then it isn't taken, and stops its class.
#[test]
fn a_slab_across_the_end() {
    let (Some(mut body), mut heads) = (Sparse::new(MOST_BODY_BYTES), vec![0; 3]) else {
        return;
    };
    body.as_mut()[SLABS_END as usize - 16..][..5].copy_from_slice(&[3, 0, 1, 1, 1]);
    heads[0] = 1 << 62 | 1 << 56 | 3 << 40 | (SLABS_END - 16);
    let mut book = Book::from_parts(body, heads, State::without_desks(SLABS_END + 16, [0; 9], 0, 0));
    assert_eq!((book.read(0), book.append(0, 4).map(|a| a.rewritten)), (Ok(numbers(3)), Ok(0)));
    assert_eq!((book.drop_key(0), book.load(1, &numbers(4))), (Ok(4), Err(Refusal::FreeHeadBad)));
    assert_eq!(book.load(1, &numbers(300)), Ok(1));
}

/// A total of 2^32 - 1 is unknown after an append, in its page and on the next, and so the list reads again.
#[test]
fn the_largest_total() {
    for (count, pages) in [(300u64, 1), (4072, 2)] {
        for (total, then) in [(u32::MAX - 1, u32::MAX), (u32::MAX, 0), (0, 0)] {
            let mut book = Book::fresh(vec![0; 4 * PAGE_BYTES], vec![0; 1]).unwrap();
            assert_eq!(book.load(0, &numbers(count)), Ok(1));
            let (mut body, heads, state) = book.into_parts();
            body[4116..4120].copy_from_slice(&total.to_le_bytes());
            let mut book = Book::from_parts(body, heads, state);
            assert_eq!(book.read(0).is_ok(), total == 0);
            let last = 4096 * pages;
            assert_eq!(book.append(0, count + 1).map(|a| a.place), Ok(Place::Pages { last }));
            let stored = &book.body()[last as usize + 20..][..4];
            assert_eq!(stored, then.to_le_bytes());
            assert_eq!(book.read(0).is_ok(), then == 0);
        }
    }
}
