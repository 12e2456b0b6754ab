//! The memory that a call of ours is lent: each slice and each number that goes out stands between pages that can't be touched.
use crate::case::Input;
use std::cell::{Cell, RefCell};
use std::ffi::c_void;
use std::ptr::null_mut;

/// The bytes of a page of memory.
pub const PAGE: usize = 4096;

pub const NONE: i32 = 0;
pub const READ: i32 = 1;
pub const READ_WRITE: i32 = 3;
/// Private memory that no file stands behind, and for which none is set aside before it is touched.
const PRIVATE: i32 = 0x02 | 0x20 | 0x4000;
/// Advice that what some pages hold isn't needed any more.
const NOT_NEEDED: i32 = 4;

extern "C" {
    fn mmap(at: *mut c_void, len: usize, access: i32, flags: i32, file: i32, off: i64) -> *mut c_void;
    fn mprotect(at: *mut c_void, len: usize, access: i32) -> i32;
    fn munmap(at: *mut c_void, len: usize) -> i32;
    fn madvise(at: *mut c_void, len: usize, advice: i32) -> i32;
}

/// Pages of memory between two that can't be touched.
pub struct Area {
    start: *mut u8,
    len: usize,
}

impl Area {
    /// An area of at least so many bytes that can't be touched; none where the machine has no such range of addresses.
    pub fn untouchable(len: usize) -> Option<Area> {
        let len = len.next_multiple_of(PAGE);
        let whole = unsafe { mmap(null_mut(), len + 2 * PAGE, NONE, PRIVATE, -1, 0) };
        (whole as isize != -1).then(|| Area { start: unsafe { whole.cast::<u8>().add(PAGE) }, len })
    }

    /// An area of at least so many bytes, with an access.
    pub fn with_access(len: usize, access: i32) -> Area {
        let area = Area::untouchable(len).unwrap_or_else(|| panic!("no memory for {len} bytes"));
        area.allow(0, area.len, access);
        area
    }

    pub fn new(len: usize) -> Area {
        Area::with_access(len, READ_WRITE)
    }

    /// Allows an access to the pages of some bytes.
    pub fn allow(&self, from: usize, len: usize, access: i32) {
        assert!(from.is_multiple_of(PAGE) && from + len <= self.len, "an area has {} bytes", self.len);
        if len > 0 {
            let answer = unsafe { mprotect(self.start.add(from).cast(), len.next_multiple_of(PAGE), access) };
            assert_eq!(answer, 0, "memory can't be protected");
        }
    }

    /// Gives back what stands behind some pages, which can't be touched from then on.
    pub fn give_back(&self, from: usize, len: usize) {
        self.allow(from, len, NONE);
        let answer = unsafe { madvise(self.start.add(from).cast(), len, NOT_NEEDED) };
        assert_eq!(answer, 0, "memory can't be given back");
    }

    /// Where a slice begins that ends with the area, or that begins with it.
    pub fn place<T>(&self, count: usize, placing: Placing) -> *mut T {
        let bytes = count * size_of::<T>();
        assert!(bytes <= self.len, "an area has {} bytes, {bytes} are wanted", self.len);
        match placing {
            Placing::Null if count == 0 => null_mut(),
            Placing::Start => self.start.cast(),
            Placing::End | Placing::Null => unsafe { self.start.add(self.len - bytes).cast() },
        }
    }

    /// The slice of a place.
    #[allow(clippy::mut_from_ref)]
    pub fn slice<T>(&self, count: usize, placing: Placing) -> &mut [T] {
        let at = self.place(count, placing);
        if count == 0 {
            &mut []
        } else {
            unsafe { std::slice::from_raw_parts_mut(at, count) }
        }
    }
}

impl Drop for Area {
    fn drop(&mut self) {
        unsafe { munmap(self.start.sub(PAGE).cast(), self.len + 2 * PAGE) };
    }
}

/// Where slices stand in their areas: flush with the page behind or with the page before; empty ones may be null.
#[derive(Clone, Copy, Debug, PartialEq, Eq)]
pub enum Placing {
    End,
    Start,
    Null,
}

/// What a number that goes out holds before a call, in every byte.
const POISON: u8 = 0xa5;
/// The most bytes that one has, and the most of them in a call.
const OUT: usize = 8;
const OUTS: usize = 5;

/// What a call of ours is lent.
pub struct Lent {
    bytes: Area,
    list: Area,
    ranges: Area,
    outs: [Area; OUTS],
    placing: Cell<Placing>,
    lengths: Cell<[usize; 3]>,
    /// Which of the slices a call asked for: bytes, list, ranges.
    asked: Cell<[bool; 3]>,
    /// The size in bytes of each number that was asked for.
    sizes: RefCell<Vec<usize>>,
    values: RefCell<Vec<u64>>,
}

impl Default for Lent {
    fn default() -> Lent {
        Lent {
            bytes: Area::new(1 << 20),
            list: Area::new(1 << 20),
            ranges: Area::new(1 << 16),
            outs: std::array::from_fn(|_| Area::new(1)),
            placing: Cell::new(Placing::End),
            lengths: Cell::default(),
            asked: Cell::default(),
            sizes: RefCell::default(),
            values: RefCell::default(),
        }
    }
}

impl Lent {
    /// Lends what an input says, in a placing.
    pub fn lend(&self, input: &Input, placing: Placing) {
        self.placing.set(placing);
        self.lengths.set([input.bytes.len(), input.list.len(), input.ranges.len()]);
        self.bytes.slice(input.bytes.len(), placing).copy_from_slice(&input.bytes);
        self.list.slice(input.list.len(), placing).copy_from_slice(&input.list);
        self.ranges.slice(input.ranges.len(), placing).copy_from_slice(&input.ranges);
        self.outs.iter().for_each(|out| out.slice(2 * OUT, Placing::End).fill(POISON));
        self.asked.set([false; 3]);
        self.sizes.borrow_mut().clear();
        self.values.borrow_mut().clear();
    }

    /// The length of one of the slices, which a call asks for.
    fn ask(&self, which: usize) -> usize {
        let mut asked = self.asked.get();
        asked[which] = true;
        self.asked.set(asked);
        self.lengths.get()[which]
    }

    pub fn bytes(&self) -> (*mut u8, usize) {
        let n = self.ask(0);
        (self.bytes.place(n, self.placing.get()), n)
    }

    pub fn list(&self) -> (*mut u64, usize) {
        let n = self.ask(1);
        (self.list.place(n, self.placing.get()), n)
    }

    pub fn ranges(&self) -> (*mut [usize; 2], usize) {
        let n = self.ask(2);
        (self.ranges.place(n, self.placing.get()), n)
    }

    /// Whether a call asked for a slice that is empty.
    pub fn asked_for_none(&self) -> bool {
        self.asked.get().iter().zip(self.lengths.get()).any(|(asked, n)| *asked && n == 0)
    }

    /// The list as nine free heads.
    #[allow(clippy::mut_from_ref)]
    pub fn heads(&self) -> &mut [u64; 9] {
        self.list.slice(self.lengths.get()[1], self.placing.get()).try_into().expect("nine heads")
    }

    /// A number for a call to hand out: the next, in a place of its own that ends with its area.
    #[allow(clippy::mut_from_ref)]
    pub fn out<T>(&self) -> &mut T {
        let mut sizes = self.sizes.borrow_mut();
        sizes.push(size_of::<T>());
        unsafe { &mut *self.outs[sizes.len() - 1].place::<T>(1, Placing::End) }
    }

    /// A flag for a call to hand out. It can't be poisoned: it is set before a call in one placing and not in the other.
    #[allow(clippy::mut_from_ref)]
    pub fn flag(&self) -> &mut bool {
        let byte: &mut u8 = self.out();
        *byte = (self.placing.get() != Placing::Start) as u8;
        unsafe { &mut *(byte as *mut u8).cast() }
    }

    /// A value that a call answers.
    pub fn value(&self, value: u64) {
        self.values.borrow_mut().push(value);
    }

    /// What a call answered and handed out, in this order.
    pub fn told(&self) -> Vec<u64> {
        let mut told = self.values.borrow().clone();
        for (area, size) in self.outs.iter().zip(self.sizes.borrow().iter()) {
            let held: &mut [u8] = area.slice(2 * OUT, Placing::End);
            let (before, number) = held.split_at(2 * OUT - size);
            assert!(before.iter().all(|b| *b == POISON), "bytes before a number were written");
            let mut word = [0; OUT];
            word[..*size].copy_from_slice(number);
            told.push(u64::from_le_bytes(word));
        }
        told
    }

    /// What the buffer and the lists hold.
    pub fn held(&self) -> (&[u8], &[u64], &[[usize; 2]]) {
        let ([bytes, list, ranges], placing) = (self.lengths.get(), self.placing.get());
        (self.bytes.slice(bytes, placing), self.list.slice(list, placing), self.ranges.slice(ranges, placing))
    }
}
