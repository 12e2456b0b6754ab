//! The run case of docs/FORMAT.md on the second book, and what that says of loads, chains and refusals.
use super::*;
use crate::lent::{Area, Placing, READ_WRITE};
use crate::second_book::desks::NO_LIMITS;
use crate::second_book::space::SLABS_END;
use crate::table::numbers_theirs;
use oracle::scripthash_layout::unpack8;

/// The desk list of the book's tests: desk 0 for every key.
const ALL_OF_0: [u8; 6] = [0; 6];

/// A fresh book.
struct Book {
    book: SecondBook,
    body: Vec<u8>,
    heads: Vec<u64>,
    state: State,
}

impl Book {
    fn new(body: usize, heads: usize) -> Book {
        let mut out = Book { book: SecondBook::default(), body: vec![0xa5; body], heads: vec![7; heads], state: State::at(9) };
        out.book.fresh(&out.body, &mut out.heads, &mut out.state, &ALL_OF_0[..heads], &NO_LIMITS).unwrap();
        assert_eq!((out.heads[0], out.state), (0, State::at(4096)));
        out
    }

    /// A key, of desk 0 as all are.
    fn at(&self, key: u64) -> At<'static> {
        At { key, by: By::List(&ALL_OF_0[..self.heads.len()]) }
    }

    fn load(&mut self, key: u64, fks: &[u64]) -> Result<u64, u32> {
        self.load_fit(key, fks, Fit::Spare)
    }

    fn load_tight(&mut self, key: u64, fks: &[u64]) -> Result<u64, u32> {
        self.load_fit(key, fks, Fit::Tight)
    }

    fn load_fit(&mut self, key: u64, fks: &[u64], fit: Fit) -> Result<u64, u32> {
        let at = self.at(key);
        self.book.load(&mut self.body, &mut self.heads, &mut self.state, at, fks, fit).map_err(Refused::number)
    }

    /// The class of a key in a slab.
    fn class(&self, key: usize) -> Option<u8> {
        match unpack8(self.heads[key]) {
            Ok(ShHeadValue::Slab { class, .. }) => Some(class),
            _ => None,
        }
    }

    /// The four numbers of the new place, and the records rewritten.
    fn append(&mut self, key: u64, fk: u64) -> Result<([u64; 4], u64), u32> {
        let at = self.at(key);
        let answer = self.book.append(&mut self.body, &mut self.heads, &mut self.state, at, fk);
        answer.map(|a| (numbers_theirs(&a.place), a.rewritten)).map_err(Refused::number)
    }

    /// How many numbers were appended, why the next one was refused, the four numbers of the place, the moves and the records rewritten.
    fn extend(&mut self, key: u64, fks: &[u64]) -> Result<(u64, u32, [u64; 4], u64, u64), u32> {
        let at = self.at(key);
        let answer = self.book.extend(&mut self.body, &mut self.heads, &mut self.state, at, fks);
        answer.map(|e| (e.count, e.refusal(), numbers_theirs(&e.place), e.moves, e.rewritten)).map_err(Refused::number)
    }

    fn read(&mut self, key: u64, room: usize) -> Result<(Vec<u64>, u64), u32> {
        let (mut out, at) = (vec![0; room], self.at(key));
        let listed = self.book.read(&self.body, &self.heads, &self.state, at, &mut out).map_err(Refused::number)?;
        out.truncate(listed.length as usize);
        Ok((out, listed.pages))
    }

    fn drop(&mut self, key: u64) -> Result<u64, u32> {
        let at = self.at(key);
        self.book.drop(&mut self.body, &mut self.heads, &mut self.state, at).map_err(Refused::number)
    }
}

#[test]
fn run_case() {
    let mut b = Book::new(8192, 2);
    assert_eq!(b.append(0, 5), Ok(([1, 0, 1, 5], 0)));
    assert_eq!(b.append(0, 300), Ok(([2, 0, 2, 4096], 1)));
    assert_eq!(b.append(0, 301), Ok(([2, 0, 3, 4096], 0)));
    assert_eq!(b.append(0, 302), Ok(([2, 0, 4, 4096], 0)));
    assert_eq!(b.append(0, 303), Ok(([2, 1, 5, 4112], 4)));
    assert_eq!(b.append(1, 9), Ok(([1, 0, 1, 9], 0)));
    assert_eq!(b.append(1, 10), Ok(([2, 0, 2, 4096], 1)));
    assert_eq!(b.read(0, 5), Ok((vec![5, 300, 301, 302, 303], 0)));
    assert_eq!(b.read(0, 4), Err(34));
    assert_eq!(b.body[4096..4100], [2, 0, 9, 1]);
    assert_eq!(b.drop(0), Ok(5));
    assert_eq!(b.state.free[1], 4112);
}

#[test]
fn an_extend_is_its_appends() {
    let (mut b, mut c) = (Book::new(65_536, 2), Book::new(65_536, 2));
    let fks: Vec<u64> = (1..=5000).map(|k| 3 * k).collect();
    assert_eq!(b.extend(0, &[]), Ok((0, 0, [0; 4], 0, 0)));
    assert_eq!(b.extend(0, &fks[..5]), Ok((5, 0, [2, 1, 5, 4112], 2, 5)));
    assert_eq!(b.extend(0, &fks[5..]), Ok((4995, 0, [3, 0, 0, 12_288], 6, 504)));
    fks.iter().for_each(|fk| assert!(c.append(0, *fk).is_ok()));
    assert!((&b.body, &b.heads, b.state) == (&c.body, &c.heads, c.state));
    assert_eq!((b.extend(0, &[]), b.read(0, 5000).unwrap().1), (Ok((0, 0, [3, 0, 0, 12_288], 0, 0)), 2));
}

#[test]
fn an_extend_stops_where_a_number_is_refused() {
    let mut b = Book::new(8192, 2);
    for (bad, number) in [(0, 12), (1 << 63, 13), (1 << 62, 14), (9, 32), (8, 32)] {
        assert_eq!(b.extend(1, &[9, bad, 10]), Ok((1, number, [1, 0, 1, 9], 0, 0)));
        assert_eq!(b.extend(1, &[bad, 10]), Ok((0, number, [1, 0, 1, 9], 0, 0)));
        assert_eq!(b.drop(1), Ok(1));
    }
    // The body has a page for slabs, and none for pages.
    let fks: Vec<u64> = (1..=400).map(|k| k << 40).collect();
    let (count, refusal, [kind, ..], ..) = b.extend(0, &fks).unwrap();
    assert_eq!((refusal, kind), (36, 2));
    assert_eq!((b.read(0, 400).unwrap().0, b.append(0, fks[count as usize])), (fks[..count as usize].to_vec(), Err(36)));
    // A key that isn't sound, and one that isn't there, before any number is looked at.
    b.heads[1] = 2 << 62;
    assert_eq!((b.extend(1, &[]), b.extend(1, &[0]), b.extend(2, &[0])), (Err(31), Err(31), Err(2)));
}

#[test]
fn a_loaded_run_grows_by_a_page() {
    let mut b = Book::new(32_768, 1);
    let fks: Vec<u64> = (1..=4088 + 4071).collect();
    assert_eq!(b.load(0, &fks), Ok(2));
    assert_eq!(b.read(0, fks.len()), Ok((fks.clone(), 2)));
    assert_eq!(b.append(0, 9000), Ok(([3, 0, 0, 12_288], 0)));
    assert_eq!(b.read(0, 9000).unwrap().1, 3);
    assert_eq!(b.drop(0), Ok(fks.len() as u64 + 1));
    assert_eq!((b.state.mark, b.state.free[8]), (16_384, 12_288));
    assert_eq!(b.load(0, &fks), Ok(2));
    assert_eq!((b.state.mark, b.state.free[8], b.heads[0]), (16_384, 12_288, 3 << 62 | 8192));
}

#[test]
fn a_list_moves_from_slab_to_slab_to_page() {
    let mut b = Book::new(65_536, 1);
    let mut moves = Vec::new();
    for n in 1..=300 {
        let (place, rewritten) = b.append(0, n * 2).unwrap();
        if rewritten > 0 {
            moves.push((n, place[0], place[1], rewritten));
        }
    }
    let slabs = [(2, 0, 1), (5, 1, 4), (9, 2, 8), (17, 3, 16), (33, 4, 32), (65, 5, 64), (129, 6, 128)];
    let mut wanted: Vec<(u64, u64, u64, u64)> = slabs.iter().map(|&(n, class, rewritten)| (n, 2, class, rewritten)).collect();
    wanted.push((257, 3, 0, 256));
    assert_eq!(moves, wanted);
}

/// Of 14 numbers of a byte each the tight slab is full, and moves; one with a spare slot stays.
#[test]
fn a_load_has_a_spare_slot_or_fits_tight() {
    let fourteen: Vec<u64> = (1..=14).collect();
    let mut b = Book::new(8192, 2);
    assert_eq!((b.load(0, &fourteen), b.load_tight(1, &fourteen)), (Ok(0), Ok(0)));
    assert_eq!((b.class(0), b.class(1)), (Some(2), Some(0)));
    assert_eq!(b.append(0, 15), Ok(([2, 2, 15, 4096], 0)));
    assert_eq!(b.append(1, 15), Ok(([2, 2, 15, 4176], 14)));
}

/// Classes of loads at the counts where a class with a spare slot ends, of numbers of a byte each: 256 have no slot more, and 257 go to a page.
#[test]
fn classes_of_loads() {
    for (count, spare, tight) in [
        (1, None, None),
        (2, Some(0), Some(0)),
        (3, Some(0), Some(0)),
        (4, Some(1), Some(0)),
        (7, Some(1), Some(0)),
        (8, Some(2), Some(0)),
        (14, Some(2), Some(0)),
        (15, Some(2), Some(1)),
        (16, Some(3), Some(1)),
        (30, Some(3), Some(1)),
        (31, Some(3), Some(2)),
        (32, Some(4), Some(2)),
        (127, Some(5), Some(4)),
        (128, Some(6), Some(4)),
        (255, Some(6), Some(5)),
        (256, Some(6), Some(5)),
        (257, None, None),
    ] {
        let fks: Vec<u64> = (1..=count).collect();
        let mut b = Book::new(16_384, 2);
        let pages = u64::from(count > 256);
        assert_eq!((b.load(0, &fks), b.load_tight(1, &fks)), (Ok(pages), Ok(pages)), "{count}");
        assert_eq!((b.class(0), b.class(1)), (spare, tight), "{count}");
    }
}

/// Where the bytes ask for the larger class both loads take it; a payload of 2,049 bytes goes to a page.
#[test]
fn classes_of_wide_loads() {
    let wide = |count: u64, len: u32| (1..=count).map(|k| k << (7 * (len - 1))).collect::<Vec<u64>>();
    for (count, len, class) in [(2, 7, Some(0)), (2, 8, Some(1)), (255, 8, Some(7)), (256, 8, None)] {
        let fks = wide(count, len);
        let mut b = Book::new(16_384, 2);
        let pages = u64::from(class.is_none());
        assert_eq!((b.load(0, &fks), b.load_tight(1, &fks)), (Ok(pages), Ok(pages)), "{count} of {len}");
        assert_eq!((b.class(0), b.class(1)), (class, class), "{count} of {len}");
    }
}

#[test]
fn refusals_come_in_order() {
    for fit in [Fit::Spare, Fit::Tight] {
        let mut b = Book::new(8192, 1);
        assert_eq!(b.load_fit(1, &[0], fit), Err(2));
        assert_eq!(b.load_fit(0, &vec![0; 65_536], fit), Err(10));
        assert_eq!(b.load_fit(0, &[5, 3, 1 << 63], fit), Err(32));
        assert_eq!(b.load_fit(0, &[5, 1 << 62, 0], fit), Err(14));
        assert_eq!(b.load_fit(0, &[5, 1 << 63], fit), Err(13));
        assert_eq!(b.load_fit(0, &[0, 5], fit), Err(12));
        assert_eq!(b.load_fit(0, &(1..=4089).collect::<Vec<u64>>(), fit), Err(36));
        assert_eq!(b.load_fit(0, &[5, 6], fit), Ok(0));
        assert_eq!(b.load_fit(0, &[], fit), Err(3));
    }
    let mut b = Book::new(8192, 1);
    assert_eq!(b.load(0, &[5, 6]), Ok(0));
    assert_eq!(b.append(0, 0), Err(12));
    assert_eq!(b.append(0, 6), Err(32));
    b.body[4096] = 3;
    assert_eq!(b.append(0, 6), Err(31));
    assert_eq!(b.append(0, 1 << 62), Err(14));
    assert_eq!(b.read(0, 0), Err(31));
    b.state.mark = 4100;
    assert_eq!(b.drop(0), Err(1));
}

/// A key of a book of six.
fn of_six(key: u64) -> At<'static> {
    At { key, by: By::List(&ALL_OF_0) }
}

/// A book whose body has addresses up to the largest length, and memory for the first pages and those around the end of slabs alone; the
/// machine may refuse it.
struct Far(Area, SecondBook, Vec<u64>, State);

impl Far {
    fn new(mark: u64) -> Option<Far> {
        let area = Area::untouchable(MOST_BODY)?;
        for page in [0, (SLABS_END - 4 * 4096) as usize] {
            area.allow(page, 8 * 4096, READ_WRITE);
        }
        Some(Far(area, SecondBook::default(), vec![0; 6], State::at(mark)))
    }

    #[allow(clippy::mut_from_ref)]
    fn body(&self) -> &mut [u8] {
        self.0.slice(MOST_BODY, Placing::Start)
    }

    fn load(&mut self, key: u64, last: u64, fit: Fit) -> Result<u64, u32> {
        let fks: Vec<u64> = (1..=last).collect();
        self.1.load(self.0.slice(MOST_BODY, Placing::Start), &mut self.2, &mut self.3, of_six(key), &fks, fit).map_err(Refused::number)
    }

    fn append(&mut self, key: u64, fk: u64) -> Result<u64, u32> {
        let answer = self.1.append(self.0.slice(MOST_BODY, Placing::Start), &mut self.2, &mut self.3, of_six(key), fk);
        answer.map(|a| a.rewritten).map_err(Refused::number)
    }

    fn drop(&mut self, key: u64) -> Result<u64, u32> {
        self.1.drop(self.0.slice(MOST_BODY, Placing::Start), &mut self.2, &mut self.3, of_six(key)).map_err(Refused::number)
    }
}

/// A slab ends at 2^40 or before; where it can't, it is 36, though pages are to be had, and there is no smaller one in its place.
#[test]
fn slabs_end_at_2_40() {
    let Some(mut b) = Far::new(SLABS_END - 16) else {
        return;
    };
    assert_eq!(b.load(0, 4, Fit::Spare), Err(36));
    assert_eq!(b.load(0, 4, Fit::Tight), Ok(0));
    assert_eq!((b.3.mark, b.load(1, 2, Fit::Tight)), (SLABS_END, Err(36)));
    assert_eq!(b.load(1, 300, Fit::Spare), Ok(1));
    assert_eq!((b.3.mark, b.2[1]), (SLABS_END + 4096, 3 << 62 | SLABS_END));
}

/// A gap up to 2^40 is carved, and one past it goes on no list.
#[test]
fn gaps_past_2_40() {
    let Some(mut b) = Far::new(SLABS_END - 16) else {
        return;
    };
    assert_eq!(b.load(0, 300, Fit::Spare), Ok(1));
    assert_eq!((b.3.mark, b.3.free[0]), (SLABS_END + 4096, SLABS_END - 16));
    b.3 = State::at(SLABS_END + 16);
    assert_eq!(b.load(1, 300, Fit::Spare), Ok(1));
    assert_eq!((b.3.mark, b.3.free, b.3.counts.held[0]), (SLABS_END + 8192, [0; 9], 1));
}

/// A slab across 2^40 is sound and is dropped onto its list, where it stops the takes of its class; a page past 2^40 doesn't.
#[test]
fn a_slab_across_2_40() {
    let Some(mut b) = Far::new(SLABS_END + 16) else {
        return;
    };
    b.2[0] = word(&ShHeadValue::slab(1, 2, SLABS_END - 16));
    b.body()[(SLABS_END - 16) as usize..][..4].copy_from_slice(&[2, 0, 5, 1]);
    assert_eq!((b.append(0, 7), b.append(0, 7)), (Ok(0), Err(32)));
    assert_eq!((b.drop(0), b.3.free[1]), (Ok(3), SLABS_END - 16));
    assert_eq!((b.load(1, 4, Fit::Spare), b.load(1, 20, Fit::Tight)), (Err(35), Err(35)));
    assert_eq!((b.load(1, 300, Fit::Spare), b.drop(1), b.3.free[8]), (Ok(1), Ok(300), SLABS_END + 4096));
    b.2[2] = word(&ShHeadValue::slab(5, 256, 4096));
    let full: Vec<u64> = (1..=256).collect();
    encode_slab_payload_into(&mut b.body()[4096..4096 + 512], &full).unwrap();
    assert_eq!((b.append(2, 257), b.2[2], b.3.free[8]), (Ok(256), 3 << 62 | (SLABS_END + 4096), 0));
}

/// The total after 2^32 - 1 is unknown, in place and on a new page, and stays so; one before goes on.
#[test]
fn totals_near_2_32() {
    let full: Vec<u64> = (1..=4072).collect();
    let at = |b: &Book| (b.heads[0] & !(3 << 62)) as usize + 20;
    for (before, after) in [(u32::MAX - 2, u32::MAX - 1), (u32::MAX - 1, u32::MAX), (u32::MAX, 0), (0, 0), (1, 2)] {
        for (list, next) in [(&full[..300], 301), (&full[..], 4073)] {
            let mut b = Book::new(16_384, 1);
            assert!(b.load(0, list).is_ok());
            let old = at(&b);
            b.body[old..old + 4].copy_from_slice(&before.to_le_bytes());
            assert!(b.append(0, next).is_ok());
            let new = at(&b);
            assert_eq!((new == old, b.body[new..new + 4] == after.to_le_bytes()), (next == 301, true), "{before}");
            assert!(new == old || b.body[old..old + 4] == [0; 4]);
            b.body[new..new + 4].fill(0);
            assert_eq!(b.drop(0), Ok(next));
        }
    }
}

/// Bodies of 2^41 bytes and no more.
#[test]
fn the_largest_body() {
    let Some(area) = Area::untouchable(MOST_BODY + 4096) else {
        return;
    };
    let (mut book, mut heads, mut state) = (SecondBook::default(), [7], State::at(9));
    let mut fresh = |len| book.fresh(area.slice(len, Placing::Start), &mut heads, &mut state, &[0], &NO_LIMITS);
    assert_eq!((fresh(MOST_BODY), fresh(MOST_BODY + 4096)), (Ok(()), Err(Refused::Number(1))));
}
