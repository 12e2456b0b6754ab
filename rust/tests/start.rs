//! Books that are judged before they are opened: fresh ones, after calls, damaged ones for each ground, and many random ones beside a
//! second judge, which claims byte by byte.
use ouriscado::limits::*;
use ouriscado::{codec, sys, Book, Desks, Listed, Place, Refusal, StartError, State};

type Owned = Book<Vec<u8>, Vec<u64>>;

/// The blocks of a sound account: class and offset of each.
fn blocks(book: &Owned, key: u64) -> Vec<(u8, usize)> {
    let link = |page: usize| {
        let mut bytes = [0; 8];
        bytes[..5].copy_from_slice(&book.body()[page + 3..page + 8]);
        (u64::from_le_bytes(bytes) / 2) as usize * PAGE_BYTES
    };
    match book.place(key).unwrap() {
        Place::Empty | Place::Inline(_) => vec![],
        Place::Slab { class, offset, .. } => vec![(class, offset as usize)],
        Place::Pages { last } => {
            let last = last as usize;
            let mut pages = vec![link(last)]; // the last page names the first
            while pages[pages.len() - 1] != last {
                pages.push(link(pages[pages.len() - 1]));
            }
            pages.into_iter().map(|page| (PAGE_CLASS, page)).collect()
        }
    }
}

/// What the second judge says of counts, by the pages that are freed and that desks hold.
fn judge_counts(book: &Owned, freed: u64, held: [u64; DESKS]) -> Result<(), StartError> {
    let (state, pages) = (book.state(), (book.body().len() / PAGE_BYTES) as u64);
    let past = pages - state.mark().div_ceil(PAGE_BYTES as u64);
    if 1 + state.freed_pages() + (0..DESKS).map(|desk| state.held_pages(desk)).sum::<u64>() + past > pages {
        return Err(StartError::CountsExceed);
    }
    if state.freed_pages() != freed {
        return Err(StartError::FreedUntrue);
    }
    for (desk, &pages) in held.iter().enumerate() {
        let (number, ceiling) = (desk as u8, state.ceiling(desk));
        if state.held_pages(desk) != pages {
            return Err(StartError::HeldUntrue { desk: number });
        }
        if pages > ceiling {
            return Err(StartError::PastCeiling { desk: number });
        }
        if state.reserve(desk) > ceiling {
            return Err(StartError::ReserveHigh { desk: number });
        }
    }
    let lacks: u64 = (0..DESKS).map(|desk| state.reserve(desk).saturating_sub(held[desk])).sum();
    if freed + past < lacks {
        return Err(StartError::ReservesLack);
    }
    Ok(())
}

/// The second judge, on a book in shape: the first fault, or how many units of 16 bytes nobody claimed.
fn judge(book: &Owned) -> Result<u64, StartError> {
    let mut taken = vec![false; book.body().len()];
    let mut claim = |(class, offset): (u8, usize)| {
        let bytes = &mut taken[offset..offset + (16 << class)];
        let free = !bytes.contains(&true);
        bytes.fill(true);
        free
    };
    let (mut freed, mut held) = (0, [0; DESKS]);
    for key in 0..book.heads().len() as u64 {
        if book.read(key).is_err() {
            return Err(StartError::KeyUnsound { key });
        }
        let desk = book.desks().get(key as usize).copied().unwrap_or(0);
        held[usize::from(desk)] += blocks(book, key).iter().filter(|block| block.0 == PAGE_CLASS).count() as u64;
        if !blocks(book, key).into_iter().all(&mut claim) {
            return Err(StartError::KeyShares { key });
        }
    }
    for class in 0..=PAGE_CLASS {
        let mut offset = book.state().free_heads()[usize::from(class)];
        let unit = if class == PAGE_CLASS { PAGE_BYTES as u64 } else { 16 };
        while offset != 0 {
            if offset & (unit - 1) != 0 || offset < 4096 || book.state().mark().saturating_sub(16 << class) < offset {
                return Err(StartError::FreeStrays { class });
            }
            if !claim((class, offset as usize)) {
                return Err(StartError::FreeShares { class });
            }
            offset = u64::from_le_bytes(book.body()[offset as usize..][..8].try_into().unwrap());
            freed += u64::from(class == PAGE_CLASS);
        }
    }
    judge_counts(book, freed, held)?;
    let lost = taken[4096..book.state().mark() as usize].iter().filter(|&&taken| !taken).count();
    Ok(lost as u64 / 16)
}

/// A book after some calls: slabs of two classes, pages, and freed blocks of several classes.
fn used() -> Owned {
    let mut book = Book::fresh(vec![0x77; 24 * PAGE_BYTES], vec![0; 8]).unwrap();
    for n in 1..=40 {
        book.append(0, n * 3).unwrap();
    }
    book.load(1, &(1..=9_000).collect::<Vec<u64>>()).unwrap();
    book.load(2, &(1..=200).collect::<Vec<u64>>()).unwrap();
    book.load(3, &(1..=9_000).collect::<Vec<u64>>()).unwrap();
    book.load(4, &[5, 300]).unwrap();
    book.load(5, &[9, 10]).unwrap();
    book.append(6, 77).unwrap();
    book.drop_key(1).unwrap();
    book.drop_key(4).unwrap();
    book
}

/// What a damaged copy of the used book is refused for.
fn fault(what: impl Fn(&mut [u8], &mut [u64], &mut State)) -> StartError {
    let (mut body, mut heads, mut state) = used().into_parts();
    what(&mut body, &mut heads, &mut state);
    let kept = Book::from_parts(body.clone(), heads.clone(), state);
    let error = Book::open(body, heads, state).unwrap_err();
    let told = error.why;
    assert!(Book::from_parts(error.body, error.heads, error.state) == kept, "what was handed over has changed");
    assert_eq!(kept.check(), Err(told));
    if !matches!(told, StartError::Refused(_)) {
        assert_eq!(judge(&kept), Err(told), "the second judge");
    }
    told
}

#[test]
fn good_starts() {
    let fresh = Book::fresh(vec![0xff; LEAST_BODY_BYTES], vec![1; 1]).unwrap();
    assert_eq!(fresh.check(), Ok(0));
    let (body, heads, state) = used().into_parts();
    let (length, before) = (heads.len(), (body.clone(), heads.clone()));
    let mut book = Book::open(body, heads, state).unwrap();
    assert_eq!((book.body(), book.heads()), (&before.0[..], &before.1[..]), "opening has changed something");
    assert_eq!((0..length as u64).map(|key| book.read(key).unwrap().len()).collect::<Vec<_>>(), [40, 0, 200, 9_000, 0, 2, 1, 0]);
    book.append(5, 11).unwrap();
    assert_eq!(book.check(), Ok(0));
}

#[test]
fn each_ground() {
    let last = (used().heads()[3] & 0xffff_ffff) as usize;
    assert_eq!(fault(|_, heads, _| heads[7] = 2 << 62), StartError::KeyUnsound { key: 7 });
    assert_eq!(fault(|body, _, _| body[last + 20] ^= 1), StartError::KeyUnsound { key: 3 }); // creates lies
    assert_eq!(fault(|_, heads, _| heads[7] = heads[2]), StartError::KeyShares { key: 7 }); // a slab of two accounts
    assert_eq!(fault(|_, heads, _| heads[0] = heads[3]), StartError::KeyShares { key: 3 }); // pages of two accounts
    assert_eq!(fault(|_, _, state| state.0[3] = 4104), StartError::FreeStrays { class: 2 }); // unaligned
    assert_eq!(fault(|_, _, state| state.0[1] = state.0[0]), StartError::FreeStrays { class: 0 }); // behind the mark
    assert_eq!(fault(|_, _, state| state.0[9] = last as u64), StartError::FreeShares { class: 8 }); // a page held and free
    assert_eq!(fault(|_, _, state| state.0[2] = state.0[9]), StartError::FreeShares { class: 8 }); // two sizes in one place
    let page = used().state().free_heads()[8];
    let looping = fault(|body, _, _| body[page as usize..][..8].copy_from_slice(&page.to_le_bytes()));
    assert_eq!(looping, StartError::FreeShares { class: 8 });
    assert_eq!(fault(|_, _, state| state.0[0] = 4100), StartError::Refused(Refusal::ShapeBad));
}

#[test]
fn an_unknown_total_is_good() {
    let (mut body, heads, state) = used().into_parts();
    let last = (heads[3] & 0xffff_ffff) as usize;
    body[last + 20..last + 24].fill(0);
    let mut book = Book::open(body, heads, state).unwrap();
    assert_eq!(book.append(3, 9_001).unwrap().rewritten, 0);
    assert_eq!((book.read(3).unwrap().len(), book.check()), (9_001, Ok(0)));
}

/// A book of other software, whose account 0 has 1 and 3 in a slab, the first padded, and account 1 the same in a page.
fn padded() -> Owned {
    let mut body = vec![0x77; 4 * PAGE_BYTES];
    body[4096..4101].copy_from_slice(&[2, 0, 0x81, 0x00, 2]);
    let page = 2 * PAGE_BYTES;
    let extent = codec::Extent { base: page as u64, n: 1 };
    codec::sh_page_pack_extent_last_fks(&mut body[page..page + PAGE_BYTES], &[1, 3], extent, 0).unwrap();
    body[page + 24..page + 27].copy_from_slice(&[0x81, 0x00, 2]);
    let heads = [codec::Head::Slab { class: 0, used: 2, off: 4096 }, codec::Head::Extent { last_page: page as u64 }];
    let state = State::without_desks(3 * PAGE_BYTES as u64, [0; 9], 0, 1);
    Book::open(body, heads.map(|head| codec::pack8(head).unwrap()).to_vec(), state).unwrap()
}

#[test]
fn padded_numbers_are_told() {
    let mut book = padded();
    let told = |book: &Owned, key| book.read_told(key).map(|(list, told)| (list, told.pages, told.padded)).unwrap();
    assert_eq!((told(&book, 0), told(&book, 1)), ((vec![1, 3], 0, 1), (vec![1, 3], 1, 1)));
    let (mut length, mut pages, mut padded) = (9, 9, 9);
    let number = sys::core_read(book.body(), book.heads(), book.state().mark(), 1, &mut [0], &mut length, &mut pages, &mut padded);
    assert_eq!((number, length, pages, padded), (34, 0, 0, 0), "a refused read tells no count");
    for key in [0, 1] {
        assert_eq!(book.append(key, 5).unwrap().rewritten, 0);
    }
    assert_eq!((told(&book, 0), told(&book, 1)), ((vec![1, 3, 5], 0, 1), (vec![1, 3, 5], 1, 1)), "an append in place leaves it");
    book.append(0, 6).unwrap();
    assert_eq!(book.append(0, 7).unwrap().rewritten, 4);
    assert_eq!(told(&book, 0), (vec![1, 3, 5, 6, 7], 0, 0), "a list that moved is written anew");
    let list = book.read(1).unwrap();
    book.drop_key(1).unwrap();
    book.load(1, &list).unwrap();
    assert_eq!(book.read_into(1, &mut [0; 3]), Ok(Listed { length: 3, pages: 0, padded: 0 }), "a list that is loaded anew");
}

/// A word that is lost shows by the units of its slab, or of freed ones; that of pages, held or freed, by their count, and where that is made
/// true by their units; and that of one number by nothing.
#[test]
fn lost_words() {
    let (body, heads, state) = used().into_parts();
    let lost = |heads: Vec<u64>, state: State| {
        let book = Book::from_parts(body.clone(), heads, state);
        assert_eq!(book.check(), judge(&book), "the second judge");
        book.check().unwrap()
    };
    assert_eq!(lost(heads.clone(), state), 0);
    let book = used();
    for key in 0..heads.len() {
        let mut others = heads.clone();
        others[key] = 0;
        let held = blocks(&book, key as u64);
        let (bytes, pages) = (held.iter().map(|&(class, _)| 16 << class).sum::<u64>(), held.iter().filter(|b| b.0 == PAGE_CLASS).count());
        let mut fewer = state;
        if pages > 0 {
            let why = Book::from_parts(body.clone(), others.clone(), state).check();
            assert_eq!(why, Err(StartError::HeldUntrue { desk: 0 }), "the word of account {key}");
            fewer.0[11] -= pages as u64;
        }
        assert_eq!(lost(others, fewer), bytes / 16, "the word of account {key}");
    }
    assert_eq!(blocks(&book, 6), [], "one number, in the head word");
    for class in 0..=PAGE_CLASS {
        let mut fewer = state;
        fewer.0[1 + usize::from(class)] = 0;
        let (mut count, mut offset) = (0, state.free_heads()[usize::from(class)]);
        while offset != 0 {
            (count, offset) = (count + 1, u64::from_le_bytes(body[offset as usize..][..8].try_into().unwrap()));
        }
        if class == PAGE_CLASS {
            assert_eq!(Book::from_parts(body.clone(), heads.clone(), fewer).check(), Err(StartError::FreedUntrue));
            fewer.0[10] = 0;
        }
        assert_eq!(lost(heads.clone(), fewer), count << class, "the free list of class {class}");
    }
}

#[test]
fn the_work_list() {
    let book = used();
    let room = book.body().len() / WORK_UNIT;
    for (length, refusal) in [(room - 1, 34), (room, 0), (room + 3, 0)] {
        let mut work = vec![0xee; length];
        let (mut ground, mut which, mut lost) = (9, 9, 9);
        let (state, desks) = (book.state(), vec![0; book.heads().len()]);
        let (free, counts) = (state.free_heads().try_into().unwrap(), state.counts().try_into().unwrap());
        let (body, heads) = (book.body(), book.heads());
        let number = sys::book_check(body, heads, state.mark(), free, counts, &desks, &mut work, &mut ground, &mut which, &mut lost);
        assert_eq!((number, ground, which, lost), (refusal, 0, 0, 0));
        let cleared = if refusal == 0 { room } else { 0 };
        assert!(work[..cleared].iter().all(|&b| b == 0) && work[cleared..].iter().all(|&b| b == 0xee));
    }
}

/// Random numbers, always the same ones (xorshift).
struct Random(u64);

impl Random {
    fn below(&mut self, n: u64) -> u64 {
        self.0 ^= self.0 << 13;
        self.0 ^= self.0 >> 7;
        self.0 ^= self.0 << 17;
        self.0 % n
    }

    /// Some damage: a head word or a free head that another has, or one near an offset in use, a link or a byte written over, the mark lower,
    /// a count or a limit that is another small number.
    fn damage(&mut self, body: &mut [u8], heads: &mut [u64], state: &mut State) {
        let (keys, length) = (heads.len() as u64, body.len());
        let offset = 4096 + 16 * self.below((state.0[0] - 4096) / 16 + 2);
        match self.below(13) {
            0 => heads[self.below(keys) as usize] = heads[self.below(keys) as usize],
            1 => heads[self.below(keys) as usize] ^= 16 << self.below(10),
            2 => state.0[1 + self.below(9) as usize] = offset,
            3 => state.0[1 + self.below(9) as usize] = state.0[1 + self.below(9) as usize],
            4 => state.0[1 + self.below(9) as usize] = offset / 4096 * 4096,
            5 => body[(offset as usize).min(length - 8)..][..8].copy_from_slice(&state.0[1 + self.below(9) as usize].to_le_bytes()),
            6 => body[offset as usize % length] ^= 1 << self.below(8),
            7 => state.0[10 + self.below(17) as usize] = self.below(8), // freed or held pages
            8 => state.0[27 + self.below(16) as usize] = self.below(32), // a reserve
            9 | 10 => {
                let most = (0..DESKS).max_by_key(|&desk| state.held_pages(desk)).unwrap(); // which desk's ceiling is below its pages
                state.0[43 + most] = 0;
            }
            11 => state.0[43 + [1, 3, 9][self.below(3) as usize]] = 0, // the ceiling of a desk with a reserve
            _ => state.0[0] -= 16 * self.below((state.0[0] - 4096) / 16 + 1).min(self.below(40)),
        }
    }
}

#[test]
fn random_books() {
    let mut random = Random(0x2545_f491_4f6c_dd1d);
    let mut met = [0; 11];
    let desks = Desks::new((0..12).map(|key| key % 5).collect::<Vec<u8>>()).reserve(1, 6).reserve(3, 2).reserve(9, 1).ceiling(2, 4);
    let mut book = Book::fresh_with(vec![0xa5; 32 * PAGE_BYTES], vec![0; 12], desks).unwrap();
    for _ in 0..5_000 {
        for _ in 0..random.below(6) {
            let (key, n) = (random.below(12), random.below(1 << 20));
            let len = [2, 5, 40, 200, 300, 5_000][random.below(6) as usize];
            let _ = match random.below(8) {
                0..=2 => book.load(key, &(n + 1..=n + len).collect::<Vec<u64>>()),
                3 => book.drop_key(key).map(|length| length as u64),
                _ => book.append(key, (1 << 21) + n).map(|to| to.rewritten),
            };
        }
        assert_eq!(book.check(), Ok(0), "a book after calls");
        let (mut body, mut heads, mut state, desks) = book.clone().into_parts_with();
        for _ in 0..1 + random.below(3) {
            random.damage(&mut body, &mut heads, &mut state);
        }
        let damaged = Book::from_parts_with(body, heads, state, desks);
        let told = damaged.check();
        assert_eq!(told, judge(&damaged));
        met[match told {
            Ok(_) => 0,
            Err(StartError::KeyUnsound { .. }) => 1,
            Err(StartError::KeyShares { .. }) => 2,
            Err(StartError::FreeStrays { .. }) => 3,
            Err(StartError::FreeShares { .. }) => 4,
            Err(StartError::CountsExceed) => 5,
            Err(StartError::FreedUntrue) => 6,
            Err(StartError::HeldUntrue { .. }) => 7,
            Err(StartError::PastCeiling { .. }) => 8,
            Err(StartError::ReserveHigh { .. }) => 9,
            _ => 10,
        }] += 1;
    }
    assert!(met.iter().all(|&n| n > 50), "not all grounds were met often: {met:?}");
}
