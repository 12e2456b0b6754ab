//! Both books on bodies of up to 2^41 bytes. There is no such memory: of a range of addresses only some windows can be touched, around where
//! a history works, and a call that touches another byte is named. What stands in the windows is compared after every call.
use crate::fault::during;
use crate::judge::place_of;
use crate::lent::{Area, Placing, READ_WRITE};
use crate::lockstep::pair::{
    answer_differs, answer_of, asked, call_second, length_differs, lent_length, lent_list, verdict_differs, work_list, Answer, Call, Check,
    Given, Ours, Running,
};
use crate::second_book::desks::{By, DESKS};
use crate::second_book::space::{State, PAGE, PAGE_CLASS};
use crate::second_book::start::Verdict;
use crate::second_book::{Refused, SecondBook, MOST_BODY};
use oracle::scripthash_layout::{pack8, slab_bytes, ShHeadValue};
use oracle::scripthash_pages as pages;
use oracle::scripthash_slabs::encode_slab_payload_into;
use std::ops::Range;

/// The most bytes of a work list: for a body of 2^30 bytes and a page.
pub const MOST_WORK: usize = (1 << 23) + PAGE / 128;

/// Both books.
pub struct Far {
    ours: Ours,
    /// The second book's body.
    body: Area,
    pub second: SecondBook,
    pub heads: Vec<u64>,
    pub state: State,
    /// The desk of each key.
    pub desks: Vec<u8>,
    list: Vec<u64>,
    work: Vec<u8>,
    /// How many bytes the body has, and which of them can be touched.
    pub len: usize,
    windows: Vec<Range<usize>>,
}

impl Far {
    /// Both, or none where the machine refuses so many addresses.
    pub fn new() -> Option<Far> {
        let (mut ours, body) = (Ours::new(Area::untouchable(MOST_BODY)?, MOST_WORK), Area::untouchable(MOST_BODY)?);
        ours.placing = Placing::Start;
        let (second, heads, list, work) = (SecondBook::default(), Vec::new(), Vec::new(), Vec::new());
        Some(Far { ours, body, second, heads, state: State::at(0), desks: Vec::new(), list, work, len: 0, windows: Vec::new() })
    }

    /// Begins a book with a body of a length, in whose windows every byte is the same, so many empty keys, a mark and nothing freed.
    pub fn begin(&mut self, len: usize, keys: usize, mark: u64, windows: Vec<Range<usize>>, fill: u8) {
        for area in [&self.ours.body, &self.body] {
            self.windows.iter().for_each(|w| area.give_back(w.start, w.len()));
            for window in &windows {
                area.allow(window.start, window.len(), READ_WRITE);
                area.slice::<u8>(len, Placing::Start)[window.clone()].fill(fill);
            }
        }
        (self.len, self.windows, self.heads) = (len, windows, vec![0; keys]);
        self.state = State::at(mark);
        self.desks = (0..keys).map(|key| (key % DESKS) as u8).collect();
    }

    /// Writes bytes into both bodies.
    pub fn write(&mut self, at: u64, bytes: &[u8]) {
        for area in [&self.ours.body, &self.body] {
            area.slice::<u8>(self.len, Placing::Start)[at as usize..][..bytes.len()].copy_from_slice(bytes);
        }
    }

    /// Puts a list into a slab.
    pub fn put_slab(&mut self, key: usize, class: u8, off: u64, fks: &[u64]) {
        let mut slab = vec![0; slab_bytes(class) as usize];
        let len = encode_slab_payload_into(&mut slab, fks).expect("a list for a slab");
        self.write(off, &slab[..len]);
        self.heads[key] = pack8(&ShHeadValue::slab(class, fks.len() as u16, off)).expect("a slab that a word can name");
    }

    /// Puts a list into pages, which the key's desk holds then, a part into each, with creates in the last one.
    pub fn put_pages(&mut self, key: usize, parts: &[(u64, &[u64])], creates: u32) {
        let (first, last) = (parts[0].0, parts[parts.len() - 1].0);
        self.state.counts.held[usize::from(self.desks[key])] += parts.len() as u64;
        for (k, (off, fks)) in parts.iter().enumerate() {
            let mut page = [0; PAGE];
            if let Some((next, _)) = parts.get(k + 1) {
                pages::sh_page_pack_fks(&mut page, fks, *next).expect("a part for a page");
            } else {
                pages::sh_page_pack_extent_last_fks(&mut page, fks, last, 1, 0).expect("a part for a last page");
                pages::sh_page_set_last(&mut page, first).expect("a page");
                pages::sh_page_set_extent_creates(&mut page, creates);
            }
            self.write(*off, &page);
        }
        self.heads[key] = pack8(&ShHeadValue::extent(last)).expect("a page that a word can name");
    }

    /// Makes blocks the free list of a class, from the top.
    pub fn put_free(&mut self, class: u8, offs: &[u64]) {
        self.state.free[class as usize] = offs.first().copied().unwrap_or(0);
        if class == PAGE_CLASS {
            self.state.counts.freed = offs.len() as u64;
        }
        for (k, &off) in offs.iter().enumerate() {
            self.write(off, &offs.get(k + 1).copied().unwrap_or(0).to_le_bytes());
        }
    }

    /// Gives ours the heads and the state of the second book.
    pub fn copy_words(&mut self) {
        self.ours.heads.slice(self.heads.len(), Placing::Start).copy_from_slice(&self.heads);
        self.ours.put_state(&self.state);
    }

    /// Creates of a key's last page, as the second book has it.
    pub fn creates(&self, word: u64) -> Option<u32> {
        let off = (word & !(3 << 62)) as usize;
        let body = self.body.slice::<u8>(self.len, Placing::Start);
        (word >> 62 == 3).then(|| pages::sh_page_extent_creates(pages::sh_page_as_array(&body[off..off + PAGE]).expect("a page")))
    }

    /// Calls both, by the list of desks or by the key's own, and tells the answer; or what differs.
    pub fn call(&mut self, call: &Call, core: bool, where_: &str) -> Result<Answer, String> {
        lent_list(call, &mut self.list);
        let (whole, lent) = ((self.len, self.heads.len()), lent_length(call));
        let desk = call.key().and_then(|key| self.desks.get(key as usize)).filter(|_| core);
        let by = desk.map_or(By::List(&self.desks), |&desk| By::Desk(desk.into()));
        let given = Given { body: whole.0, heads: whole.1, by };
        let ours = during(&Running("large", &(call, given), where_), || self.ours.call(call, whole, given, &self.list[..lent]));
        let body = self.body.slice(self.len, Placing::Start);
        let theirs = answer_of(call_second(&mut self.second, call, by, body, &mut self.heads, &mut self.state, &mut self.list));
        if let Some(what) = answer_differs(call, given, &ours, &theirs) {
            return Err(what);
        }
        if let Call::Read { key, .. } = *call {
            let ours = during(&Running("large", &("length", key, given), where_), || self.ours.length(key, whole, given));
            let told = self.second.length(self.body.slice(self.len, Placing::Start), &self.heads, &self.state, asked(key, by));
            if let Some(what) = length_differs(key, given, &ours, told) {
                return Err(what);
            }
        }
        match self.left(lent) {
            Some(what) => Err(format!("{call:?}: answers {} and leaves another {what}", ours.refusal)),
            None => Ok(theirs),
        }
    }

    /// Has both judge the book with a work list of a length.
    pub fn check(&mut self, room: usize, where_: &str) -> Result<Result<Verdict, u32>, String> {
        let check = Check { body: self.len, heads: self.heads.len(), desks: self.desks.clone(), room };
        work_list(room, &mut self.work);
        let ours = during(&Running("large", &check, where_), || self.ours.check(&check, (self.len, self.heads.len()), &self.work));
        let judged = self.second.check(self.body.slice(self.len, Placing::Start), &self.heads, &self.state, &self.desks, &mut self.work);
        let judged = judged.map_err(Refused::number);
        if let Some(what) = verdict_differs(&check, ours, &judged) {
            return Err(what);
        }
        match self.left(0).or_else(|| self.ours.work_left(&self.work)) {
            Some(what) => Err(format!("{check:?}: judges {ours:?} and leaves another {what}")),
            None => Ok(judged),
        }
    }

    /// What differs of all that the books hold.
    fn left(&self, lent: usize) -> Option<String> {
        let (ours, theirs) = (self.ours.body.slice::<u8>(self.len, Placing::Start), self.body.slice::<u8>(self.len, Placing::Start));
        let body = self.windows.iter().find_map(|w| place_of(&ours[w.clone()], &theirs[w.clone()]).map(|at| w.start + at));
        let body = body.map(|at| format!("byte {at} of the body"));
        body.or_else(|| self.ours.words_left(&self.heads, &self.state, &self.list[..lent]))
    }
}

/// Where a block of a class ends.
pub fn end_of(class: u8, off: u64) -> u64 {
    off + if class == PAGE_CLASS { PAGE as u64 } else { slab_bytes(class) }
}
