//! A second account book, to hold ours against: the rules of docs/FORMAT.md over the published source's functions on head words, streams, slabs,
//! pages, free lists and cutting. It judges everything before it writes anything, so that a refused call has changed nothing.
pub mod desks;
pub mod keys;
pub mod runs;
pub mod space;
pub mod start;

use crate::second_book::desks::{At, By, Counts, Limits, DESKS};
use crate::second_book::keys::{Ground, Held, Key};
use crate::second_book::runs::Stray;
use crate::second_book::space::{release, release_pages, take, State, Take, PAGE};
use oracle::scripthash_layout::{pack8, slab_bytes, slab_cap, unpack8, ShHeadValue};
use oracle::scripthash_pages as pages;
use oracle::scripthash_slabs::{encode_slab_payload_into, slab_class_for_n_fks_with_slack, slab_class_for_packed_len};
use oracle::{uleb128_len, write_uleb128_into, Fk};

/// The most numbers that one load offers, that a slab holds, and the most bytes of a slab's payload.
const MOST_LOADED: usize = 65_535;
const MOST_IN_SLAB: usize = 256;
const MOST_PAYLOAD: usize = 2048;
/// The least and the most bytes of a body, and the most heads.
const LEAST_BODY: usize = 8192;
pub const MOST_BODY: usize = 1 << 41;
const MOST_HEADS: usize = 65_536;
/// Numbers in a book are below this.
pub const LIMIT: u64 = 1 << 62;

/// How a load's slab fits its list: with a slot for one number more, as a load does that says nothing else, or tight.
#[derive(Clone, Copy, Debug, PartialEq, Eq)]
pub enum Fit {
    Spare,
    Tight,
}

/// Why a call is turned back: a refusal's number, and for 31 and 42 on what ground.
#[derive(Clone, Copy, Debug, PartialEq, Eq)]
pub enum Refused {
    Number(u32),
    Unsound(Ground),
    Strays(Stray),
}

impl Refused {
    pub fn number(self) -> u32 {
        match self {
            Refused::Number(number) => number,
            Refused::Unsound(_) => 31,
            Refused::Strays(_) => 42,
        }
    }
}

impl From<Ground> for Refused {
    fn from(ground: Ground) -> Refused {
        Refused::Unsound(ground)
    }
}

/// What an append answers: the key's new place, and the records rewritten.
#[derive(Clone, Debug, PartialEq, Eq)]
pub struct Appended {
    pub place: ShHeadValue,
    pub rewritten: u64,
}

/// What an extend answers: how many numbers were appended, why the next one was refused, the key's place then, how many of the appends moved
/// the list, and the records that these rewrote.
#[derive(Clone, Debug, PartialEq, Eq)]
pub struct Extended {
    pub count: u64,
    pub refused: Option<Refused>,
    pub place: ShHeadValue,
    pub moves: u64,
    pub rewritten: u64,
}

impl Extended {
    /// The refusal's number, or 0.
    pub fn refusal(&self) -> u32 {
        self.refused.map_or(0, Refused::number)
    }
}

/// What a read answers; the list itself is in the book's key.
#[derive(Clone, Copy, Debug, PartialEq, Eq)]
pub struct Listed {
    pub length: u64,
    pub pages: u64,
}

/// The book's own memory: what the key that a call is about holds.
#[derive(Default)]
pub struct SecondBook {
    pub key: Key,
    /// The list that moved last, or was to.
    pub list: Vec<u64>,
}

/// 1: the lengths of body and heads.
fn lengths(body: &[u8], heads: &[u64]) -> Result<(), Refused> {
    let good = body.len().is_multiple_of(PAGE) && (LEAST_BODY..=MOST_BODY).contains(&body.len());
    if good && (1..=MOST_HEADS).contains(&heads.len()) {
        Ok(())
    } else {
        Err(Refused::Number(1))
    }
}

/// 1: the shape of the book, which is its lengths and its mark.
fn limits(body: &[u8], heads: &[u64], mark: u64) -> Result<(), Refused> {
    lengths(body, heads)?;
    if !mark.is_multiple_of(16) || mark < 4096 || mark > body.len() as u64 {
        return Err(Refused::Number(1));
    }
    Ok(())
}

/// 1 and 39: the shape of the book with its counts, and the list of desks.
fn listed(body: &[u8], heads: &[u64], state: &State, list: &[u8]) -> Result<(), Refused> {
    limits(body, heads, state.mark)?;
    state.counts.fit(body.len())?;
    desks::list_fits(list, heads.len())
}

/// 1, 39 and 2: the shape of the book, the desks, and the key, whose desk it tells. The core judges counts only where it uses them.
fn shape(body: &[u8], heads: &[u64], state: &State, at: At) -> Result<usize, Refused> {
    match at.by {
        By::List(list) => listed(body, heads, state, list)?,
        By::Desk(desk) => {
            limits(body, heads, state.mark)?;
            if desk >= DESKS as u64 {
                return Err(Refused::Number(39));
            }
        }
    }
    if at.key >= heads.len() as u64 {
        return Err(Refused::Number(2));
    }
    Ok(match at.by {
        By::List(list) => list[at.key as usize].into(),
        By::Desk(desk) => desk as usize,
    })
}

/// 12 to 14: a first or only number that is offered.
fn first_number(fk: u64) -> Result<(), Refused> {
    match fk {
        0 => Err(Refused::Number(12)),
        _ => next_number(fk),
    }
}

/// 13 and 14: any number that is offered.
fn next_number(fk: u64) -> Result<(), Refused> {
    match fk {
        _ if fk >> 63 != 0 => Err(Refused::Number(13)),
        _ if fk >= LIMIT => Err(Refused::Number(14)),
        _ => Ok(()),
    }
}

/// 32: a number must be above the one before.
fn rises(fk: u64, before: u64) -> Result<(), Refused> {
    if fk > before {
        Ok(())
    } else {
        Err(Refused::Number(32))
    }
}

/// The bytes of a list's payload in a slab, in shortest forms.
pub fn payload_len(fks: &[u64]) -> usize {
    let before = std::iter::once(&0).chain(fks);
    2 + fks.iter().zip(before).map(|(fk, last)| uleb128_len(fk - last)).sum::<usize>()
}

/// Whether a list goes to pages: it has more than 256 numbers, or its payload more than 2,048 bytes.
pub fn goes_to_pages(fks: &[u64]) -> bool {
    fks.len() > MOST_IN_SLAB || payload_len(fks) > MOST_PAYLOAD
}

/// The class of the smallest slab that has the bytes for a list, which doesn't go to pages.
pub fn class_by_bytes(fks: &[u64]) -> u8 {
    slab_class_for_packed_len(payload_len(fks)).expect("a class of so many bytes")
}

/// The class of the smallest slab that has those bytes and a slot for one number more; 256 numbers have the class of 256 slots.
pub fn class_with_slot(fks: &[u64]) -> u8 {
    let by_count = slab_class_for_n_fks_with_slack(fks.len() as u32).expect("a class of so many numbers");
    by_count.max(class_by_bytes(fks))
}

/// The page of a body at an offset.
pub fn page_mut(body: &mut [u8], off: u64) -> &mut [u8; PAGE] {
    pages::sh_page_as_array_mut(&mut body[off as usize..off as usize + PAGE]).expect("a page of a body")
}

/// The word of a place that a book chose.
fn word(place: &ShHeadValue) -> u64 {
    pack8(place).expect("a place within a body has a word")
}

/// Writes a list that moved to a last page of its own.
fn put_only_page(body: &mut [u8], off: u64, fks: &[u64]) {
    let page = page_mut(body, off);
    pages::sh_page_pack_extent_last_fks(page, fks, off, 1, 0).expect("a moved list fits a page");
    pages::sh_page_set_extent_creates(page, fks.len() as u32);
}

impl SecondBook {
    /// Makes a book fresh for desks with limits: heads, free heads, freed and held pages 0, the mark 4,096, the body as it is.
    pub fn fresh(&mut self, body: &[u8], heads: &mut [u64], state: &mut State, list: &[u8], given: &Limits) -> Result<(), Refused> {
        lengths(body, heads)?;
        desks::reserves_fit(body.len(), given)?;
        desks::list_fits(list, heads.len())?;
        desks::limits_fit(body.len(), given)?;
        heads.fill(0);
        *state = State { mark: 4096, free: [0; 9], counts: Counts::fresh(*given) };
        Ok(())
    }

    /// Loads a list onto an empty key, in a slab that fits it as asked, and tells how many pages it takes.
    pub fn load(&mut self, body: &mut [u8], heads: &mut [u64], state: &mut State, at: At, fks: &[u64], fit: Fit) -> Result<u64, Refused> {
        let desk = shape(body, heads, state, at)?;
        let head = &mut heads[at.key as usize];
        if *head != 0 {
            return Err(Refused::Number(3));
        }
        if fks.len() > MOST_LOADED {
            return Err(Refused::Number(10));
        }
        for (k, &fk) in fks.iter().enumerate() {
            if k == 0 {
                first_number(fk)?;
            } else {
                next_number(fk)?;
                rises(fk, fks[k - 1])?;
            }
        }
        match fks {
            [] => Ok(0),
            [fk] => {
                *head = word(&ShHeadValue::inline_one(Fk(*fk)));
                Ok(0)
            }
            _ if goes_to_pages(fks) => {
                let (last, count) = put_run(body, state, desk, fks)?;
                *head = word(&ShHeadValue::extent(last));
                Ok(count)
            }
            _ => {
                let class = match fit {
                    Fit::Spare => class_with_slot(fks),
                    Fit::Tight => class_by_bytes(fks),
                };
                *head = word(&put_slab(body, state, desk, class, fks)?);
                Ok(0)
            }
        }
    }

    /// Appends a number to a key.
    pub fn append(&mut self, body: &mut [u8], heads: &mut [u64], state: &mut State, at: At, fk: u64) -> Result<Appended, Refused> {
        let desk = shape(body, heads, state, at)?;
        first_number(fk)?;
        let held = self.key.end(body, state.mark, heads[at.key as usize])?;
        let stayed = |place| Ok(Appended { place, rewritten: 0 });
        let answer = match held {
            Held::Empty => stayed(ShHeadValue::inline_one(Fk(fk))),
            Held::Inline => self.moves(body, state, desk, fk, None),
            Held::Slab { class, off, taken } => {
                let last = self.key.last();
                rises(fk, last)?;
                let (n, len) = (self.key.fks.len() + 1, uleb128_len(fk - last));
                let fits = n <= MOST_IN_SLAB && n <= slab_cap(class) as usize && 2 + taken + len <= slab_bytes(class) as usize;
                if fits {
                    let slab = &mut body[off as usize..][..slab_bytes(class) as usize];
                    slab[..2].copy_from_slice(&(n as u16).to_le_bytes());
                    write_uleb128_into(&mut slab[2 + taken..], fk - last).expect("the number fits");
                    stayed(ShHeadValue::slab(class, n as u16, off))
                } else {
                    self.moves(body, state, desk, fk, Some((class, off)))
                }
            }
            Held::Pages { last: off } => {
                rises(fk, self.key.last())?;
                append_page(body, state, desk, off, fk).and_then(|last| stayed(ShHeadValue::extent(last)))
            }
        }?;
        heads[at.key as usize] = word(&answer.place);
        Ok(answer)
    }

    /// Appends numbers to a key, each as an append that is told its desk, until one is refused. The key is judged first, as an append judges
    /// it.
    pub fn extend(&mut self, body: &mut [u8], heads: &mut [u64], state: &mut State, at: At, fks: &[u64]) -> Result<Extended, Refused> {
        let desk = shape(body, heads, state, at)?;
        let head = heads[at.key as usize];
        self.key.end(body, state.mark, head)?;
        let by = At { key: at.key, by: By::Desk(desk as u64) };
        let mut out = Extended { count: 0, refused: None, place: unpack8(head).expect("a key that was judged"), moves: 0, rewritten: 0 };
        for &fk in fks {
            match self.append(body, heads, state, by, fk) {
                Ok(Appended { place, rewritten }) => {
                    out.count += 1;
                    out.place = place;
                    out.moves += u64::from(rewritten > 0);
                    out.rewritten += rewritten;
                }
                Err(refused) => {
                    out.refused = Some(refused);
                    break;
                }
            }
        }
        Ok(out)
    }

    /// Moves the key's list, with a number more, to a slab or a page; the old slab is freed last.
    fn moves(&mut self, body: &mut [u8], state: &mut State, desk: usize, fk: u64, old: Option<(u8, u64)>) -> Result<Appended, Refused> {
        rises(fk, self.key.last())?;
        let rewritten = self.key.fks.len() as u64;
        self.list.clear();
        self.list.extend(self.key.fks.iter().map(|fk| fk.0));
        self.list.push(fk);
        let place = if goes_to_pages(&self.list) {
            let off = take(body, state, desk, Take::Page)?;
            put_only_page(body, off, &self.list);
            ShHeadValue::extent(off)
        } else {
            put_slab(body, state, desk, class_with_slot(&self.list), &self.list)?
        };
        if let Some((class, off)) = old {
            release(body, state, class, off);
        }
        Ok(Appended { place, rewritten })
    }

    /// Reads a key: its list is then in `key`, and goes to the start of what is lent.
    pub fn read(&mut self, body: &[u8], heads: &[u64], state: &State, at: At, out: &mut [u64]) -> Result<Listed, Refused> {
        shape(body, heads, state, at)?;
        self.key.whole(body, state.mark, heads[at.key as usize])?;
        if out.len() < self.key.fks.len() {
            return Err(Refused::Number(34));
        }
        out.iter_mut().zip(&self.key.fks).for_each(|(place, fk)| *place = fk.0);
        Ok(Listed { length: self.key.fks.len() as u64, pages: self.key.pages.len() as u64 })
    }

    /// How many numbers a key has: its list is then in `key`.
    pub fn length(&mut self, body: &[u8], heads: &[u64], state: &State, at: At) -> Result<u64, Refused> {
        shape(body, heads, state, at)?;
        self.key.whole(body, state.mark, heads[at.key as usize])?;
        Ok(self.key.fks.len() as u64)
    }

    /// How many numbers are padded of the key that was read last. A read doesn't count them itself: the published functions don't, and it
    /// is by them that ours is measured.
    pub fn padded(&self, body: &[u8], heads: &[u64], key: u64) -> u64 {
        self.key.padded(body, heads[key as usize])
    }

    /// Drops a key, and tells how many numbers it had.
    pub fn drop(&mut self, body: &mut [u8], heads: &mut [u64], state: &mut State, at: At) -> Result<u64, Refused> {
        let desk = shape(body, heads, state, at)?;
        let held = self.key.whole(body, state.mark, heads[at.key as usize])?;
        match held {
            Held::Empty | Held::Inline => {}
            Held::Slab { class, off, .. } => release(body, state, class, off),
            Held::Pages { .. } => release_pages(body, state, desk, &self.key.pages)?,
        }
        heads[at.key as usize] = 0;
        Ok(self.key.fks.len() as u64)
    }
}

/// Takes a slab of a class and fills it; what is behind the payload stays.
fn put_slab(body: &mut [u8], state: &mut State, desk: usize, class: u8, fks: &[u64]) -> Result<ShHeadValue, Refused> {
    let off = take(body, state, desk, Take::Slab(class))?;
    encode_slab_payload_into(&mut body[off as usize..][..slab_bytes(class) as usize], fks).expect("the list fits its slab");
    Ok(ShHeadValue::slab(class, fks.len() as u16, off))
}

/// Writes a list to a run of pages, each linked to the next, and tells the last one and how many there are.
fn put_run(body: &mut [u8], state: &mut State, desk: usize, fks: &[u64]) -> Result<(u64, u64), Refused> {
    let numbers: Vec<Fk> = fks.iter().map(|fk| Fk(*fk)).collect();
    let parts = pages::sh_page_chunk_ranges(&numbers).expect("a list that can be cut");
    let base = take(body, state, desk, Take::Run(parts.len() as u64))?;
    let mut off = base;
    for (k, &(start, end)) in parts.iter().enumerate() {
        let page = page_mut(body, off);
        if k + 1 < parts.len() {
            off += PAGE as u64;
            pages::sh_page_pack_fks(page, &fks[start..end], off).expect("a part fits its page");
        } else {
            pages::sh_page_pack_extent_last_fks(page, &fks[start..end], base, parts.len() as u32, 0).expect("the last part fits its page");
            pages::sh_page_set_extent_creates(page, fks.len() as u32);
        }
    }
    Ok((off, parts.len() as u64))
}

/// Appends a number to the last page of a chain, or where that is full to a page that is taken, and tells which is the last one then. A
/// total that was never counted, 0, stays unknown; one that four bytes can't hold becomes so.
fn append_page(body: &mut [u8], state: &mut State, desk: usize, off: u64, fk: u64) -> Result<u64, Refused> {
    let page = page_mut(body, off);
    let creates = match pages::sh_page_extent_creates(page) {
        0 => 0,
        n => n.checked_add(1).unwrap_or(0),
    };
    if pages::sh_page_try_append(page, Fk(fk)).expect("a sound page") {
        pages::sh_page_set_extent_creates(page, creates);
        return Ok(off);
    }
    let first = pages::sh_page_first_off(page).expect("a last page");
    let new = take(body, state, desk, Take::Page)?;
    let old = page_mut(body, off);
    pages::sh_page_set_next(old, new).expect("a page of the body");
    pages::sh_page_set_extent_creates(old, 0);
    let page = page_mut(body, new);
    pages::sh_page_pack_extent_last_fks(page, &[fk], new, 1, 0).expect("one number fits a page");
    pages::sh_page_set_last(page, first).expect("a page that a link named");
    pages::sh_page_set_extent_creates(page, creates);
    Ok(new)
}

#[cfg(test)]
mod desk_tests;
#[cfg(test)]
mod run_tests;
#[cfg(test)]
mod tests;
