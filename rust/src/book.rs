//! The account book.
use crate::desks::Desks;
use crate::limits::{PAGE_BYTES, WORK_UNIT};
use crate::state::State;
use crate::walk::{Lists, Places};
use crate::{answer, codec, start, sys, OpenError, Place, Refusal, StartError};
use alloc::borrow::Cow;
use alloc::vec;
use alloc::vec::Vec;
use core::fmt;

/// For how many numbers a read takes room by fields that nothing has judged: half a MiB.
const MOST_GUESSED: usize = 65_536;

/// What an accepted append tells.
#[derive(Clone, Copy, Debug, PartialEq, Eq)]
pub struct Appended {
    /// Where the list stands now.
    pub place: Place,
    /// How many numbers were written anew because the list moved, 0 where it stayed.
    pub rewritten: u64,
}

/// What an accepted extend tells.
#[derive(Clone, Copy, Debug, PartialEq, Eq)]
#[must_use = "only the first `accepted` numbers are recorded"]
pub struct Extended {
    /// How many of the numbers are recorded now: so many from the first on.
    pub accepted: usize,
    /// Why the next number was refused; none where all are recorded.
    pub stopped: Option<Refusal>,
    /// Where the list stands now.
    pub place: Place,
    /// How many of the numbers moved the list.
    pub moves: u64,
    /// How many numbers these moves wrote anew, summed.
    pub rewritten: u64,
}

/// What an accepted read tells of the lent list.
#[derive(Clone, Copy, Debug, PartialEq, Eq)]
#[must_use = "only the first `length` numbers of the lent list are the account's"]
pub struct Listed {
    /// How many numbers the account has: so many stand at the start of the lent list now.
    pub length: usize,
    /// How many pages they stand in.
    pub pages: u64,
    /// How many of them are padded: stored in a longer form than the shortest. They aren't wrong, and only other software writes them: the
    /// count is 0 of an account that this book's calls filled. A list that is dropped and loaded anew has none.
    pub padded: u64,
}

/// An account book over a body of bytes and one head word for each account, which it owns or borrows.
///
/// An account is named by its key, the index of its head word. `B` and `H` may be vectors, boxes, arrays, mapped files or mutable borrows;
/// a book over shared borrows can be read. Lengths are checked by each call: see [`crate::limits`].
///
/// ```
/// use ouriscado::{Book, Refusal};
///
/// let (mut body, mut heads) = (vec![0xff; 8192], [0; 2]); // a body may hold anything
/// let mut book = Book::fresh(&mut body[..], &mut heads[..])?;
/// book.load(1, &[7, 8, 9])?;
/// let (_, _, state) = book.into_parts();
///
/// let again = Book::from_parts(&body[..], &heads[..], state); // borrowed, to be read
/// assert_eq!(again.read(1)?, [7, 8, 9]);
/// # Ok::<(), Refusal>(())
/// ```
#[derive(Clone, PartialEq, Eq)]
pub struct Book<B, H> {
    pub(crate) body: B,
    pub(crate) heads: H,
    state: State,
    pub(crate) desks: Vec<u8>,
}

/// The lengths and the state: a body may be large.
impl<B: AsRef<[u8]>, H: AsRef<[u64]>> fmt::Debug for Book<B, H> {
    fn fmt(&self, f: &mut fmt::Formatter<'_>) -> fmt::Result {
        let (bytes, keys) = (self.body().len(), self.heads().len());
        f.debug_struct("Book").field("body_bytes", &bytes).field("heads", &keys).field("state", &self.state.0).finish()
    }
}

impl<B, H> Book<B, H> {
    /// A book of a body, head words and a state that belong together: those that [`Book::into_parts`] gave, or copies of them.
    ///
    /// Nothing is checked here. Each call checks the book's shape, and of its account all that it reads. [`Book::open`] checks all of it
    /// once. The book has no desks: every account is desk 0's.
    pub fn from_parts(body: B, heads: H, state: State) -> Self {
        Book { body, heads, state, desks: Vec::new() }
    }

    /// A book as [`Book::from_parts`] gives it, with the list of its desks, which belongs to the head words: a byte for each. An empty list is
    /// that of a book without desks.
    pub fn from_parts_with(body: B, heads: H, state: State, desks: Vec<u8>) -> Self {
        Book { body, heads, state, desks }
    }

    /// The body, the head words and the state. Without the state, body and head words are no book. That of a book with desks needs their list
    /// too: see [`Book::into_parts_with`].
    #[must_use = "without its state a body is no book"]
    pub fn into_parts(self) -> (B, H, State) {
        (self.body, self.heads, self.state)
    }

    /// The body, the head words, the state and the list of desks, which is empty of a book without desks.
    #[must_use = "without its state and desks a body is no book"]
    pub fn into_parts_with(self) -> (B, H, State, Vec<u8>) {
        (self.body, self.heads, self.state, self.desks)
    }

    /// The list of desks: a byte for each account; it is empty of a book without desks, whose accounts are all desk 0's.
    #[must_use]
    pub fn desks(&self) -> &[u8] {
        &self.desks
    }

    /// The state.
    #[must_use]
    pub fn state(&self) -> &State {
        &self.state
    }
}

impl<B: AsRef<[u8]>, H: AsRef<[u64]>> Book<B, H> {
    /// Makes a book in which nothing is recorded: every head word becomes 0. The body stays as it is, and may hold anything. The book has no
    /// desks: [`Book::fresh_with`] makes one that has.
    ///
    /// # Errors
    ///
    /// [`Refusal::ShapeBad`] where the body's length or the count of head words is outside the [limits](crate::limits).
    pub fn fresh(body: B, heads: H) -> Result<Self, Refusal>
    where
        H: AsMut<[u64]>,
    {
        Self::fresh_with(body, heads, Desks::default())
    }

    /// Makes a book as [`Book::fresh`] does, whose accounts are those of desks: each has a reserve, the pages that are kept for it, and a
    /// ceiling, the most that it gets.
    ///
    /// ```
    /// use ouriscado::{Book, Desks, Refusal};
    ///
    /// // Two accounts of desk 0, and one of desk 1, for which a page is kept.
    /// let desks = Desks::new(vec![0, 0, 1]).ceiling(0, 2).reserve(1, 1);
    /// let mut book = Book::fresh_with(vec![0; 4 * 4096], vec![0; 3], desks)?; // three pages for lists
    /// let month: Vec<u64> = (1..=300).collect();
    /// book.load(0, &month)?;
    /// book.load(1, &month)?;
    /// assert_eq!(book.load(0, &[1]), Err(Refusal::KeyInUse));
    /// assert_eq!((book.state().held_pages(0), book.state().held_pages(1)), (2, 0));
    /// book.load(2, &month)?; // the page that was kept
    /// # Ok::<(), Refusal>(())
    /// ```
    ///
    /// # Errors
    ///
    /// [`Refusal::ShapeBad`] as of [`Book::fresh`], and where a reserve is above the body's pages; [`Refusal::DesksBad`] where the list is of
    /// another length than the head words, or names a desk above 15, the reserves are more than the pages to be had, which are all but the
    /// first, or one is above its ceiling.
    pub fn fresh_with(body: B, mut heads: H, desks: Desks) -> Result<Self, Refusal>
    where
        H: AsMut<[u64]>,
    {
        let mut state = State::default();
        let (mark, free, counts) = state.lent();
        let Desks { list, reserve, ceiling } = desks;
        let whole = whole_list(&list, heads.as_ref().len());
        let number = sys::book_fresh(body.as_ref(), heads.as_mut(), mark, free, counts, &whole, &reserve, &ceiling);
        drop(whole);
        answer(number, ()).map(|()| Book { body, heads, state, desks: list })
    }

    /// A book of a body, head words and a state from elsewhere, as from a file: it is judged as [`Book::check`] does, and opened only where
    /// it is a good start. From then on, while nobody else writes it, each read gives exactly what was recorded or is refused, with the
    /// lists that stand in it now as already recorded.
    ///
    /// ```
    /// use ouriscado::{Book, StartError};
    ///
    /// let mut book = Book::fresh(vec![0; 8192], vec![0; 2])?;
    /// book.load(0, &[7, 9])?;
    /// let (body, heads, state) = book.into_parts();
    ///
    /// let mut again = Book::open(body.clone(), heads.clone(), state)?;
    /// again.append(0, 11)?;
    /// assert_eq!(again.read(0)?, [7, 9, 11]);
    ///
    /// let both = vec![heads[0], heads[0]]; // two accounts in one slab
    /// let error = Book::open(body, both, state).unwrap_err();
    /// assert_eq!(error.why, StartError::KeyShares { key: 1 });
    /// let mended = Book::open(error.body, heads, error.state)?; // what was handed over comes back
    /// assert_eq!(mended.read(0)?, [7, 9]);
    /// # Ok::<(), Box<dyn std::error::Error>>(())
    /// ```
    ///
    /// # Errors
    ///
    /// [`OpenError`], with the reason, a [`StartError`], and with body, head words and state as they were handed over.
    #[allow(clippy::result_large_err)] // what was handed over comes back
    pub fn open(body: B, heads: H, state: State) -> Result<Self, OpenError<B, H>> {
        Self::open_with(body, heads, state, Vec::new())
    }

    /// A book from elsewhere as [`Book::open`] judges and opens it, with the list of its desks.
    ///
    /// # Errors
    ///
    /// [`OpenError`], with the reason, a [`StartError`], and with what was handed over.
    #[allow(clippy::result_large_err)] // what was handed over comes back
    pub fn open_with(body: B, heads: H, state: State, desks: Vec<u8>) -> Result<Self, OpenError<B, H>> {
        let book = Book { body, heads, state, desks };
        match book.check() {
            Ok(_) => Ok(book),
            Err(why) => Err(OpenError { why, body: book.body, heads: book.heads, state: book.state, desks: book.desks }),
        }
    }

    /// Judges whether the book is a good start: every account is sound, every list of freed blocks ends and names only offsets where its
    /// blocks can stand, no two blocks, in use or freed, share a byte, and the counts of pages are true and within the desks' limits. Nothing
    /// is changed; a 128th of the body's length is allocated
    /// for the time of the call, which is 8 MiB for a body of 2^30 bytes, 8 GiB for one of 2^40 and 16 GiB for the largest.
    ///
    /// Of a good start it tells how many units of 16 bytes belong to nobody. They are 0 in a book that began with [`Book::fresh`], and no call
    /// changes them; save that of a start whose mark is past [`SLABS_END`](crate::limits::SLABS_END) and within a page, the rest of that page
    /// belongs to nobody once the next is taken. A head word that was lost, so that its account reads as empty, shows by the units of its slab or pages, and the head of
    /// a list of freed blocks by theirs. An account with one number takes no block, and its loss can't show: 0 doesn't say that no word was
    /// lost. The files of other software may have such units: they are no fault.
    ///
    /// ```
    /// use ouriscado::Book;
    ///
    /// let mut book = Book::fresh(vec![0; 8192], vec![0; 2])?;
    /// book.load(0, &[7, 9])?; // in a slab of 16 bytes
    /// book.load(1, &[8])?; // in the head word
    /// let (body, heads, state) = book.into_parts();
    ///
    /// let check = |heads| Book::from_parts(&body[..], heads, state).check();
    /// assert_eq!(check([heads[0], heads[1]])?, 0);
    /// assert_eq!(check([0, heads[1]])?, 1);
    /// assert_eq!(check([heads[0], 0])?, 0);
    /// # Ok::<(), Box<dyn std::error::Error>>(())
    /// ```
    ///
    /// # Errors
    ///
    /// [`StartError`], with the first fault.
    pub fn check(&self) -> Result<u64, StartError> {
        let mut work = vec![0; self.body().len() / WORK_UNIT];
        let (mut ground, mut which, mut lost) = (0, 0, 0);
        let (mark, free, counts) = self.state.parts();
        let desks = whole_list(&self.desks, self.heads().len());
        let number = sys::book_check(self.body(), self.heads(), mark, free, counts, &desks, &mut work, &mut ground, &mut which, &mut lost);
        answer(number, ()).map_err(StartError::Refused)?;
        start::judged(ground, which).map(|()| lost)
    }

    /// The body.
    #[must_use]
    pub fn body(&self) -> &[u8] {
        self.body.as_ref()
    }

    /// The head words, one for each account.
    #[must_use]
    pub fn heads(&self) -> &[u64] {
        self.heads.as_ref()
    }

    /// The list of an account. An empty one says that nothing is recorded.
    ///
    /// ```
    /// use ouriscado::{Book, Refusal};
    ///
    /// let mut book = Book::fresh(vec![0; 1 << 20], vec![0; 1])?;
    /// let day: Vec<u64> = (1..=10_000).collect();
    /// book.load(0, &day)?;
    /// assert_eq!(book.read(0)?, day);
    /// assert_eq!(book.read(1), Err(Refusal::KeyBeyond));
    /// # Ok::<(), Refusal>(())
    /// ```
    ///
    /// # Errors
    ///
    /// [`Refusal::ShapeBad`], [`Refusal::KeyBeyond`] and [`Refusal::KeyUnsound`]. None of them says that the account is empty.
    pub fn read(&self, key: u64) -> Result<Vec<u64>, Refusal> {
        self.read_told(key).map(|(list, _)| list)
    }

    /// The list of an account as [`Book::read`] gives it, with what [`Book::read_into`] tells of it.
    ///
    /// ```
    /// use ouriscado::{Book, Refusal};
    ///
    /// let mut book = Book::fresh(vec![0; 8192], vec![0; 1])?;
    /// book.load(0, &[7, 9])?;
    /// let (list, told) = book.read_told(0)?;
    /// assert_eq!((list, told.pages, told.padded), (vec![7, 9], 0, 0));
    /// # Ok::<(), Refusal>(())
    /// ```
    ///
    /// # Errors
    ///
    /// Those of [`Book::read`].
    pub fn read_told(&self, key: u64) -> Result<(Vec<u64>, Listed), Refusal> {
        let likely = self.likely_length(key).filter(|&likely| likely <= MOST_GUESSED);
        let mut list = vec![0; likely.map_or_else(|| self.length(key), Ok)?];
        let listed = self.read_into(key, &mut list)?;
        list.truncate(listed.length);
        Ok((list, listed))
    }

    /// How long an account's list is by its head word and its last page, which nothing has judged, where they say it: of a sound account it
    /// is the length.
    fn likely_length(&self, key: u64) -> Option<usize> {
        match self.place(key).ok()? {
            Place::Empty => Some(0),
            Place::Inline(_) => Some(1),
            Place::Slab { used, .. } => Some(usize::from(used)),
            Place::Pages { last } => codec::sh_page_extent_creates(self.page(last)?).ok().filter(|&n| n > 0).map(|n| n as usize),
        }
    }

    /// The page at an offset, where the body has it.
    fn page(&self, offset: u64) -> Option<&[u8]> {
        let start = usize::try_from(offset).ok()?;
        self.body().get(start..start.checked_add(PAGE_BYTES)?)
    }

    /// Reads the list of an account to the start of `out`, and tells how long it is. What stands behind it in `out` stays.
    ///
    /// ```
    /// use ouriscado::{Book, Refusal};
    ///
    /// let mut book = Book::fresh(vec![0; 8192], vec![0; 1])?;
    /// book.load(0, &[7, 9])?;
    /// let mut out = [0; 4];
    /// let listed = book.read_into(0, &mut out)?;
    /// assert_eq!(out[..listed.length], [7, 9]);
    /// assert_eq!(book.read_into(0, &mut out[..1]), Err(Refusal::ListTooShort));
    /// # Ok::<(), Refusal>(())
    /// ```
    ///
    /// # Errors
    ///
    /// [`Refusal::ShapeBad`]; [`Refusal::KeyBeyond`]; [`Refusal::KeyUnsound`]; and [`Refusal::ListTooShort`] where `out` doesn't hold the
    /// whole list: the account isn't empty then, and `out` is as it was.
    pub fn read_into(&self, key: u64, out: &mut [u64]) -> Result<Listed, Refusal> {
        let (mut length, mut pages, mut padded) = (0, 0, 0);
        let number = sys::core_read(self.body(), self.heads(), self.state.mark(), key, out, &mut length, &mut pages, &mut padded);
        answer(number, Listed { length: length as usize, pages, padded })
    }

    /// How long the list of an account is: a list of that length isn't too short for [`Book::read_into`]. All of the account is judged, as a
    /// read judges it; where room is at hand, a read alone takes less time than both.
    ///
    /// ```
    /// use ouriscado::{Book, Refusal};
    ///
    /// let mut book = Book::fresh(vec![0; 8192], vec![0; 2])?;
    /// book.load(0, &[7, 9])?;
    /// assert_eq!((book.length(0), book.length(1), book.length(2)), (Ok(2), Ok(0), Err(Refusal::KeyBeyond)));
    ///
    /// let mut out = vec![0; book.length(0)?];
    /// book.read_into(0, &mut out)?;
    /// assert_eq!(out, [7, 9]);
    /// # Ok::<(), Refusal>(())
    /// ```
    ///
    /// # Errors
    ///
    /// [`Refusal::ShapeBad`], [`Refusal::KeyBeyond`] and [`Refusal::KeyUnsound`]. None of them says that the account is empty.
    pub fn length(&self, key: u64) -> Result<usize, Refusal> {
        let mut length = 0;
        let number = sys::core_length(self.body(), self.heads(), self.state.mark(), key, &mut length);
        answer(number, length as usize)
    }

    /// Where the list of an account stands, by its head word alone: what is at that place is judged by a read.
    ///
    /// # Errors
    ///
    /// [`Refusal::KeyBeyond`]; and where the head word is damaged [`Refusal::SlabUsedTooSmall`], [`Refusal::ModeTwo`] and
    /// [`Refusal::ExtentPayloadZero`]: such an account is unknown, never empty.
    pub fn place(&self, key: u64) -> Result<Place, Refusal> {
        let index = usize::try_from(key).map_err(|_| Refusal::KeyBeyond)?;
        let word = self.heads().get(index).ok_or(Refusal::KeyBeyond)?;
        codec::unpack8(*word).map(Place::from)
    }

    /// Where each account's list stands, in the order of the keys, as [`Book::place`] tells it.
    ///
    /// ```
    /// use ouriscado::{Book, Place, Refusal};
    ///
    /// let mut book = Book::fresh(vec![0; 8192], vec![0; 3])?;
    /// book.append(1, 5)?;
    /// book.load(2, &[9, 10])?;
    /// let places: Result<Vec<Place>, Refusal> = book.places().collect();
    /// assert_eq!(places?, [Place::Empty, Place::Inline(5), Place::Slab { class: 0, used: 2, offset: 4096 }]);
    /// # Ok::<(), Refusal>(())
    /// ```
    #[must_use]
    pub fn places(&self) -> Places<'_> {
        Places(self.heads().iter())
    }

    /// Each account with its list, in the order of the keys, as [`Book::read`] gives it. An account whose list is refused is unknown, never
    /// empty; the accounts behind it are read all the same.
    ///
    /// ```
    /// use ouriscado::{Book, Refusal};
    ///
    /// let mut book = Book::fresh(vec![0; 8192], vec![0; 3])?;
    /// book.load(1, &[5, 7])?;
    /// book.append(2, 9)?;
    /// let mut total = 0;
    /// for (key, list) in book.lists() {
    ///     let list = list?; // a refusal ends the count: it must not pass for an empty account
    ///     println!("account {key}: {} records", list.len());
    ///     total += list.len();
    /// }
    /// assert_eq!(total, 3);
    /// # Ok::<(), Refusal>(())
    /// ```
    #[must_use]
    pub fn lists(&self) -> Lists<'_, B, H> {
        Lists { book: self, keys: 0..self.heads().len() }
    }
}

impl<B: AsRef<[u8]> + AsMut<[u8]>, H: AsRef<[u64]> + AsMut<[u64]>> Book<B, H> {
    /// The desk of a key: 0 of one that is beyond the head words, which a call refuses for that; and none's where a list lacks it, which a call
    /// refuses too.
    #[inline]
    fn desk(&self, key: u64) -> u64 {
        match usize::try_from(key).ok().and_then(|key| self.desks.get(key)) {
            Some(&desk) => u64::from(desk),
            None if self.desks.is_empty() || self.heads().len() as u64 <= key => 0,
            None => u64::MAX,
        }
    }

    /// Records a whole list for an account that has none, and tells how many pages it takes, 0 where it needs none. A list without numbers
    /// changes nothing.
    ///
    /// A list of 2 to 255 numbers that goes to a slab has a spare slot there, so that the next append moves it only where its bytes don't
    /// fit. [`Book::load_tight`] leaves no such slot. A list that goes to pages gets the lowest stretch of so many that were freed, or else
    /// pages that were never used.
    ///
    /// # Errors
    ///
    /// [`Refusal::ShapeBad`]; [`Refusal::KeyBeyond`]; [`Refusal::KeyInUse`] where the account has a list; [`Refusal::TooManyOffered`] above
    /// [`MOST_LOADED`](crate::limits::MOST_LOADED) numbers; [`Refusal::OfferedFirstZero`], [`Refusal::OfferedBit63`],
    /// [`Refusal::OfferedTooLarge`] and [`Refusal::OfferedNotRising`] where the numbers are no rising list from 1 to
    /// [`MOST_NUMBER`](crate::limits::MOST_NUMBER); [`Refusal::FreeHeadBad`] where a free head or freed block is damaged, or is a slab that
    /// ends past [`SLABS_END`](crate::limits::SLABS_END); [`Refusal::FreeListBad`] where the list goes to pages and that of freed pages is
    /// damaged, or isn't as long as counted; [`Refusal::NoRoom`], until the book [grows](Book::grow), or of a slab past `SLABS_END` until
    /// one of its class is freed. Of a book with desks also [`Refusal::PastCeiling`], where the account's desk would hold more pages than
    /// its ceiling, and [`Refusal::IntoReserves`], where fewer pages would be left than desks lack of their reserves; [`Refusal::DesksBad`]
    /// where the list that [`Book::from_parts_with`] was given has no desk for the account.
    pub fn load(&mut self, key: u64, numbers: &[u64]) -> Result<u64, Refusal> {
        let mut pages = 0;
        let desk = self.desk(key);
        let (mark, free, counts) = self.state.lent();
        let number = sys::core_load(self.body.as_mut(), self.heads.as_mut(), mark, free, counts, desk, key, numbers, &mut pages);
        answer(number, pages)
    }

    /// Records a whole list as [`Book::load`] does, but tight: in the smallest slab that holds its bytes. This is for lists that nothing more is
    /// appended to, as those of a closed year; the two loads may be mixed in one book.
    ///
    /// ```
    /// use ouriscado::{Book, Place, Refusal};
    ///
    /// let mut book = Book::fresh(vec![0; 8192], vec![0; 2])?;
    /// book.load(0, &[1, 2, 3, 4])?; // in a slab of 32 bytes, which has 8 slots
    /// book.load_tight(1, &[1, 2, 3, 4])?; // in one of 16 bytes, which has 4
    /// assert_eq!(book.place(0)?, Place::Slab { class: 1, used: 4, offset: 4096 });
    /// assert_eq!(book.place(1)?, Place::Slab { class: 0, used: 4, offset: 4128 });
    /// assert_eq!(book.append(0, 5)?.rewritten, 0);
    /// assert_eq!(book.append(1, 5)?.rewritten, 4); // it moved
    /// # Ok::<(), Refusal>(())
    /// ```
    ///
    /// # Errors
    ///
    /// Those of [`Book::load`]; [`Refusal::FreeHeadBad`] and [`Refusal::NoRoom`] are of the class that the tight slab has.
    pub fn load_tight(&mut self, key: u64, numbers: &[u64]) -> Result<u64, Refusal> {
        let mut pages = 0;
        let desk = self.desk(key);
        let (mark, free, counts) = self.state.lent();
        let number = sys::core_load_tight(self.body.as_mut(), self.heads.as_mut(), mark, free, counts, desk, key, numbers, &mut pages);
        answer(number, pages)
    }

    /// Records one more number for an account, and tells where its list stands now.
    ///
    /// The number is recorded only where the result is `Ok`:
    ///
    /// ```
    /// use ouriscado::{Book, Refusal};
    ///
    /// let mut book = Book::fresh(vec![0; 8192], vec![0; 1])?;
    /// book.append(0, 300)?;
    /// assert_eq!(book.append(0, 300), Err(Refusal::OfferedNotRising)); // recorded already
    /// # Ok::<(), Refusal>(())
    /// ```
    ///
    /// # Errors
    ///
    /// [`Refusal::ShapeBad`]; [`Refusal::KeyBeyond`]; [`Refusal::OfferedFirstZero`], [`Refusal::OfferedBit63`] and
    /// [`Refusal::OfferedTooLarge`] where the number is none from 1 to [`MOST_NUMBER`](crate::limits::MOST_NUMBER);
    /// [`Refusal::KeyUnsound`]; [`Refusal::OfferedNotRising`] where it isn't above the account's last; [`Refusal::FreeHeadBad`],
    /// [`Refusal::NoRoom`], [`Refusal::DesksBad`], [`Refusal::PastCeiling`] and [`Refusal::IntoReserves`] as of [`Book::load`].
    pub fn append(&mut self, key: u64, number: u64) -> Result<Appended, Refusal> {
        let (mut kind, mut class, mut used, mut place, mut rewritten) = (0, 0, 0, 0, 0);
        let desk = self.desk(key);
        let (body, heads, (mark, free, counts)) = (self.body.as_mut(), self.heads.as_mut(), self.state.lent());
        let out = (&mut kind, &mut class, &mut used, &mut place, &mut rewritten);
        let refusal = sys::core_append(body, heads, mark, free, counts, desk, key, number, out.0, out.1, out.2, out.3, out.4);
        answer(refusal, Appended { place: codec::Head::of_numbers(kind, class, used, place).into(), rewritten })
    }

    /// Records numbers for an account, one after another until one is refused, and tells how many are recorded. The book is then what
    /// [`Book::append`] of each of these leaves. There may be any count of numbers.
    ///
    /// That a number is refused is no error of the call: the numbers before it are recorded, and [`Extended::stopped`] says why it isn't,
    /// with a refusal of [`Book::append`].
    ///
    /// ```
    /// use ouriscado::{Book, Refusal};
    ///
    /// let mut book = Book::fresh(vec![0; 8192], vec![0; 1])?;
    /// let told = book.extend(0, &[7, 8, 8, 9])?;
    /// assert_eq!((told.accepted, told.stopped), (2, Some(Refusal::OfferedNotRising)));
    /// let told = book.extend(0, &[9, 10])?;
    /// assert_eq!((told.accepted, told.stopped), (2, None));
    /// assert_eq!(book.read(0)?, [7, 8, 9, 10]);
    /// # Ok::<(), Refusal>(())
    /// ```
    ///
    /// # Errors
    ///
    /// [`Refusal::ShapeBad`], [`Refusal::KeyBeyond`], [`Refusal::DesksBad`] as of [`Book::load`], and [`Refusal::KeyUnsound`], also where no
    /// number is offered: the account is judged before the numbers, as an append judges it. No number is recorded then.
    pub fn extend(&mut self, key: u64, numbers: &[u64]) -> Result<Extended, Refusal> {
        let (mut accepted, mut stopped, mut moves, mut rewritten) = (0, 0, 0, 0);
        let (mut kind, mut class, mut used, mut place) = (0, 0, 0, 0);
        let desk = self.desk(key);
        let (body, heads, (mark, free, counts)) = (self.body.as_mut(), self.heads.as_mut(), self.state.lent());
        let (told, stands) = ((&mut accepted, &mut stopped, &mut moves, &mut rewritten), (&mut kind, &mut class, &mut used, &mut place));
        let refusal = sys::core_extend(
            body, heads, mark, free, counts, desk, key, numbers, told.0, told.1, stands.0, stands.1, stands.2, stands.3, told.2, told.3,
        );
        let place = codec::Head::of_numbers(kind, class, used, place).into();
        answer(refusal, Extended { accepted: accepted as usize, stopped: Refusal::of_number(stopped), place, moves, rewritten })
    }

    /// Takes an account's list out of the book, and tells how many numbers it had. Its blocks may then go to other accounts.
    ///
    /// # Errors
    ///
    /// [`Refusal::ShapeBad`], [`Refusal::KeyBeyond`], [`Refusal::KeyUnsound`] and [`Refusal::DesksBad`].
    pub fn drop_key(&mut self, key: u64) -> Result<usize, Refusal> {
        let mut length = 0;
        let desk = self.desk(key);
        let (mark, free, counts) = self.state.lent();
        let number = sys::core_drop(self.body.as_mut(), self.heads.as_mut(), mark, free, counts, desk, key, &mut length);
        answer(number, length as usize)
    }
}

/// The list of desks for so many head words: zeros of a book without desks.
fn whole_list(list: &[u8], heads: usize) -> Cow<'_, [u8]> {
    if list.is_empty() {
        Cow::Owned(vec![0; heads])
    } else {
        Cow::Borrowed(list)
    }
}

#[cfg(test)]
mod tests {
    use super::*;

    /// The length by head word and last page is the length, so that a read allocates once.
    #[test]
    fn length_is_known() {
        let mut book = Book::fresh(vec![0; 1 << 20], vec![0; 4]).unwrap();
        book.append(1, 5).unwrap();
        book.load(2, &[5, 6, 7]).unwrap();
        book.load(3, &(1..=5_000).collect::<Vec<u64>>()).unwrap();
        assert_eq!([0, 1, 2, 3, 4].map(|key| book.likely_length(key)), [Some(0), Some(1), Some(3), Some(5_000), None]);
    }
}
