//! Books that are given more room.
use crate::limits::{DESKS, MOST_BODY_BYTES, MOST_HEADS, PAGE_BYTES};
use crate::{Book, Refusal};
use alloc::vec::Vec;

/// Of books that own their body and head words. A book over other memory grows in the same way by hand: [`Book::into_parts`], a copy of its
/// body with whole pages behind it, or of its head words with zeros behind them, and [`Book::from_parts`] with the same state.
impl Book<Vec<u8>, Vec<u64>> {
    /// Gives the book a body of so many bytes and so many head words; all else stays. What is added is zero bytes behind the body, and behind
    /// the head words accounts for which nothing is recorded, of desk 0; [`Book::grow_with`] tells their desks.
    ///
    /// A good start that has grown is a good start with the same lists, and a call that [`Refusal::NoRoom`] turned back is accepted once the
    /// body is long enough, save where it needs a slab that would end past [`SLABS_END`](crate::limits::SLABS_END); both are proved
    /// (`grown_start`, `grown_lists` and `grown-room` in the crate `book_history`):
    ///
    /// ```
    /// use ouriscado::{Book, Refusal};
    ///
    /// let mut book = Book::fresh(vec![0; 8192], vec![0; 1])?;
    /// let month: Vec<u64> = (1..=5_000).collect();
    /// assert_eq!(book.load(0, &month), Err(Refusal::NoRoom)); // two pages are needed, and the body has one for lists
    /// book.grow(16_384, 2)?; // and a second account
    /// book.load(0, &month)?;
    /// assert_eq!(book.read(0)?, month);
    /// assert!(book.read(1)?.is_empty());
    /// # Ok::<(), Refusal>(())
    /// ```
    ///
    /// # Errors
    ///
    /// [`Refusal::ShapeBad`] where the body's length is no multiple of [`PAGE_BYTES`], a length or count is above the
    /// [limits](crate::limits) or below what the book has, or the book is out of shape as it is;
    /// [`Refusal::DesksBad`] where its list of desks is of another length than its head words. Nothing has changed then.
    pub fn grow(&mut self, body_bytes: usize, heads: usize) -> Result<(), Refusal> {
        self.judge_shape()?;
        if ![0, self.heads().len()].contains(&self.desks.len()) {
            return Err(Refusal::DesksBad);
        }
        let whole_pages = body_bytes % PAGE_BYTES == 0;
        let no_shorter = self.body().len() <= body_bytes && self.heads().len() <= heads;
        if !whole_pages || !no_shorter || MOST_BODY_BYTES < body_bytes || MOST_HEADS < heads {
            return Err(Refusal::ShapeBad);
        }
        self.body.resize(body_bytes, 0);
        self.heads.resize(heads, 0);
        if !self.desks.is_empty() {
            self.desks.resize(heads, 0);
        }
        Ok(())
    }

    /// Gives the book a body of so many bytes, and accounts more, by the list of their desks. What [`Book::grow`] says of a book that has grown
    /// holds of this one.
    ///
    /// ```
    /// use ouriscado::{Book, Desks, Refusal};
    ///
    /// let mut book = Book::fresh_with(vec![0; 8192], vec![0; 2], Desks::new(vec![0, 1]).ceiling(1, 0))?;
    /// book.grow_with(16_384, &[1, 0])?;
    /// assert_eq!(book.desks(), [0, 1, 1, 0]);
    /// let month: Vec<u64> = (1..=300).collect();
    /// assert_eq!(book.load(2, &month), Err(Refusal::PastCeiling));
    /// book.load(3, &month)?;
    /// # Ok::<(), Refusal>(())
    /// ```
    ///
    /// # Errors
    ///
    /// Those of [`Book::grow`], and [`Refusal::DesksBad`] where a desk is above 15. Nothing has changed then.
    pub fn grow_with(&mut self, body_bytes: usize, desks: &[u8]) -> Result<(), Refusal> {
        let had = self.heads().len();
        self.judge_shape()?;
        if desks.iter().any(|&desk| DESKS <= usize::from(desk)) {
            return Err(Refusal::DesksBad);
        }
        self.grow(body_bytes, had.saturating_add(desks.len()))?;
        if !desks.is_empty() {
            self.desks.resize(had, 0);
            self.desks.extend_from_slice(desks);
        }
        Ok(())
    }

    /// Judges the lengths and the mark, by a read of a key that no book has.
    fn judge_shape(&self) -> Result<(), Refusal> {
        match self.read_into(u64::MAX, &mut []) {
            Err(Refusal::KeyBeyond) => Ok(()),
            Err(refusal) => Err(refusal),
            Ok(_) => unreachable!("no book has so many head words"),
        }
    }
}
