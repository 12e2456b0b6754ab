//! Padded numbers, counted apart from ours: from their definition, by the forms in a stream, with the source's reader and shortest lengths.
use oracle::scripthash_pages::{self as pages, SH_PAGE_SIZE};
use oracle::{read_uleb128, uleb128_len};

/// Whether a form of a length is the shortest of its value; else the number is padded.
pub fn is_shortest(value: u64, len: usize) -> bool {
    len == uleb128_len(value)
}

/// The forms of so many numbers at the start of a stream that was read: the value and the length of each.
fn forms(stream: &[u8], count: usize) -> impl Iterator<Item = (u64, usize)> + '_ {
    let mut at = 0;
    (0..count).map(move |_| {
        let (value, len) = read_uleb128(&stream[at..]).expect("a stream that was read");
        at += len;
        (value, len)
    })
}

/// How many bytes the forms of so many numbers take, as stored.
pub fn taken(stream: &[u8], count: usize) -> usize {
    forms(stream, count).map(|(_, len)| len).sum()
}

/// How many of so many numbers are padded.
pub fn padded(stream: &[u8], count: usize) -> u64 {
    forms(stream, count).filter(|(value, len)| !is_shortest(*value, *len)).count() as u64
}

/// How many numbers are padded of a page that was read.
pub fn padded_in_page(page: &[u8; SH_PAGE_SIZE]) -> u64 {
    let count = pages::sh_page_n_fks(page).expect("a page that was read");
    padded(&page[pages::sh_page_stream_off(page)..], count as usize)
}

#[cfg(test)]
mod tests {
    use super::*;

    /// Forms of 0, 1, 127, 128 and the largest number, the shortest and longer ones.
    #[test]
    fn padded_forms_are_counted() {
        for (shortest, longer) in [
            (vec![0], vec![0x80, 0]),
            (vec![1], vec![0x81, 0x80, 0]),
            (vec![0x7f], vec![0xff, 0]),
            (vec![0x80, 1], vec![0x80, 0x81, 0]),
            ([vec![0xff; 9], vec![1]].concat(), [vec![0xff; 8], vec![0x80, 0]].concat()),
        ] {
            let both = [&shortest[..], &longer, &shortest].concat();
            assert_eq!((padded(&shortest, 1), padded(&longer, 1)), (0, 1), "{longer:x?}");
            assert_eq!((padded(&both, 3), padded(&both, 1), taken(&both, 3)), (1, 0, both.len()), "{longer:x?}");
        }
    }

    /// The smallest padded slab, and a page that holds its stream.
    #[test]
    fn the_smallest_padded_list() {
        let stream = [0x81, 0x00, 0x02];
        assert_eq!((padded(&stream, 2), taken(&stream, 2)), (1, 3));
        let mut page = [0; SH_PAGE_SIZE];
        pages::sh_page_init_empty(&mut page);
        pages::sh_page_set_n_fks(&mut page, 2);
        let start = pages::sh_page_stream_off(&page);
        page[start..start + 3].copy_from_slice(&stream);
        assert_eq!(padded_in_page(&page), 1);
    }
}
