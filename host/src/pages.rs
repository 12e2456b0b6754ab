//! The functions on pages that are compared. Their pages are arrays: an input of another length is a listed difference.
use crate::case::{Input, Output};
use crate::errors::{of_store, Side};
use crate::forms::padded_in_page;
use crate::lent::Lent;
use crate::table::{list_theirs, Function};
use crate::{page_inputs as headers, page_stream_inputs as streams};
use oracle::error::StoreError;
use oracle::scripthash_pages::{self as pages, sh_page_as_array, sh_page_as_array_mut, SH_PAGE_SIZE};
use oracle::{compact, Fk};
use ouriscado::sys::raw;

/// A page of theirs.
type Page = [u8; SH_PAGE_SIZE];

/// Every function on pages.
pub const FUNCTIONS: &[Function] = &[
    Function {
        name: "sh_page_read_packed",
        ours: |_, c| page(c, |p, n| unsafe { raw::ouriscado_sh_page_read_packed(p, n, c.flag(), c.out()) }),
        theirs: |i, o| read_theirs(i, o, |page| pages::sh_page_read_packed(page).map(|(last, off)| [last as u64, off])),
        inputs: headers::headers,
    },
    Function {
        name: "sh_page_is_last",
        ours: |_, c| page(c, |p, n| unsafe { raw::ouriscado_sh_page_is_last(p, n, c.flag()) }),
        theirs: |i, o| read_theirs(i, o, |page| pages::sh_page_is_last(page).map(|last| [last as u64])),
        inputs: headers::headers,
    },
    Function {
        name: "sh_page_first_off",
        ours: |_, c| page(c, |p, n| unsafe { raw::ouriscado_sh_page_first_off(p, n, c.out()) }),
        theirs: |i, o| read_theirs(i, o, |page| pages::sh_page_first_off(page).map(|off| [off])),
        inputs: headers::headers,
    },
    Function {
        name: "sh_page_next",
        ours: |_, c| page(c, |p, n| unsafe { raw::ouriscado_sh_page_next(p, n, c.out()) }),
        theirs: |i, o| read_theirs(i, o, |page| pages::sh_page_next(page).map(|off| [off])),
        inputs: headers::headers,
    },
    Function {
        name: "sh_page_write_packed",
        ours: |i, c| page(c, |p, n| unsafe { raw::ouriscado_sh_page_write_packed(p, n, i.numbers[0] != 0, i.numbers[1]) }),
        theirs: |i, o| set_theirs(o, |page| pages::sh_page_write_packed(page, i.numbers[0] != 0, i.numbers[1])),
        inputs: headers::links,
    },
    Function {
        name: "sh_page_set_last",
        ours: |i, c| page(c, |p, n| unsafe { raw::ouriscado_sh_page_set_last(p, n, i.numbers[1]) }),
        theirs: |i, o| set_theirs(o, |page| pages::sh_page_set_last(page, i.numbers[1])),
        inputs: headers::links,
    },
    Function {
        name: "sh_page_set_next",
        ours: |i, c| page(c, |p, n| unsafe { raw::ouriscado_sh_page_set_next(p, n, i.numbers[1]) }),
        theirs: |i, o| set_theirs(o, |page| pages::sh_page_set_next(page, i.numbers[1])),
        inputs: headers::links,
    },
    Function {
        name: "sh_page_stream_off",
        ours: |_, c| page(c, |p, n| unsafe { raw::ouriscado_sh_page_stream_off(p, n, c.out()) }),
        theirs: |i, o| read_theirs(i, o, |page| Ok([pages::sh_page_stream_off(page) as u64])),
        inputs: headers::headers,
    },
    Function {
        name: "sh_page_stream_cap",
        ours: |_, c| page(c, |p, n| unsafe { raw::ouriscado_sh_page_stream_cap(p, n, c.out()) }),
        theirs: |i, o| read_theirs(i, o, |page| Ok([pages::sh_page_stream_cap(page) as u64])),
        inputs: headers::headers,
    },
    Function {
        name: "sh_page_extent",
        ours: |_, c| page(c, |p, n| unsafe { raw::ouriscado_sh_page_extent(p, n, c.out(), c.out()) }),
        theirs: |i, o| read_theirs(i, o, |page| pages::sh_page_extent(page).map(|e| e.map_or([0, 0], |(base, n)| [base, n as u64]))),
        inputs: headers::headers,
    },
    Function {
        name: "sh_page_set_extent",
        ours: |i, c| page(c, |p, n| unsafe { raw::ouriscado_sh_page_set_extent(p, n, i.numbers[0], i.numbers[1] as u32) }),
        theirs: |i, o| set_theirs(o, |page| pages::sh_page_set_extent(page, i.numbers[0], i.numbers[1] as u32)),
        inputs: headers::extents,
    },
    Function {
        name: "sh_page_extent_creates",
        ours: |_, c| page(c, |p, n| unsafe { raw::ouriscado_sh_page_extent_creates(p, n, c.out()) }),
        theirs: |i, o| read_theirs(i, o, |page| Ok([pages::sh_page_extent_creates(page) as u64])),
        inputs: headers::headers,
    },
    Function {
        name: "sh_page_set_extent_creates",
        ours: |i, c| page(c, |p, n| unsafe { raw::ouriscado_sh_page_set_extent_creates(p, n, i.numbers[0] as u32) }),
        theirs: |i, o| put_theirs(o, |page| pages::sh_page_set_extent_creates(page, i.numbers[0] as u32)),
        inputs: headers::counts,
    },
    Function {
        name: "sh_page_n_fks",
        ours: |_, c| page(c, |p, n| unsafe { raw::ouriscado_sh_page_n_fks(p, n, c.out()) }),
        theirs: |i, o| read_theirs(i, o, |page| pages::sh_page_n_fks(page).map(|n| [n as u64])),
        inputs: headers::headers,
    },
    Function {
        name: "sh_page_set_n_fks",
        ours: |i, c| page(c, |p, n| unsafe { raw::ouriscado_sh_page_set_n_fks(p, n, i.numbers[0] as u16) }),
        theirs: |i, o| put_theirs(o, |page| pages::sh_page_set_n_fks(page, i.numbers[0] as u16)),
        inputs: headers::counts,
    },
    Function {
        name: "sh_page_require_delta",
        ours: |_, c| page(c, |p, n| unsafe { raw::ouriscado_sh_page_require_delta(p, n) }),
        theirs: |i, o| read_theirs(i, o, |page| pages::sh_page_require_delta(page).map(|()| [])),
        inputs: headers::headers,
    },
    Function {
        name: "sh_page_init_empty",
        ours: |_, c| page(c, |p, n| unsafe { raw::ouriscado_sh_page_init_empty(p, n) }),
        theirs: |_, o| put_theirs(o, pages::sh_page_init_empty),
        inputs: headers::headers,
    },
    Function {
        name: "sh_page_stream_tail",
        ours: |_, c| page(c, |p, n| unsafe { raw::ouriscado_sh_page_stream_tail(p, n, c.out(), c.out()) }),
        theirs: |i, o| read_theirs(i, o, |page| pages::sh_page_stream_tail(page).map(|(taken, last)| [taken as u64, fk_or_0(last)])),
        inputs: streams::pages,
    },
    Function {
        name: "sh_page_last_fk",
        ours: |_, c| page(c, |p, n| unsafe { raw::ouriscado_sh_page_last_fk(p, n, c.out()) }),
        theirs: |i, o| read_theirs(i, o, |page| pages::sh_page_last_fk(page).map(|last| [fk_or_0(last)])),
        inputs: streams::pages,
    },
    Function {
        name: "sh_page_entries_into",
        ours: |_, c| {
            let (out, room) = c.list();
            page(c, |p, n| unsafe { raw::ouriscado_sh_page_entries_into(p, n, out, room, c.out(), c.out()) })
        },
        theirs: |i, o| {
            let mut read = Vec::new();
            let answer = sh_page_as_array(&i.bytes).and_then(|page| pages::sh_page_entries_into(page, &mut read));
            if list_theirs(o, answer, &read) {
                o.numbers.push(read.len() as u64);
                padded_apart(i, o);
            }
        },
        inputs: streams::pages_and_room,
    },
    Function {
        name: "sh_page_decode_slice_into",
        ours: |_, c| {
            let (out, room) = c.list();
            page(c, |p, n| unsafe { raw::ouriscado_sh_page_decode_slice_into(p, n, out, room, c.out(), c.out(), c.out()) })
        },
        theirs: |i, o| {
            let mut read = Vec::new();
            let answer = pages::sh_page_decode_slice_into(&i.bytes, &mut read);
            let next = *answer.as_ref().unwrap_or(&0);
            if list_theirs(o, answer.map(drop), &read) {
                o.numbers.extend([read.len() as u64, next]);
                padded_apart(i, o);
            }
        },
        inputs: streams::pages_and_room,
    },
    Function {
        name: "sh_page_try_append",
        ours: |i, c| page(c, |p, n| unsafe { raw::ouriscado_sh_page_try_append(p, n, i.numbers[0], c.flag()) }),
        theirs: |i, o| change_theirs(o, Side::Stored, |page| pages::sh_page_try_append(page, Fk(i.numbers[0])).map(|b| [b as u64])),
        inputs: streams::pages_and_number,
    },
    Function {
        name: "sh_page_write_stream",
        ours: |_, c| {
            let (fks, count) = c.list();
            page(c, |p, n| unsafe { raw::ouriscado_sh_page_write_stream(p, n, fks, count, c.out()) })
        },
        theirs: |i, o| {
            change_theirs(o, Side::Offered, |page| pages::sh_page_write_stream(page, &i.list).map(|()| [stream_len(&i.list)]));
            count_refused(i, o);
        },
        inputs: streams::pages_and_list,
    },
    Function {
        name: "sh_page_pack_fks",
        ours: |i, c| {
            let (fks, count) = c.list();
            page(c, |p, n| unsafe { raw::ouriscado_sh_page_pack_fks(p, n, fks, count, i.numbers[0]) })
        },
        theirs: |i, o| {
            change_theirs(o, Side::Offered, |page| pages::sh_page_pack_fks(page, &i.list, i.numbers[0]).map(|()| []));
            count_refused(i, o);
        },
        inputs: streams::lists_and_next,
    },
    Function {
        name: "sh_page_pack_extent_last_fks",
        ours: |i, c| {
            let ((fks, count), g) = (c.list(), &i.numbers);
            page(c, |p, n| unsafe { raw::ouriscado_sh_page_pack_extent_last_fks(p, n, fks, count, g[1], g[2] as u32, g[0]) })
        },
        theirs: |i, o| {
            let g = &i.numbers;
            change_theirs(o, Side::Offered, |page| {
                pages::sh_page_pack_extent_last_fks(page, &i.list, g[1], g[2] as u32, g[0]).map(|()| [])
            });
            count_refused(i, o);
        },
        inputs: streams::lists_and_extent,
    },
];

/// A call of ours on the page that it is lent.
fn page(c: &Lent, call: impl FnOnce(*mut u8, usize) -> u32) -> u32 {
    let (at, len) = c.bytes();
    call(at, len)
}

/// What a call of theirs answers.
fn answer_theirs<const N: usize>(o: &mut Output, side: Side, answer: Result<[u64; N], StoreError>) {
    match answer {
        Ok(values) => o.theirs(Ok(&values)),
        Err(e) => o.theirs(Err(of_store(e, side))),
    }
}

/// A call of theirs that reads a page.
fn read_theirs<const N: usize>(i: &Input, o: &mut Output, call: impl FnOnce(&Page) -> Result<[u64; N], StoreError>) {
    answer_theirs(o, Side::Stored, sh_page_as_array(&i.bytes).and_then(call));
}

/// A call of theirs that changes a page, about numbers that were offered or stored.
fn change_theirs<const N: usize>(o: &mut Output, side: Side, call: impl FnOnce(&mut Page) -> Result<[u64; N], StoreError>) {
    let answer = sh_page_as_array_mut(&mut o.bytes).and_then(call);
    answer_theirs(o, side, answer);
}

/// A call of theirs that sets a field of a page.
fn set_theirs(o: &mut Output, call: impl FnOnce(&mut Page) -> Result<(), StoreError>) {
    change_theirs(o, Side::Stored, |page| call(page).map(|()| []));
}

/// A call of theirs that writes to a page and turns nothing back.
fn put_theirs(o: &mut Output, call: impl FnOnce(&mut Page)) {
    change_theirs(o, Side::Stored, |page| {
        call(page);
        Ok([])
    });
}

/// How many numbers are padded of the page that they read.
fn padded_apart(i: &Input, o: &mut Output) {
    o.apart.push(padded_in_page(sh_page_as_array(&i.bytes).expect("a page that was read")));
}

/// Tells the two refusals apart for which they have one text: too many numbers, and a stream that doesn't fit.
fn count_refused(i: &Input, o: &mut Output) {
    if o.refusal == 33 && i.list.len() > u16::MAX as usize {
        o.refusal = 10;
    }
}

/// The length of the stream of a rising list.
fn stream_len(fks: &[u64]) -> u64 {
    let before = std::iter::once(&0).chain(fks);
    fks.iter().zip(before).map(|(fk, last)| compact::uleb128_len(fk - last) as u64).sum()
}

/// Their last number, 0 where there is none.
fn fk_or_0(fk: Option<Fk>) -> u64 {
    fk.map_or(0, |fk| fk.0)
}

#[cfg(test)]
mod tests {
    use super::*;
    use crate::judge::expected;
    use crate::rng::Rng;

    /// The refusals that the first round of a function's inputs reaches, with 0 for acceptance.
    fn reached(name: &str) -> Vec<u32> {
        let function = FUNCTIONS.iter().find(|f| f.name == name).unwrap();
        let mut out = std::collections::BTreeSet::new();
        let mut theirs = Output::default();
        (function.inputs)(&mut Rng(1), 0, &mut |input| {
            expected(function, input, &mut theirs);
            out.insert(theirs.refusal);
        });
        out.into_iter().collect()
    }

    #[test]
    fn every_refusal_is_reached() {
        assert_eq!(reached("sh_page_first_off"), [0, 4, 7]);
        assert_eq!(reached("sh_page_write_packed"), [0, 4, 5, 6]);
        assert_eq!(reached("sh_page_extent"), [0, 4, 8, 9]);
        assert_eq!(reached("sh_page_set_extent"), [0, 4, 8, 9]);
        assert_eq!(reached("sh_page_require_delta"), [0, 4, 15, 16]);
        assert_eq!(reached("sh_page_stream_tail"), [0, 4, 15, 16, 17, 18, 20, 21, 22, 23]);
        assert_eq!(reached("sh_page_entries_into"), [0, 4, 15, 16, 17, 18, 20, 21, 22, 23, 34]);
        assert_eq!(reached("sh_page_try_append"), [0, 4, 12, 13, 15, 16, 17, 18, 20, 21, 22, 23, 32]);
        assert_eq!(reached("sh_page_write_stream"), [0, 4, 10, 12, 13, 32, 33]);
        assert_eq!(reached("sh_page_pack_fks"), [0, 4, 5, 6, 10, 12, 13, 32, 33]);
        assert_eq!(reached("sh_page_pack_extent_last_fks"), [0, 4, 5, 6, 8, 9, 10, 12, 13, 32, 33]);
    }
}
