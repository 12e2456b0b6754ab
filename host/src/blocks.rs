//! The functions on cutting and on free lists that are compared.
use crate::case::{lay_over, Output};
use crate::errors::{of_store, Side};
use crate::table::{class_theirs, value, Function};
use crate::{cut_inputs, free_inputs, inputs};
use oracle::error::StoreError;
use oracle::file::TableFile;
use oracle::{free_lists, scripthash_pages as pages, Fk};
use ouriscado::sys::raw;
use std::cell::Cell;

pub const FUNCTIONS: &[Function] = &[
    Function {
        name: "sh_page_chunk_ranges",
        ours: |_, c| {
            let ((fks, n), (out, room)) = (c.list(), c.ranges());
            unsafe { raw::ouriscado_sh_page_chunk_ranges(fks, n, out, room, c.out()) }
        },
        theirs: |i, o| put_chunks(&pages::sh_page_chunk_ranges(&fks_of(&i.list)).unwrap(), o),
        inputs: cut_inputs::lists_to_cut,
    },
    Function {
        name: "largest_reloc_class_le",
        ours: |i, c| value(c, unsafe { raw::ouriscado_largest_reloc_class_le(i.numbers[0], c.out()) } as u64),
        theirs: |i, o| class_theirs(o, free_lists::largest_reloc_class_le(i.numbers[0])),
        inputs: inputs::counts,
    },
    Function {
        name: "push_free_head",
        ours: |i, c| {
            let (body, n) = c.bytes();
            unsafe { raw::ouriscado_push_free_head(body, n, c.heads(), i.numbers[0] as u8, i.numbers[1]) }
        },
        theirs: |i, o| free_theirs(o, |body, heads| free_lists::push_free_head(body, heads, i.numbers[0] as u8, i.numbers[1])),
        inputs: free_inputs::pushes,
    },
    Function {
        name: "pop_free_head",
        ours: |i, c| {
            let (body, n) = c.bytes();
            unsafe { raw::ouriscado_pop_free_head(body, n, c.heads(), i.numbers[0] as u8, i.numbers[1], c.out()) }
        },
        theirs: |i, o| {
            let mut off = 0;
            free_theirs(o, |body, heads| {
                off = free_lists::pop_free_head(body, heads, i.numbers[0] as u8)?.unwrap_or(0);
                Ok(())
            });
            o.numbers.push(off);
        },
        inputs: free_inputs::pops,
    },
    Function {
        name: "carve_gap_into_freelist",
        ours: |i, c| {
            let (body, n) = c.bytes();
            unsafe { raw::ouriscado_carve_gap_into_freelist(body, n, c.heads(), i.numbers[0], i.numbers[1]) }
        },
        theirs: |i, o| free_theirs(o, |body, heads| free_lists::carve_gap_into_freelist(body, heads, i.numbers[0], i.numbers[1])),
        inputs: free_inputs::gaps,
    },
    Function {
        name: "split_last_chunk_for_extent",
        ours: |i, c| {
            let ((fks, n), (chunks, room)) = (c.list(), c.ranges());
            unsafe { raw::ouriscado_split_last_chunk_for_extent(fks, n, chunks, room, i.numbers[0] as usize, c.out()) }
        },
        theirs: |i, o| {
            let mut chunks: Vec<(usize, usize)> = i.ranges[..i.numbers[0] as usize].iter().map(|r| (r[0], r[1])).collect();
            pages::split_last_chunk_for_extent(&fks_of(&i.list), &mut chunks);
            put_chunks(&chunks, o);
        },
        inputs: cut_inputs::lists_to_split,
    },
];

/// A call of theirs on a body and their free heads, of which the first nine count.
fn free_theirs(o: &mut Output, call: impl FnOnce(&TableFile, &mut [u64; 25]) -> Result<(), StoreError>) {
    let mut heads = [0; 25];
    heads[..9].copy_from_slice(&o.list);
    let cells = Cell::from_mut(&mut o.bytes[..]).as_slice_of_cells();
    if let Err(e) = call(&TableFile(cells), &mut heads) {
        o.refusal = of_store(e, Side::Stored);
    }
    o.list.copy_from_slice(&heads[..9]);
}

/// Their numbers of a list.
fn fks_of(list: &[u64]) -> Vec<Fk> {
    list.iter().map(|n| Fk(*n)).collect()
}

/// How many ranges they have, and the ranges over the lent list.
fn put_chunks(chunks: &[(usize, usize)], o: &mut Output) {
    o.numbers.push(chunks.len() as u64);
    lay_over(&chunks.iter().map(|r| [r.0, r.1]).collect::<Vec<[usize; 2]>>(), &mut o.ranges);
}
