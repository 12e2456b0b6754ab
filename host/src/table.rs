//! Every function that is compared: ours and theirs over one form of input and answer, and where its inputs come from. Here are those on
//! numbers, head words, classes, streams and slabs.
use crate::case::{lay_over, Input, Output};
use crate::errors::{of_pack, of_store, Side};
use crate::forms::{is_shortest, padded, taken};
use crate::lent::Lent;
use crate::rng::Rng;
use crate::{inputs, stream_inputs};
use oracle::error::StoreError;
use oracle::scripthash_layout::{self as layout, ShHeadValue};
use oracle::{compact, scripthash_slabs as slabs, Fk};
use ouriscado::sys::raw;

/// Takes each input that a source of inputs gives.
pub type Each<'a> = &'a mut dyn FnMut(&Input);

/// A function with its two sides: ours answers the refusal's number, or 0, on what it is lent. Of its inputs round 0 gives the short ones
/// and the boundaries, each other round some random ones.
pub struct Function {
    pub name: &'static str,
    pub ours: fn(&Input, &Lent) -> u32,
    pub theirs: fn(&Input, &mut Output),
    pub inputs: fn(&mut Rng, u64, Each),
}

/// Every function, in the order of their numbers in the fixed list of answers.
pub fn functions() -> impl Iterator<Item = &'static Function> {
    FUNCTIONS.iter().chain(crate::blocks::FUNCTIONS).chain(crate::pages::FUNCTIONS)
}

const FUNCTIONS: &[Function] = &[
    Function {
        name: "uleb128_len",
        ours: |i, c| value(c, unsafe { raw::ouriscado_uleb128_len(i.numbers[0]) } as u64),
        theirs: |i, o| o.theirs(Ok(&[compact::uleb128_len(i.numbers[0]) as u64])),
        inputs: inputs::one_number,
    },
    Function {
        name: "read_uleb128",
        ours: |_, c| {
            let (buf, n) = c.bytes();
            unsafe { raw::ouriscado_read_uleb128(buf, n, c.out(), c.out(), c.flag()) }
        },
        theirs: |i, o| match compact::read_uleb128(&i.bytes) {
            Ok((value, len)) => {
                o.theirs(Ok(&[value, len as u64]));
                o.apart.push(is_shortest(value, len) as u64);
            }
            Err(e) => o.theirs(Err(of_pack(e))),
        },
        inputs: inputs::forms,
    },
    Function {
        name: "write_uleb128_into",
        ours: |i, c| {
            let (dst, n) = c.bytes();
            unsafe { raw::ouriscado_write_uleb128_into(dst, n, i.numbers[0], c.out()) }
        },
        theirs: |i, o| match compact::write_uleb128_into(&mut o.bytes, i.numbers[0]) {
            Ok(len) => o.theirs(Ok(&[len as u64])),
            Err(e) => o.theirs(Err(of_pack(e))),
        },
        inputs: inputs::number_and_room,
    },
    Function {
        name: "pack8",
        ours: |i, c| {
            let n = &i.numbers;
            match n[0] {
                0 => unsafe { raw::ouriscado_pack8_empty(c.out()) },
                1 => unsafe { raw::ouriscado_pack8_inline(n[3], n[2] as u8, c.out()) },
                2 => unsafe { raw::ouriscado_pack8_slab(n[1] as u8, n[2] as u16, n[3], c.out()) },
                _ => unsafe { raw::ouriscado_pack8_extent(n[3], c.out()) },
            }
        },
        theirs: |i, o| match layout::pack8(&head_theirs(&i.numbers)) {
            Ok(word) => o.theirs(Ok(&[word])),
            Err(e) => o.theirs(Err(of_store(e, Side::Offered))),
        },
        inputs: inputs::head_values,
    },
    Function {
        name: "pack8_bytes",
        ours: |i, c| {
            let n = &i.numbers;
            let (at, _) = c.bytes();
            let out = unsafe { &mut *at.cast::<[u8; 8]>() };
            match n[0] {
                0 => unsafe { raw::ouriscado_pack8_bytes_empty(out) },
                1 => unsafe { raw::ouriscado_pack8_bytes_inline(n[3], n[2] as u8, out) },
                2 => unsafe { raw::ouriscado_pack8_bytes_slab(n[1] as u8, n[2] as u16, n[3], out) },
                _ => unsafe { raw::ouriscado_pack8_bytes_extent(n[3], out) },
            }
        },
        theirs: |i, o| match layout::pack8_bytes(&head_theirs(&i.numbers)) {
            Ok(bytes) => o.bytes.copy_from_slice(&bytes),
            Err(e) => o.theirs(Err(of_store(e, Side::Offered))),
        },
        inputs: inputs::head_values_and_room,
    },
    Function {
        name: "unpack8",
        ours: |i, c| unsafe { raw::ouriscado_unpack8(i.numbers[0], c.out(), c.out(), c.out(), c.out()) },
        theirs: |i, o| unpacked_theirs(o, layout::unpack8(i.numbers[0])),
        inputs: inputs::words,
    },
    Function {
        name: "unpack8_bytes",
        ours: |_, c| {
            let (at, _) = c.bytes();
            unsafe { raw::ouriscado_unpack8_bytes(&*at.cast::<[u8; 8]>(), c.out(), c.out(), c.out(), c.out()) }
        },
        theirs: |i, o| unpacked_theirs(o, layout::unpack8_bytes(i.bytes[..].try_into().unwrap())),
        inputs: inputs::words_in_bytes,
    },
    Function {
        name: "payload_start",
        ours: |i, c| value(c, unsafe { raw::ouriscado_payload_start(i.numbers[0] as usize) }),
        theirs: |i, o| o.theirs(Ok(&[layout::payload_start(i.numbers[0] as usize)])),
        inputs: inputs::one_number,
    },
    Function {
        name: "slab_cap",
        ours: |i, c| value(c, unsafe { raw::ouriscado_slab_cap(i.numbers[0] as u8) } as u64),
        theirs: |i, o| o.theirs(Ok(&[layout::slab_cap(i.numbers[0] as u8) as u64])),
        inputs: inputs::classes,
    },
    Function {
        name: "slab_bytes",
        ours: |i, c| value(c, unsafe { raw::ouriscado_slab_bytes(i.numbers[0] as u8) }),
        theirs: |i, o| o.theirs(Ok(&[layout::slab_bytes(i.numbers[0] as u8)])),
        inputs: inputs::classes,
    },
    Function {
        name: "slab_class_for_packed_len",
        ours: |i, c| value(c, unsafe { raw::ouriscado_slab_class_for_packed_len(i.numbers[0] as usize, c.out()) } as u64),
        theirs: |i, o| class_theirs(o, slabs::slab_class_for_packed_len(i.numbers[0] as usize)),
        inputs: inputs::counts,
    },
    Function {
        name: "slab_class_for_n_fks",
        ours: |i, c| value(c, unsafe { raw::ouriscado_slab_class_for_n_fks(i.numbers[0] as u32, c.out()) } as u64),
        theirs: |i, o| class_theirs(o, slabs::slab_class_for_n_fks(i.numbers[0] as u32)),
        inputs: inputs::counts,
    },
    Function {
        name: "slab_class_for_n_fks_with_slack",
        ours: |i, c| value(c, unsafe { raw::ouriscado_slab_class_for_n_fks_with_slack(i.numbers[0] as u32, c.out()) } as u64),
        theirs: |i, o| class_theirs(o, slabs::slab_class_for_n_fks_with_slack(i.numbers[0] as u32)),
        inputs: inputs::counts,
    },
    Function {
        name: "encode_fk_delta_stream_into",
        ours: |_, c| {
            let ((out, room), (fks, n)) = (c.bytes(), c.list());
            unsafe { raw::ouriscado_encode_fk_delta_stream_into(out, room, fks, n, c.out()) }
        },
        theirs: |i, o| match slabs::encode_fk_delta_stream_into(&mut o.bytes, &i.list) {
            Ok(len) => o.theirs(Ok(&[len as u64])),
            Err(e) => o.theirs(Err(of_store(e, Side::Offered))),
        },
        inputs: stream_inputs::lists_and_room,
    },
    Function {
        name: "decode_fk_delta_stream_into",
        ours: |i, c| {
            let ((buf, len), (out, room)) = (c.bytes(), c.list());
            unsafe { raw::ouriscado_decode_fk_delta_stream_into(buf, len, i.numbers[0] as usize, out, room, c.out(), c.out()) }
        },
        theirs: |i, o| {
            let mut read = Vec::new();
            let answer = slabs::decode_fk_delta_stream_into(&i.bytes, i.numbers[0] as usize, &mut read);
            if list_theirs(o, answer, &read) {
                o.numbers.push(taken(&i.bytes, read.len()) as u64);
                o.apart.push(padded(&i.bytes, read.len()));
            }
        },
        inputs: stream_inputs::streams,
    },
    Function {
        name: "encode_slab_payload_into",
        ours: |_, c| {
            let ((out, room), (fks, n)) = (c.bytes(), c.list());
            unsafe { raw::ouriscado_encode_slab_payload_into(out, room, fks, n, c.out()) }
        },
        theirs: |i, o| match slabs::encode_slab_payload_into(&mut o.bytes, &i.list) {
            Ok(len) => o.theirs(Ok(&[len as u64])),
            Err(e) => o.theirs(Err(of_store(e, Side::Offered))),
        },
        inputs: stream_inputs::lists_and_slab_room,
    },
    Function {
        name: "decode_slab_payload_into",
        ours: |_, c| {
            let ((buf, len), (out, room)) = (c.bytes(), c.list());
            unsafe { raw::ouriscado_decode_slab_payload_into(buf, len, out, room, c.out(), c.out(), c.out()) }
        },
        theirs: |i, o| {
            let mut read = Vec::new();
            let answer = slabs::decode_slab_payload_into(&i.bytes, &mut read);
            if list_theirs(o, answer, &read) {
                o.numbers.extend([read.len() as u64, 2 + taken(&i.bytes[2..], read.len()) as u64]);
                o.apart.push(padded(&i.bytes[2..], read.len()));
            }
        },
        inputs: stream_inputs::slabs,
    },
];

/// A call of ours that answers a value and refuses nothing.
pub fn value(c: &Lent, value: u64) -> u32 {
    c.value(value);
    0
}

/// Their head value of four numbers: kind, class, used, place.
fn head_theirs(n: &[u64]) -> ShHeadValue {
    match n[0] {
        0 => ShHeadValue::Empty,
        1 => ShHeadValue::Inline { entries: [Fk(n[3])], used: n[2] as u8 },
        2 => ShHeadValue::Slab { class: n[1] as u8, used: n[2] as u16, off: n[3] },
        _ => ShHeadValue::Extent { last_page: n[3] },
    }
}

/// The four numbers of their head value.
pub fn numbers_theirs(v: &ShHeadValue) -> [u64; 4] {
    match v {
        ShHeadValue::Empty => [0, 0, 0, 0],
        ShHeadValue::Inline { entries, used } => [1, 0, *used as u64, entries[0].0],
        ShHeadValue::Slab { class, used, off } => [2, *class as u64, *used as u64, *off],
        ShHeadValue::Extent { last_page } => [3, 0, 0, *last_page],
    }
}

/// What they unpack.
fn unpacked_theirs(o: &mut Output, answer: Result<ShHeadValue, StoreError>) {
    match answer {
        Ok(v) => o.theirs(Ok(&numbers_theirs(&v))),
        Err(e) => o.theirs(Err(of_store(e, Side::Stored))),
    }
}

/// Their choice of a class: whether there is one, and which, 0 where there is none.
pub fn class_theirs(o: &mut Output, class: Option<u8>) {
    o.theirs(Ok(&[class.is_some() as u64, class.map_or(0, u64::from)]));
}

/// The numbers that they read, over the lent list, or the refusal. Tells whether they were read.
pub fn list_theirs(o: &mut Output, answer: Result<(), StoreError>, read: &[Fk]) -> bool {
    match answer {
        Ok(()) => lay_over(&read.iter().map(|fk| fk.0).collect::<Vec<u64>>(), &mut o.list),
        Err(e) => o.refusal = of_store(e, Side::Stored),
    }
    o.refusal == 0
}

#[cfg(test)]
mod tests {
    use super::*;
    use crate::judge::expected;
    use crate::padded_inputs;
    use std::collections::BTreeSet;

    /// What the host makes apart of the first round of a function's inputs, where they are accepted.
    fn made_apart(name: &str) -> BTreeSet<u64> {
        let function = functions().find(|f| f.name == name).unwrap();
        let (mut out, mut wanted) = (BTreeSet::new(), Output::default());
        let mut each = |input: &Input| {
            expected(function, input, &mut wanted);
            assert_eq!(wanted.apart.len(), usize::from(wanted.refusal == 0), "{name}");
            out.extend(&wanted.apart);
        };
        (function.inputs)(&mut Rng(1), 0, &mut each);
        padded_inputs::inputs(name, &mut Rng(1), 0, &mut each);
        out
    }

    /// Forms of both kinds are compared, and streams with no padded number, with one, and with many.
    #[test]
    fn padded_numbers_are_compared() {
        assert_eq!(made_apart("read_uleb128"), BTreeSet::from([0, 1]));
        for (name, many) in [
            ("decode_fk_delta_stream_into", 65_535),
            ("decode_slab_payload_into", 2044),
            ("sh_page_entries_into", 1000),
            ("sh_page_decode_slice_into", 1000),
        ] {
            let counts = made_apart(name);
            assert!([0, 1, 2].iter().all(|n| counts.contains(n)) && counts.last() >= Some(&many), "{name}: {counts:?}");
        }
    }
}
