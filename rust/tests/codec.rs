//! The specimens of docs/FORMAT.md, through the functions of the module codec.
use ouriscado::codec::*;
use ouriscado::Refusal;

#[test]
fn numbers() {
    let mut dst = [0; 10];
    assert_eq!(write_uleb128_into(&mut dst, 128), Ok(2));
    assert_eq!(dst[..2], [0x80, 0x01]);
    assert_eq!(read_uleb128(&[0xb9, 0x64]), Ok(Reading { value: 12857, len: 2, shortest: true }));
    assert_eq!(read_uleb128(&[0x00]), Ok(Reading { value: 0, len: 1, shortest: true }));
    assert_eq!(read_uleb128(&[0x80, 0x00]), Ok(Reading { value: 0, len: 2, shortest: false }));
    assert_eq!(read_uleb128(&[0x80, 0x01]), Ok(Reading { value: 128, len: 2, shortest: true }));
    let mut nine = [0xff; 10];
    nine[9] = 0x02;
    assert_eq!(read_uleb128(&nine), Err(Refusal::UlebOverflow));
    assert_eq!(read_uleb128(&[0x80; 10]), Err(Refusal::UlebCutShort));
    assert_eq!(read_uleb128(&[0x80; 11]), Err(Refusal::UlebOverflow));
}

#[test]
fn streams() {
    let mut out = [0; 8];
    assert_eq!(encode_fk_delta_stream_into(&mut out, &[5, 300, 301]), Ok(4));
    assert_eq!(out[..4], [0x05, 0xa7, 0x02, 0x01]);
    let mut list = [0; 3];
    assert_eq!(decode_fk_delta_stream_into(&out, 3, &mut list), Ok(StreamRead { taken: 4, padded: 0 }));
    assert_eq!(list, [5, 300, 301]);
    assert_eq!(decode_fk_delta_stream_into(&[5, 0], 2, &mut list), Err(Refusal::StoredDifferenceZero));
    assert_eq!(list, [5, 300, 301]);
}

/// 1, 3 and 300, the first two padded, as a stream, a slab's payload and a page; a refusal tells no count.
#[test]
fn padded_numbers() {
    let stream = [0x81, 0x00, 0x82, 0x80, 0x00, 0xa9, 0x02];
    let mut list = [0; 3];
    assert_eq!(decode_fk_delta_stream_into(&stream, 3, &mut list), Ok(StreamRead { taken: 7, padded: 2 }));
    assert_eq!(list, [1, 3, 300]);
    assert_eq!(decode_fk_delta_stream_into(&stream, 1, &mut list), Ok(StreamRead { taken: 2, padded: 1 }));

    let mut slab = [0; 16];
    slab[0] = 3;
    slab[2..9].copy_from_slice(&stream);
    assert_eq!(decode_slab_payload_into(&slab, &mut list), Ok(SlabPayload { used: 3, len: 9, padded: 2 }));

    let mut page = [0; 4096];
    page[..3].copy_from_slice(&[1, 3, 0]);
    page[8..15].copy_from_slice(&stream);
    assert_eq!(sh_page_entries_into(&page, &mut list), Ok(PageEntries { count: 3, padded: 2 }));
    assert_eq!(sh_page_set_next(&mut page, 8192), Ok(()));
    assert_eq!(sh_page_decode_slice_into(&page, &mut list), Ok(PageSlice { count: 3, next: 8192, padded: 2 }));
    assert_eq!(sh_page_try_append(&mut page, 301), Ok(PageAppend::Appended));
    assert_eq!(sh_page_entries_into(&page, &mut [0; 4]), Ok(PageEntries { count: 4, padded: 2 }));

    let (mut taken, mut padded) = (9, 9);
    assert_eq!(ouriscado::sys::decode_fk_delta_stream_into(&stream, 3, &mut list[..2], &mut taken, &mut padded), 34);
    assert_eq!((taken, padded), (0, 0));
}

#[test]
fn heads() {
    let slab = Head::Slab { class: 2, used: 5, off: 4096 };
    assert_eq!(pack8(slab), Ok(0x4200_0500_0000_1000));
    assert_eq!(unpack8(0x4200_0500_0000_1000), Ok(slab));
    assert_eq!(unpack8_bytes(&pack8_bytes(slab).unwrap()), Ok(slab));
    assert_eq!(unpack8(0x8000_0000_0000_0000), Err(Refusal::ModeTwo));
    assert_eq!(pack8(Head::Empty), Ok(0));
}

#[test]
fn cutting() {
    let list: Vec<u64> = (1..=4088).collect();
    let mut ranges = [[0; 2]; 4];
    assert_eq!(sh_page_chunk_ranges(&list, &mut ranges), Ok(2));
    assert_eq!(ranges[..2], [[0, 4072], [4072, 4088]]);
    assert_eq!(sh_page_chunk_ranges(&list[..4072], &mut ranges), Ok(1));
    ranges[0] = [0, 4088];
    assert_eq!(split_last_chunk_for_extent(&list, &mut ranges[..1], 1), Err(Refusal::ListTooShort));
    assert_eq!(split_last_chunk_for_extent(&list, &mut ranges, 1), Ok(2));
    assert_eq!(ranges[..2], [[0, 4072], [4072, 4088]]);
}

#[test]
fn page_fields() {
    let mut page = [0xff; 4096];
    assert_eq!(sh_page_init_empty(&mut page), Ok(()));
    assert_eq!(sh_page_read_packed(&page), Ok(Link { last: true, off: 0 }));
    assert_eq!(sh_page_extent(&page), Ok(None));
    assert_eq!(sh_page_set_extent(&mut page, Extent { base: 8192, n: 3 }), Ok(()));
    assert_eq!(sh_page_extent(&page), Ok(Some(Extent { base: 8192, n: 3 })));
    assert_eq!(sh_page_stream_cap(&page), Ok(4072));
    assert_eq!(sh_page_set_extent_creates(&mut page, 7), Ok(()));
    assert_eq!(sh_page_extent_creates(&page), Ok(7));
    assert_eq!(sh_page_set_next(&mut page, 4096), Ok(()));
    assert_eq!((sh_page_next(&page), sh_page_is_last(&page)), (Ok(4096), Ok(false)));
    assert_eq!(sh_page_first_off(&page), Err(Refusal::NotLast));
    assert_eq!(sh_page_set_last(&mut page, 1), Err(Refusal::LinkUnaligned));
    assert_eq!(sh_page_require_delta(&page[1..]), Err(Refusal::PageLength));
}

#[test]
fn page_entries() {
    let mut page = [0; 4096];
    assert_eq!(sh_page_last_fk(&page), Ok(None));
    assert_eq!([5, 300, 301].map(|fk| sh_page_try_append(&mut page, fk)), [Ok(PageAppend::Appended); 3]);
    assert_eq!(page[..12], [1, 3, 0, 0, 0, 0, 0, 0, 5, 0xa7, 2, 1]);
    assert_eq!(sh_page_try_append(&mut page, 301), Err(Refusal::OfferedNotRising));
    assert_eq!(sh_page_stream_tail(&page), Ok(StreamTail { taken: 4, last: 301 }));
    let mut list = [0; 4096];
    assert_eq!(sh_page_decode_slice_into(&page, &mut list), Ok(PageSlice { count: 3, next: 0, padded: 0 }));
    assert_eq!(list[..4], [5, 300, 301, 0]);
    let full: Vec<u64> = (1..=4088).collect();
    assert_eq!(sh_page_write_stream(&mut page, &full), Ok(4088));
    assert_eq!(sh_page_try_append(&mut page, 4089), Ok(PageAppend::Full));
    assert_eq!(sh_page_entries_into(&page, &mut list), Ok(PageEntries { count: 4088, padded: 0 }));
    assert_eq!(list[..4088], full[..]);
    assert_eq!(sh_page_write_stream(&mut page, &list), Err(Refusal::OfferedNotRising));
}

#[test]
fn packed_pages() {
    let mut page = [0xff; 4096];
    assert_eq!(sh_page_pack_fks(&mut page, &[5, 300, 301], 8192), Ok(()));
    assert_eq!(page[..13], [1, 3, 0, 4, 0, 0, 0, 0, 5, 0xa7, 2, 1, 0]);
    assert_eq!(page[13..], [0; 4083]);
    let before = page;
    assert_eq!(sh_page_pack_fks(&mut page, &[5, 5], 0), Err(Refusal::OfferedNotRising));
    assert_eq!(page, before);
    let full: Vec<u64> = (1..=4073).collect();
    let extent = Extent { base: 4096, n: 1 };
    assert_eq!(sh_page_pack_extent_last_fks(&mut page, &full, extent, 0), Err(Refusal::DoesNotFit));
    assert_eq!(sh_page_pack_extent_last_fks(&mut page, &full[1..], extent, 0), Ok(()));
    assert_eq!((sh_page_extent(&page), sh_page_first_off(&page), sh_page_n_fks(&page)), (Ok(Some(extent)), Ok(4096), Ok(4072)));
}
