//! Lists that histories load: of any length, with a payload of just so many bytes, or with a last page that is full to the byte.
use crate::inputs::rising;
use crate::rng::Rng;
use oracle::uleb128_len;

/// A list of a length, of differences up to a length in bits; an even one rises by one difference, so that its text is short.
pub fn of_length(rng: &mut Rng, len: u64, even: bool) -> Vec<u64> {
    let most = 61 - (64 - len.leading_zeros());
    let bits = rng.pick(&[0, 3, 7, 8, 14, 20, 35, 49, 56]).min(most);
    if even {
        let step = 1 + rng.bits(bits);
        return (1..=len).map(|k| k * step).collect();
    }
    rising(rng, len as usize, &mut |r| r.bits(bits))
}

/// A list with just the numbers that a class of slabs has slots for, or one less or more.
pub fn of_slots(rng: &mut Rng, even: bool) -> Vec<u64> {
    let len = (4 << rng.below(7)) + rng.pick(&[-1i64, 0, 1]);
    of_length(rng, len as u64, even)
}

/// A list for a slab whose payload has just the bytes of a class, some less or one more.
pub fn of_payload(rng: &mut Rng) -> Vec<u64> {
    let stream = ((16usize << rng.below(8)) - 1 - rng.pick(&[0, 1, 1, 1, 2, 3, 10])).max(2);
    let (least, most) = (stream.div_ceil(8).max(2), stream.min(256));
    let count = least + rng.below((most - least + 1) as u64) as usize;
    let mut last = 0;
    let lens = (0..count).map(|k| stream / count + usize::from(k < stream % count));
    lens.map(|len| {
        let low = if len == 1 { 1 } else { 1 << (7 * (len - 1)) };
        last += low + rng.below(low.min(60));
        last
    })
    .collect()
}

/// A list for so many whole pages and a last one that has room for some bytes more; differences have one byte.
pub fn of_pages(rng: &mut Rng, before: u64, left: usize, steps: u64) -> Vec<u64> {
    let (mut out, mut last) = (Vec::new(), 0);
    for page in 0..=before {
        let mut room = if page < before { 4088 } else { 4072 - left };
        while room > 0 {
            let next = last + 1 + rng.below(steps);
            let first = out.is_empty() || room == 4088 || (page == before && room == 4072 - left);
            let len = if first { uleb128_len(next) } else { 1 };
            if len > room {
                break;
            }
            out.push(next);
            last = next;
            room -= len;
        }
    }
    out
}

/// A list for a run of just so many pages, up to 40: of differences of seven bytes each, so that a page has 583 or 584 of them; an even one
/// rises by one difference.
pub fn of_run(rng: &mut Rng, pages: u64, even: bool) -> Vec<u64> {
    let len = 584 * (pages - 1) + if pages == 1 { 300 } else { 1 } + rng.below(250);
    let step = (1 << 42) + rng.bits(42);
    let mut last = 0;
    (0..len)
        .map(|_| {
            last += if even { step } else { (1 << 42) + rng.bits(42) };
            last
        })
        .collect()
}

#[cfg(test)]
mod tests {
    use super::*;
    use oracle::scripthash_pages::sh_page_chunk_ranges;
    use oracle::Fk;

    /// A run has the pages that were asked for.
    #[test]
    fn runs_have_their_pages() {
        let mut rng = Rng(1);
        for (pages, even) in (1..=40).flat_map(|pages| [(pages, false), (pages, true)]) {
            for _ in 0..20 {
                let fks = of_run(&mut rng, pages, even);
                let parts = sh_page_chunk_ranges(&fks.iter().map(|n| Fk(*n)).collect::<Vec<Fk>>()).unwrap().len() as u64;
                assert!(parts == pages && fks[fks.len() - 1] < 1 << 62, "{parts} in place of {pages}");
            }
        }
    }

    /// Of pages that were asked for there are as many, and one more where the last one has a number more.
    #[test]
    fn pages_are_full() {
        let mut rng = Rng(1);
        let parts = |fks: &[u64]| sh_page_chunk_ranges(&fks.iter().map(|n| Fk(*n)).collect::<Vec<Fk>>()).unwrap().len() as u64;
        for before in 0..6 {
            for left in [0, 1, 9] {
                let mut fks = of_pages(&mut rng, before, left, 3);
                assert_eq!(parts(&fks), before + 1);
                fks.extend((1..=left as u64 + 1).map(|k| fks[fks.len() - 1] + k).collect::<Vec<u64>>());
                assert_eq!(parts(&fks), before + 2);
            }
        }
    }
}
