//! Our speed against theirs: both sides of a case do the same work on the same inputs, in turns.
use crate::inputs;
use crate::rng::Rng;
use crate::run_bench;
use oracle::{boundary, scripthash_pages as pages, scripthash_slabs as slabs, Fk};
use ouriscado::sys;
use std::hint::black_box;
use std::time::Duration;

/// Rounds of a case.
const ROUNDS: usize = 301;
/// What a round of one side takes at least: short, so that both sides of a round meet the machine in the same state.
const ROUND_TIME: Duration = Duration::from_micros(100);
/// Numbers or words in a batch of tiny calls.
pub const BATCH: usize = 1024;

/// A case: its name, and the work of each side.
pub struct Case {
    name: String,
    ours: Box<dyn FnMut()>,
    theirs: Box<dyn FnMut()>,
}

pub fn case(name: String, ours: impl FnMut() + 'static, theirs: impl FnMut() + 'static) -> Case {
    Case { name, ours: Box::new(ours), theirs: Box::new(theirs) }
}

/// Keeps the compiler from leaving out a call whose answer nobody reads.
pub fn seen<T>(answer: T) {
    black_box(answer);
}

extern "C" {
    /// The C library's clock, with seconds and nanoseconds.
    fn clock_gettime(clock: i32, time: &mut [i64; 2]) -> i32;
}

/// The processor time of this thread: unlike the clock's, it leaves out the turns of other programs.
pub fn now() -> Duration {
    const THREAD: i32 = 3;
    let mut time = [0; 2];
    assert_eq!(unsafe { clock_gettime(THREAD, &mut time) }, 0);
    Duration::new(time[0] as u64, time[1] as u32)
}

/// How long some turns of work take.
fn time(work: &mut dyn FnMut(), turns: u32) -> Duration {
    let start = now();
    (0..turns).for_each(|_| work());
    now() - start
}

/// The turns that a round needs.
fn turns(work: &mut dyn FnMut()) -> u32 {
    let mut turns = 1;
    while time(work, turns) < ROUND_TIME && turns < 1 << 20 {
        turns *= 2;
    }
    turns
}

/// Measures a case, prints its line, and gives the median ratio.
fn measure(case: &mut Case) -> f64 {
    let turns = turns(&mut case.theirs).max(turns(&mut case.ours));
    let (mut ratios, mut us, mut them) = (Vec::new(), Vec::new(), Vec::new());
    for round in 0..ROUNDS {
        let (a, b) = if round % 2 == 0 {
            let a = time(&mut case.ours, turns);
            (a, time(&mut case.theirs, turns))
        } else {
            let b = time(&mut case.theirs, turns);
            (time(&mut case.ours, turns), b)
        };
        ratios.push(a.as_secs_f64() / b.as_secs_f64());
        us.push(a.as_secs_f64() / turns as f64);
        them.push(b.as_secs_f64() / turns as f64);
    }
    [&mut ratios, &mut us, &mut them].into_iter().for_each(|v| v.sort_by(f64::total_cmp));
    let (mid, low, high) = (ratios[ROUNDS / 2], ratios[ROUNDS / 10], ratios[ROUNDS - 1 - ROUNDS / 10]);
    println!(
        "{:<50} {mid:>5.2}  ({low:.2} to {high:.2})  {:>9.0} ns against {:>9.0} ns",
        case.name,
        us[ROUNDS / 2] * 1e9,
        them[ROUNDS / 2] * 1e9
    );
    mid
}

/// Numbers whose shortest form has a length.
fn of_length(rng: &mut Rng, len: u32) -> Vec<u64> {
    let (low, high) = (if len == 1 { 0 } else { 1u64 << (7 * (len - 1)) }, if len == 10 { u64::MAX } else { (1u64 << (7 * len)) - 1 });
    (0..BATCH).map(|_| low + rng.below(high - low)).collect()
}

/// Numbers written and read one by one, each in its own 16 bytes.
fn numbers(cases: &mut Vec<Case>) {
    for len in 1..=10u32 {
        let numbers = of_length(&mut Rng(len as u64), len);
        let mut forms = vec![0u8; 16 * BATCH];
        numbers.iter().zip(forms.chunks_mut(16)).for_each(|(&n, f)| seen(sys::write_uleb128_into(f, n, &mut 0)));
        let (theirs, mut ours_to, mut theirs_to) = (numbers.clone(), forms.clone(), forms.clone());
        let lens = numbers.clone();
        let lens_too = numbers.clone();
        cases.push(case(
            format!("length of a number, {len} bytes"),
            move || lens.iter().for_each(|&n| seen(sys::uleb128_len(n))),
            move || lens_too.iter().for_each(|&n| seen(boundary::uleb128_len(n))),
        ));
        cases.push(case(
            format!("write a number, {len} bytes"),
            move || numbers.iter().zip(ours_to.chunks_mut(16)).for_each(|(&n, f)| seen(sys::write_uleb128_into(f, n, &mut 0))),
            move || {
                theirs.iter().zip(theirs_to.chunks_mut(16)).for_each(|(&n, f)| {
                    black_box(unsafe { boundary::write_uleb128_into(f.as_mut_ptr(), 16, n, &mut 0) });
                })
            },
        ));
        let theirs = forms.clone();
        cases.push(case(
            format!("read a number, {len} bytes"),
            move || {
                forms.chunks(16).for_each(|f| {
                    let (mut value, mut len, mut shortest) = (0, 0, false);
                    black_box((sys::read_uleb128(f, &mut value, &mut len, &mut shortest), value, len, shortest));
                })
            },
            move || {
                theirs.chunks(16).for_each(|f| {
                    let (mut value, mut len) = (0, 0);
                    black_box((unsafe { boundary::read_uleb128(f.as_ptr(), 16, &mut value, &mut len) }, value, len));
                })
            },
        ));
    }
}

/// Lists whose differences have one-byte, two-byte or mixed forms.
fn lists() -> Vec<(String, Vec<u64>)> {
    let mut out = Vec::new();
    for len in [256, 4000] {
        let mut rng = Rng(len as u64);
        let mut of = |difference: &mut dyn FnMut(&mut Rng) -> u64| inputs::rising(&mut rng, len, difference);
        out.push((format!("{len}, one-byte differences"), of(&mut |r| 1 + r.below(127))));
        out.push((format!("{len}, two-byte differences"), of(&mut |r| 128 + r.below(16_000))));
        out.push((format!("{len}, mixed differences"), of(&mut |r| r.bits(30))));
    }
    out
}

/// Streams encoded and decoded.
fn streams(cases: &mut Vec<Case>) {
    for (name, list) in lists() {
        let mut bytes = vec![0u8; 10 * list.len()];
        let mut len = 0;
        assert_eq!(sys::encode_fk_delta_stream_into(&mut bytes, &list, &mut len), 0);
        let (theirs, mut ours_to, mut theirs_to) = (list.clone(), bytes.clone(), bytes.clone());
        bytes.truncate(len);
        let n = list.len();
        cases.push(case(
            format!("encode {name}"),
            move || seen(sys::encode_fk_delta_stream_into(&mut ours_to, &list, &mut 0)),
            move || seen(slabs::encode_fk_delta_stream_into(&mut theirs_to, &theirs)),
        ));
        let (theirs, mut ours_to, mut theirs_to) = (bytes.clone(), vec![0u64; n], Vec::<Fk>::with_capacity(n));
        cases.push(case(
            format!("decode {name}"),
            move || seen(sys::decode_fk_delta_stream_into(&bytes, n, &mut ours_to, &mut 0, &mut 0)),
            move || {
                theirs_to.clear();
                seen(slabs::decode_fk_delta_stream_into(&theirs, n, &mut theirs_to));
            },
        ));
    }
}

/// Slab payloads encoded and decoded.
fn slab_payloads(cases: &mut Vec<Case>) {
    for (name, list) in lists().into_iter().take(3) {
        let mut bytes = vec![0u8; 2048];
        let mut len = 0;
        let n = list.len();
        assert_eq!(sys::encode_slab_payload_into(&mut bytes, &list, &mut len), 0);
        let (theirs, mut ours_to, mut theirs_to) = (list.clone(), bytes.clone(), bytes.clone());
        cases.push(case(
            format!("encode a slab of {name}"),
            move || seen(sys::encode_slab_payload_into(&mut ours_to, &list, &mut 0)),
            move || seen(slabs::encode_slab_payload_into(&mut theirs_to, &theirs)),
        ));
        let (theirs, mut ours_to, mut theirs_to) = (bytes.clone(), vec![0u64; n], Vec::<Fk>::with_capacity(n));
        cases.push(case(
            format!("decode a slab of {name}"),
            move || seen(sys::decode_slab_payload_into(&bytes, &mut ours_to, &mut 0, &mut 0, &mut 0)),
            move || {
                theirs_to.clear();
                seen(slabs::decode_slab_payload_into(&theirs, &mut theirs_to));
            },
        ));
    }
}

/// Head words packed and unpacked, and classes chosen.
fn small(cases: &mut Vec<Case>) {
    let mut rng = Rng(1);
    let slabs: Vec<(u8, u16, u64)> = (0..BATCH).map(|_| (rng.below(8) as u8, 2 + rng.below(255) as u16, 16 * rng.below(1 << 30))).collect();
    let words: Vec<u64> = slabs
        .iter()
        .map(|&(class, used, off)| {
            let mut word = 0;
            match rng.below(4) {
                0 => word = 1 + rng.bits(60),
                1 => seen(sys::pack8_extent(4096 * (1 + rng.below(1 << 20)), &mut word)),
                _ => seen(sys::pack8_slab(class, used, off, &mut word)),
            }
            word
        })
        .collect();
    let (theirs, theirs_words) = (slabs.clone(), words.clone());
    cases.push(case(
        "pack a head word".into(),
        move || {
            slabs.iter().for_each(|&(class, used, off)| {
                let mut word = 0;
                black_box((sys::pack8_slab(class, used, off, &mut word), word));
            })
        },
        move || {
            theirs.iter().for_each(|&(class, used, off)| {
                let mut word = 0;
                black_box((boundary::pack8_slab(class, used, off, &mut word), word));
            })
        },
    ));
    cases.push(case(
        "unpack a head word".into(),
        move || {
            words.iter().for_each(|&w| {
                let (mut kind, mut class, mut used, mut place) = (0, 0, 0, 0);
                black_box((sys::unpack8(w, &mut kind, &mut class, &mut used, &mut place), kind, class, used, place));
            })
        },
        move || {
            theirs_words.iter().for_each(|&w| {
                let (mut kind, mut class, mut used, mut place) = (0, 0, 0, 0);
                black_box((boundary::unpack8(w, &mut kind, &mut class, &mut used, &mut place), kind, class, used, place));
            })
        },
    ));
    classes(cases);
}

/// A side of a choice of class by a count.
type Choose = fn(u32, &mut u8) -> bool;

/// Classes chosen, for counts and lengths in no order.
fn classes(cases: &mut Vec<Case>) {
    let sides: [(&str, u64, Choose, Choose); 3] = [
        ("class by count", 260, |n, c| sys::slab_class_for_n_fks(n, c), |n, c| boundary::slab_class_for_n_fks(n, c)),
        (
            "class with slack",
            260,
            |n, c| sys::slab_class_for_n_fks_with_slack(n, c),
            |n, c| boundary::slab_class_for_n_fks_with_slack(n, c),
        ),
        (
            "class by bytes",
            2060,
            |n, c| sys::slab_class_for_packed_len(n as usize, c),
            |n, c| boundary::slab_class_for_packed_len(n as usize, c),
        ),
    ];
    for (name, most, ours, theirs) in sides {
        let mut rng = Rng(most);
        let counts: Vec<u32> = (0..BATCH).map(|_| rng.below(most) as u32).collect();
        let too = counts.clone();
        let all = |counts: &[u32], side: Choose| {
            counts.iter().for_each(|&n| {
                let mut class = 0;
                black_box((side(n, &mut class), class));
            })
        };
        cases.push(case(name.into(), move || all(&counts, ours), move || all(&too, theirs)));
    }
}

/// Lists of 65,535 numbers cut into the parts of pages, and as one range that is split.
fn cutting(cases: &mut Vec<Case>) {
    for (name, bits) in [("one-byte", 7), ("two-byte", 14), ("mixed", 30)] {
        let mut rng = Rng(bits as u64);
        let list = inputs::rising(&mut rng, 65_535, &mut |r| r.bits(bits));
        let theirs: Vec<Fk> = list.iter().map(|n| Fk(*n)).collect();
        let mut ranges = vec![[0; 2]; 65_535 / 407 + 2];
        let (list_too, theirs_too, mut chunks) = (list.clone(), theirs.clone(), ranges.clone());
        cases.push(case(
            format!("cut 65,535, {name} differences"),
            move || seen(sys::sh_page_chunk_ranges(&list, &mut ranges, &mut 0)),
            move || seen(pages::sh_page_chunk_ranges(&theirs)),
        ));
        let mut chunks_too = Vec::new();
        cases.push(case(
            format!("cut the last range of 65,535, {name} differences"),
            move || {
                chunks[0] = [0, 65_535];
                seen(sys::split_last_chunk_for_extent(&list_too, &mut chunks, 1, &mut 0))
            },
            move || {
                chunks_too.clear();
                chunks_too.push((0, 65_535));
                pages::split_last_chunk_for_extent(&theirs_too, &mut chunks_too);
                black_box(&chunks_too);
            },
        ));
    }
}

/// Gaps of up to a page carved, and blocks pushed and popped.
fn free(cases: &mut Vec<Case>) {
    const LEN: usize = 8192 * 66;
    let mut rng = Rng(9);
    let gaps: Vec<(u64, u64)> = (0..64).map(|k| (8192 * k + 4096 + 16 * rng.below(256), 8192 * k + 8192)).collect();
    let (theirs, mut ours_body) = (gaps.clone(), vec![0u8; LEN]);
    let mut theirs_body = ours_body.clone();
    cases.push(case(
        "carve 64 gaps".into(),
        move || {
            let mut heads = [0; 9];
            gaps.iter().for_each(|&(from, to)| seen(sys::carve_gap_into_freelist(&mut ours_body, &mut heads, from, to)));
        },
        move || {
            let (body, mut heads) = (theirs_body.as_mut_ptr(), [0; 25]);
            theirs.iter().for_each(|&(from, to)| seen(unsafe { boundary::carve_gap_into_freelist(body, LEN, &mut heads, from, to) }));
        },
    ));
    let (mut ours_body, mut theirs_body) = (vec![0u8; LEN], vec![0u8; LEN]);
    cases.push(case(
        "push and pop 256 blocks".into(),
        move || {
            let mut heads = [0; 9];
            (0..256).for_each(|k| seen(sys::push_free_head(&mut ours_body, &mut heads, 3, 4096 + 128 * k)));
            (0..256).for_each(|_| seen(sys::pop_free_head(&ours_body, &mut heads, 3, LEN as u64, &mut 0)));
        },
        move || {
            let (body, mut heads) = (theirs_body.as_mut_ptr(), [0; 25]);
            (0..256).for_each(|k| seen(unsafe { boundary::push_free_head(body, LEN, &mut heads, 3, 4096 + 128 * k) }));
            (0..256).for_each(|_| seen(unsafe { boundary::pop_free_head(body, LEN, &mut heads, 3, &mut 0) }));
        },
    ));
}

/// Measures every case, or those whose name has a phrase.
pub fn bench(only: Option<&str>) {
    let mut cases = Vec::new();
    numbers(&mut cases);
    streams(&mut cases);
    slab_payloads(&mut cases);
    small(&mut cases);
    cutting(&mut cases);
    free(&mut cases);
    crate::page_bench::cases(&mut cases);
    crate::book_bench::cases(&mut cases);
    println!("Our time over theirs: the median of {ROUNDS} rounds in turns (a tenth and nine tenths of them), and the time of a batch.");
    println!("Destinations are reused and not cleared between calls; their lists keep their capacity.");
    let mut worst = (0.0, String::new());
    for c in cases.iter_mut().filter(|c| only.is_none_or(|o| c.name.contains(o))) {
        let ratio = measure(c);
        if ratio > worst.0 {
            worst = (ratio, c.name.clone());
        }
    }
    if only.is_none_or(|o| o == run_bench::NAME) {
        run_bench::bench();
    }
    if worst.0 > 0.0 {
        println!("worst ratio {:.2}: {}", worst.0, worst.1);
    }
}
