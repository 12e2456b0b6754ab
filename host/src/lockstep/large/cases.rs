//! Histories by hand on large bodies, with the refusal of each call.
use crate::inputs::rising;
use crate::lockstep::far::{end_of, Far};
use crate::lockstep::large::{E, END, FULL, P};
use crate::lockstep::pair::Call;
use crate::rng::Rng;
use crate::second_book::desks::{Limits, NO_LIMITS};
use crate::second_book::Fit;

/// A history by hand: its name, the body's length and mark, how it is written, and calls with the refusals that they get.
pub struct Case {
    pub name: String,
    pub len: u64,
    pub mark: u64,
    pub write: fn(&mut Far),
    pub calls: Vec<(Call, u32)>,
}

/// The numbers from one to another.
pub fn row(first: u64, last: u64) -> Vec<u64> {
    (first..=last).collect()
}

fn load(key: u64, fks: Vec<u64>) -> Call {
    Call::Load { key, fks, fit: Fit::Spare }
}

fn tight(key: u64, fks: Vec<u64>) -> Call {
    Call::Load { key, fks, fit: Fit::Tight }
}

fn append(key: u64, fk: u64) -> Call {
    Call::Append { key, fk }
}

fn extend(key: u64, first: u64, last: u64) -> Call {
    Call::Extend { key, fks: row(first, last) }
}

fn read(key: u64) -> Call {
    Call::Read { key, room: 20_000 }
}

fn drop_key(key: u64) -> Call {
    Call::Drop { key }
}

/// The pages to be had of the largest fresh book, and a making that reserves so many for desk 3.
const MOST_RESERVE: u64 = END / P - 1;

fn reserving(pages: u64) -> Call {
    let reserve = std::array::from_fn(|desk| if desk == 3 { pages } else { 0 });
    Call::Fresh(Limits { reserve, ..NO_LIMITS })
}

/// Slabs of each class that end at 2^40, with none behind them, and that would end 16 bytes past it; by both loads, which take the class
/// either way.
fn up_to_the_end() -> Vec<Case> {
    let mut out = Vec::new();
    for (class, fit) in (0..8u8).flat_map(|class| [(class, Fit::Spare), (class, Fit::Tight)]) {
        // Numbers of eight bytes each need more bytes than slots.
        let fks: Vec<u64> = if class == 0 { vec![1, 2] } else { (1..(2 << class)).map(|k| k << 49).collect() };
        let take = |key| Call::Load { key, fks: fks.clone(), fit };
        for (name, mark, first) in [("up to 2^40", E - end_of(class, 0), 0), ("past 2^40", E - end_of(class, 0) + 16, 36)] {
            let calls = vec![(take(0), first), (take(1), 36), (load(2, row(1, 300)), 0), (drop_key(0), 0), (take(1), first), (read(1), 0)];
            out.push(Case { name: format!("a slab of class {class} {name}"), len: END, mark, write: |_| {}, calls });
        }
    }
    out
}

/// What is taken at the marks around 2^40 and at the body's end.
fn taking() -> Vec<Case> {
    vec![
        // The larger class doesn't fit, a smaller one does: there is no falling back. The pages behind are to be had.
        Case {
            name: "16 bytes before 2^40".into(),
            len: END,
            mark: E - 16,
            write: |_| {},
            calls: vec![
                (load(0, row(1, 4)), 36),
                (append(1, 5), 0),
                (append(2, 5), 0),
                (tight(0, row(1, 4)), 0),
                (append(1, 6), 36),
                (append(0, 5), 36),
                (load(3, row(1, 300)), 0),
                (load(4, vec![1, 2]), 36),
                (read(0), 0),
                (drop_key(0), 0),
                (append(2, 6), 0),
                (read(2), 0),
            ],
        },
        // A list grows into the last slab, and then there is none for it; a page is taken.
        Case {
            name: "appends up to 2^40".into(),
            len: END,
            mark: E - 16,
            write: |_| {},
            calls: vec![
                (append(0, 1), 0),
                (append(0, 2), 0),
                (append(0, 3), 0),
                (append(0, 4), 0),
                (append(0, 5), 36),
                (load(1, row(1, 257)), 0),
                (append(0, 5), 36),
                (read(0), 0),
            ],
        },
        // The gap ends at 2^40 and is carved; the run begins there.
        Case {
            name: "a gap up to 2^40".into(),
            len: END,
            mark: E - 16 - 32 - 64,
            write: |_| {},
            calls: vec![
                (load(0, row(1, 5000)), 0),
                (load(1, row(1, 8)), 0),
                (load(2, row(1, 4)), 0),
                (load(3, row(1, 3)), 0),
                (load(4, row(1, 3)), 36),
                (append(3, 4), 0),
                (append(3, 5), 36),
                (read(0), 0),
                (drop_key(0), 0),
                (drop_key(1), 0),
                (append(4, 5), 0),
                (append(4, 6), 36),
                (tight(1, row(1, 300)), 0),
            ],
        },
        // A run across 2^40 behind a gap that is carved.
        Case {
            name: "a run across 2^40".into(),
            len: END,
            mark: E - 2 * P + 16,
            write: |_| {},
            calls: vec![
                (load(0, row(1, 8000)), 0),
                (append(0, 8001), 0),
                (read(0), 0),
                (load(1, row(1, 200)), 0),
                (drop_key(0), 0),
                (load(2, row(1, 256)), 36),
                (tight(2, row(1, 256)), 0),
                (append(2, 257), 0),
                (read(2), 0),
            ],
        },
        // The gap past 2^40 goes on no list.
        Case {
            name: "a gap past 2^40".into(),
            len: END,
            mark: E + 16,
            write: |_| {},
            calls: vec![
                (load(0, row(1, 300)), 0),
                (load(1, row(1, 3)), 36),
                (tight(1, row(1, 3)), 36),
                (append(0, 301), 0),
                (read(0), 0),
                (drop_key(0), 0),
                (load(2, row(1, 9000)), 0),
                (read(2), 0),
            ],
        },
        // A list moves to a page past 2^40, of which chains grow, and pages are taken again.
        Case {
            name: "moves to pages past 2^40".into(),
            len: END,
            mark: E + 16,
            write: |far| {
                far.put_slab(0, 6, E - 4096, &row(1, 256));
                far.put_pages(1, &[(E - 2 * P, &row(1, 4072))], 4072);
            },
            calls: vec![
                (append(0, 257), 0),
                (append(1, 4073), 0),
                (append(1, 4074), 0),
                (read(0), 0),
                (read(1), 0),
                (load(2, row(1, 256)), 0),
                (append(2, 257), 0),
                (drop_key(1), 0),
                (append(3, 1), 0),
                (append(3, 2), 36),
                (load(4, row(1, 128)), 0),
                (append(4, 129), 0),
                (read(4), 0),
            ],
        },
        // The body ends at 2^41: its last page, and none behind it.
        Case {
            name: "the end of the largest body".into(),
            len: END,
            mark: END - 2 * P,
            write: |_| {},
            calls: vec![
                (load(0, row(1, 9000)), 36),
                (load(0, row(1, 4072)), 0),
                (append(0, 4073), 0),
                (append(0, 4074), 0),
                (load(1, row(1, 300)), 36),
                (load(1, row(1, 3)), 36),
                (read(0), 0),
                (drop_key(0), 0),
                (load(1, row(1, 9000)), 36),
                (load(1, row(1, 8000)), 0),
                (load(2, row(1, 300)), 36),
            ],
        },
        // No page is left for a chain, nor for a list that moves.
        Case {
            name: "the mark at 2^41".into(),
            len: END,
            mark: END,
            write: |far| {
                far.put_slab(0, 6, 4096, &row(1, 256));
                far.put_pages(1, &[(END - P, &row(1, 4072))], 4072);
            },
            calls: vec![
                (append(0, 257), 36),
                (append(1, 4073), 36),
                (read(1), 0),
                (drop_key(1), 0),
                (append(0, 257), 0),
                (read(0), 0),
                (append(2, 5), 0),
                (append(2, 6), 36),
            ],
        },
        // The largest book begins as any other.
        // The largest reserve: all pages to be had are desk 3's, which has key 3.
        Case {
            name: "reserves of 2^41 bytes".into(),
            len: END,
            mark: E,
            write: |_| {},
            calls: vec![
                (reserving(MOST_RESERVE + 2), 1),
                (reserving(MOST_RESERVE + 1), 39),
                (reserving(MOST_RESERVE), 0),
                (append(0, 5), 0),
                (append(0, 6), 41),
                (load(1, row(1, 300)), 41),
                (load(3, row(1, 5000)), 0),
                (append(3, 5001), 0),
                (tight(4, row(1, 2)), 41),
                (drop_key(3), 0),
            ],
        },
        Case {
            name: "a fresh book of 2^41 bytes".into(),
            len: END,
            mark: E,
            write: |_| {},
            calls: vec![
                (Call::Fresh(NO_LIMITS), 0),
                (load(0, row(1, 3)), 0),
                (load(1, row(1, 5000)), 0),
                (load(2, row(1, 100)), 0),
                (append(0, 4), 0),
                (append(0, 5), 0),
                (read(1), 0),
                (drop_key(1), 0),
            ],
        },
        // Past the old limit, slabs and pages are taken as before it.
        Case {
            name: "past 2^30".into(),
            len: (1 << 30) + 4 * P,
            mark: 1 << 30,
            write: |_| {},
            calls: vec![
                (load(0, row(1, 3)), 0),
                (load(1, row(1, 300)), 0),
                (append(0, 4), 0),
                (append(0, 5), 0),
                (load(2, row(1, 9000)), 36),
                (load(2, row(1, 5000)), 0),
                (load(3, row(1, 300)), 36),
                (read(2), 0),
                (drop_key(2), 0),
            ],
        },
        // A body that ends at 2^40: slabs and pages end there for both reasons.
        Case {
            name: "a body of 2^40".into(),
            len: E,
            mark: E - 2 * P,
            write: |_| {},
            calls: vec![(load(0, row(1, 200)), 0), (load(1, row(1, 300)), 0), (load(2, row(1, 300)), 36), (load(2, row(1, 255)), 0)],
        },
    ]
}

/// Slabs across 2^40, held and freed: they are read, appended to and dropped, and not taken.
fn across() -> Vec<Case> {
    vec![
        Case {
            name: "a slab across 2^40".into(),
            len: END,
            mark: E + 16,
            write: |far| far.put_slab(0, 1, E - 16, &row(1, 3)),
            calls: vec![
                (read(0), 0),
                (append(0, 4), 0),
                (append(0, 1 << 40), 0),
                (read(0), 0),
                (drop_key(0), 0),
                (load(1, row(1, 4)), 35),
                (tight(1, row(1, 20)), 35),
                (append(2, 1), 0),
                (append(2, 1 << 61), 36),
                (append(3, 1 << 61), 0),
                (append(3, (1 << 61) + (1 << 60)), 35),
                (append(3, (1 << 61) + 1), 36),
                (load(4, row(1, 300)), 0),
                (read(4), 0),
            ],
        },
        // One that moves frees its block, and the next take of its class is turned back.
        Case {
            name: "a slab that moves away from 2^40".into(),
            len: END,
            mark: E + 48,
            write: |far| {
                far.put_slab(0, 2, E - 16, &row(1, 16));
                far.put_free(3, &[8192]);
                far.put_free(2, &[12_288]);
            },
            calls: vec![
                (append(0, 17), 0),
                (load(1, row(1, 8)), 35),
                (append(2, 1), 0),
                (load(3, row(1, 300)), 0),
                (read(0), 0),
                (drop_key(0), 0),
                (load(4, row(1, 16)), 0),
                (tight(5, row(1, 60)), 35),
            ],
        },
        // Heads of freed slabs on both sides of the end; a page is never too far.
        Case {
            name: "freed slabs up to 2^40 and past it".into(),
            len: END,
            mark: E + 4 * P,
            write: |far| {
                far.put_free(0, &[E - 16, E]);
                far.put_free(1, &[E - 64, E - 16 - 32, E + 16]);
                far.put_free(7, &[E - 4096, E - 2032]);
                far.put_free(8, &[E + P, E + 2 * P]);
            },
            calls: vec![
                (load(0, vec![1, 2]), 0),
                (load(1, vec![1, 2]), 35),
                (load(1, row(1, 4)), 0),
                (load(2, row(1, 4)), 0),
                (load(3, row(1, 4)), 35),
                (tight(3, rising(&mut Rng(1), 200, &mut |_| 1 << 50)), 0),
                (tight(4, rising(&mut Rng(1), 200, &mut |_| 1 << 50)), 35),
                (append(1, 5), 0),
                (drop_key(0), 0),
                (load(0, vec![3, 4]), 0),
                (tight(5, row(1, 256)), 36),
            ],
        },
        // Pages past 2^40 that were freed are taken one by one.
        Case {
            name: "freed pages past 2^40".into(),
            len: END,
            mark: E + 4 * P,
            write: |far| {
                far.put_free(8, &[E + P, E, E - P]);
                far.put_slab(0, 6, 4096, &row(1, 256));
                far.put_slab(1, 5, 8192, &row(1, 256));
                far.put_pages(2, &[(E + 2 * P, &row(1, 4088)), (E + 3 * P, &row(4089, 8159))], 8159);
            },
            calls: vec![(append(0, 257), 0), (append(1, 257), 0), (append(2, 8160), 0), (read(2), 0), (drop_key(2), 0), (read(0), 0)],
        },
    ]
}

/// Runs out of freed pages: below 2^30, across it, and across 2^40, in lists of any order; the mark has no room, so that 36 says where none
/// serves.
fn out_of_freed() -> Vec<Case> {
    let case = |name: &str, len, mark, write, calls| Case { name: name.into(), len, mark, write, calls };
    const G: u64 = 1 << 30;
    vec![
        case(
            "freed pages across 2^30",
            G + 8 * P,
            G + 8 * P,
            |far| far.put_free(8, &[G + P, 2 * P, G - P, G, 5 * P, G - 2 * P, 4 * P]),
            vec![
                (load(0, row(1, 20_000)), 36),
                (tight(0, row(1, 16_000)), 0),
                (load(1, row(1, 9000)), 36),
                (load(1, row(1, 5000)), 0),
                (load(2, row(1, 5000)), 36),
                (load(2, row(1, 300)), 0),
                (load(3, row(1, 300)), 36),
                (drop_key(0), 0),
                (load(3, row(1, 12_000)), 0),
                (read(3), 0),
                (load(0, row(1, 300)), 0),
            ],
        ),
        case(
            "freed pages up to the edge of 2^30, and behind it",
            G + 8 * P,
            G + 8 * P,
            |far| far.put_free(8, &[G + 2 * P, G + P, G - P, G - 2 * P, G - 3 * P]),
            vec![(load(0, row(1, 16_000)), 36), (load(0, row(1, 12_000)), 0), (load(1, row(1, 8000)), 0), (load(2, row(1, 300)), 36)],
        ),
        case(
            "freed pages across 2^40",
            E + 8 * P,
            E + 8 * P,
            |far| far.put_free(8, &[E + 7 * P, E, E - P, P, 3 * P, E + P, 4 * P, E - 2 * P, E + 6 * P]),
            vec![
                (load(0, row(1, 16_000)), 0),
                (load(1, row(1, 9000)), 36),
                (tight(1, row(1, 8000)), 0),
                (load(2, row(1, 8000)), 0),
                (load(3, row(1, 300)), 0),
                (load(4, row(1, 300)), 36),
                (read(0), 0),
                (read(2), 0),
                (drop_key(2), 0),
                (append(4, 5), 0),
                (load(5, row(1, 300)), 0),
            ],
        ),
        case(
            "freed pages past 2^40, up to 2^41",
            END,
            END,
            |far| far.put_free(8, &[END - P, END - 3 * P, END - 2 * P, 2 * P]),
            vec![
                (load(0, row(1, 16_000)), 36),
                (load(0, row(1, 12_000)), 0),
                (load(1, row(1, 5000)), 36),
                (drop_key(0), 0),
                (load(1, row(1, 8000)), 0),
                (load(2, row(1, 4000)), 0),
                (load(3, row(1, 4000)), 0),
                (load(4, row(1, 4000)), 36),
            ],
        ),
    ]
}

/// Totals near 2^32, in place and on a page that is new.
fn totals() -> Vec<Case> {
    fn write(far: &mut Far, creates: u32) {
        far.put_pages(0, &[(E, &row(1, 100))], creates);
        far.put_pages(1, &[(E + P, &row(1, 4072))], creates);
    }
    let case = |name: &str, write, calls| Case { name: name.into(), len: END, mark: E + 2 * P, write, calls };
    let reads = |wanted| vec![(read(0), wanted), (read(1), wanted), (drop_key(0), wanted), (drop_key(1), wanted)];
    let appends = vec![(append(0, 101), 0), (append(1, 4073), 0), (append(0, 102), 0), (append(1, 4074), 0)];
    let both = |first: u32| [reads(first), appends.clone(), reads(0)].concat();
    let extends = vec![(extend(0, 101, 103), 0), (extend(1, 4073, 4075), 0)];
    vec![
        case("creates 2^32 - 2, extended", |far| write(far, FULL - 1), [extends.clone(), reads(0)].concat()),
        case("creates 2^32 - 1, extended", |far| write(far, FULL), [extends.clone(), reads(0)].concat()),
        case("creates 0, extended", |far| write(far, 0), [extends, reads(0)].concat()),
        case("creates 2^32 - 2", |far| write(far, FULL - 1), both(31)),
        case("creates 2^32 - 1", |far| write(far, FULL), both(31)),
        case("creates 0", |far| write(far, 0), [appends.clone(), reads(0)].concat()),
        case("creates below the length", |far| write(far, 99), [appends.clone(), reads(31)].concat()),
    ]
}

/// Extends at the ends of slabs and of bodies. One in which a number has no room is accepted.
fn extends() -> Vec<Case> {
    vec![
        // From slabs before 2^40 and across it: to pages past it, in place, and where no slab is left.
        Case {
            name: "extends past 2^40".into(),
            len: END,
            mark: E + 16,
            write: |far| {
                far.put_slab(0, 6, E - 4096, &row(1, 200));
                far.put_slab(1, 1, E - 16, &row(1, 3));
            },
            calls: vec![
                (extend(0, 201, 5000), 0),
                (extend(1, 4, 4), 0),
                (extend(1, 5, 40), 0),
                (extend(2, 1, 3), 0),
                (read(0), 0),
                (read(1), 0),
                (read(2), 0),
                (extend(0, 5001, 9000), 0),
                (drop_key(0), 0),
            ],
        },
        // A chain that grows up to the body's end, and a page that was freed.
        Case {
            name: "an extend up to 2^41".into(),
            len: END,
            mark: END - 2 * P,
            write: |far| {
                far.put_pages(0, &[(END - 3 * P, &row(1, 100))], 100);
                far.put_free(8, &[END - 4 * P]);
            },
            calls: vec![(extend(0, 101, 20_000), 0), (read(0), 0), (extend(0, 101, 101), 0), (drop_key(0), 0), (extend(0, 1, 1), 0)],
        },
    ]
}

/// All of them.
pub fn cases() -> Vec<Case> {
    [up_to_the_end(), taking(), across(), out_of_freed(), totals(), extends()].into_iter().flatten().collect()
}
