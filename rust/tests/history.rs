//! A long history of random calls through the crate, beside lists that are kept in vectors: what is read is what was recorded, and none of
//! it is padded.
use ouriscado::{Appended, Book, Place, Refusal};

const KEYS: usize = 24;

/// Random numbers, always the same ones (xorshift).
struct Random(u64);

impl Random {
    fn below(&mut self, n: u64) -> u64 {
        self.0 ^= self.0 << 13;
        self.0 ^= self.0 >> 7;
        self.0 ^= self.0 << 17;
        self.0 % n
    }

    /// A difference between two numbers of a list: one byte most of the time, up to six.
    fn step(&mut self) -> u64 {
        let bits = [3, 5, 7, 7, 9, 14, 20, 40][self.below(8) as usize];
        1 + self.below(1 << bits)
    }

    /// A rising list of so many numbers.
    fn list(&mut self, len: u64) -> Vec<u64> {
        (0..len)
            .scan(0, |last, _| {
                *last += self.step();
                Some(*last)
            })
            .collect()
    }
}

/// Whether a list can stand at a place.
fn fits(place: Place, list: &[u64]) -> bool {
    match place {
        Place::Empty => list.is_empty(),
        Place::Inline(number) => list == [number],
        Place::Slab { class, used, offset } => class < 8 && usize::from(used) == list.len() && offset % 16 == 0,
        Place::Pages { last } => list.len() > 1 && last % 4096 == 0,
    }
}

#[test]
fn reads_are_what_was_recorded() {
    let mut random = Random(0x9e37_79b9_7f4a_7c15);
    let mut book = Book::fresh(vec![0xa5; 1 << 20], vec![0; KEYS]).unwrap();
    let mut plain: Vec<Vec<u64>> = vec![Vec::new(); KEYS];
    let mut refused = 0;
    for _ in 0..60_000 {
        let key = random.below(KEYS as u64);
        let list = &mut plain[key as usize];
        let before = (list.len(), list.last().copied().unwrap_or(0));
        let outcome = match random.below(100) {
            0 => book.drop_key(key).map(|length| assert_eq!((length, std::mem::take(list).len()), (before.0, before.0))),
            1..=3 => {
                let len = [0, 1, 5, 90, 256, 257, 3_000, 9_000][random.below(8) as usize];
                let loaded = random.list(len);
                let load = [Book::load, Book::load_tight][random.below(2) as usize];
                load(&mut book, key, &loaded).map(|_| *list = loaded)
            }
            4 => Err(book.append(key, before.1).unwrap_err()),
            _ => {
                let number = before.1 + random.step();
                book.append(key, number).map(|Appended { place, .. }| {
                    list.push(number);
                    assert!(fits(place, list));
                    assert_eq!(book.place(key), Ok(place));
                })
            }
        };
        match outcome {
            Ok(()) => assert!(fits(book.place(key).unwrap(), &plain[key as usize])),
            Err(Refusal::NoRoom | Refusal::KeyInUse | Refusal::OfferedNotRising | Refusal::OfferedFirstZero) => refused += 1,
            Err(refusal) => panic!("{refusal}"),
        }
        if random.below(20) == 0 {
            let (list, told) = book.read_told(key).unwrap();
            assert_eq!((&list, told.length, told.padded), (&plain[key as usize], list.len(), 0));
        }
    }
    assert!(refused > 1_000, "{refused}");
    for (key, list) in plain.iter().enumerate() {
        assert_eq!(book.read(key as u64).as_deref(), Ok(&list[..]));
    }
}
