//! Starts that were written elsewhere: both books judge them, good ones and spoiled ones, and a history goes on from the good ones.
use crate::lent::Placing;
use crate::lockstep::history::{Ended, History};
use crate::lockstep::limits::bad_list;
use crate::lockstep::pair::{Call, Check, Given, Pair, MORE_WORK};
use crate::lockstep::spoiled::spoil;
use crate::lockstep::starts::Start;
use crate::lockstep::tally::{Tally, FOREIGN_START, SPOILED_START};
use crate::rng::Rng;
use crate::second_book::desks::By;
use crate::second_book::start::Verdict;

/// How many spoiled variants of a start are judged.
const VARIANTS: u64 = 6;

/// How much of a book a judgement is lent: most often all of it, with a work list that is long enough.
pub fn lent(rng: &mut Rng, body: usize, desks: &[u8]) -> Check {
    let (full, heads) = (body / 128, desks.len());
    let all = Check { body, heads, desks: desks.to_vec(), room: full + rng.pick(&[0, 0, 0, 1, 15, 16, MORE_WORK]) };
    let fewer = rng.pick(&[0, heads - 1, 1]);
    match rng.below(24) {
        0 => Check { body: rng.pick(&[0, 1, 4095, 4096, 8191, body - 1, body - 16, body - 4096]), ..all },
        1 => Check { heads: fewer, desks: desks[..fewer].to_vec(), ..all },
        2 => Check { room: rng.pick(&[0, 1, full / 2, full - 32, full - 1, full - 1]), ..all },
        3 => Check { body: rng.pick(&[8191, body - 4096]), room: rng.pick(&[0, full - 32, full - 33]), ..all },
        4 => Check { desks: bad_list(rng, desks, 0), room: rng.pick(&[0, full]), ..all },
        _ => all,
    }
}

/// A start that both books judge, with how many calls there were.
struct Judging<'a> {
    rng: Rng,
    pair: &'a mut Pair,
    tally: &'a mut Tally,
    name: &'a str,
    calls: u64,
}

impl Judging<'_> {
    /// Gives both books a start, and has them judge it as a whole.
    fn whole(&mut self, start: &Start, when: &'static str, placing: Placing) -> Result<Result<Verdict, u32>, String> {
        let (body, heads, desks) = (start.body.len(), start.heads.len(), start.desks.clone());
        self.pair.begin(start.body.clone(), start.heads.clone(), start.state, placing);
        self.judge(Check { body, heads, desks, room: body / 128 }, when)
    }

    fn judge(&mut self, check: Check, when: &'static str) -> Result<Result<Verdict, u32>, String> {
        self.calls += 1;
        let judged = self.pair.check(&check, self.name)?;
        self.tally.judged(when, &judged);
        Ok(judged)
    }

    /// A start that was built good: it is judged so, also by less than all of it, and each key reads as the list that was written, with as
    /// many padded numbers.
    fn good(&mut self, start: &Start, placing: Placing) -> Result<(), String> {
        let judged = self.whole(start, FOREIGN_START, placing)?;
        if judged.is_ok_and(|v| v.ground == 0) {
            self.tally.foreign(&start.met);
        } else {
            return Err(format!("a start that was built good is judged {judged:?}"));
        }
        for _ in 0..3 {
            let check = lent(&mut self.rng, start.body.len(), &start.desks);
            let _ = self.judge(check, FOREIGN_START)?;
        }
        for (key, list) in start.lists.iter().enumerate() {
            self.calls += 1;
            let call = Call::Read { key: key as u64, room: list.len() };
            let given = Given { body: start.body.len(), heads: start.heads.len(), by: By::List(&start.desks) };
            let answer = self.pair.call(&call, given, self.name)?;
            if answer.refusal != 0 || self.pair.list != *list || answer.told[2] != start.padded[key] {
                return Err(format!("{call:?}: a good start answers {}, and another list or padding than was written", answer.refusal));
            }
            self.tally.padded(&answer);
        }
        Ok(())
    }

    /// Variants of a start that are spoiled in one way or two.
    fn spoiled(&mut self, start: &Start, placing: Placing) -> Result<(), String> {
        for _ in 0..VARIANTS {
            let mut bad = start.clone();
            let names: Vec<&str> = (0..self.rng.pick(&[1, 1, 1, 2])).map(|_| spoil(&mut bad, &mut self.rng)).collect();
            let told = |what| format!("{what}, spoiled by {names:?}");
            let _ = self.whole(&bad, SPOILED_START, placing).map_err(told)?;
            let check = lent(&mut self.rng, bad.body.len(), &bad.desks);
            let _ = self.judge(check, SPOILED_START).map_err(told)?;
            names.iter().for_each(|name| *self.tally.spoils.entry(name).or_default() += 1);
        }
        Ok(())
    }
}

/// Builds a start, judges it and variants of it, and runs a history from it; tells how many calls there were.
pub fn run(mut rng: Rng, pair: &mut Pair, tally: &mut Tally, name: &str) -> Ended {
    let start = Start::build(&mut rng);
    let placing = rng.pick(&[Placing::End, Placing::Start]);
    let mut judging = Judging { rng: Rng(rng.next()), pair, tally, name, calls: 0 };
    let judged = judging.good(&start, placing).and_then(|()| judging.spoiled(&start, placing));
    let calls = judging.calls;
    judged.map_err(|what| (calls, what))?;
    match History::of_start(rng, start, placing, pair, tally, name.into()).run() {
        Ok(more) => Ok(calls + more),
        Err((more, what)) => Err((calls + more, what)),
    }
}
