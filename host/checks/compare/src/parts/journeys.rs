//! Sheets on their way in parts. Many are under way at a time, each call of one between those of the others; a
//! comparison then asks for many calls at once, and nothing may be kept but the numbers that are lent.

use super::sheets::BEHIND;
use crate::call::Call;
use crate::comparison::{Comparison, Outcome};
use second::arrival::USED_UP;
use second::random::Random;
use second::sheet::LONGEST;
use std::fmt::Debug;

/// How much is under way at most.
const MOST_SHEETS: usize = 1000;
const MOST_BYTES: usize = 2_000_000;

/// What is asked on a journey, with what is kept between two parts and all that was told so far.
pub trait Asked: Clone {
    /// What must be the same however the sheet is cut, the numbers that were left among it.
    type Told: Debug + PartialEq;

    /// How many numbers the archive keeps.
    const KEPT: usize;

    /// Before the first byte.
    fn nothing() -> Self;

    /// As if these had been kept, as many as there are, which may be any numbers.
    fn from_any(numbers: &[u64]) -> Self;

    /// Of a part, which is the first so many of these bytes.
    fn take(&self, part: &[u8], length: usize) -> Call;

    /// What would be said if the sheet were over.
    fn end(&self) -> Call;

    /// Of the answer to a part that begins at this place of the sheet.
    fn take_answered(&mut self, answer: &Call, place: usize) -> Taken;

    /// Whether it can be the answer to that end, whatever numbers were kept.
    fn end_answered(&mut self, answer: &Call) -> bool;

    /// What is kept from either call on.
    fn keep(&mut self, answer: Call);

    fn told(&self) -> &Self::Told;

    /// The numbers that the archive left.
    fn left(&self) -> &[u64];

    /// Whether the second implementation keeps it too, as it can't where any numbers were kept.
    fn is_known(&self) -> bool;

    /// Of the sheet as a whole, once it has arrived.
    fn whole_calls(&self, bytes: &[u8], length: usize) -> Vec<Call>;

    /// Whether the answers to those calls are what was told.
    fn is_told(&self, answers: &mut dyn FnMut() -> Call) -> bool;
}

/// What the answer to a part was.
pub enum Taken {
    /// So many bytes were taken, and the rest is asked of next.
    Some(usize),
    /// All were.
    All,
    /// It can't be the answer, whatever numbers were kept.
    Impossible,
}

/// The number of the fault that was met. Once there is one it stays, be it told of a part or of the sheet's end.
#[derive(Clone, Debug, Default, PartialEq, Eq)]
pub struct Fault(Option<u64>);

impl Fault {
    pub fn is_none(&self) -> bool {
        self.0.is_none()
    }

    /// Whether this can be told of a part that is used up.
    pub fn stays_with_part(&mut self, number: u64) -> bool {
        let stays = match self.0 {
            Some(fault) => number == fault,
            None => [USED_UP, 6, 7].contains(&number),
        };
        self.0 = Some(number).filter(|&number| number != USED_UP);
        stays
    }

    /// Whether this can be told of the end.
    pub fn stays_with_end(&self, number: u64) -> bool {
        [0, 6, 7].contains(&number) && self.0.unwrap_or(number) == number
    }
}

/// A sheet, and the journeys that it makes, each of which must come to the same.
pub struct Sent<A> {
    /// The sheet, and behind it what no call is told of before its time or at all.
    bytes: Vec<u8>,
    length: usize,
    journeys: Vec<Journey<A>>,
}

/// One way to cut the sheet.
struct Journey<A> {
    /// Where the parts end, the last of them where the sheet does.
    ends: Vec<usize>,
    /// How many parts are over, how many bytes are taken, and whether the part is used up.
    parts: usize,
    taken: usize,
    used_up: bool,
    /// Whether what is left of a part behind a state line is also asked of where that is nothing.
    thorough: bool,
    asked: A,
}

impl<A: Asked> Sent<A> {
    /// From what is kept, be it of nothing, with parts that end at these places.
    pub fn new(asked: &A, sheet: &[u8], cuts: Vec<Vec<usize>>) -> Sent<A> {
        Sent::behind(asked, 0, sheet, cuts)
    }

    /// The same sheet up to here, gone on from a copy of what was kept there. The places are those of the whole.
    pub fn gone_on(&self, rest: &[u8], cuts: Vec<Vec<usize>>) -> Sent<A> {
        let sheet = [&self.bytes[..self.length], rest].concat();
        Sent::behind(self.asked(), self.length, &sheet, cuts)
    }

    fn behind(asked: &A, taken: usize, sheet: &[u8], cuts: Vec<Vec<usize>>) -> Sent<A> {
        let journey = |(which, ends)| Journey {
            ends,
            parts: 0,
            taken,
            used_up: false,
            thorough: which % 2 == 0,
            asked: asked.clone(),
        };
        Sent {
            bytes: [sheet, BEHIND].concat(),
            length: sheet.len(),
            journeys: cuts.into_iter().enumerate().map(journey).collect(),
        }
    }

    /// How many bytes it has.
    pub fn length(&self) -> usize {
        self.length
    }

    /// All that was kept and told on the first journey, which once the sheet has arrived is that of the others too.
    pub fn asked(&self) -> &A {
        &self.journeys[0].asked
    }

    fn calls(&self) -> impl Iterator<Item = Call> + '_ {
        let under_way = self.journeys.iter().filter(|journey| !journey.is_over());
        under_way.map(|journey| journey.call(&self.bytes))
    }

    /// The answers to those calls, in their order.
    fn answered(&mut self, answers: &mut impl Iterator<Item = Call>) -> Outcome {
        for journey in &mut self.journeys {
            if !journey.is_over() {
                let answer = answers.next().expect("an answer to each");
                journey.answered(answer)?;
            }
        }
        Ok(())
    }

    /// However the sheet was cut, the same was told.
    fn compare_journeys(&self) -> Outcome {
        let [first, others @ ..] = &self.journeys[..] else {
            panic!("a journey at least");
        };
        for journey in others {
            if journey.asked.told() != first.asked.told() {
                return Err(format!(
                    "{} in parts that end at {:?}: the archive tells {:?}; in parts that end at {:?} {:?}",
                    self.shown(),
                    first.ends,
                    first.asked.told(),
                    journey.ends,
                    journey.asked.told()
                ));
            }
        }
        Ok(())
    }

    /// Whether what is said of the whole sheet is to be what was told.
    fn is_compared_with_whole(&self) -> bool {
        self.asked().is_known() && self.length <= LONGEST
    }

    fn shown(&self) -> String {
        format!("\"{}\"", self.bytes[..self.length].escape_ascii())
    }
}

impl<A: Asked> Journey<A> {
    fn is_over(&self) -> bool {
        self.parts == self.ends.len()
    }

    fn call(&self, bytes: &[u8]) -> Call {
        if self.used_up {
            return self.asked.end();
        }
        let end = self.ends[self.parts];
        let lent = &bytes[self.taken..end + BEHIND.len()];
        self.asked.take(lent, end - self.taken)
    }

    fn answered(&mut self, answer: Call) -> Outcome {
        let plausible = if self.used_up {
            self.used_up = false;
            self.parts += 1;
            self.asked.end_answered(&answer)
        } else {
            self.take_answered(&answer)
        };
        if !plausible {
            return Err(format!("on its way a sheet is answered {answer}"));
        }
        self.asked.keep(answer);
        Ok(())
    }

    fn take_answered(&mut self, answer: &Call) -> bool {
        let length = answer.length;
        let taken = match self.asked.take_answered(answer, self.taken) {
            Taken::Some(taken) => {
                self.used_up = taken == length && !self.thorough;
                taken
            }
            Taken::All => {
                self.used_up = true;
                length
            }
            Taken::Impossible => return false,
        };
        self.taken += taken;
        true
    }
}

/// Sends sheets as they come, many at a time.
pub struct Group<'a, A> {
    comparison: &'a mut Comparison,
    sent: Vec<Sent<A>>,
    bytes: usize,
}

impl<A: Asked> Group<'_, A> {
    pub fn new(comparison: &mut Comparison) -> Group<'_, A> {
        Group {
            comparison,
            sent: Vec::new(),
            bytes: 0,
        }
    }

    /// From the first byte on.
    pub fn send(&mut self, sheet: &[u8], cuts: Vec<Vec<usize>>) -> Outcome {
        self.add(Sent::new(&A::nothing(), sheet, cuts))
    }

    pub fn add(&mut self, sent: Sent<A>) -> Outcome {
        self.bytes += sent.bytes.len();
        self.sent.push(sent);
        if self.sent.len() >= MOST_SHEETS || self.bytes >= MOST_BYTES {
            return self.finish();
        }
        Ok(())
    }

    /// What is left under way arrives.
    pub fn finish(&mut self) -> Outcome {
        self.bytes = 0;
        arrive(self.comparison, std::mem::take(&mut self.sent)).map(drop)
    }
}

/// The sheets with their journeys over, which told all that they should have.
pub fn arrive<A: Asked>(
    comparison: &mut Comparison,
    mut sent: Vec<Sent<A>>,
) -> Result<Vec<Sent<A>>, String> {
    travel(comparison, &mut sent)?;
    sent.iter().try_for_each(Sent::compare_journeys)?;
    compare_with_whole(comparison, &sent)?;
    Ok(sent)
}

/// The next call of each journey, until all are over.
fn travel<A: Asked>(comparison: &mut Comparison, sent: &mut [Sent<A>]) -> Outcome {
    loop {
        let calls: Vec<Call> = sent.iter().flat_map(Sent::calls).collect();
        if calls.is_empty() {
            return Ok(());
        }
        let mut answers = comparison.all_answers(calls)?.into_iter();
        let mut sheets = sent.iter_mut();
        sheets.try_for_each(|sheet| sheet.answered(&mut answers))?;
    }
}

/// What was told of the parts is what is said of the whole sheet, where it is not too long.
fn compare_with_whole<A: Asked>(comparison: &mut Comparison, sent: &[Sent<A>]) -> Outcome {
    let compared = || sent.iter().filter(|sheet| sheet.is_compared_with_whole());
    let calls = compared().flat_map(|sheet| sheet.asked().whole_calls(&sheet.bytes, sheet.length));
    let mut answers = comparison.all_answers(calls)?.into_iter();
    let mut answer = || answers.next().expect("an answer to each");
    for sheet in compared() {
        if !sheet.asked().is_told(&mut answer) {
            return Err(format!(
                "{} as a whole is answered otherwise than in parts: {:?}",
                sheet.shown(),
                sheet.asked().told()
            ));
        }
    }
    Ok(())
}

/// In one part, in two of every length, and in single bytes.
pub fn everywhere(length: usize, random: &mut Random) -> Vec<Vec<usize>> {
    let two = (0..=length).map(|place| vec![place, length]);
    let mut cuts: Vec<Vec<usize>> = two.collect();
    cuts.push(vec![length]);
    cuts.push(single_bytes(0, length, random));
    cuts
}

/// Single bytes from a place on, up to which there is one part, with empty parts strewn in.
pub fn single_bytes(from: usize, length: usize, random: &mut Random) -> Vec<usize> {
    let mut ends = Vec::new();
    for end in from..=length {
        ends.push(end);
        if random.number() % 8 == 7 {
            ends.push(end);
        }
    }
    ends
}

/// Parts of up to so many bytes, short ones as likely as long ones, and empty ones among them.
pub fn at_random(from: usize, length: usize, most: u64, random: &mut Random) -> Vec<usize> {
    let mut end = from;
    let mut ends = Vec::new();
    while end < length {
        end = length.min(end + random.magnitude(most) as usize);
        ends.push(end);
    }
    ends.push(length);
    ends
}

#[cfg(test)]
mod tests {
    use super::*;

    #[test]
    fn places_of_cuts() {
        let mut random = Random(0);
        let [two @ .., whole, _] = &everywhere(1, &mut random)[..] else {
            panic!("in one part and in single bytes");
        };
        assert_eq!((two, whole), (&[vec![0, 1], vec![1, 1]][..], &vec![1]));
        for (from, length) in [(0, 0), (0, 50), (7, 50)] {
            let single = single_bytes(from, length, &mut random);
            let any = at_random(from, length, 9, &mut random);
            for ends in [single, any] {
                assert!(ends.is_sorted() && ends[0] >= from);
                assert_eq!(ends.last(), Some(&length));
            }
        }
    }
}
