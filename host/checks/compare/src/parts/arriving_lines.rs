//! The state lines of a sheet that arrives in parts, each answered as it ends.

use super::journeys::{Asked, Fault, Taken};
use super::sheets::lines_of;
use crate::call::{Call, Kept, ARRIVING_ROOM, LINE, PARTS};
use second::sheet::LINE_END;

#[derive(Clone)]
pub struct Lines {
    kept: Kept,
    told: Told,
}

#[derive(Clone, Debug, Default, PartialEq, Eq)]
pub struct Told {
    /// The state lines, each with the place behind its end.
    lines: Vec<(usize, [u64; LINE])>,
    fault: Fault,
    /// What the sheet's end said last.
    end: (u64, [u64; 2]),
    /// The numbers that were left.
    parts: [u64; PARTS],
}

impl Asked for Lines {
    type Told = Told;

    const KEPT: usize = PARTS;

    fn nothing() -> Lines {
        Lines {
            kept: Kept::nothing(),
            told: Told::default(),
        }
    }

    fn from_any(numbers: &[u64]) -> Lines {
        Lines {
            kept: Kept {
                parts: numbers.try_into().expect("as many as are kept"),
                arrival: None,
            },
            told: Told::default(),
        }
    }

    fn take(&self, part: &[u8], length: usize) -> Call {
        Call::parts_take(&self.kept, part, length)
    }

    fn end(&self) -> Call {
        Call::parts_end(&self.kept)
    }

    /// Bytes are taken up to an end, or else all of them and nothing is told.
    fn take_answered(&mut self, answer: &Call, place: usize) -> Taken {
        let Call { number, length, .. } = *answer;
        let taken = answer.places[0] as usize;
        let line = &answer.lists[ARRIVING_ROOM..][..LINE];
        if taken > length {
            return Taken::Impossible;
        }
        if number == 0 {
            let line = line.try_into().expect("as many as a line has");
            self.told.lines.push((place + taken, line));
            let ended = answer.sheet[..taken].ends_with(&[LINE_END]);
            return if ended && self.told.fault.is_none() {
                Taken::Some(taken)
            } else {
                Taken::Impossible
            };
        }
        let stays = self.told.fault.stays_with_part(number);
        if stays && taken == length && line.iter().all(|&figure| figure == 0) {
            Taken::All
        } else {
            Taken::Impossible
        }
    }

    fn end_answered(&mut self, answer: &Call) -> bool {
        let number = answer.number;
        let reading = [answer.places[0], answer.places[1]];
        self.told.end = (number, reading);
        let plausible = match number {
            0 => reading[1] == 0,
            6 => reading[0] == 0,
            _ => reading == [0; 2],
        };
        plausible && self.told.fault.stays_with_end(number)
    }

    fn keep(&mut self, answer: Call) {
        self.kept = Kept::after(answer);
        self.told.parts = self.kept.parts;
    }

    fn told(&self) -> &Told {
        &self.told
    }

    fn left(&self) -> &[u64] {
        &self.told.parts
    }

    fn is_known(&self) -> bool {
        self.kept.arrival.is_some()
    }

    /// The sheet's reply, and where it is good some of its lines, with the replies to their states.
    fn whole_calls(&self, bytes: &[u8], length: usize) -> Vec<Call> {
        let mut calls = vec![Call::sheet(bytes, length)];
        for (k, &[fluid, millikelvin, pascals, ..]) in self.lines_of_whole() {
            calls.push(Call::sheet_line(bytes, length, k));
            calls.push(Call::state([fluid, millikelvin, pascals]));
        }
        calls
    }

    fn is_told(&self, answer: &mut dyn FnMut() -> Call) -> bool {
        let whole = answer();
        let (number, reading) = self.told.end;
        let counted = number != 0 || self.told.lines.len() as u64 == reading[0];
        let mut alike = counted && whole.number == number && whole.places[..2] == reading;
        for (_, line) in self.lines_of_whole() {
            let [written, state] = [answer(), answer()];
            alike &= written.number == 0 && written.places[..3] == line[..3];
            alike &= state.number == line[3] && state.places == line[4..];
        }
        alike
    }
}

impl Lines {
    /// The state lines that were answered.
    pub fn lines(&self) -> impl Iterator<Item = [u64; LINE]> + '_ {
        self.told.lines.iter().map(|&(_, line)| line)
    }

    /// Of a good sheet, those lines that the whole is asked for.
    fn lines_of_whole(&self) -> impl Iterator<Item = (u64, &[u64; LINE])> {
        let count = self.told.end.1[0];
        let lines = lines_of(count).into_iter().filter(move |&k| k < count);
        lines.filter_map(|k| Some((k, &self.told.lines.get(k as usize)?.1)))
    }
}

#[cfg(test)]
mod tests {
    use super::super::adding::Adding;
    use super::*;
    use crate::call::Function;

    const GOOD: &[u8] = b"1\n3 4\n0\n0\n";

    const ADDING: Adding = Adding {
        take: Function::PartsTake,
        end: Function::PartsEnd,
        is_known: |call| call.arrival.is_some(),
        sum: 0,
        behind_part: |call| {
            call.places[0] = call.length as u64;
            call.lists[ARRIVING_ROOM..][..LINE].fill(0);
        },
        at_end: |call, sum| [call.places[0], call.places[1]] = [0, sum],
        change: |_| (),
    };

    fn any() -> Lines {
        Lines::from_any(&[0; PARTS])
    }

    #[test]
    fn all_is_well() {
        let arrived = ADDING.arrived(&any(), GOOD).expect("no difference");
        let sums = arrived.iter().map(|sent| sent.asked().left()[0]);
        assert_eq!(sums.collect::<Vec<u64>>(), [233, 0]);
        assert_eq!(arrived[1].asked().lines().count(), 1);
    }

    /// A part that counts, though it may be empty; a fault that is mended, or told of by another number; too much
    /// taken, or too little; an answer that is not zeros; a line that ends within a part and not with an end; and an
    /// end that tells of another fault, of no number, or of states where it is refused.
    #[test]
    fn what_any_numbers_may_not_do() {
        let changes: [fn(&mut Call); 10] = [
            |call| call.lists[0] += u64::from(call.function == Function::PartsTake),
            |call| call.lists[1] &= u64::from(call.length > 0),
            |call| call.number += u64::from(call.number == 6 && call.length == 1),
            |call| call.places[0] += u64::from(call.length == 7),
            |call| call.places[0] -= u64::from(call.length == 7),
            |call| {
                if call.length == 7 {
                    call.lists[18] = 1;
                }
            },
            |call| call.number *= u64::from(call.length != 7),
            |call| call.number += u64::from(call.function == Function::PartsEnd),
            |call| call.number *= u64::from(call.function == Function::PartsTake),
            |call| call.places[0] += u64::from(call.function == Function::PartsEnd),
        ];
        ADDING.assert_told(&any(), GOOD, &changes);
    }
}
