//! For the tests of journeys: the second implementation in the archive's stead, and for any numbers, of which it can say
//! nothing, something that adds the bytes up.

use super::journeys::{arrive, everywhere, Asked, Sent};
use crate::boundary::Boundary;
use crate::call::{Call, Function};
use crate::comparison::Comparison;
use crate::second_side::Second;
use second::arrival::USED_UP;
use second::random::Random;
use std::io;

/// Without a fault up to the first byte 9; with a change of what it did.
#[derive(Clone, Copy)]
pub struct Adding {
    pub take: Function,
    pub end: Function,
    /// Whether the second implementation knows what is kept.
    pub is_known: fn(&Call) -> bool,
    /// Which of a call's lists has the sum; the next one has whether a 9 was met.
    pub sum: usize,
    /// What is told besides the number: behind a part, and at the end, where it is the sum.
    pub behind_part: fn(&mut Call),
    pub at_end: fn(&mut Call, u64),
    pub change: fn(&mut Call),
}

impl Adding {
    fn add(&self, call: &mut Call) {
        let (sum, met) = (self.sum, self.sum + 1);
        if call.function == self.end {
            call.number = 6;
            (self.at_end)(call, call.lists[sum]);
            return;
        }
        let part = &call.sheet[..call.length];
        call.lists[met] |= u64::from(part.contains(&b'9'));
        call.lists[sum] += part.iter().map(|&byte| u64::from(byte)).sum::<u64>();
        call.number = [USED_UP, 6][call.lists[met] as usize];
        (self.behind_part)(call);
    }

    /// A sheet from any numbers and a good one, each cut everywhere.
    pub fn arrived<A: Asked>(self, any: &A, good: &[u8]) -> Result<Vec<Sent<A>>, String> {
        let cut = |asked: &A, sheet: &[u8]| {
            Sent::new(asked, sheet, everywhere(sheet.len(), &mut Random(0)))
        };
        let sent = vec![cut(any, b"0\n19\n1\n"), cut(&A::nothing(), good)];
        arrive(&mut Comparison::new(Box::new(self)), sent)
    }

    /// Each of these changes is told of.
    pub fn assert_told<A: Asked>(self, any: &A, good: &[u8], changes: &[fn(&mut Call)]) {
        for (which, &change) in changes.iter().enumerate() {
            let changed = Adding { change, ..self };
            assert!(changed.arrived(any, good).is_err(), "{which}");
        }
    }
}

impl Boundary for Adding {
    fn make(&mut self, calls: &mut [Call]) -> io::Result<()> {
        Second::default().make(calls)?;
        for call in calls {
            let of_parts = [self.take, self.end].contains(&call.function);
            if of_parts && !(self.is_known)(call) {
                self.add(call);
                (self.change)(call);
            }
        }
        Ok(())
    }
}
