//! A sheet walked over: its state lines one at a time, from a cursor that the caller keeps and that may be any
//! three numbers.

use crate::sheet::{count_line, state_line, State, LINE_END, LONGEST, SECTIONS};

/// Where a walk stands: how many sections were begun, how many state lines the last of them still lacks, and the
/// place of the next line's first byte. Zeros stand at the start.
#[derive(Clone, Copy, Debug, Default, PartialEq, Eq)]
pub struct Cursor {
    pub begun: u64,
    pub left: u64,
    pub place: u64,
}

impl Cursor {
    /// In the header's order.
    pub fn numbers(&self) -> [u64; 3] {
        [self.begun, self.left, self.place]
    }
}

impl From<[u64; 3]> for Cursor {
    fn from([begun, left, place]: [u64; 3]) -> Cursor {
        Cursor { begun, left, place }
    }
}

/// The next state line with the cursor behind it; or 7 for a sheet that is too long, 6 where the next line can't stand
/// there, and 16 where none is wanted and no byte is left.
pub fn sheet_next(sheet: &[u8], cursor: Cursor) -> Result<(State, Cursor), u64> {
    if sheet.len() > LONGEST {
        return Err(7);
    }
    let mut rest = bytes_from(sheet, cursor.place);
    let Cursor {
        mut begun,
        mut left,
        ..
    } = cursor;
    while left == 0 {
        if begun >= SECTIONS as u64 {
            return Err(if rest.is_empty() { 16 } else { 6 });
        }
        left = count_line(line(&mut rest)?).ok_or(6_u64)?;
        begun += 1;
    }
    let [millikelvin, pascals] = state_line(line(&mut rest)?).ok_or(6_u64)?;
    let state = State {
        fluid: begun.saturating_sub(1),
        millikelvin,
        pascals,
    };
    let behind = Cursor {
        begun,
        left: left - 1,
        place: (sheet.len() - rest.len()) as u64,
    };
    Ok((state, behind))
}

/// None where the place is at the end or beyond it.
fn bytes_from(sheet: &[u8], place: u64) -> &[u8] {
    let place = usize::try_from(place).expect("a machine of 64 bits");
    sheet.get(place..).unwrap_or_default()
}

/// The first line of these bytes, which then are those behind its end; 6 where it has none.
fn line<'a>(rest: &mut &'a [u8]) -> Result<&'a [u8], u64> {
    let end = rest
        .iter()
        .position(|&byte| byte == LINE_END)
        .ok_or(6_u64)?;
    let (line, behind) = rest.split_at(end);
    *rest = &behind[1..];
    Ok(line)
}

/// A walk from the start to where no line comes.
#[derive(Debug, PartialEq, Eq)]
pub struct Walk {
    pub states: Vec<State>,
    /// Where it stood before each line and behind the last.
    pub cursors: Vec<Cursor>,
    /// What it ended with.
    pub number: u64,
}

pub fn walk(sheet: &[u8]) -> Walk {
    let mut states = Vec::new();
    let mut cursors = vec![Cursor::default()];
    loop {
        let last = cursors.len() - 1;
        match sheet_next(sheet, cursors[last]) {
            Ok((state, behind)) => {
                states.push(state);
                cursors.push(behind);
            }
            Err(number) => {
                return Walk {
                    states,
                    cursors,
                    number,
                }
            }
        }
    }
}

#[cfg(test)]
mod tests {
    use super::*;
    use crate::sheet::{read, Refusal, EXAMPLE, TEN_NINES};
    use crate::sheet_list::{full_sheet, list};
    use crate::state::{HYDROGEN, NITROGEN, OXYGEN};

    /// What is told from this cursor: the state and the cursor behind it.
    fn told(sheet: &[u8], from: [u64; 3]) -> Result<[[u64; 3]; 2], u64> {
        sheet_next(sheet, from.into()).map(|(state, behind)| {
            let told = [state.fluid, state.millikelvin, state.pascals];
            [told, behind.numbers()]
        })
    }

    /// The places are counted by hand. Behind the last line the third count, which is 0, is still to come.
    #[test]
    fn walk_over_the_example() {
        for (from, state, behind) in [
            ([0, 0, 0], [HYDROGEN, 300_000, 1_000_000], [1, 0, 17]),
            ([1, 0, 17], [OXYGEN, 300_000, 1_000_000], [2, 2, 34]),
            ([2, 2, 34], [OXYGEN, 120_000, 500_000], [2, 1, 48]),
            ([2, 1, 48], [OXYGEN, 55_999, 500_000], [2, 0, 61]),
        ] {
            assert_eq!(told(EXAMPLE, from), Ok([state, behind]));
        }
        assert_eq!(told(EXAMPLE, [2, 0, 61]), Err(16));
        assert_eq!(told(EXAMPLE, [3, 0, 63]), Err(16));
        assert_eq!(EXAMPLE.len(), 63);
    }

    #[test]
    fn no_states_and_no_lines() {
        assert_eq!(told(b"0\n0\n0\n", [0; 3]), Err(16));
        assert_eq!(told(b"", [0; 3]), Err(6));
        assert_eq!(told(b"", [3, 0, 0]), Err(16));
    }

    /// The lines before a fault are told, and then it and nothing else. Where the section before it is empty or past,
    /// the count is what can't stand there.
    #[test]
    fn lines_before_a_fault() {
        for (sheet, lines) in [
            (&b"2\n5 6\n7 x\n0\n0\n"[..], 1),
            (b"1\n5 6\n1001\n0\n", 1),
            (b"1\n5 6\n0\n1\n7 8", 1),
            (b"1\n5 6\n0\n1\n7 8\n0\n", 2),
            (b"1\n5 6\n0\n1\n7 8\n\n", 2),
            (b"2\n5 6\n7 8\n0\n", 2),
            (b"1001\n5 6\n", 0),
        ] {
            let Walk {
                states,
                cursors,
                number,
            } = walk(sheet);
            assert_eq!((states.len(), number), (lines, 6));
            assert_eq!(sheet_next(sheet, cursors[lines]), Err(6));
        }
    }

    /// 7 comes first, whatever the cursor; a byte less is walked over to the end.
    #[test]
    fn longest_sheet() {
        let longest = full_sheet(LONGEST);
        let whole = walk(&longest);
        assert_eq!((whole.states.len(), whole.number), (3000, 16));
        assert_eq!(whole.cursors[3000], [3, 0, LONGEST as u64].into());
        let longer = [&longest[..], b"\n"].concat();
        for from in [[0; 3], [3, 0, 65_537], [3, 0, 0], [1, 1, 5], [u64::MAX; 3]] {
            assert_eq!(told(&longer, from), Err(7));
        }
        assert_eq!(
            told(&longer[..LONGEST], [0; 3]).map(|[state, _]| state[0]),
            Ok(HYDROGEN)
        );
    }

    /// Any numbers: a state line is told wherever one is wanted and begins, a count is taken wherever one is wanted, and
    /// nothing is added that could pass 64 bits.
    #[test]
    fn any_cursors() {
        let most = u64::MAX;
        let sheet = b"1\n5 6\n0\n1\n7 8\n";
        for (from, expected) in [
            ([0, 1, 2], Ok([[0, 5, 6], [0, 0, 6]])),
            ([1, 1, 2], Ok([[0, 5, 6], [1, 0, 6]])),
            ([3, 7, 10], Ok([[NITROGEN, 7, 8], [3, 6, 14]])),
            ([4, 1, 10], Ok([[3, 7, 8], [4, 0, 14]])),
            (
                [most, most, 10],
                Ok([[most - 1, 7, 8], [most, most - 1, 14]]),
            ),
            // from a count that is another section's, and from inside a line
            ([0, 0, 8], Ok([[HYDROGEN, 7, 8], [1, 0, 14]])),
            ([1, 0, 4], Err(6)),
            ([2, 0, 4], Err(6)),
            ([2, 0, 6], Err(6)),
            ([1, 0, 6], Ok([[NITROGEN, 7, 8], [3, 0, 14]])),
            // where nothing is wanted
            ([3, 0, 13], Err(6)),
            ([3, 0, 14], Err(16)),
            ([3, 0, 15], Err(16)),
            ([most, 0, most], Err(16)),
            ([most, 0, 0], Err(6)),
            // where a line is, and none can begin
            ([0, 0, 14], Err(6)),
            ([2, 0, 15], Err(6)),
            ([3, 1, 14], Err(6)),
            ([3, 1, most], Err(6)),
            ([1, 1, 0], Err(6)),
            ([1, 1, (1 << 32) + 2], Err(6)),
        ] {
            assert_eq!(told(sheet, from), expected, "{from:?}");
        }
        let count = b"9999999999 1000\n0\n0\n0\n";
        assert_eq!(
            told(count, [2, 1, 0]),
            Ok([[1, TEN_NINES, 1000], [2, 0, 16]])
        );
        assert_eq!(
            told(b"1000\n5 6\n", [2, 0, 0]),
            Ok([[2, 5, 6], [3, 999, 9]])
        );
        assert_eq!(told(b"1001\n5 6\n", [2, 0, 0]), Err(6));
    }

    /// Of a good sheet the walk tells what reading the whole does, and of another the lines before the fault, behind
    /// which it stands or some counts ahead of it.
    #[test]
    fn walks_beside_readings() {
        let mut good = 0;
        let sheets = list();
        for sheet in &sheets {
            let shown = sheet.escape_ascii();
            let walked = walk(sheet);
            assert_eq!(walked.cursors.len(), walked.states.len() + 1);
            match read(sheet) {
                Ok(states) => {
                    assert_eq!((walked.states, walked.number), (states, 16), "{shown}");
                    good += 1;
                }
                Err(Refusal { place, .. }) => {
                    let stands = walked.cursors[walked.states.len()].place as usize;
                    assert_eq!(walked.number, 6, "{shown}");
                    let between = &sheet[stands..place];
                    let counts = between.split_inclusive(|&byte| byte == LINE_END);
                    assert!(
                        counts.into_iter().all(|line| !line.contains(&b' ')),
                        "{shown}"
                    );
                }
            }
        }
        // the comparison would say little if the good ones or the others were few
        assert!((200..sheets.len() - 200).contains(&good), "{good}");
    }
}
