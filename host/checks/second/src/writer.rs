//! Document 02, C-11: a sheet written from lists, with a section for each fluid (C-20). The whole text is made first,
//! and then looked at for its length.

use crate::sheet::{State, LARGEST_COUNT, LONGEST, SECTIONS, TEN_NINES};
use crate::state::FLUIDS;

/// How many lists there are, two for each fluid.
pub const LISTS: usize = 2 * SECTIONS;

/// For each fluid in turn its temperatures in millikelvin and its pressures in pascals: state k has number k of both.
pub type Lists<'a> = [&'a [u64]; LISTS];

/// The same where they are made.
pub type OwnLists = [Vec<u64>; LISTS];

/// The length of the sheet, which is then what the buffer begins with; or the number of the refusal, and then the
/// buffer is as it was.
pub fn write(lists: Lists, buffer: &mut [u8]) -> Result<usize, u64> {
    let above = |list: &&[u64]| list.len() > LARGEST_COUNT as usize;
    let unequal = |of_fluid: &[&[u64]]| of_fluid[0].len() != of_fluid[1].len();
    if lists.iter().any(above) || lists.chunks(2).any(unequal) {
        return Err(8);
    }
    if lists.concat().into_iter().any(|number| number > TEN_NINES) {
        return Err(9);
    }
    let sheet = text(lists);
    if sheet.len() > buffer.len() || sheet.len() > LONGEST {
        return Err(10);
    }
    buffer[..sheet.len()].copy_from_slice(sheet.as_bytes());
    Ok(sheet.len())
}

/// All sections, however long. Where the two lists of a fluid are unequal, what one has more is left out.
pub fn text(lists: Lists) -> String {
    let sections = lists.chunks(2).map(|of_fluid| {
        let pairs = of_fluid[0].iter().zip(of_fluid[1]);
        let states: Vec<[u64; 2]> = pairs
            .map(|(&millikelvin, &pascals)| [millikelvin, pascals])
            .collect();
        section(&states)
    });
    sections.collect()
}

/// The count, and a line for each temperature and pressure.
pub fn section(states: &[[u64; 2]]) -> String {
    let lines = states
        .iter()
        .map(|[millikelvin, pascals]| format!("{millikelvin} {pascals}\n"));
    format!("{}\n{}", states.len(), lines.collect::<String>())
}

/// The lists of these states. Those of a fluid keep their order.
pub fn lists_of(states: &[State]) -> OwnLists {
    std::array::from_fn(|which| {
        let fluid = FLUIDS[which / 2].number;
        let own = states.iter().filter(|state| state.fluid == fluid);
        own.map(|state| [state.millikelvin, state.pascals][which % 2])
            .collect()
    })
}

pub fn lent(lists: &OwnLists) -> Lists<'_> {
    lists.each_ref().map(Vec::as_slice)
}

#[cfg(test)]
mod tests {
    use super::*;
    use crate::random::Random;
    use crate::sheet::{read, EXAMPLE};
    use crate::sheet_list::{distributions, full_lists, full_sheet, list, List, WIDEST};

    /// What the buffer holds before, which no sheet has.
    const BEFORE: u8 = b'~';

    /// What is answered with a buffer of so many bytes, and the sheet. No other byte may be written.
    fn told(lists: &OwnLists, room: usize) -> (Result<usize, u64>, Vec<u8>) {
        let mut buffer = vec![BEFORE; room];
        let reply = write(lent(lists), &mut buffer);
        let behind = buffer.split_off(reply.unwrap_or(0));
        assert!(behind.iter().all(|&byte| byte == BEFORE));
        (reply, buffer)
    }

    /// With room for every sheet.
    fn written(lists: &OwnLists) -> Vec<u8> {
        let (reply, sheet) = told(lists, LONGEST);
        assert_eq!(reply, Ok(sheet.len()));
        sheet
    }

    fn read_lists(sheet: &[u8]) -> OwnLists {
        lists_of(&read(sheet).expect("a good sheet"))
    }

    fn assert_refused(lists: &OwnLists, room: usize, number: u64) {
        assert_eq!(told(lists, room), (Err(number), vec![]));
    }

    /// Lists of these lengths, all of one number.
    fn of_lengths(lengths: [usize; LISTS], number: u64) -> OwnLists {
        lengths.map(|length| vec![number; length])
    }

    /// Document 01's input, from the numbers that it has.
    #[test]
    fn example() {
        let lists = [
            vec![300_000],
            vec![1_000_000],
            vec![300_000, 120_000, 55_999],
            vec![1_000_000, 500_000, 500_000],
            vec![],
            vec![],
        ];
        assert_eq!(written(&lists), EXAMPLE);
        assert_eq!(read_lists(EXAMPLE), lists);
    }

    #[test]
    fn no_states() {
        assert_eq!(written(&OwnLists::default()), b"0\n0\n0\n");
    }

    /// As many states of each fluid in turn as a section can have, and fewer.
    #[test]
    fn lengths_of_lists() {
        for section in 0..SECTIONS {
            for length in [0, 1, 2, 999, 1000] {
                let mut lists = OwnLists::default();
                lists[2 * section] = vec![7; length];
                lists[2 * section + 1] = vec![0; length];
                let mut sections = [(); SECTIONS].map(|()| "0\n".to_string());
                sections[section] = format!("{length}\n{}", "7 0\n".repeat(length));
                assert_eq!(written(&lists), sections.concat().as_bytes());
            }
        }
    }

    /// Each list in turn, shorter or longer than the fluid's other or above 1000 numbers; and both of a fluid above.
    #[test]
    fn lists_that_are_unfit() {
        for which in 0..LISTS {
            for (length, others) in [(0, 1), (1, 0), (2, 1), (999, 1000), (1000, 999), (1001, 1)] {
                let mut lengths = [others; LISTS];
                lengths[which] = length;
                assert_refused(&of_lengths(lengths, 7), LONGEST, 8);
                lengths[which ^ 1] = 1001;
                assert_refused(&of_lengths(lengths, 7), LONGEST, 8);
            }
        }
        // as many numbers in all as there would be in equal lists
        assert_refused(&of_lengths([1, 2, 2, 1, 1, 1], 7), LONGEST, 8);
    }

    /// At every place. The last three are small to whoever keeps 32 bits or takes the highest for a sign.
    #[test]
    fn numbers() {
        for (which, place) in (0..LISTS).flat_map(|which| [0, 1, 2].map(|place| (which, place))) {
            let with = |number| {
                let mut lists = of_lengths([3; LISTS], 7);
                lists[which][place] = number;
                lists
            };
            for number in [0, 9, 10, 1_000_000_000, 1 << 32, 9_999_999_999] {
                let sheet = written(&with(number));
                let digits = number.to_string().len();
                assert_eq!(
                    sheet.len(),
                    "3\n7 7\n7 7\n7 7\n".len() * SECTIONS - 1 + digits
                );
                assert_eq!(read_lists(&sheet), with(number));
            }
            for number in [
                10_000_000_000,
                99_999_999_999,
                u64::MAX,
                1 << 40,
                (1 << 34) + 7,
                (1 << 63) + 7,
            ] {
                assert_refused(&with(number), LONGEST, 9);
            }
        }
    }

    /// 8 comes before 9, and 9 before 10, whichever lists they are for.
    #[test]
    fn order_of_the_refusals() {
        let wide = of_lengths([1000; LISTS], TEN_NINES);
        assert_refused(&wide, 2 * LONGEST, 10);
        for which in 0..LISTS {
            let mut digits = wide.clone();
            digits[which][999] += 1;
            let mut unfit = digits.clone();
            unfit[LISTS - 1 - which].pop();
            for room in [0, LONGEST, 2 * LONGEST] {
                assert_refused(&wide, room, 10);
                assert_refused(&digits, room, 9);
                assert_refused(&unfit, room, 8);
            }
        }
    }

    /// Just enough of it, one byte less, and one more.
    #[test]
    fn room() {
        for lists in [
            OwnLists::default(),
            of_lengths([1, 1, 0, 0, 2, 2], 300_000),
            of_lengths([1000, 1000, 10, 10, 9, 9], TEN_NINES),
        ] {
            let sheet = written(&lists);
            for room in [0, 1, sheet.len() / 2, sheet.len() - 1] {
                assert_refused(&lists, room, 10);
            }
            for room in [sheet.len(), sheet.len() + 1, LONGEST + 1, 2 * LONGEST] {
                assert_eq!(told(&lists, room), (Ok(sheet.len()), sheet.clone()));
            }
        }
    }

    /// As many bytes as a sheet may have, fewer and more, up to the most that fit into lists.
    #[test]
    fn longest_sheet() {
        for bytes in [65_535, 65_536] {
            assert_eq!(written(&full_lists(bytes)), full_sheet(bytes));
            assert_refused(&full_lists(bytes), bytes - 1, 10);
        }
        for bytes in [65_537, WIDEST] {
            for room in [65_536, bytes, 2 * bytes] {
                assert_refused(&full_lists(bytes), room, 10);
            }
        }
    }

    /// Any lists that are written, small numbers as likely as large ones, are read again.
    #[test]
    fn read_again() {
        let mut random = Random(11);
        for _ in 0..1000 {
            let counts = [(); SECTIONS].map(|()| random.magnitude(63) as usize);
            let lists = std::array::from_fn(|which| {
                let numbers = (0..counts[which / 2]).map(|_| random.magnitude(TEN_NINES));
                numbers.collect()
            });
            assert_eq!(read_lists(&written(&lists)), lists);
        }
    }

    /// Every good sheet of the lists that the reader is compared on is written again with the same bytes.
    #[test]
    fn written_again() {
        let mut sheets = List::default();
        distributions(&mut sheets, &mut Random(11));
        let mut good = 0;
        for sheet in sheets.sheets.into_iter().chain(list()) {
            if let Ok(states) = read(&sheet) {
                assert_eq!(written(&lists_of(&states)), sheet);
                good += 1;
            }
        }
        // the test would say little if they were few
        assert!(good > 300, "{good}");
    }
}
