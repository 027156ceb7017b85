//! Sheets for reports: states of every outcome in every order, densities that several states reach, and as many states
//! as a sheet can hold.

use super::sheets::{visit_sheet, Source, Visit};
use super::states::any_state;
use crate::comparison::Outcome;
use second::random::Random;
use second::sheet::{EXAMPLE, LONGEST, SECTIONS, TEN_NINES};
use second::sheet_list::{damage, one_of, written, List};
use second::state::{Fluid, FLUIDS, HIGHEST_PRESSURE, HOTTEST, LOWEST_PRESSURE};
use second::writer::section;
use std::array::from_fn;

/// A temperature and a pressure.
type State = [u64; 2];

/// Units of random sheets, and how many each of them has.
const UNITS: u64 = 4;
const SEVERAL: usize = 300;

/// States of one kind of outcome, of which any may be taken.
type Choice = Vec<State>;

/// States of a low density, of the one between and of a high one, each of which has the same density as the others that
/// it stands with.
fn densities(fluid: Fluid) -> [Choice; 3] {
    let [low, high] = [LOWEST_PRESSURE, HIGHEST_PRESSURE];
    let coldest = fluid.coldest;
    [
        vec![[HOTTEST, low], [HOTTEST, low + 1], [HOTTEST - 1, low]],
        middle(fluid),
        vec![[coldest, high], [coldest, high - 1], [coldest, high - 10]],
    ]
}

/// Of the density between: the first is SPLIT, with a dense density above it, and the others are ONE.
fn middle(fluid: Fluid) -> Choice {
    let states = fluid.states;
    [&[states.split][..], &states.as_split].concat()
}

/// States that are refused by 21, 22, 31 and 32, also where a later refusal would apply.
fn refused(fluid: Fluid) -> [Choice; 4] {
    let [low, high] = [LOWEST_PRESSURE - 1, HIGHEST_PRESSURE + 1];
    let coldest = fluid.coldest;
    [
        vec![[coldest - 1, 300_000], [0, 0], [coldest - 1, high]],
        vec![[HOTTEST + 1, 300_000], [TEN_NINES, 0], [HOTTEST + 1, high]],
        vec![[coldest, low], [HOTTEST, 0]],
        vec![[coldest, high], [HOTTEST, TEN_NINES]],
    ]
}

/// ONE at each density, SPLIT, and each refusal.
fn outcomes(fluid: Fluid) -> Vec<Choice> {
    let [low, middle, high] = densities(fluid);
    let split = vec![middle[0]];
    let one = middle[1..].to_vec();
    [low, split, one, high]
        .into_iter()
        .chain(refused(fluid))
        .collect()
}

/// The densities, and states that are refused by any number.
fn densities_and_refused(fluid: Fluid) -> Vec<Choice> {
    let refused = refused(fluid).concat();
    densities(fluid).into_iter().chain([refused]).collect()
}

pub fn sources() -> Vec<Source> {
    let mut sources: Vec<Source> = Vec::new();
    for fluid in FLUIDS {
        sources.push(Box::new(move |visit| {
            in_every_order(visit, fluid, outcomes, 3)
        }));
        sources.push(Box::new(move |visit| {
            in_every_order(visit, fluid, densities_and_refused, 5)
        }));
    }
    for seed in 0..UNITS {
        sources.push(Box::new(move |visit| random_sheets(visit, seed)));
    }
    sources.push(Box::new(long_sheets));
    sources.push(Box::new(any_states));
    sources.push(Box::new(full_sheets));
    sources.push(Box::new(damaged));
    sources
}

/// Up to so many of the choices in every order, in one section, beside others.
fn in_every_order(
    visit: Visit,
    of: Fluid,
    choices: fn(Fluid) -> Vec<Choice>,
    most: u32,
) -> Outcome {
    let mut random = Random(of.number);
    let choices_of = choices(of);
    let each = choices_of.len();
    for count in 0..=most {
        for which in 0..each.pow(count) {
            let chosen = (0..count).map(|place| &choices_of[which / each.pow(place) % each]);
            let states: Vec<State> = chosen.map(|choice| one_of(choice, &mut random)).collect();
            let sections = FLUIDS.map(|fluid| {
                if fluid.number == of.number {
                    section(&states)
                } else {
                    section(&some(fluid, &mut random))
                }
            });
            visit_sheet(visit, sections.concat().as_bytes())?;
        }
    }
    Ok(())
}

/// Up to three states of any outcomes.
fn some(fluid: Fluid, random: &mut Random) -> Vec<State> {
    let count = random.number() % 4;
    (0..count).map(|_| of_any_outcome(fluid, random)).collect()
}

fn of_any_outcome(fluid: Fluid, random: &mut Random) -> State {
    let outcomes = outcomes(fluid);
    let choice = &outcomes[random.number() as usize % outcomes.len()];
    one_of(choice, random)
}

/// A small sheet with states of any outcomes.
pub fn several(random: &mut Random) -> Vec<u8> {
    let sections = FLUIDS.map(|fluid| section(&some(fluid, random)));
    sections.concat().into()
}

/// The sheet of these counts, with states of any outcomes.
pub fn mixed(counts: [u64; SECTIONS], random: &mut Random) -> Vec<u8> {
    written(counts, |fluid| of_any_outcome(fluid, random))
}

fn random_sheets(visit: Visit, seed: u64) -> Outcome {
    let mut random = Random(seed);
    for _ in 0..SEVERAL {
        let counts = [(); SECTIONS].map(|()| random.magnitude(12));
        visit_sheet(visit, &mixed(counts, &mut random))?;
    }
    Ok(())
}

/// Counts up to 1000: of any outcomes; of one state alone; and of one density, with another on the first line, the last
/// and one between them.
fn long_sheets(visit: Visit) -> Outcome {
    let mut random = Random(0);
    for counts in [
        [1000, 0, 0],
        [0, 1000, 0],
        [0, 0, 1000],
        [255, 256, 257],
        [999, 1, 500],
        [1000, 999, 1000],
        [1000, 1000, 1000],
    ] {
        visit_sheet(visit, &mixed(counts, &mut random))?;
        for level in 0..3 {
            visit_sheet(visit, &written(counts, |fluid| densities(fluid)[level][0]))?;
            for other in 0..3 {
                visit_sheet(visit, &with_others(counts, level, other, &mut random))?;
            }
        }
    }
    Ok(())
}

/// States of one density, with those of another on the first line of each section, the last and any between them.
fn with_others(
    counts: [u64; SECTIONS],
    level: usize,
    other: usize,
    random: &mut Random,
) -> Vec<u8> {
    let sections = FLUIDS.into_iter().zip(counts).map(|(fluid, count)| {
        let between = random.number() % 1000;
        let states = (0..count).map(|place| {
            let is_other = place == 0 || place + 1 == count || place == between;
            let level = if is_other { other } else { level };
            one_of(&densities(fluid)[level], random)
        });
        section(&states.collect::<Vec<State>>())
    });
    sections.collect::<String>().into()
}

/// States from anywhere in the ranges.
fn any_states(visit: Visit) -> Outcome {
    let mut random = Random(0);
    let falling = |first, step| from_fn(|section| first - step * section as u64);
    for counts in [[1000; SECTIONS], falling(40, 10), falling(5, 1)] {
        let sheet = written(counts, |fluid| {
            let [_, millikelvin, pascals] = any_state(fluid, &mut random);
            [millikelvin, pascals]
        });
        visit_sheet(visit, &sheet)?;
    }
    Ok(())
}

/// As many bytes as a sheet may have, in 2979 states of which three are answered: one of each fluid, on the first line of
/// its section, on another, or on the last of the sheet.
pub fn fullest(which: u64) -> Vec<u8> {
    let mut nth = 0;
    let answered = [0, 1000 + which % 1000, 2000 + which % 979];
    let sheet = written([1000, 1000, 979], |_| {
        nth += 1;
        match nth - 1 {
            place if answered.contains(&place) => [HOTTEST, 10_000_000 + which],
            // the narrower line that makes the bytes as many as they should be
            1 => [TEN_NINES, TEN_NINES / 10],
            _ => [TEN_NINES; 2],
        }
    });
    assert_eq!(sheet.len(), LONGEST);
    sheet
}

/// That sheet, also with a byte more or less; and 3000 states in few bytes, refused ones and answered ones.
fn full_sheets(visit: Visit) -> Outcome {
    for which in [0, 1, 555, 978] {
        let sheet = fullest(which);
        visit_sheet(visit, &sheet)?;
        visit_sheet(visit, &sheet[..sheet.len() - 1])?;
        visit_sheet(visit, &[&sheet[..], b"\n"].concat())?;
    }
    visit_sheet(visit, &written([1000; SECTIONS], |_| [0, 0]))?;
    visit_sheet(
        visit,
        &written([1000; SECTIONS], |fluid| [fluid.coldest, LOWEST_PRESSURE]),
    )
}

/// Good sheets with answered states, damaged at every byte.
fn damaged(visit: Visit) -> Outcome {
    let mut random = Random(0);
    let mut sheets = List::default();
    for sheet in [EXAMPLE.to_vec(), several(&mut random), several(&mut random)] {
        damage(&mut sheets, &sheet);
    }
    sheets
        .sheets
        .iter()
        .try_for_each(|sheet| visit_sheet(visit, sheet))
}

#[cfg(test)]
mod tests {
    use super::*;
    use second::report::{report, Section};
    use second::state::reply;

    /// The states of a choice have one density, those of another a larger one, and the dense one of a SPLIT state is
    /// larger than its own.
    #[test]
    fn densities_that_several_reach() {
        for fluid in FLUIDS {
            let mut last = 0;
            for choice in densities(fluid) {
                let reply =
                    |&[millikelvin, pascals]: &State| reply(fluid.number, millikelvin, pascals);
                let replies: Vec<_> = choice.iter().map(reply).collect();
                let density = replies[0].gas_density;
                assert!(replies.iter().all(|reply| reply.gas_density == density));
                assert!(density > last);
                last = density;
            }
        }
    }

    /// A sheet of every outcome has them in every section.
    #[test]
    fn every_outcome_in_every_section() {
        let sheet = written([9; SECTIONS], {
            let mut nth = 0;
            move |fluid| {
                nth += 1;
                let outcomes = outcomes(fluid);
                outcomes[nth % outcomes.len()][0]
            }
        });
        let sections = report(&sheet).expect("a good sheet");
        let all_met = |section: &Section| section.figures().iter().all(|&figure| figure > 0);
        assert!(sections.iter().all(all_met));
    }

    /// Three states of the fullest sheets are answered, whichever lines they are on.
    #[test]
    fn answered_states_of_the_fullest() {
        for which in [0, 1, 555, 978] {
            let sections = report(&fullest(which)).expect("a good sheet");
            assert!(sections.iter().all(|section| section.one == 1));
        }
        let [.., nitrogen] = report(&fullest(978)).expect("a good sheet");
        assert_eq!(nitrogen.largest.line, 2982);
    }
}
