//! The archive, linked into this program.

use crate::boundary::Boundary;
use crate::call::{told_lists, Call, Function, AHEAD, ARRIVING_ROOM, REPORTED_ROOM, REPORT_PLACE};
use std::io;
use woolyard::boundary;

pub struct Linked;

impl Boundary for Linked {
    fn make(&mut self, calls: &mut [Call]) -> io::Result<()> {
        calls.iter_mut().for_each(make);
        Ok(())
    }
}

fn make(call: &mut Call) {
    let [first, second, third, fourth, fifth, ..] = call.arguments;
    call.number = match call.function {
        Function::Abi => boundary::abi(),
        Function::State => boundary::state(first, second, third, &mut call.places),
        Function::StateWithBook => {
            let book = &mut call.book[..call.length];
            boundary::state_with_book(first, second, third, fourth, book, &mut call.places)
        }
        Function::Side => boundary::side(first, second, third, fourth, first_of(&mut call.places)),
        Function::SideWithBook => {
            let book = &mut call.book[..call.length];
            let figures = first_of(&mut call.places);
            boundary::side_with_book(first, second, third, fourth, fifth, book, figures)
        }
        Function::Walk => boundary::walk(first, second, third, fourth, first_of(&mut call.places)),
        Function::Band => {
            let roots = first_of(&mut call.places);
            boundary::band(first, second, third, fourth, fifth, roots)
        }
        Function::Claims => {
            let lists = told_lists(&call.lists, call.arguments);
            let [fluids, millikelvin, pascals, sides, roots] = lists;
            let claim = &mut call.places[0];
            boundary::claims(fluids, millikelvin, pascals, sides, roots, claim)
        }
        Function::Heat => heat(first, &mut call.places[0]),
        Function::HeatTable => boundary::heat_table(first, &mut call.places[0]),
        Function::Viscosity => boundary::viscosity(first, &mut call.places[0]),
        Function::Sheet => boundary::sheet(&call.sheet[..call.length], first_of(&mut call.places)),
        Function::SheetLine => {
            let sheet = &call.sheet[..call.length];
            boundary::sheet_line(sheet, first, first_of(&mut call.places))
        }
        Function::SheetNext => {
            let sheet = &call.sheet[..call.length];
            let cursor = behind_others(&mut call.lists);
            boundary::sheet_next(sheet, cursor, first_of(&mut call.places))
        }
        Function::PartsTake => {
            let (parts, answer) = call.lists.split_at_mut(ARRIVING_ROOM);
            let part = &call.sheet[..call.length];
            let taken = &mut call.places[0];
            boundary::parts_take(first_of(parts), part, taken, first_of(answer))
        }
        Function::PartsEnd => {
            let parts = first_of(&mut call.lists);
            boundary::parts_end(parts, first_of(&mut call.places))
        }
        Function::Report => {
            let sheet = &call.sheet[..call.length];
            let report = behind_others(&mut call.lists);
            boundary::report(sheet, report, &mut call.places[REPORT_PLACE])
        }
        Function::ReportTake => {
            boundary::report_take(behind_others(&mut call.lists), &call.sheet[..call.length])
        }
        Function::ReportEnd => {
            let (reporting, report) = call.lists.split_at_mut(REPORTED_ROOM);
            let place = &mut call.places[REPORT_PLACE];
            boundary::report_end(behind_others(reporting), behind_others(report), place)
        }
        Function::WriteSheet => {
            let lists = told_lists(&call.lists, call.arguments);
            let buffer = &mut call.sheet[..call.length];
            boundary::write_sheet(lists, buffer, &mut call.places[0])
        }
    };
}

fn heat(kelvin_pattern: u64, place: &mut u64) -> u64 {
    let mut heat = f64::from_bits(*place);
    let number = boundary::heat(f64::from_bits(kelvin_pattern), &mut heat);
    *place = heat.to_bits();
    number
}

/// As many of the places, or of the numbers that are lent, as the function has.
fn first_of<const COUNT: usize>(places: &mut [u64]) -> &mut [u64; COUNT] {
    places.first_chunk_mut().expect("no more than there are")
}

/// As many of the room of a cursor, of a report or of what is kept for one, as the function has.
fn behind_others<const COUNT: usize>(room: &mut [u64]) -> &mut [u64; COUNT] {
    first_of(&mut room[AHEAD..])
}
