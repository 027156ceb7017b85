//! The second implementation, asked as the archive is.

use crate::boundary::Boundary;
use crate::call::{
    told_lists, Call, Function, AHEAD, ARRIVING_ROOM, CURSOR, LINE, REPORT, REPORTED_ROOM,
    REPORT_PLACE,
};
use second::arrival::{Arrival, Fault};
use second::band::{BandReply, Scaled};
use second::claims::claims_reply_by;
use second::cursor::sheet_next;
use second::heat::heat_capacity;
use second::heat_table::tabled_heat_capacity;
use second::report::{report_by, Report};
use second::sheet::{self, Refusal, State};
use second::state::{put_into_book, put_side_into_book, reply, side_of, Reply, SideReply};
use second::viscosity::excess_factor;
use second::walk::{limited, walk_reply, WalkReply};
use second::writer;
use std::collections::HashMap;
use std::io;
use std::sync::Arc;

/// How many states are remembered before they are forgotten together.
const MOST_KNOWN: usize = 10_000;

/// Since a scan of the grid is long, and so may a walk be, each state is answered once for all calls that
/// ask for it soon; with its a scaled, once for each scaled a.
#[derive(Default)]
pub struct Second {
    known: HashMap<[u64; 3], Reply>,
    walked: HashMap<[u64; 3], WalkReply>,
    scaled: HashMap<[u64; 3], Scaled>,
}

impl Boundary for Second {
    fn make(&mut self, calls: &mut [Call]) -> io::Result<()> {
        for call in calls {
            match call.function {
                Function::Abi => call.number = second::ABI,
                Function::State => self.state(call),
                Function::StateWithBook => self.state_with_book(call),
                Function::Side => self.side(call),
                Function::SideWithBook => self.side_with_book(call),
                Function::Walk => self.walk(call),
                Function::Band => self.band(call),
                Function::Claims => self.claims(call),
                Function::Heat => heat(call),
                Function::HeatTable => write_figure(call, tabled_heat_capacity(call.arguments[0])),
                Function::Viscosity => write_figure(call, excess_factor(call.arguments[0])),
                Function::Sheet => whole_sheet(call),
                Function::SheetLine => sheet_line(call),
                Function::SheetNext => next_line(call),
                Function::PartsTake => self.parts_take(call),
                Function::PartsEnd => parts_end(call),
                Function::Report => self.report(call),
                Function::ReportTake => report_take(call),
                Function::ReportEnd => self.report_end(call),
                Function::WriteSheet => write_sheet(call),
            }
        }
        Ok(())
    }
}

impl Second {
    pub fn reply(&mut self, state: [u64; 3]) -> Reply {
        if self.known.len() >= MOST_KNOWN {
            self.known.clear();
        }
        let [fluid, millikelvin, pascals] = state;
        let known = self.known.entry(state);
        *known.or_insert_with(|| reply(fluid, millikelvin, pascals))
    }

    /// With the largest limit.
    pub fn whole_walk(&mut self, state: [u64; 3]) -> WalkReply {
        if self.walked.len() >= MOST_KNOWN {
            self.walked.clear();
        }
        let [fluid, millikelvin, pascals] = state;
        let walked = self.walked.entry(state);
        *walked.or_insert_with(|| walk_reply(fluid, millikelvin, pascals, u64::MAX))
    }

    pub fn band_reply(&mut self, state: [u64; 3], [lower, upper]: [u64; 2]) -> BandReply {
        if self.scaled.len() >= MOST_KNOWN {
            self.scaled.clear();
        }
        let [fluid, millikelvin, pascals] = state;
        let scaled = self.scaled.entry(state);
        let scaled = scaled.or_insert_with(|| Scaled::new(fluid, millikelvin, pascals));
        scaled.band(lower, upper)
    }

    fn reply_to(&mut self, call: &Call) -> Reply {
        let [fluid, millikelvin, pascals, ..] = call.arguments;
        self.reply([fluid, millikelvin, pascals])
    }

    fn state(&mut self, call: &mut Call) {
        let reply = self.reply_to(call);
        write_reply(call, reply);
    }

    fn state_with_book(&mut self, call: &mut Call) {
        let without = self.reply_to(call);
        let slot = call.arguments[3];
        let reply = put_into_book(without, slot, &mut call.book[..call.length]);
        write_reply(call, reply);
    }

    fn side(&mut self, call: &mut Call) {
        let whole = self.reply_to(call);
        write_side(call, side_of(whole, call.arguments[3]));
    }

    fn side_with_book(&mut self, call: &mut Call) {
        let whole = self.reply_to(call);
        let [_, _, _, side, slot, ..] = call.arguments;
        let reply = put_side_into_book(whole, side, slot, &mut call.book[..call.length]);
        write_side(call, reply);
    }

    fn walk(&mut self, call: &mut Call) {
        let [fluid, millikelvin, pascals, limit, ..] = call.arguments;
        let reply = limited(self.whole_walk([fluid, millikelvin, pascals]), limit);
        call.number = reply.number;
        call.places[..2].copy_from_slice(&reply.figures());
    }

    fn band(&mut self, call: &mut Call) {
        let [fluid, millikelvin, pascals, lower, upper, ..] = call.arguments;
        let reply = self.band_reply([fluid, millikelvin, pascals], [lower, upper]);
        call.number = reply.number;
        call.places[..2].copy_from_slice(&reply.figures());
    }

    fn claims(&mut self, call: &mut Call) {
        let lists = told_lists(&call.lists, call.arguments);
        let reply = claims_reply_by(lists, |state| self.reply(state));
        call.number = reply.number;
        call.places[0] = reply.claim;
    }

    /// Of any numbers nothing is said.
    fn parts_take(&mut self, call: &mut Call) {
        let Some(arrival) = &mut call.arrival else {
            return;
        };
        let (taken, told) = arrival.take(&call.sheet[..call.length]);
        let (number, answer) = match told {
            Ok(state) => (0, self.line(state)),
            Err(number) => (number, [0; LINE]),
        };
        call.number = number;
        call.places[0] = taken as u64;
        call.lists[ARRIVING_ROOM..][..LINE].copy_from_slice(&answer);
    }

    fn report(&mut self, call: &mut Call) {
        let told = report_by(&call.sheet[..call.length], |state| self.reply(state));
        write_report(call, told);
    }

    /// As for `parts_take`.
    fn report_end(&mut self, call: &mut Call) {
        let Some(reporting) = call.reporting.clone() else {
            return;
        };
        write_report(call, reporting.end_by(|state| self.reply(state)));
    }

    /// A state as written, and the reply to it.
    fn line(&mut self, state: State) -> [u64; LINE] {
        let state = [state.fluid, state.millikelvin, state.pascals];
        let reply = self.reply(state);
        let [fluid, millikelvin, pascals] = state;
        let [kind, gas_root, dense_root, gas_density, dense_density] = reply.figures();
        [
            fluid,
            millikelvin,
            pascals,
            reply.number,
            kind,
            gas_root,
            dense_root,
            gas_density,
            dense_density,
        ]
    }
}

fn write_reply(call: &mut Call, reply: Reply) {
    call.number = reply.number;
    call.places = reply.figures();
}

fn write_side(call: &mut Call, reply: SideReply) {
    call.number = reply.number;
    call.places[..2].copy_from_slice(&reply.figures());
}

/// Where it is refused the place is left alone.
fn heat(call: &mut Call) {
    call.number = match heat_capacity(f64::from_bits(call.arguments[0])) {
        Ok(heat) => {
            call.places[0] = heat.to_bits();
            0
        }
        Err(number) => number,
    };
}

/// Where it is refused the place is 0.
fn write_figure(call: &mut Call, reply: Result<u64, u64>) {
    (call.number, call.places[0]) = match reply {
        Ok(figure) => (0, figure),
        Err(number) => (number, 0),
    };
}

fn whole_sheet(call: &mut Call) {
    let sheet = &call.sheet[..call.length];
    let (number, reading) = match sheet::read(sheet) {
        Ok(states) => (0, [states.len(), 0, 0]),
        Err(Refusal {
            number,
            place,
            line,
        }) => {
            // so that place and length say the bytes of the faulty line too
            assert_eq!(&sheet[place..][..line.len()], line);
            (number, [0, place, line.len()])
        }
    };
    call.number = number;
    call.places[..3].copy_from_slice(&reading.map(|figure| figure as u64));
}

fn sheet_line(call: &mut Call) {
    let k = usize::try_from(call.arguments[0]).expect("a machine of 64 bits");
    let (number, state) = match sheet::state_at(&call.sheet[..call.length], k) {
        Ok(state) => (0, [state.fluid, state.millikelvin, state.pascals]),
        Err(number) => (number, [0; 3]),
    };
    call.number = number;
    call.places[..3].copy_from_slice(&state);
}

/// Where no line is told the cursor is left alone.
fn next_line(call: &mut Call) {
    let (number, state) = match sheet_next(&call.sheet[..call.length], call.cursor()) {
        Ok((state, behind)) => {
            call.lists[AHEAD..][..CURSOR].copy_from_slice(&behind.numbers());
            (0, [state.fluid, state.millikelvin, state.pascals])
        }
        Err(number) => (number, [0; 3]),
    };
    call.number = number;
    call.places[..3].copy_from_slice(&state);
}

/// As for `parts_take`.
fn parts_end(call: &mut Call) {
    let Some(told) = call.arrival.as_deref().map(Arrival::end) else {
        return;
    };
    let (number, reading) = match told {
        Ok(states) => (0, [states, 0]),
        Err(Fault { number, place }) => (number, [0, place as u64]),
    };
    call.number = number;
    call.places[..2].copy_from_slice(&reading);
}

/// As for `parts_take`.
fn report_take(call: &mut Call) {
    if let Some(reporting) = &mut call.reporting {
        call.number = Arc::make_mut(reporting).take(&call.sheet[..call.length]);
    }
}

/// Into the last room of the lists. Where it is refused the report is zeros.
fn write_report(call: &mut Call, told: Result<Report, Fault>) {
    let (number, report, place) = match told {
        Ok(report) => (0, report, 0),
        Err(Fault { number, place }) => (number, Report::default(), place),
    };
    call.number = number;
    call.places[REPORT_PLACE] = place as u64;
    let figures = report.map(|section| section.figures()).concat();
    let room = call.lists.len() - REPORTED_ROOM;
    call.lists[room + AHEAD..][..REPORT].copy_from_slice(&figures);
}

fn write_sheet(call: &mut Call) {
    let lists = told_lists(&call.lists, call.arguments);
    let reply = writer::write(lists, &mut call.sheet[..call.length]);
    write_figure(call, reply.map(|length| length as u64));
}
