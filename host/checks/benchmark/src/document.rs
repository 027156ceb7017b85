//! The words around the figures in docs/BENCHMARK.md: on what machine, on which states, and how.

use crate::neighbours::{first_millikelvin, PASCALS, STATES, STEP_MILLIKELVIN};
use crate::next_lines::{NextLines, ROUNDS_BY_NUMBER};
use crate::peer;
use crate::processor::{self, Processor, DIVISIONS, QUICK_BELOW};
use crate::report::{
    grouped, percent, write_parts, write_reports, Bar, Report, MOST_WHERE_QUICK, MOST_WHERE_SLOW,
};
use crate::rounds::{ROUNDS, WARM_UP_ROUNDS};
use second::cubic::N;
use second::sheet::LARGEST_COUNT;
use second::state::{Fluid, FLUIDS, HIGHEST_PRESSURE, HOTTEST, LOWEST_PRESSURE};
use std::fmt::{Display, Formatter, Result};

impl Display for Report {
    fn fmt(&self, out: &mut Formatter) -> Result {
        self.write_head(out)?;
        writeln!(out, "\n## How it is measured\n")?;
        self.write_method(out)?;
        writeln!(out, "\n## The states\n")?;
        self.write_states(out)?;
        writeln!(out, "\n## Nanoseconds per state\n")?;
        self.write_processor(out)?;
        self.write_times(out)?;
        writeln!(out, "\n## Ratios and bars\n")?;
        self.write_bars(out)?;
        write_about_bars(out)?;
        writeln!(out, "\n## One fluid alone\n")?;
        write_about_streams(out)?;
        self.write_streams(out)?;
        writeln!(out, "\n## States one after another\n")?;
        self.write_about_neighbours(out)?;
        self.write_neighbours(out)?;
        writeln!(out, "\n## The walk\n")?;
        self.write_about_walks(out)?;
        self.write_walks(out)?;
        writeln!(out, "\n## Bands\n")?;
        self.write_about_bands(out)?;
        self.write_bands(out)?;
        writeln!(out, "\n## Claims\n")?;
        write_about_claims(out)?;
        self.write_claims(out)?;
        writeln!(out, "\n## Writing a sheet\n")?;
        self.write_about_writing(out)?;
        self.write_writing(out)?;
        writeln!(out, "\n## A sheet walked over\n")?;
        self.write_about_next_lines(out)?;
        self.write_next_lines(out)?;
        writeln!(out, "\n## A sheet in parts\n")?;
        self.write_refused_in_parts(out)?;
        self.write_accepted_in_parts(out)?;
        writeln!(out, "\n## A report\n")?;
        self.write_accepted_reports(out)?;
        self.write_refused_reports(out)?;
        writeln!(out, "\n## Program `sheet`\n")?;
        self.write_programs(out)?;
        write_about_programs(out)?;
        writeln!(out, "\n## Where doubles give another whole number\n")?;
        self.write_about_floors(out)?;
        self.write_floors(out)
    }
}

impl Report {
    fn write_head(&self, out: &mut Formatter) -> Result {
        let (model, version) = (processor::name(), peer::version());
        let [call, in_doubles] = [self.timings.call.median, self.timings.peer.median];
        let bars = self.bars();
        let (met, all) = (bars.iter().filter(|bar| Bar::met(bar)).count(), bars.len());
        write!(
            out,
            "\
# Benchmark

How long the proved library takes to answer a state, beside the same job as it is usually done: in
doubles, with the cubic solver of the GNU Scientific Library (GSL).

**A proved call takes {call:.1} ns, the job in doubles {in_doubles:.1} ns. {met} of {all} bars are met.**

- Machine: {model}, x86-64.
- GSL: {version}, the shared library.
- Written by `host/checks/benchmark/run`. All figures are of one run; those of time differ from run to run.
"
        )
    }

    fn write_method(&self, out: &mut Formatter) -> Result {
        let (rounds, scanned, divisions) = (grouped(ROUNDS), self.scanned, grouped(DIVISIONS));
        write!(
            out,
            "\
- The seven kinds of call answer all states in each of {rounds} rounds, one kind after another, so that
  whatever else the machine does falls on all alike; {WARM_UP_ROUNDS} rounds before these aren't counted. A round's
  time divided by the number of states is its figure. The median round is the one that is judged.
- The job in doubles, `host/checks/benchmark/peer.c` by gcc with -O2, has the same questions, refusals, formulas
  and five figures, without the roundings to whole numbers.
- A call for one side, gas or dense, answers the root and the density of that side and nothing else.
- A book holds starting points, three bytes each, which change how long an answer takes and never what it
  is. One is written into the slot before each call: the state's own gas root, as where a state is asked
  again; a stranger's, which is that of another state, drawn at random; or zero.
- Before the clock runs, every call with a book is checked to answer what the call without one does, and
  every call for a side what the whole call answers of it.
- The plain scan is the second implementation's, which looks at every place of the grid. It answers
  {scanned} of the states once, and the proved call is checked to answer the same.
- The kind of processor is told by divisions, {divisions} in each of {rounds} rounds of their own. Each numerator is a constant
  plus the quotient before, so that each division waits for that one. The same additions without the divisions are timed
  in the same rounds, and the median of what a round takes more with them is given. The 64-bit numbers are as long as
  those that a call finds a from can be, 61 bits by 41; those in doubles are the same.
"
        )
    }

    fn write_processor(&self, out: &mut Formatter) -> Result {
        let Processor {
            of_64_bits,
            of_32_bits,
            in_doubles,
        } = self.processor;
        let ratio = self.processor.beside_doubles();
        let kind = if self.processor.is_quick() {
            "quick"
        } else {
            "slow"
        };
        write!(
            out,
            "\
**The processor is a {kind} one:** a 64-bit division takes {ratio:.2} times as long as one in doubles, and less than {QUICK_BELOW}
counts as quick. A division that waits for the one before it takes {of_64_bits:.2} ns in 64-bit whole numbers, {of_32_bits:.2} ns in 32-bit
ones and {in_doubles:.2} ns in doubles.

"
        )
    }

    fn write_states(&self, out: &mut Formatter) -> Result {
        let (timed, share) = (grouped(self.timed), percent(self.split, self.timed));
        let [lowest, highest, hottest] =
            [LOWEST_PRESSURE, HIGHEST_PRESSURE, HOTTEST].map(|end| grouped(end as usize));
        let fluids = of_fluids("or", |fluid| fluid.name.to_string());
        let coldest = of_fluids("and", |fluid| {
            format!("{} from {}", fluid.name, grouped(fluid.coldest as usize))
        });
        let three_times = of_fluids("and", |fluid| grouped(3 * fluid.coldest as usize));
        write!(
            out,
            "\
{timed} states, the same in every run, all of them accepted. **{share} are SPLIT**: the gas root and
the dense root differ.

- Fluid: {fluids}, one as likely as another.
- Pressure: {lowest} to {highest} Pa, every decade as likely as any other.
- Temperature: in about half of the states anywhere in the fluid's range,
  {coldest}, each to {hottest} mK. In the others
  it is at most three times the coldest, {three_times} mK: nearly all SPLIT states lie below the
  critical temperature, which is under that.
"
        )
    }

    fn write_about_neighbours(&self, out: &mut Formatter) -> Result {
        let [states, pascals] = [STATES, PASCALS as usize].map(grouped);
        let first = of_fluids("and", |fluid| {
            let millikelvin = grouped(first_millikelvin(&fluid) as usize);
            format!("{} from {millikelvin}", fluid.name)
        });
        let split = listed("and", self.neighbours.split.map(grouped));
        write!(
            out,
            "\
Nanoseconds per state of {states} states of each fluid at {pascals} Pa, asked one after another, each {STEP_MILLIKELVIN} mK above the one
before: {first} mK. {split} of them are SPLIT. The
calls with a book all name one slot: before the first it holds zeros, and before each other the gas root of the state
before, as the call for that left it. All are timed in rounds of their own; each call and the job in doubles are compared
round by round, and the median of the ratios is given; no bar is set. The states are few and come in the same order in
every round, so that the processor may remember how its branches went. Before the clock runs, every call with the book
is checked to answer what the call without one does.

"
        )
    }

    fn write_about_walks(&self, out: &mut Formatter) -> Result {
        let walks = &self.walks;
        let [states, mean, fewest, most] = [
            walks.states,
            walks.values_per_state().round() as usize,
            walks.fewest as usize,
            walks.most as usize,
        ]
        .map(grouped);
        let per_value = walks.per_value();
        write!(
            out,
            "\
**{per_value:.2} ns a value of g**, the rest of the call among it. On the {states} states that are scanned a walk to
the gas root works out {mean} values in the mean, {fewest} in the shortest and {most} in the longest. Before
the clock runs, each walk is checked to end at the gas root of the quick call and to count N + b - z + 1.
The walk and the quick call are timed in rounds of their own, as above. On so few states the quick call takes less
than on all: the processor remembers how its branches went.

"
        )
    }

    fn write_about_bands(&self, out: &mut Formatter) -> Result {
        let (scanned, ratio) = (self.scanned, self.bands.beside_refused());
        write!(
            out,
            "\
Nanoseconds per state for the gas root at two scalings of a, in thousandths, on all states and in rounds of
their own. For a call without densities stands one for side 2, which there is not: it is refused by 12 once both
roots are found, and so takes {ratio:.1} times as long as one that is refused by 31 before that. Before the clock runs,
each band from 1000 to 1000 is checked to be the state's own gas root twice, the other two to lie around that, and
those of the {scanned} states that are scanned to be what the second implementation answers.

"
        )
    }

    fn write_about_writing(&self, out: &mut Formatter) -> Result {
        let [state_lines, bytes] = [self.writing.state_lines, self.writing.bytes].map(grouped);
        write!(
            out,
            "\
Microseconds for a sheet of {state_lines} state lines, as many of each fluid, whose numbers all have ten digits: {bytes}
bytes, nearly as many as a sheet may have. Writing it from lists is timed beside reading the very same bytes, in
rounds of their own; the two are compared round by round, and the median of the ratios is judged. Before the clock
runs, what is written is checked to be what the second implementation writes, and each of its lines to be read as
the state that it was written from.

"
        )
    }

    fn write_about_next_lines(&self, out: &mut Formatter) -> Result {
        let NextLines {
            accepted,
            wide,
            by_number,
        } = &self.next_lines;
        let milliseconds = by_number.median / 1e6;
        let times_reading = by_number.median / accepted.beside_reading.other.median;
        let times_reading = grouped(times_reading.round() as usize);
        let [lines, bytes, wide_lines, wide_bytes] = [
            accepted.state_lines,
            accepted.bytes,
            wide.state_lines,
            wide.bytes,
        ]
        .map(grouped);
        write!(
            out,
            "\
Microseconds for all state lines of a sheet, each by a call from the cursor that the call before left, beside the very
same bytes read once. The first sheet has {lines} of the states that calls are timed on, as many of each fluid, in
{bytes} bytes, and is the one that is judged. The second is that of ten-digit numbers, {wide_lines} states in {wide_bytes} bytes. Each
walk has rounds of its own with the reading, whose median round there is given too; they are compared round by round,
and the median of the ratios is given. Before the clock runs, each line that a walk tells is checked to be the state that
was written, and the last call to answer 16.

Asked for by its number, each line has the whole sheet read: `woolyard_sheet_line` for all lines of the first sheet takes
{milliseconds:.1} milliseconds, {times_reading} times as long as reading it once. That is the median of {ROUNDS_BY_NUMBER} rounds, and no bar is set.

"
        )
    }

    fn write_refused_in_parts(&self, out: &mut Formatter) -> Result {
        let refused = &self.in_parts.refused;
        let bytes = grouped(refused.bytes);
        let asked = &self.in_parts.refused_beside_asked;
        let (microseconds, ratio) = (asked.other.median / 1e3, asked.ratio);
        write!(
            out,
            "\
Microseconds for a sheet that arrives in parts beside the very same bytes read whole, and how many bytes a second the
median round takes. Each size of the parts has rounds of its own with the whole, which takes longer in rounds with
small parts; its median round there is given too. They are compared round by round, and the median of the ratios is
given. Before the clock runs, for each size every answer is checked to be that of `woolyard_state`, and the end to be
what `woolyard_sheet` says of the whole.

Each state is answered as its line ends, which reading the whole does not do. The states of the sheet of ten-digit
numbers, {bytes} bytes, are all refused by 22 at once, so that little but the reading is compared. It is one part of
65,536 bytes, and that is judged. Reading the whole and then asking for each state takes {microseconds:.1} microseconds, and the
one part {ratio:.3} times as long as that.

"
        )?;
        write_parts(out, "the whole, `woolyard_sheet`", refused)
    }

    fn write_accepted_in_parts(&self, out: &mut Formatter) -> Result {
        let accepted = &self.in_parts.accepted;
        let [state_lines, bytes] = [accepted.state_lines, accepted.bytes].map(grouped);
        write!(
            out,
            "
The same for a sheet of {state_lines} of the states that calls are timed on, as many of each fluid, {bytes} bytes. All are
accepted, so the whole is read and then each of its states asked for. No bar is set.

"
        )?;
        let whole = "the whole, `woolyard_sheet`, and `woolyard_state` for each state";
        write_parts(out, whole, accepted)
    }

    fn write_accepted_reports(&self, out: &mut Formatter) -> Result {
        let accepted = &self.sheet_reports.accepted;
        let [state_lines, bytes] = [accepted.state_lines, accepted.bytes].map(grouped);
        write!(
            out,
            "\
Microseconds for a report on a sheet, whole or in parts, beside the very same sheet read and then each of its states
asked for. In parts, `woolyard_report_end` is called once, behind the last of them. The report on the whole is timed
beside two other things too: its states asked for and nothing read, and the sheet taken in one part, which answers each
state and adds nothing up. Each row has rounds of its own with what it is timed beside, whose median round there is
given too. They are compared round by round, and the median of the ratios is given. Before the clock runs, every report
is checked to be what the replies of `woolyard_state` come to.

On the sheet of {state_lines} accepted states, {bytes} bytes, the first row is judged.

"
        )?;
        write_reports(out, accepted)
    }

    fn write_refused_reports(&self, out: &mut Formatter) -> Result {
        let refused = &self.sheet_reports.refused;
        let [state_lines, bytes] = [refused.state_lines, refused.bytes].map(grouped);
        write!(
            out,
            "
The same on the sheet of ten-digit numbers, {bytes} bytes, whose {state_lines} states are all refused by 22 at once. No bar is
set.

"
        )?;
        write_reports(out, refused)
    }

    fn write_about_floors(&self, out: &mut Formatter) -> Result {
        let (counted, n) = (grouped(self.counted), grouped(N as usize));
        write!(
            out,
            "\
A root is a whole number of hundred-thousandths, rounded down. GSL's gas root times {n} is rounded
down too and compared with the proved one, over {counted} other states of the same spread. In the first
row nothing differs but the solver; in the second the paper's roundings of a and b count as well. Where
a is 0 the root itself is a whole number, and a double that falls short of it has another floor.

"
        )
    }
}

/// What is said of each fluid, with commas between, and this word before the last.
fn of_fluids(before_last: &str, said: fn(Fluid) -> String) -> String {
    listed(before_last, FLUIDS.map(said))
}

fn listed(before_last: &str, said: [String; FLUIDS.len()]) -> String {
    let [others @ .., last] = said;
    format!("{} {before_last} {last}", others.join(", "))
}

fn write_about_streams(out: &mut Formatter) -> Result {
    write!(
        out,
        "\
Nanoseconds per state where all are of one fluid, as in a section of a sheet: those of the states above that are of it, in
their order. They are timed in rounds of their own, with all states again in the same rounds. The proved call and the job
in doubles are compared round by round, and the median of the ratios is given; no bar is set.

"
    )
}

fn write_about_bars(out: &mut Formatter) -> Result {
    write!(
        out,
        "
A proved call may take {MOST_WHERE_QUICK} of the job in doubles on a quick processor and {MOST_WHERE_SLOW} on a slow one; the aim is 0.9 on both.

A call for one side has less to work out than the whole call, by a density where there are two, so it may
not take longer. As that is little, the two are compared round by round, and the median of the ratios is
judged; so are a sheet that is written, walked over or comes in one part and the same one read, and a report on a
sheet and reading it and answering its states. The other ratios are of the median rounds, the last of user times. That last
one says little: the second implementation scans the whole grid for each state, since it is to be plain and not
quick, and almost any search beats that.
"
    )
}

fn write_about_claims(out: &mut Formatter) -> Result {
    write!(
        out,
        "\
Nanoseconds per claim about a root, on all states and in rounds of their own, and how many claims or calls a second
the median round makes. A call for the side answers its density too, which no claim asks for. The two are compared
round by round, and the median of the ratios is given; no bar is set. Before the clock runs, all claims of a list are
checked to stand, and each with a root one too large or one too small to be refused by 14.

"
    )
}

fn write_about_programs(out: &mut Formatter) -> Result {
    let count = grouped(LARGEST_COUNT as usize);
    write!(
        out,
        "
Both read one full sheet of {count} states for each fluid. These are means of runs that alternate and all print
the same, byte for byte. A kernel that samples by ticks may count a short run's system time as user time.
"
    )
}
