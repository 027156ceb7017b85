//! Makes the two files of the program `cubic_points`:
//!
//!     cubic_points list  > crates/cubic_points/stdin
//!     cubic_points scan  < crates/cubic_points/stdin > crates/cubic_points/stdout
//!
//! `list` chooses points "a b start"; `scan` answers each by looking at every place of the grid, and
//! never looks at the start.

use second::cubic::{crossings, g, LARGEST_A, LARGEST_B, N};
use second::random::Random;
use second::state::{accepted, Reduced, FLUIDS, HIGHEST_PRESSURE};
use std::collections::HashMap;
use std::io::{self, BufWriter, Read, Write};

/// A third of the grid, where the engine's two searches meet.
const BEND: u64 = 33_333;

/// The program reads one buffer of this size.
const LARGEST_LIST: usize = 65_536;

fn main() -> io::Result<()> {
    match std::env::args().nth(1).as_deref() {
        Some("list") => list(),
        Some("scan") => scan(),
        _ => {
            eprintln!("usage: cubic_points list | cubic_points scan");
            std::process::exit(2);
        }
    }
}

/// The bounds that `engine::solve` documents, and the scan's.
fn within(a: u64, b: u64) -> bool {
    a <= LARGEST_A && b <= LARGEST_B
}

fn scan() -> io::Result<()> {
    let mut text = String::new();
    io::stdin().read_to_string(&mut text)?;
    let mut known: HashMap<(u64, u64), Vec<u64>> = HashMap::new();
    let mut out = BufWriter::new(io::stdout().lock());
    for line in text.lines() {
        let numbers: Vec<u64> = line
            .split(' ')
            .map(|word| word.parse().expect("a number"))
            .collect();
        let [a, b, _start] = numbers[..] else {
            panic!("three numbers in a line: {line}")
        };
        if !within(a, b) {
            writeln!(out, "{line} OUT OF BOUNDS")?;
            continue;
        }
        let found = known.entry((a, b)).or_insert_with(|| crossings(a, b));
        match found[..] {
            [root] => writeln!(out, "{line} ONE {root}")?,
            [dense, gas] => writeln!(out, "{line} SPLIT {gas} {dense}")?,
            _ => panic!("{} crossings at a = {a}, b = {b}", found.len()),
        }
    }
    writeln!(out, "{} points", text.lines().count())
}

/// The points, each a line.
struct List {
    text: String,
    turn: usize,
}

impl List {
    fn point(&mut self, a: u64, b: u64, start: u64) {
        self.text.push_str(&format!("{a} {b} {start}\n"));
    }

    /// Every start that could mislead a search at this a and b.
    fn all_starts(&mut self, a: u64, b: u64) {
        for start in starts(a, b) {
            self.point(a, b, start);
        }
    }

    /// One such start, another each time.
    fn one_start(&mut self, a: u64, b: u64) {
        let starts = starts(a, b);
        self.turn += 1;
        self.point(a, b, starts[self.turn % starts.len()]);
    }
}

/// Zeros, the roots and their neighbours, the bend, the grid's ends, a stranger's and senseless numbers.
fn starts(a: u64, b: u64) -> Vec<u64> {
    let mut all = vec![0, BEND - 1, BEND, 92_696];
    all.extend([N + b, N + b + 1, 4_294_967_295, u64::MAX]);
    for root in crossings(a, b) {
        all.extend([root.saturating_sub(1), root, root + 1]);
    }
    all
}

fn list() -> io::Result<()> {
    let mut list = List {
        text: String::new(),
        turn: 0,
    };
    worked_states(&mut list);
    ends_of_bounds(&mut list);
    double_roots(&mut list);
    crossings_at_the_bend(&mut list);
    critical_point(&mut list);
    spread(&mut list);
    io::stdout().write_all(list.text.as_bytes())
}

/// Document 01's worked states; the SPLIT one first with no start, its roots, their upper neighbours
/// and the largest number of 32 bits.
fn worked_states(list: &mut List) {
    for start in [0, 1699, 1700, 92_696, 92_697, 4_294_967_295] {
        list.point(7984, 1106, start);
    }
    for (a, b) in [(0, 1), (7984, 1106), (1616, 885), (165, 637)] {
        list.all_starts(a, b);
    }
}

/// The ends of the bounds, what lies past them, and the greatest a and b of each fluid's states.
fn ends_of_bounds(list: &mut List) {
    for a in [0, 1, LARGEST_A - 1, LARGEST_A] {
        for b in [0, 1, BEND - 1, BEND, BEND + 1, LARGEST_B - 1, LARGEST_B] {
            list.one_start(a, b);
            list.one_start(a, b);
        }
    }
    for a in [LARGEST_A + 1, u64::MAX] {
        list.point(a, 1, 0);
        list.point(a, u64::MAX, u64::MAX);
    }
    for b in [LARGEST_B + 1, u64::MAX] {
        list.point(0, b, 0);
        list.point(LARGEST_A, b, u64::MAX);
    }
    for fluid in FLUIDS {
        let densest = accepted(fluid.number, fluid.coldest, HIGHEST_PRESSURE);
        let Reduced { a, b, .. } = densest.expect("a state in range");
        list.all_starts(a, b);
    }
}

/// Both sides of each double root: for these b the state is ONE, then SPLIT, then ONE again as a grows.
fn double_roots(list: &mut List) {
    for b in [
        1, 2, 10, 100, 500, 1106, 2000, 4000, 6000, 8000, 8500, 8600, 8640, 8655,
    ] {
        // any SPLIT state will do; they are few near the critical point, where every a is looked at
        let split = (0..60_000)
            .step_by(1000)
            .chain(42_000..43_000)
            .chain((0..60_000).step_by(7))
            .find(|&a| crossings(a, b).len() == 2)
            .expect("a SPLIT state");
        for edge in [
            last_before_change(b, 0, split),
            last_before_change(b, split, 60_000),
        ] {
            for a in edge.saturating_sub(1)..=edge + 2 {
                list.one_start(a, b);
                list.one_start(a, b);
            }
        }
    }
}

/// The last a from `low` on with as many crossings as there, when at `high` there are not.
fn last_before_change(b: u64, mut low: u64, mut high: u64) -> u64 {
    let count = crossings(low, b).len();
    while high - low > 1 {
        let middle = low + (high - low) / 2;
        if crossings(middle, b).len() == count {
            low = middle;
        } else {
            high = middle;
        }
    }
    low
}

/// States with a crossing at the bend or beside it, where the one search hands over to the other.
fn crossings_at_the_bend(list: &mut List) {
    for z in BEND - 2..=BEND + 2 {
        for b in (0..BEND - 2).step_by(997) {
            // above b, g at a place grows with a: the last a at which it is not positive at z
            let (mut low, mut high) = (0, LARGEST_A);
            while high - low > 1 {
                let middle = low + (high - low) / 2;
                if g(middle, b, z) <= 0 {
                    low = middle;
                } else {
                    high = middle;
                }
            }
            if crossings(low, b).contains(&z) {
                list.one_start(low, b);
                list.one_start(low, b);
            }
        }
    }
}

/// Around the critical point, where the three real roots meet at a third of the grid.
fn critical_point(list: &mut List) {
    for a in 42_744..=42_752 {
        for b in 8_660..=8_668 {
            list.one_start(a, b);
        }
    }
}

/// All magnitudes, the region of SPLIT states more often than the rest, until the list is full.
fn spread(list: &mut List) {
    let mut random = Random(0x5EED);
    while list.text.len() < LARGEST_LIST - 64 {
        let a = random.magnitude(LARGEST_A);
        let b = random.magnitude(LARGEST_B);
        if random.number() < u64::MAX / 4 {
            list.one_start(a, b);
        } else {
            list.one_start(a % 60_000, b % 9_000);
        }
    }
}
