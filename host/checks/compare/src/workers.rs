//! Runs the units on every core. Whatever the cores do, the same difference is told in every run.

use crate::boundary::Boundary;
use crate::comparison::{Comparison, Outcome};
use crate::tally::Tally;
use std::collections::BTreeMap;
use std::sync::atomic::{AtomicBool, AtomicUsize, Ordering};
use std::thread;

/// A piece of a part, which asks the same in every run.
pub struct Unit {
    pub part: &'static str,
    pub ask: Box<dyn Fn(&mut Comparison) -> Outcome + Send + Sync>,
}

/// What came of the units that were begun, by their order.
type Told = BTreeMap<usize, Result<Tally, String>>;

/// The tally of each part by its name, or the difference of the first unit that has one. Each worker has an
/// archive of its own.
pub fn run(
    units: &[Unit],
    archive: impl Fn() -> Result<Box<dyn Boundary>, String> + Sync,
) -> Result<BTreeMap<&'static str, Tally>, String> {
    let cores = thread::available_parallelism().map_or(1, |cores| cores.get());
    let queue = Queue {
        units,
        next: AtomicUsize::new(0),
        failed: AtomicBool::new(false),
    };
    let told = thread::scope(|scope| -> Result<Told, String> {
        let work = || Ok(queue.work(Comparison::new(archive()?)));
        let workers: Vec<_> = (0..cores).map(|_| scope.spawn(work)).collect();
        let joined = workers.into_iter().map(|worker| worker.join());
        let told: Result<Vec<Told>, String> = joined
            .map(|told| told.expect("a worker that did not panic"))
            .collect();
        Ok(told?.into_iter().flatten().collect())
    })?;
    let mut tallies: BTreeMap<&'static str, Tally> = BTreeMap::new();
    for (index, outcome) in told {
        let tally = tallies.entry(units[index].part).or_default();
        tally.add(outcome?);
    }
    Ok(tallies)
}

/// The units that wait. They are begun in their order, and one that is begun is ended, so the first that
/// fails is always among those told of.
struct Queue<'units> {
    units: &'units [Unit],
    next: AtomicUsize,
    failed: AtomicBool,
}

impl Queue<'_> {
    fn work(&self, mut comparison: Comparison) -> Told {
        let mut told = Told::new();
        while !self.failed.load(Ordering::Relaxed) {
            let index = self.next.fetch_add(1, Ordering::Relaxed);
            let Some(unit) = self.units.get(index) else {
                break;
            };
            let outcome = compared(&mut comparison, index, unit);
            self.failed.fetch_or(outcome.is_err(), Ordering::Relaxed);
            told.insert(index, outcome);
        }
        told
    }
}

fn compared(comparison: &mut Comparison, index: usize, unit: &Unit) -> Result<Tally, String> {
    comparison.begin(index as u64);
    (unit.ask)(comparison)?;
    comparison.settle()?;
    Ok(std::mem::take(&mut comparison.tally))
}
