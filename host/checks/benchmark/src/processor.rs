//! Which kind of processor this is. A proved call divides whole numbers of 64 bits where the job in doubles divides doubles, and
//! how these compare differs from processor to processor.

use crate::rounds::{at_once, interleaved_groups, more_than, Pass};
use std::arch::asm;
use std::fs;
use std::hint::black_box;
use std::ops::Div;

/// How many divisions a round has.
pub const DIVISIONS: usize = 10_000;

/// The processor is quick where a division of 64 bits takes less than so many times one in doubles.
pub const QUICK_BELOW: f64 = 1.5;

/// Each numerator is this and the quotient before. The numbers are as long as those that a call finds a from can be: 61 bits by
/// 41, with a quotient of 21.
const ADDED: u64 = 2_000_000_000_000_000_000;
const DIVISOR: u64 = 1_234_567_891_011;

/// In 32 bits, with a quotient as long.
const SHORT_ADDED: u32 = 4_000_000_000;
const SHORT_DIVISOR: u32 = 2_345;

/// Nanoseconds of a division that waits for the one before it: of whole numbers, and in doubles.
pub struct Processor {
    pub of_64_bits: f64,
    pub of_32_bits: f64,
    pub in_doubles: f64,
}

/// A number that the compiler may not look through: it would make one sum of all the additions of a chain. It stays in its
/// register, where `black_box` would send it through memory, which takes time too.
macro_rules! unseen {
    ($register:tt, $number:expr) => {{
        let mut number = $number;
        // SAFETY: there is no instruction in it.
        unsafe { asm!("", inout($register) number, options(nomem, nostack, preserves_flags)) };
        number
    }};
}

impl Processor {
    pub fn measure() -> Processor {
        let (long, short, double) = black_box((ADDED, SHORT_ADDED, ADDED as f64));
        let rounds = interleaved_groups([
            chains(
                move |quotient: u64| unseen!("rax", quotient.wrapping_add(long)),
                DIVISOR,
            ),
            chains(
                move |quotient: u32| unseen!("eax", quotient.wrapping_add(short)),
                SHORT_DIVISOR,
            ),
            chains(
                move |quotient: f64| unseen!("xmm0", quotient + double),
                DIVISOR as f64,
            ),
        ]);
        let [of_64_bits, of_32_bits, in_doubles] =
            rounds.map(|[divided, added]| more_than(&divided, &added));
        Processor {
            of_64_bits,
            of_32_bits,
            in_doubles,
        }
    }

    /// How many times as long as one in doubles a division of 64 bits takes.
    pub fn beside_doubles(&self) -> f64 {
        self.of_64_bits / self.in_doubles
    }

    pub fn is_quick(&self) -> bool {
        self.beside_doubles() < QUICK_BELOW
    }
}

/// What is added and then divided, again and again; and the same without the divisions.
fn chains<'a, Number: Copy + Default + Div<Output = Number> + 'a>(
    added: impl Fn(Number) -> Number + Copy + 'a,
    divisor: Number,
) -> [Pass<'a>; 2] {
    let divisor = black_box(divisor);
    let divided = move |quotient| added(quotient) / divisor;
    [chain(divided), chain(added)]
}

/// Each number from the one before.
fn chain<'a, Number: Default>(next: impl Fn(Number) -> Number + 'a) -> Pass<'a> {
    Box::new(move || {
        at_once(DIVISIONS, || {
            let last = (0..DIVISIONS).fold(Number::default(), |number, _| next(number));
            black_box(last);
        })
    })
}

/// The processor's model as the kernel names it, with the numbers that tell it from others of that name.
pub fn name() -> String {
    let text = fs::read_to_string("/proc/cpuinfo").unwrap_or_default();
    let told = |name| {
        let mut fields = text.lines().filter_map(|line| line.split_once(':'));
        let field = fields.find(|(field, _)| field.trim() == name);
        field.map_or("unknown", |(_, value)| value.trim())
    };
    let [name, family, model, megahertz] =
        ["model name", "cpu family", "model", "cpu MHz"].map(told);
    format!("{name}, family {family} model {model}, {megahertz} MHz")
}
