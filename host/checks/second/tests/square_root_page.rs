//! docs/SQUARE-ROOT.md works out a square root by hand. Every equation in figures on it is worked out again
//! here, its table is followed from row to row, and the code's comment and the theorems are held to the
//! same rows.

const PAGE: &str = include_str!("../../../../docs/SQUARE-ROOT.md");
const CODE: &str = include_str!("../../../../crates/squares/src/lib.rt");
const THEOREMS: &str = include_str!("../../../../crates/squares/proofs/Worked.antt");

/// The number whose root is taken.
const N: u64 = 10_000 * 7763;

fn number(text: &str) -> u64 {
    let text = text.trim();
    text.parse()
        .unwrap_or_else(|_| panic!("{text} is no number"))
}

/// Products that are added or taken off, from left to right.
fn value(expression: &str) -> u64 {
    let mut sum = 0;
    let mut added = true;
    for term in expression.split_inclusive(['+', '-']) {
        let product: u64 = term
            .trim_end_matches(['+', '-'])
            .split('x')
            .map(number)
            .product();
        sum = if added { sum + product } else { sum - product };
        added = !term.ends_with('-');
    }
    sum
}

fn holds(equation: &str) {
    let (left, right) = equation.split_once('=').expect("an equation");
    assert_eq!(value(left), number(right), "{equation}");
}

/// The rows of the page's table of steps, each of six columns.
fn rows() -> Vec<Vec<&'static str>> {
    let table = PAGE
        .lines()
        .skip_while(|line| !line.starts_with("| pair |"));
    let rows = table.skip(2).take_while(|line| line.starts_with('|'));
    rows.map(|row| row.trim_matches('|').split('|').map(str::trim).collect())
        .collect()
}

#[test]
fn every_equation_holds() {
    let set_apart = PAGE.lines().filter(|line| line.starts_with("    "));
    let of_figures: Vec<&str> = set_apart.filter(|line| !line.contains('r')).collect();
    assert_eq!(of_figures.len(), 26);
    of_figures.into_iter().for_each(holds);
}

#[test]
fn every_row_follows_from_the_one_before() {
    let (mut taken, mut rest, mut root) = (0, 0, 0);
    for row in rows() {
        let [pair, left, digit] = [row[0], row[1], row[2]].map(number);
        let product = |digit| (20 * root + digit) * digit;
        assert_eq!(left, 100 * rest + pair);
        let tens = 10 * root;
        assert_eq!(left, 100 * taken + pair - tens * tens);
        assert!(product(digit) <= left && left < product(digit + 1));
        assert_eq!(
            row[3],
            format!("{} x {digit} = {}", 20 * root + digit, product(digit))
        );
        (taken, rest, root) = (100 * taken + pair, left - product(digit), 10 * root + digit);
        assert_eq!([row[4], row[5]].map(number), [rest, root]);
        assert_eq!(root * root + rest, taken);
    }
    assert_eq!((taken, root), (N, 8810));
}

fn words(text: &str) -> Vec<String> {
    text.split_whitespace().map(String::from).collect()
}

#[test]
fn the_code_and_the_theorems_have_the_same_rows() {
    let comment: Vec<Vec<String>> = CODE.lines().map(words).collect();
    for (row, pairs_left) in rows().iter().zip((0..5).rev()) {
        let line = words(&format!("// {}", row.join(" ")));
        assert!(comment.contains(&line), "{line:?}");
        let theorem = format!("OnPaper n {pairs_left} {} {}\n", row[5], row[4]);
        assert!(THEOREMS.contains(&theorem), "{theorem}");
    }
}
