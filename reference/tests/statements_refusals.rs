//! That the test of the statements can fail: made-up files, rows that are true of
//! them, and rows that are not.

use crate::statements::faults;

const SUMS: &str = "
-- abbrev pub remarked : ℕ
pub record Total (n : ℕ) : Type 0 where
  pub field : ℕ

module _ (m : ℕ) where
  unfoldable pub sum : ℕ → ℕ
  sum n = m + n
private-sum : ℕ
";

const LAWS: &str = "
use Rattle.one.specs.Sums.{Total, sum}
use Rattle.two.specs.Sums as others

pub total : (n : ℕ) → Total
    n
total = all
  where
    pub local : Total 0

module _ {m : ℕ}
    (h : m ≡ 0) where
  -- of both
  module _ (n : ℕ) where
    pub sum-zero : sum m n ≡ n
    sum-zero = rw h
  pub sum-one : sum m 1 ≡ 1

pub of-others : (n : ℕ) → others.Total n
pub long : (a b c d e f : ℕ) → Total a → Total b → Total c
    → Total d → Total e → Total f → Total (a + b + c + d + e + f)
    → Total (a * b * c * d * e * f)
abbrev pub Stated : Type 0
";

const CODE: &str = "
ghost use Rattle.one.specs.Sums.{Total, sum};
ghost use Rattle.two.specs.Sums as others;

mod adding;
pub mod alone;
// mod unnamed;

impl Adder {
    // As `fn add(` in the module does.
    pub fn add(self, n: u8) -> u8
        ensures { result
            ≡ sum 1 n }
    {
        n + 1
    }
}

fn bare(n: u8) -> u8 {
    n
}

fn asks(n: u8) -> u8
    requires { Total n }
    ensures count { result ≡ sum 1 n }
    ensures low { sum 1 n ≤ result × result ≤ sum 1 (n + 1) }
    ensures high { result ≤ sum 1 (n + n) × result ≤ sum 1 (n + n + 1) }
{
    n + 1
}

fn asks_little(n: u8)
    requires { sum 1 n ≤ 9 }
{
}

fn both(n: u8) -> u8
    ensures low { sum 1 n ≤ result }
    ensures high { result ≤ sum 1 n }
{
    n + 1
}

pub extern \"C\" fn exported(
    n: u8,
) -> u8
    ensures { others.Total result.field }
{
    n
}

fn twice(n: u8) -> u8
    ensures { result ≡ sum n n }
{
    n + n
}
fn twice(n: u16) -> u16
";

fn made_up(path: &str) -> Option<String> {
    let text = match path {
        "one/specs/Sums.antt" | "two/specs/Sums.antt" => SUMS,
        "one/proofs/Laws.antt" | "one/proofs/Unnamed.antt" => LAWS,
        "one/specs/Lib.antt" | "two/specs/Lib.antt" => "pub mod Sums",
        "one/proofs/Lib.antt" => "mod Laws\n-- mod Unnamed",
        "one/src/lib.rt" | "one/src/adding.rt" => CODE,
        "one/src/alone.rt" | "one/src/unnamed.rt" => CODE,
        _ => return None,
    };
    Some(text.into())
}

fn document(rows: &str) -> String {
    let head = "| in words | stated in | proved in |\n|---|---|---|\n";
    format!("# All\n\n## The statements\n\n{head}{rows}\n## The order\n\n| no row |\n")
}

/// Each line is a row without its words, and what is wrong with it.
fn try_all(cases: &str) {
    for case in cases.trim().lines() {
        let (row, expected) = case.split_once(" => ").expect("a row and a fault");
        let found = faults(&document(&format!("| words {row}\n")), &made_up);
        let found = found.first().and_then(|fault| fault.lines().next());
        assert_eq!(found.unwrap_or("none"), expected, "{row}");
    }
}

#[test]
fn rows_that_hold_are_taken() {
    try_all(
        "
| `one/specs/Sums`: `Total` | `one/proofs/Laws`: `total : (n : ℕ) → Total n` | => none
| `one/specs/Sums`: `Total` | `one/proofs/Laws`: `long`, `total : (n : ℕ) → Total n` | => none
| `one/specs/Sums`: `sum` | `one/proofs/Laws`: `sum-zero : {m : ℕ} (h : m ≡ 0) (n : ℕ) → sum m n ≡ n` | => none
| `one/specs/Sums`: `sum` | `one/proofs/Laws`: `sum-one : {m : ℕ} (h : m ≡ 0) → sum m 1 ≡ 1` | => none
| `two/specs/Sums`: `Total` | `one/proofs/Laws`: `of-others : (n : ℕ) → others.Total n` | => none
| `one/specs/Sums`: `sum` | `one/src/lib`: `Adder::add : result ≡ sum 1 n`, `asks`; `one/src/alone`: `asks` | => none
| `one/specs/Sums`: `sum` | `one/src/adding`: `add : result ≡ sum 1 n` | => none
| `one/specs/Sums`: `sum` | `one/src/lib`: `both : ensures low { sum 1 n ≤ result } ensures high { result ≤ sum 1 n }` | => none
| `two/specs/Sums`: `Total` | `one/src/lib`: `exported : others.Total result.field` | => none
| | `one/src/lib`: `Adder::add : result ≡ sum 1 n` | => none
",
    );
}

#[test]
fn theorems_that_differ_are_refused() {
    try_all(
        "
| `one/specs/Sums`: `Total` | `one/proofs/Laws`: `total : (n : ℕ) → Total 0` | => total is `(n : ℕ) → Total n`
| `one/specs/Sums`: `Total` | `one/proofs/Laws`: `total` | => total is `(n : ℕ) → Total n`
| `one/specs/Sums`: `sum` | `one/proofs/Laws`: `sum-one : sum m 1 ≡ 1` | => sum-one is `{m : ℕ} (h : m ≡ 0) → sum m 1 ≡ 1`
| `one/specs/Sums`: `Total` | `one/proofs/Laws`: `tot` | => one/proofs/Laws has no theorem tot
| `one/specs/Sums`: `Total` | `one/proofs/Laws`: `local : Total 0` | => one/proofs/Laws has no theorem local
| | `one/proofs/Laws`: `Stated : Type 0` | => one/proofs/Laws has no theorem Stated
| | `one/proofs/Laws`: `long` | => long is `(a b c d e f : ℕ) → Total a → Total b → Total c → Total d → Total e → Total f → Total (a + b + c + d + e + f) → Total (a * b * c * d * e * f)`
| `one/specs/Sums`: `Total` | `one/proofs/Laws` | => no name of one/proofs/Laws
| `one/specs/Sums`: `Total` | `one/proofs/Lost`: `total` | => no file one/proofs/Lost
| `one/specs/Sums`: `Total` | `one/proofs/Unnamed`: `total` | => one/proofs/Unnamed is not checked
| `one/specs/Sums`: `Total` | `one/specs/Sums`: `Total` | => one/specs/Sums is no proof
| `one/specs/Sums`: `Total` | | => no proof
| `one/specs/Sums`: `Total` | the theorems of `one/proofs/Laws` | => more than places and names
| `one/specs/Sums`: `Total` | `one/proofs/Laws`: `long` and others | => more than places and names
",
    );
}

#[test]
fn contracts_that_differ_are_refused() {
    try_all(
        "
| `one/specs/Sums`: `sum` | `one/src/lib`: `Adder::add : result ≡ sum n 1` | => Adder::add is `result ≡ sum 1 n`
| `one/specs/Sums`: `sum` | `one/src/lib`: `Adder::add` | => Adder::add is `result ≡ sum 1 n`
| `one/specs/Sums`: `sum` | `one/src/lib`: `both : sum 1 n ≤ result` | => both is `ensures low { sum 1 n ≤ result } ensures high { result ≤ sum 1 n }`
| `one/specs/Sums`: `Total` | `one/src/lib`: `asks` | => asks does not mention Total
| `one/specs/Sums`: `Total` | `one/src/lib`: `exported : others.Total result.field` | => exported does not mention Total
| `one/specs/Sums`: `sum` | `one/src/lib`: `asks`, `lost` | => one/src/lib has no one contract of lost
| `one/specs/Sums`: `sum` | `one/src/lib`: `bare` | => one/src/lib has no one contract of bare
| `one/specs/Sums`: `sum` | `one/src/lib`: `asks_little` | => one/src/lib has no one contract of asks_little
| `one/specs/Sums`: `sum` | `one/src/lib`: `twice` | => one/src/lib has no one contract of twice
| `one/specs/Sums`: `sum` | `one/src/lib`: `Total::add : result ≡ sum 1 n` | => one/src/lib has no impl of Total::add
| `one/specs/Sums`: `sum` | `one/src/lib` | => no name of one/src/lib
| `one/specs/Sums`: `sum` | `one/src/unnamed`: `asks` | => one/src/unnamed is not checked
| `one/specs/Sums`: `sum` | `one/src/gone`: `add` | => no file one/src/gone
",
    );
}

#[test]
fn definitions_that_differ_are_refused() {
    try_all(
        "
| `one/specs/Sums`: `field` | `one/proofs/Laws`: `long` | => one/specs/Sums has no field
| `one/specs/Sums`: `remarked` | `one/proofs/Laws`: `long` | => one/specs/Sums has no remarked
| `one/specs/Sums`: `private-sum` | `one/proofs/Laws`: `long` | => one/specs/Sums has no private-sum
| `one/specs/Sums` | `one/proofs/Laws`: `long` | => no name of one/specs/Sums
| `one/specs/Lost`: `Total` | `one/proofs/Laws`: `long` | => no file one/specs/Lost
| `Total` | `one/proofs/Laws`: `long` | => no file Total
| `one/specs/Sums`: `Total`, `sum` | `one/proofs/Laws`: `long` | => long does not mention sum
| `two/specs/Sums`: `Total` | `one/proofs/Laws`: `long` | => long does not mention Total
",
    );
}

#[test]
fn other_tables_are_refused() {
    let row = "| words | | `one/proofs/Laws`: `total : (n : ℕ) → Total n` |\n";
    assert_eq!(faults(&document(row), &made_up), [""; 0]);
    assert_eq!(faults(&document(""), &made_up), ["no rows"]);
    assert_eq!(faults(row, &made_up), ["no table"]);
    let second = document(&format!("{row}\n| words |\n"));
    let expected = ["not three cells\n  | words |"];
    assert_eq!(faults(&second, &made_up), expected);
}
