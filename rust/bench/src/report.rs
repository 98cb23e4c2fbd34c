//! The report, in markdown.

use crate::case::{Case, Times};
use crate::cases::{self, GROWTH};
use crate::inputs::Order;
use crate::table::{head, microseconds, ratio, row};
use crate::timing;
use std::process::ExitCode;

const ABOUT: &str = "\
Both sides were timed in one run of a release build, on the same bytes. Times are in microseconds.

- *port*: the whole job, bytes in, bytes out. Its buffers are allocated once for each case and not cleared between
  runs: a work buffer of exactly 4 times the sheets, and 65,535 bytes for the answer. Each call clears its work
  buffer itself, and that is in its time.
- *Rust*: the whole job, bytes in, bytes out: the oracle's reader, arrow-schema's operation, the oracle's writer. What
  it allocates and frees in each run is in its time.
- *Rust alone*: arrow-schema's operation on schemas that were read before; freeing what it gives is in its time.
- *Rust / port* and *alone / port*: how many times as long the Rust takes; above 1 the port is faster.

The crate has no reader or writer of sheets; the oracle's are plain, and *alone / port* puts the Rust's bare operation
beside the port's reading, operation and writing together. For `flattened_fields` the oracle looks up the offset of
each field, and for `filter` it counts the leaves first; both are in *Rust*. So is what its writer takes to see a field's
dictionary number: the crate shows it on a Dictionary alone, so every other field is copied and the copy made one.

The Rust has no mode \"parked log first\". In the rows of that mode the port merges in it, and what stands beside it is
the Rust's own merge: of the same bytes where the Rust accepts them, and, where it refuses ordered dictionaries, of the
same bytes with the order flags cleared. What the port gives there is first compared with what the oracle gives in
the mode.";

const NUMBERS: [&str; 6] = [
    "sheet bytes",
    "port",
    "Rust",
    "Rust / port",
    "Rust alone",
    "alone / port",
];

/// Two sides that do not give the same; the case's title.
struct Differ(String);

/// Prints all tables as they are made.
pub(crate) fn print() -> ExitCode {
    println!("{ABOUT}\n\n{}", timing::said());
    match tables() {
        Ok(()) => ExitCode::SUCCESS,
        Err(Differ(title)) => {
            eprintln!("bench: the sides differ at {title}");
            ExitCode::FAILURE
        }
    }
}

fn tables() -> Result<(), Differ> {
    table("A flat sheet of 1000 columns", cases::flat())?;
    table("A nested sheet: 100 structs of 10", cases::nested())?;
    table(
        "A deep sheet: 31 structs inside one another, 500 fields in the innermost",
        cases::deep(),
    )?;
    table(
        "Two flat sheets of 1000 columns that differ in their dictionary numbers alone",
        cases::numbered(),
    )?;
    table("Union numberings", cases::numberings())?;
    table("Merging, names of twenty bytes", cases::merges())?;
    println!("\n## How merging grows: two sheets of so many columns, names of four bytes\n");
    println!(
        "*x* is the time as a multiple of that at {} columns.\n",
        GROWTH[0]
    );
    let numbers = [
        "columns",
        "port",
        "x",
        "Rust",
        "x",
        "Rust / port",
        "Rust alone",
        "x",
        "alone / port",
    ];
    println!("{}", head(&["order"], &numbers));
    Order::BOTH.into_iter().try_for_each(growth)
}

fn timed(case: Case) -> Result<Times, Differ> {
    match case.agrees() {
        true => Ok(case.times()),
        false => Err(Differ(case.title)),
    }
}

fn table(title: &str, cases: impl IntoIterator<Item = Case>) -> Result<(), Differ> {
    println!("\n## {title}\n\n{}", head(&["operation"], &NUMBERS));
    for case in cases {
        let (title, bytes) = (case.title.clone(), case.bytes.to_string());
        let Times { port, whole, alone } = timed(case)?;
        let whole = Some(whole);
        let times = [
            microseconds(port),
            microseconds(whole),
            ratio(whole, port),
            microseconds(alone),
            ratio(alone, port),
        ];
        let words = [&title, &bytes].into_iter().chain(&times);
        println!("{}", row(words.map(String::as_str)));
    }
    Ok(())
}

fn growth(order: Order) -> Result<(), Differ> {
    let mut first = None;
    for columns in GROWTH {
        let now = timed(cases::growth(columns, order))?;
        let begun = first.get_or_insert(now);
        let (whole, begun_whole) = (Some(now.whole), Some(begun.whole));
        let cells = [
            order.word().to_owned(),
            columns.to_string(),
            microseconds(now.port),
            ratio(now.port, begun.port),
            microseconds(whole),
            ratio(whole, begun_whole),
            ratio(whole, now.port),
            microseconds(now.alone),
            ratio(now.alone, begun.alone),
            ratio(now.alone, now.port),
        ];
        println!("{}", row(cells.iter().map(String::as_str)));
    }
    Ok(())
}
