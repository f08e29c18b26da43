//! Times the run of both sides over the same tapes: in one process, in turn,
//! from the fresh machine, and holds their ends to be equal; and so a session of
//! the proved side, fed in one piece and in many. Ends with status 1 where the
//! proved side takes more than three times as long.
//!
//! `cargo run --release -p bench -- [--records N] [--rounds R] [--proved-rounds P] [--limit X|none]`
//! `cargo run --release -p bench -- growth [--records N] [--rounds R] [--proved-rounds P]`

mod day;
mod growth;
mod ledger;
mod measure;
mod setting;
mod sides;
mod tapes;
mod time;

use std::process::ExitCode;

use measure::{each, Times};
use naszeptan::{Kind, KINDS, PIECE};
use setting::Setting;
use sides::Start;
use tapes::Tape;

/// One line of the table.
fn line(name: &str, records: usize, times: &Times) -> String {
    let (rust, proved) = (times.rust.clock, times.proved.clock);
    let on_processor = match times.ratio_on_processor() {
        Some(ratio) => format!("{ratio:.1}"),
        None => "not told".to_string(),
    };
    format!(
        "{name:22}{:>12.2}{:>14.2}{:>16.1}{:>14.1}{:>9.1}{on_processor:>16}",
        proved.as_secs_f64() * 1e3,
        rust.as_secs_f64() * 1e3,
        each(proved, records),
        each(rust, records),
        times.ratio(),
    )
}

/// The share of each kind that a tape has, five to a line.
fn shares(tape: &[u8]) -> String {
    let counts = tapes::kinds(tape);
    let all: usize = counts.iter().sum();
    let share = |(kind, count): (&Kind, &usize)| {
        let share = *count as f64 * 100.0 / all as f64;
        (*count > 0).then(|| format!("{:10} {share:5.2} %", kind.name))
    };
    let shares: Vec<String> = KINDS.iter().zip(&counts).filter_map(share).collect();
    let lines: Vec<String> = shares.chunks(5).map(|line| line.join("   ")).collect();
    lines.join("\n")
}

/// How a tape is handed in: the row's name, and the bytes of a session's piece
/// where it is one.
const WAYS: [(&str, Option<usize>); 3] = [
    ("", None),
    ("  in one piece", Some(usize::MAX)),
    ("  in pieces of 64 KiB", Some(PIECE)),
];

/// Prints the table and gives what passes the limit, a line for each.
fn time_tapes(tapes: &[Tape], setting: &Setting) -> Vec<String> {
    println!(
        "\n{:22}{:>12}{:>14}{:>16}{:>14}{:>9}{:>16}",
        "tape", "proved, ms", "Rust, ms", "proved, ns/rec", "Rust, ns/rec", "ratio", "on processor"
    );
    let rows = tapes
        .iter()
        .flat_map(|tape| WAYS.map(|(way, piece)| (tape, way, piece)));
    rows.filter_map(|(tape, way, piece)| time_tape(tape, way, piece, setting))
        .collect()
}

/// Prints one row; a line where it passes the limit.
fn time_tape(tape: &Tape, way: &str, piece: Option<usize>, setting: &Setting) -> Option<String> {
    let (start, rounds) = (Start::fresh(), setting.rounds);
    let (times, shown) = match piece {
        None => (measure::tape(&start, &tape.bytes, rounds), tape.name),
        Some(piece) => (measure::session(&start, &tape.bytes, piece, rounds), way),
    };
    println!("{}", line(shown, setting.records, &times));
    let (name, ratio) = (tape.name, times.ratio());
    let limit = setting.limit.filter(|&limit| ratio > limit)?;
    Some(format!(
        "bench: {name}{way}: the ratio {ratio:.2} passes {limit}"
    ))
}

/// Prints what reading a whole tape before it is run takes of each run.
fn time_readings(tapes: &[Tape], setting: &Setting) {
    println!("\nof which the whole tape is read first:");
    for tape in tapes {
        let times = measure::reading(&Start::fresh(), &tape.bytes, setting.rounds);
        println!("{}", line(tape.name, setting.records, &times));
    }
}

fn explain(tapes: &[Tape]) {
    println!(
        "\nmedians over the rounds, by the clock, which other work on the computer stretches;"
    );
    println!("the last ratio is of the mean times on the processor. After each pair of runs");
    println!("machines and memories were equal. In pieces: a session of the proved machine, with");
    println!("room for each answer, beside the Rust model's run.");
    for tape in tapes {
        println!("{}: {}", tape.name, tape.about);
    }
    for tape in tapes {
        if [tapes::DAY, tapes::NARROW].contains(&tape.name) {
            println!("\n{}, its kinds:\n{}", tape.name, shares(&tape.bytes));
        }
    }
}

fn main() -> Result<ExitCode, String> {
    let setting = Setting::from_arguments(std::env::args().skip(1))?;
    print!("{setting}");
    if setting.growth {
        growth::print(&setting);
        return Ok(ExitCode::SUCCESS);
    }
    let tapes = tapes::all(setting.records);
    let past = time_tapes(&tapes, &setting);
    time_readings(&tapes, &setting);
    explain(&tapes);
    for line in &past {
        eprintln!("{line}");
    }
    Ok(match past.is_empty() {
        true => ExitCode::SUCCESS,
        false => ExitCode::FAILURE,
    })
}
