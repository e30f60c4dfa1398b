//! Compares a reader with the reference, call by call, or a season program, a calendar or a salvage
//! program run by run.
//!
//! `--archive COMMAND` names the program that plays calls on the proved archive (tests/c/pipe.c,
//! with what it takes to run it, between spaces); without it the reference is compared with
//! itself. `--calls N` (200,000 if not said), `--seed S` (1).
//!
//! `--season COMMAND` names a program that prints the figures of the tables on its standard input.
//! `--runs N` (400), `--seed S` (1).
//!
//! `--calendar COMMAND --dates COMMAND` names a program that prints the calendar of the table on its
//! standard input, and one that turns the numbers there to dates and back. `--runs N` (60) of the
//! first, `--seed S` (1).
//!
//! `--salvage COMMAND` names a program that salvages the table on its standard input. `--runs N`
//! (400), `--seed S` (1).

#![forbid(unsafe_code)]

use reference::archive::Archive;
use reference::concatenation;
use reference::days;
use reference::history::play;
use reference::mutants::{spoiled, wrong_fetches, wrong_ramps, MUTANTS};
use reference::program::{command, reporting_command, Program};
use reference::random::{compare, differing, untold};
use reference::reader::{Reader, Reference};
use reference::soaked;
use reference::vectors::play_all;
use reference::zones;
use std::process::ExitCode;

const USAGE: &str = "usage: reference [--archive COMMAND] [--calls N] [--seed S]
       reference --season COMMAND [--runs N] [--seed S]
       reference --calendar COMMAND --dates COMMAND [--runs N] [--seed S]
       reference --salvage COMMAND [--runs N] [--seed S]";
/// How many mutants the archive is compared with, and how many calls each may take.
const MUTANTS_TRIED: usize = 15;
const MUTANT_CALLS: usize = 60_000;
/// Calls in which the archive must be told from each wrong ramp and each wrong fetch.
const WRONG_CALLS: usize = 40_000;
/// Of "Every record once" on the archive.
const HISTORIES: u64 = 40;
/// Made tables that the archive salvages.
const SALVAGES: usize = 1_000;
/// Made inputs, if not said otherwise.
const SEASON_RUNS: usize = 400;
const CALENDAR_RUNS: usize = 60;
const SALVAGE_RUNS: usize = 400;

/// What the reference is compared with; the words of a command.
enum Other {
    Itself,
    Archive(Vec<String>),
    Season(Vec<String>),
    Calendar { calendar: Vec<String>, dates: Vec<String> },
    Salvage(Vec<String>),
}

struct Arguments {
    other: Other,
    calls: usize,
    runs: Option<usize>,
    seed: u64,
}

fn main() -> ExitCode {
    let Some(Arguments { other, calls, runs, seed }) = arguments(std::env::args().skip(1)) else {
        eprintln!("{USAGE}");
        return ExitCode::from(2);
    };
    match other {
        Other::Itself => status(no_difference("itself", &Reference::new(), calls, seed)),
        Other::Season(season) => status(season_passes(season, runs.unwrap_or(SEASON_RUNS), seed)),
        Other::Salvage(salvage) => {
            status(salvage_passes(salvage, runs.unwrap_or(SALVAGE_RUNS), seed))
        }
        Other::Calendar { calendar, dates } => {
            let runs = runs.unwrap_or(CALENDAR_RUNS);
            let passed = [dates_pass(dates, seed), calendar_passes(calendar, runs, seed)];
            status(passed == [true; 2])
        }
        Other::Archive(command) => match Archive::new(command) {
            Err(why) => {
                eprintln!("the archive's program cannot be started: {why}");
                ExitCode::from(2)
            }
            Ok(archive) => status(archive_passes(&archive, calls, seed)),
        },
    }
}

fn status(passed: bool) -> ExitCode {
    if passed {
        ExitCode::SUCCESS
    } else {
        ExitCode::FAILURE
    }
}

/// The arguments; nothing if they aren't understood.
fn arguments(mut words: impl Iterator<Item = String>) -> Option<Arguments> {
    let mut arguments = Arguments { other: Other::Itself, calls: 200_000, runs: None, seed: 1 };
    while let Some(name) = words.next() {
        let value = words.next()?;
        match name.as_str() {
            "--archive" => arguments.other = Other::Archive(split(&value)),
            "--season" => arguments.other = Other::Season(split(&value)),
            "--salvage" => arguments.other = Other::Salvage(split(&value)),
            "--calendar" => {
                let dates = words.next().filter(|name| name == "--dates").and(words.next())?;
                let (calendar, dates) = (split(&value), split(&dates));
                arguments.other = Other::Calendar { calendar, dates };
            }
            "--calls" => arguments.calls = value.parse().ok()?,
            "--runs" => arguments.runs = Some(value.parse().ok()?),
            "--seed" => arguments.seed = value.parse().ok()?,
            _ => return None,
        }
    }
    Some(arguments)
}

/// The words of a command.
fn split(words: &str) -> Vec<String> {
    words.split_whitespace().map(str::to_string).collect()
}

/// All seven parts, whatever the first says.
fn archive_passes(archive: &Archive, calls: usize, seed: u64) -> bool {
    let passed = [
        vectors_pass(archive),
        no_difference("the archive", archive, calls, seed),
        mutants_are_noticed(archive, seed),
        wrong_are_noticed("ramps", wrong_ramps(), archive, seed),
        wrong_are_noticed("fetches", wrong_fetches(), archive, seed),
        hands_over_once(archive, seed),
        salvages(archive, seed),
    ];
    passed == [true; 7]
}

fn vectors_pass(archive: &Archive) -> bool {
    let played = play_all(archive);
    for failure in &played.failures {
        println!("{failure}");
    }
    println!("{} vectors on the archive, {} failed", played.run.len(), played.failures.len());
    played.failures.is_empty()
}

fn no_difference(name: &str, reader: &dyn Reader, calls: usize, seed: u64) -> bool {
    let compared = compare(&Reference::new(), reader, seed, calls);
    match &compared {
        Ok(()) => println!("{calls} calls from seed {seed} on {name}: no difference"),
        Err(mismatch) => println!("the reference and {name}: {mismatch}"),
    }
    compared.is_ok()
}

/// A comparison that finds nothing is worth what it would have found.
fn mutants_are_noticed(archive: &Archive, seed: u64) -> bool {
    let missed: Vec<_> = MUTANTS[..MUTANTS_TRIED]
        .iter()
        .filter(|mutant| differing(&spoiled(mutant), archive, seed, MUTANT_CALLS).is_none())
        .map(|mutant| mutant.name)
        .collect();
    let noticed = MUTANTS_TRIED - missed.len();
    println!("{noticed} of {MUTANTS_TRIED} mutants of the reference told from the archive");
    none_missed(&missed)
}

/// Change requests E5 and E10: the archive is asked once, and each wrong one is put beside its answers.
fn wrong_are_noticed(
    what: &str,
    readers: Vec<(&'static str, Reference)>,
    archive: &Archive,
    seed: u64,
) -> bool {
    let wrong = readers.len();
    let missed = untold(archive, readers, seed, WRONG_CALLS);
    println!("{} of {wrong} wrong {what} told from the archive", wrong - missed.len());
    none_missed(&missed)
}

/// Change request E11, of the archive itself: what both had wrong alike would be no difference.
fn hands_over_once(archive: &Archive, seed: u64) -> bool {
    let seeds = seed..seed + HISTORIES;
    let found: Vec<_> = seeds.flat_map(|seed| play(archive, seed).complaints).collect();
    for complaint in &found {
        println!("{complaint:?}");
    }
    println!(
        "every record once in {HISTORIES} histories on the archive: {} complaints",
        found.len()
    );
    found.is_empty()
}

/// Change request E9: damaged tables of up to 1,023 slots, more of the large ones than among the
/// calls; if there is no difference, what the comparison is worth.
fn salvages(archive: &Archive, seed: u64) -> bool {
    match soaked::made_calls(archive, seed, SALVAGES) {
        Ok(soaked::Called { kinds, no_room, wrong, untold }) => {
            let kinds = format!("{kinds}; rooms too short for {no_room}");
            println!("{SALVAGES} tables from seed {seed} on the archive ({kinds}): no difference");
            println!("{} of {wrong} wrong salvages told from the archive", wrong - untold.len());
            none_missed(&untold)
        }
        Err(difference) => told(Err(difference)),
    }
}

fn none_missed(missed: &[&str]) -> bool {
    for name in missed {
        println!("not noticed: {name}");
    }
    missed.is_empty()
}

/// Made runs and those to the limit; if there is no difference, what the comparison is worth.
fn season_passes(season: Vec<String>, runs: usize, seed: u64) -> bool {
    let mut comparison = concatenation::Comparison::new(command(season));
    let made = comparison.made_runs(seed, runs);
    let long = comparison.long_runs();
    let passed = [
        told(made.map(|()| format!("{runs} concatenations from seed {seed}: no difference"))),
        told(long.map(|runs| format!("{runs} runs to 65,535 tables: no difference"))),
    ];
    passed == [true; 2] && wrong_are_told("programs", &comparison.program)
}

/// Every day, and inputs that end otherwise; if there is no difference, what the comparison is worth.
fn dates_pass(dates: Vec<String>, seed: u64) -> bool {
    let mut comparison = days::Comparison::new(command(dates));
    let turned = comparison.every_day(seed).map(|(days, others)| {
        format!("both ends of {days} days and {others} other seconds to dates and back")
    });
    let ended = comparison.cut_and_empty().map(|cut| format!("{cut} cut inputs and an empty one"));
    let passed = [turned, ended].map(|found| told(found.map(|what| what + ": no difference")));
    passed == [true; 2] && wrong_are_told("dates programs", &comparison.program)
}

/// Every zone and made tables; if there is no difference, what the comparison is worth.
fn calendar_passes(calendar: Vec<String>, runs: usize, seed: u64) -> bool {
    let mut comparison = zones::Comparison::new(command(calendar));
    let zones = comparison.every_zone_and_month();
    let made = comparison.made_tables(seed, runs);
    let passed = [
        told(
            zones.map(|records| format!("{records} records, every zone and month: no difference")),
        ),
        told(made.map(|()| format!("{runs} tables from seed {seed}: no difference"))),
    ];
    passed == [true; 2] && wrong_are_told("calendars", &comparison.program)
}

/// Made tables; if there is no difference, what the comparison is worth.
fn salvage_passes(salvage: Vec<String>, runs: usize, seed: u64) -> bool {
    let mut comparison = soaked::Comparison::new(reporting_command(salvage));
    let made = comparison.made_tables(seed, runs);
    told(made.map(|kinds| format!("{runs} tables from seed {seed} ({kinds}): no difference")))
        && wrong_are_told("salvages", &comparison.program)
}

/// Prints what was found; whether that was no difference.
fn told(found: Result<String, String>) -> bool {
    let passed = found.is_ok();
    let (Ok(words) | Err(words)) = found;
    println!("{words}");
    passed
}

fn wrong_are_told<T>(what: &str, program: &Program<T>) -> bool {
    let (untold, wrong) = (program.untold(), program.wrong);
    println!("{} of {wrong} wrong {what} told from it", wrong - untold.len());
    none_missed(&untold)
}
