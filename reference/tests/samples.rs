//! The samples that come with the repository, held against the reference.

use reference::calendar::calendar;
use reference::dates::dates;
use reference::heard::{asked, beasts, carried, fetched, joined, newest, Named};
use reference::listing::{is_sound, listing};
use reference::program::Run;
use reference::reader::{Reader, Reference};
use reference::report::{report, ALL_RECORDS, COMBINED};
use reference::{salvage, season};
use std::fs;
use std::path::{Path, PathBuf};

/// The sizes at which every sound table has its report; other reports are stored here and there.
const PAYLOADS: [&str; 2] = ["p20", "p244"];

/// The files whose kind, what comes after the dot, is such a one; at least one of them.
fn files(of: impl Fn(&str) -> bool) -> Vec<PathBuf> {
    let folder = Path::new(env!("CARGO_MANIFEST_DIR")).join("../samples");
    let all = fs::read_dir(folder).unwrap().map(|file| file.unwrap().path());
    let files: Vec<PathBuf> = all.filter(|path| of(kind(path))).collect();
    assert!(!files.is_empty());
    files
}

fn kind(path: &Path) -> &str {
    path.extension().and_then(|kind| kind.to_str()).unwrap_or("")
}

fn text(path: &Path) -> String {
    fs::read_to_string(path).unwrap()
}

/// Every table has a file of this kind, made of the table alone.
fn every_table_has(kind: &str, made: fn(&dyn Reader, &[u8]) -> String) {
    for path in files(|kind| kind == "table") {
        let table = fs::read(&path).unwrap();
        let stored = text(&path.with_extension(kind));
        assert_eq!(made(&Reference::new(), &table), stored, "{}", path.display());
    }
}

#[test]
fn listings_are_the_references() {
    every_table_has("listing", listing);
}

#[test]
fn calendars_are_the_references() {
    every_table_has("calendar", calendar);
}

/// Is it a report? p or c, and then the sizes.
fn is_report(kind: &str) -> bool {
    kind.starts_with(['p', 'c']) && kind[1..].starts_with(|digit: char| digit.is_ascii_digit())
}

#[test]
fn reports_are_the_references() {
    for path in files(is_report) {
        let table = fs::read(path.with_extension("table")).unwrap();
        let sizes = kind(&path)[1..].split('-').map(|size| size.parse().unwrap());
        let request = if kind(&path).starts_with('c') { COMBINED } else { ALL_RECORDS };
        let report = report(&Reference::new(), &table, &request, &sizes.collect::<Vec<u32>>());
        assert_eq!(report, text(&path), "{}", path.display());
    }
}

/// A sound table has its report at each payload; an unsound one is refused and has none.
#[test]
fn sound_tables_have_reports() {
    for path in files(|kind| kind == "table") {
        let table = fs::read(&path).unwrap();
        let sound = listing(&Reference::new(), &table) != "refused 1\n";
        for payload in PAYLOADS {
            assert_eq!(path.with_extension(payload).exists(), sound, "{}", path.display());
        }
    }
}

/// The files of this kind, which go with no table, each line made anew from what comes before its
/// answer.
fn alone_are_the_references(kind: &str, made: fn(&dyn Reader, &str) -> String) {
    for path in files(|other| other == kind) {
        let stored = text(&path);
        assert_eq!(made(&Reference::new(), &stored), stored, "{}", path.display());
    }
}

#[test]
fn joined_reports_are_the_references() {
    alone_are_the_references("joined", joined);
}

#[test]
fn calls_on_a_map_are_the_references() {
    alone_are_the_references("fetched", fetched);
}

/// The files of this kind that go with a table, each line made anew from what comes before its answer.
fn are_the_references(kind: &str, made: fn(&dyn Reader, &[u8], &str) -> String) {
    for path in files(|other| other == kind) {
        let table = fs::read(path.with_extension("table")).unwrap();
        let stored = text(&path);
        assert_eq!(made(&Reference::new(), &table, &stored), stored, "{}", path.display());
    }
}

#[test]
fn carried_stamps_are_the_references() {
    are_the_references("carried", carried);
}

#[test]
fn requests_by_number_are_the_references() {
    are_the_references("asked", asked);
}

/// The files of this kind, whose lines name tables, each line made anew.
fn lines_are_the_references(kind: &str, made: fn(&dyn Reader, &Named, &str) -> String) {
    for path in files(|other| other == kind) {
        let stored = text(&path);
        let named =
            |name: &str| fs::read(path.with_file_name(name).with_extension("table")).unwrap();
        assert_eq!(made(&Reference::new(), &named, &stored), stored, "{}", path.display());
    }
}

#[test]
fn beasts_are_the_references() {
    lines_are_the_references("beasts", beasts);
}

#[test]
fn newest_updates_are_the_references() {
    lines_are_the_references("newest", newest);
}

/// An unsound table has a file with what is said of it, and one with what comes back, if anything
/// does; a sound one has neither, since it comes back as it is.
#[test]
fn salvaged_tables_are_the_references() {
    for path in files(|kind| kind == "table") {
        let table = fs::read(&path).unwrap();
        let sound = is_sound(&Reference::new(), &table);
        let Run { printed, report, complaint } = salvage::PAPER.run(&table);
        let (told, comes_back) = match complaint {
            Some(refusal) => (Some(refusal), None),
            None if sound => (None, None),
            None => (Some(report), Some(printed)),
        };
        let stored = |kind: &str| fs::read(path.with_extension(kind)).ok();
        assert_eq!(stored("told"), told.map(String::into_bytes), "{}", path.display());
        assert_eq!(stored("salvaged"), comes_back, "{}", path.display());
    }
}

#[test]
fn season_figures_are_the_references() {
    for path in files(|kind| kind == "tables") {
        let mut figures = Vec::new();
        season::PAPER.run(fs::File::open(&path).unwrap(), &mut figures).unwrap();
        let stored = text(&path.with_extension("figures"));
        assert_eq!(String::from_utf8(figures).unwrap(), stored, "{}", path.display());
    }
}

#[test]
fn dates_of_seconds_are_the_references() {
    for path in files(|kind| kind == "seconds") {
        let run = dates(&fs::read(&path).unwrap());
        assert_eq!(run.complaint, None, "{}", path.display());
        let stored = text(&path.with_extension("dates"));
        assert_eq!(String::from_utf8(run.printed).unwrap(), stored, "{}", path.display());
    }
}
