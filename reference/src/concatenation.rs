//! Made concatenations of tables, and a season program compared with the reference's on them.
//!
//! A concatenation is data, so that one that shows a difference is cut down to the entries that it
//! takes to show it.

use crate::mutants::{wrong, WRONG_SEASONS};
use crate::numbers::PAPER;
use crate::program::{Program, Run, Runs};
use crate::random::{
    planned_table, shortest, some_plan, some_slots, table_damage, table_of, Plan, Random,
    ANY_UPDATE,
};
use crate::record::{Record, TimeUpdate};
use crate::season::{self, Season};
use crate::table::{Shape, HEADER_BYTES, SLOT_BYTES};

/// The size before a table.
const SIZE_BYTES: usize = 4;
/// Whole entries at most; one that isn't may come besides.
const MOST_ENTRIES: usize = 7;
/// Sizes that aren't permitted: too small, too large, between two that are, and such as would be
/// permitted if only their lowest bits were looked at.
const ODD_SIZES: [u32; 12] =
    [0, 15, 16, 79, 81, 65_487, 65_489, 65_552, (1 << 16) + 80, 1 << 31, (1 << 31) + 80, u32::MAX];
/// Behind an odd size stands at most a table that has one slot too many.
const ODD_SLOTS: usize = 1_024;

/// A size and a table, told in few numbers so that a mismatch prints shortly.
#[derive(Clone, Debug)]
pub struct Entry {
    size: u32,
    table: Plan,
    /// Where bytes are put into the table, and which.
    damage: Option<(usize, Vec<u8>)>,
    /// How many bytes there are of the entry, its size among them.
    bytes: usize,
}

fn table_bytes(slots: usize) -> usize {
    HEADER_BYTES + SLOT_BYTES * slots
}

/// A sound table of so many slots.
pub fn sound_entry(random: &mut Random, slots: usize) -> Entry {
    let bytes = table_bytes(slots);
    let table = some_plan(random, slots);
    Entry { size: bytes as u32, table, damage: None, bytes: SIZE_BYTES + bytes }
}

/// A whole entry. Every third is damaged, which doesn't make every one unsound.
fn whole_entry(random: &mut Random) -> Entry {
    let slots = some_slots(random);
    let entry = sound_entry(random, slots);
    let damaged = random.one_in(3);
    let damage = damaged.then(|| table_damage(random, &planned_table(&entry.table))).flatten();
    Entry { damage, ..entry }
}

/// An entry whose end is missing: the input stops inside its size, right after it, or inside its
/// table.
fn cut_entry(random: &mut Random) -> Entry {
    let mut entry = whole_entry(random);
    let (any, last) = (1 + random.below(entry.bytes - 1), entry.bytes - 1);
    entry.bytes = random.pick(&[1, 2, 3, 4, 5, any, any, last]);
    entry
}

/// A size that isn't permitted, with as many bytes behind it, if there can be a table in them.
fn odd_entry(random: &mut Random) -> Entry {
    let size = random.pick(&ODD_SIZES);
    let bytes = table_bytes(ODD_SLOTS).min(size as usize);
    let slots = bytes.saturating_sub(HEADER_BYTES) / SLOT_BYTES;
    Entry { size, table: some_plan(random, slots.max(1)), damage: None, bytes: SIZE_BYTES + bytes }
}

/// An entry of any kind, most of them whole.
pub fn some_entry(random: &mut Random) -> Entry {
    match random.below(6) {
        0 => odd_entry(random),
        1 => cut_entry(random),
        _ => whole_entry(random),
    }
}

fn some_entries(random: &mut Random) -> Vec<Entry> {
    let count = random.below(1 + MOST_ENTRIES);
    let mut entries: Vec<Entry> = (0..count).map(|_| whole_entry(random)).collect();
    match random.below(4) {
        0 => entries.insert(random.below(1 + count), odd_entry(random)),
        1 => entries.push(cut_entry(random)),
        _ => {}
    }
    entries
}

fn entry_bytes(entry: &Entry) -> Vec<u8> {
    let mut table = planned_table(&entry.table);
    if let Some((at, bytes)) = &entry.damage {
        table[*at..at + bytes.len()].copy_from_slice(bytes);
    }
    let mut bytes = [&entry.size.to_le_bytes(), &table[..]].concat();
    bytes.resize(entry.bytes, 0);
    bytes
}

/// The entry without its size: a table, what is left of one, or something as large as none.
pub fn entry_table(entry: &Entry) -> Vec<u8> {
    entry_bytes(entry).split_off(SIZE_BYTES.min(entry.bytes))
}

fn concatenated(entries: &[Entry]) -> Vec<u8> {
    entries.iter().flat_map(entry_bytes).collect()
}

/// A run to the limit of 65,535 tables. Each has one update: odd positions move the clock from
/// end to end forward, even ones back.
struct LongRun {
    tables: usize,
    /// Bytes behind the last of them.
    more: usize,
    /// The line before the totals.
    last_line: &'static str,
}

const LONG_RUNS: [LongRun; 3] = [
    LongRun {
        tables: 65_535,
        more: 0,
        last_line: "65535 updates 1 forward 2524607999 back 0 faults 0 largest 2524607999",
    },
    LongRun { tables: 65_536, more: 0, last_line: "ended 65536" },
    LongRun { tables: 65_535, more: 1, last_line: "ended 65536" },
];

/// Worked by hand: from end to end it is 3,155,759,999 - 631,152,000 = 2,524,607,999 seconds;
/// 32,768 times that is 82,726,354,911,232, and 32,767 times is 82,723,830,303,233.
const LONG_TOTAL: &str = "total updates 65535 forward 82726354911232 back 82723830303233 \
                          faults 0 largest 2524607999";

fn long_concatenation(run: &LongRun) -> Vec<u8> {
    let (first, last) = (PAPER.first_base_time, PAPER.last_base_time);
    let pair = [one_update(last, first), one_update(first, last)];
    let mut bytes: Vec<u8> = pair.iter().cycle().take(run.tables).flatten().copied().collect();
    bytes.resize(bytes.len() + run.more, 0);
    bytes
}

/// An entry of one slot, held by an update.
fn one_update(base: u32, old_base: u32) -> Vec<u8> {
    let full = Shape { slots: 1, held: 1, oldest: 0, next: 1 };
    let table = table_of(full, |sequence| {
        Record::Update(TimeUpdate { sequence, base, old_base, ..ANY_UPDATE })
    });
    [&(table.len() as u32).to_le_bytes(), &table[..]].concat()
}

/// A season program beside the reference.
pub struct Comparison {
    pub program: Program<Season>,
}

impl Comparison {
    pub fn new(runs: Runs) -> Comparison {
        let wrong = wrong(WRONG_SEASONS, &season::PAPER);
        Comparison { program: Program::new(runs, figures, season::PAPER, wrong) }
    }

    /// Gives the program this many made concatenations, and stops at the first difference, cut
    /// down to its fewest entries.
    pub fn made_runs(&mut self, seed: u64, runs: usize) -> Result<(), String> {
        let mut random = Random::new(seed);
        for _ in 0..runs {
            let entries = some_entries(&mut random);
            if self.program.printed(&concatenated(&entries)).is_err() {
                return Err(self.mismatch(entries));
            }
        }
        Ok(())
    }

    fn mismatch(&mut self, entries: Vec<Entry>) -> String {
        let entries =
            shortest(entries, |fewer| self.program.printed(&concatenated(fewer)).is_err());
        let mut words = format!("a difference on these {} entries:\n", entries.len());
        for entry in &entries {
            words += &format!("  {entry:02X?}\n");
        }
        words + &self.program.printed(&concatenated(&entries)).err().unwrap_or_default()
    }

    /// Runs to the limit, whose ends are known besides. Answers how many there were.
    pub fn long_runs(&mut self) -> Result<usize, String> {
        for run in &LONG_RUNS {
            let what = format!("{} tables and {} bytes", run.tables, run.more);
            let printed = self.program.printed(&long_concatenation(run));
            let printed = printed.map_err(|difference| format!("{what}: {difference}"))?;
            let end = format!("{}\n{LONG_TOTAL}\n", run.last_line);
            if !printed.ends_with(end.as_bytes()) {
                return Err(format!("{what}: the last lines are not\n{end}"));
            }
        }
        Ok(LONG_RUNS.len())
    }
}

fn figures(season: &Season, input: &[u8]) -> Run {
    let mut printed = Vec::new();
    season.run(input, &mut printed).expect("memory can be read and written");
    Run { printed, ..Run::default() }
}
