//! A reader of the Device Time Service: its clock, its Time Change Log, its two control points,
//! segmented notifications, and the tablet's joining, reading, keeping, carrying, salvaging, telling
//! one beast from two and fetching only what is missing.
//!
//! This is the build paper in ordinary Rust, written to be read and to be compared with. Every
//! call works on the byte images of the C boundary and has an answer for every input.
//!
//! | Module | Heading of the paper |
//! |---|---|
//! | `numbers` | the paper's numbers, in one table |
//! | `refusal` | Refusal numbers |
//! | `octets` | little-endian numbers in bytes |
//! | `record` | Log records (Table 3.10 for our feature bits) |
//! | `table` | Log table, a lent buffer |
//! | `clock` | Clock state; Clock events |
//! | `image` | the 32-byte state; the three characteristics a client reads |
//! | `update` | Time updates (DTCP) |
//! | `access` | RACP |
//! | `notify` | notifications of a running report |
//! | `joining` | the tablet's joining |
//! | `keep` | the tablet's own copy of a log; not in the paper |
//! | `carry` | Carrying a stamp |
//! | `salvage` | Getting a log back from a wet reader |
//! | `ramp` | Ramp crate: one beast or two |
//! | `fetch` | Fetch only what's missing |
//! | `listing` | the listing program's lines |
//! | `calendar` | What the log showed, on a calendar |
//! | `dates` | the lines of the program that turns seconds to dates and back |
//! | `report` | the lines of a whole report over the air |
//! | `heard` | lines with what a tablet makes of a report, of stamps, of a ramp's antennas, and of its map |
//! | `season` | Season figures from all the readers |
//! | `reader` | all calls as one trait, and the reference behind it |
//! | `world` | the buffers a caller lends, together |
//! | `vectors` | test vectors kept as data, and their player |
//! | `random` | adversarial call sequences over two readers |
//! | `once` | the books of "Every record once", kept from a reader's answers |
//! | `history` | made histories of one reader, with those books |
//! | `program` | a program beside the reference, and told from wrong ones |
//! | `concatenation` | made concatenations of tables, and a season program compared on them |
//! | `zones` | made tables of every zone and DST, and a calendar program compared on them |
//! | `days` | made seconds, both ends of every day among them, and a dates program compared on them |
//! | `soaked` | made damaged tables, and a reader and a salvage program compared on them |
//! | `mutants` | readers, ramps, fetches, season, calendar, dates and salvage programs wrong in one number or step |
//! | `archive` | the proved archive as a reader, behind a program |

#![forbid(unsafe_code)]

pub mod access;
pub mod archive;
pub mod calendar;
pub mod carry;
pub mod clock;
pub mod concatenation;
pub mod dates;
pub mod days;
pub mod fetch;
pub mod heard;
pub mod history;
pub mod image;
pub mod joining;
pub mod keep;
pub mod listing;
pub mod mutants;
pub mod notify;
pub mod numbers;
pub mod octets;
pub mod once;
pub mod program;
pub mod ramp;
pub mod random;
pub mod reader;
pub mod record;
pub mod refusal;
pub mod report;
pub mod salvage;
pub mod season;
pub mod soaked;
pub mod table;
pub mod update;
pub mod vectors;
pub mod world;
pub mod zones;

// Keeps the README's example true.
#[cfg(doctest)]
#[doc = include_str!("../README.md")]
struct Readme;
