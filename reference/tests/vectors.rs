//! The vectors, played on the reference.

use reference::reader::Reference;
use reference::vectors::play_all;
use std::collections::BTreeSet;

#[test]
fn all_vectors_pass() {
    let played = play_all(&Reference::new());
    for failure in &played.failures {
        println!("{failure}");
    }
    println!("{} vectors run, {} failed", played.run.len(), played.failures.len());
    assert!(played.failures.is_empty());
}

/// None was lost: 398 by clause, 49 for salvage, 80 for the ramp, 137 for fetching, 28 for the paper's
/// numbered cases, 39 for the byte images.
#[test]
fn all_vectors_are_there() {
    let run = play_all(&Reference::new()).run;
    let ids: BTreeSet<_> = run.iter().collect();
    assert_eq!(ids.len(), run.len(), "an id stands twice");
    let of = |families: &[&str]| {
        let family = |id: &str| id.trim_end_matches(|c: char| !c.is_ascii_uppercase()).to_string();
        run.iter().filter(|id| families.contains(&family(id).as_str())).count()
    };
    let worked = [
        "ST", "SE", "TB", "DT", "RT", "LG", "FA", "RA", "RN", "NO", "JO", "RE", "KE", "CA", "LI",
        "SW",
    ];
    assert_eq!(of(&worked), 398);
    assert_eq!(of(&["SV"]), 49);
    assert_eq!(of(&["OB"]), 53);
    assert_eq!(of(&["NU"]), 27);
    assert_eq!(of(&["FT"]), 37);
    assert_eq!(of(&["FP"]), 55);
    assert_eq!(of(&["FI"]), 28);
    assert_eq!(of(&["FR"]), 17);
    assert_eq!(of(&["CASE"]), 28);
    assert_eq!(of(&["IM"]), 39);
    assert_eq!(run.len(), 731);
}
