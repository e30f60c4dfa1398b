//! The comparison notices a reader that is wrong in one number or step only.

use reference::mutants::{spoiled, Mutant, MUTANTS};
use reference::random::{compare, differs};
use reference::reader::Reference;
use reference::vectors::play_all;

const CALLS: usize = 60_000;

#[test]
fn the_reference_equals_itself() {
    for seed in 1..=5 {
        compare(&Reference::new(), &Reference::new(), seed, CALLS / 5).unwrap();
    }
}

#[test]
fn every_mutant_is_noticed() {
    let mut missed = Vec::new();
    for mutant in MUTANTS {
        match compare(&Reference::new(), &spoiled(mutant), 7, CALLS) {
            Ok(()) => missed.push(mutant.name),
            Err(mismatch) => {
                println!("{}: {} steps, {}", mutant.name, mismatch.steps.len(), mismatch.difference)
            }
        }
    }
    println!("{} of {} mutants noticed", MUTANTS.len() - missed.len(), MUTANTS.len());
    assert!(missed.is_empty(), "not noticed: {missed:?}");
}

/// What is printed is a sequence that shows the difference, and each step of it is needed.
#[test]
fn the_sequence_shown_is_as_short_as_can_be() {
    let (reference, mutant) = (Reference::new(), spoiled(&MUTANTS[0]));
    let steps = compare(&reference, &mutant, 7, CALLS).unwrap_err().steps;
    assert!(differs(&reference, &mutant, &steps).is_some());
    for k in 0..steps.len() {
        let mut fewer = steps.clone();
        fewer.remove(k);
        assert!(differs(&reference, &mutant, &fewer).is_none(), "step {} isn't needed", k + 1);
    }
}

/// The vectors are sharp enough for each of them too.
#[test]
fn the_vectors_notice_every_mutant() {
    let noticed = |mutant: &&Mutant| !play_all(&spoiled(mutant)).failures.is_empty();
    let missed: Vec<_> = MUTANTS.iter().filter(|m| !noticed(m)).map(|m| m.name).collect();
    assert!(missed.is_empty(), "not noticed: {missed:?}");
}
