//! Words read back: random functions come back as they were, in both forms of their words, and words that are no function are refused.
use garden::compile::places;
use garden::model::Function;
use garden::random::{Style, program};
use garden::rng::Random;

const SEED: u64 = 0x4f08286203;

fn functions() -> impl Iterator<Item = (Function, Vec<u64>)> {
    (0..400).flat_map(|k| {
        let program = program(&mut Random::numbered(SEED, k), 4, &mut Style::any);
        let table = vec![1; program.table.len()];
        program.functions.into_iter().map(move |f| (f, table.clone()))
    })
}

#[test]
fn there_and_back() {
    for (f, _) in functions() {
        assert_eq!(Function::from_words(&f.to_words()).unwrap(), f);
        assert_eq!(Function::from_words(&f.to_shared_words()).unwrap(), f);
    }
}

#[test]
fn cut_short() {
    let (f, _) = functions().next().unwrap();
    let words = f.to_words();
    assert!((0..words.len()).all(|n| Function::from_words(&words[..n]).is_err()));
}

/// The slots made are those of the values, so a map alone tells how many there are.
#[test]
fn slots_by_the_map() {
    for (f, table) in functions() {
        let placed = places(&f, &table);
        let highest = placed.places.iter().filter(|&&w| w > 256).max().map_or(0, |w| w - 256);
        assert_eq!(placed.slots, highest);
    }
}
