//! The generator: its valid circuits are valid, its damaged ones are refused
//! for the reason they were made for.

mod reading;

use oracle::generate::{ASKED, Damaged, FAMILIES, Family, Random, WITH_LOOPS, damaged, damaged_loops, valid};
use oracle::{Answer, check, run};

#[test]
fn valid_ones_are_played() {
    for family in FAMILIES {
        for seed in 0..if WITH_LOOPS.contains(&family) { 600 } else { 150 } {
            let case = valid(seed, family);
            assert_eq!(check(&case.circuit, &case.script), 0, "{}", case.name);
            let played = reading::read(&case).unwrap_or_else(|| panic!("{} is refused", case.name));
            played.assert_whole(&case);
        }
    }
}

/// How often each question was the first of these that is answered no.
fn refused(damaged: impl Iterator<Item = Damaged>) -> [usize; 20] {
    let mut refused = [0; 20];
    for Damaged { case, questions } in damaged {
        let answer = run(&case.circuit, &case.script, &case.lent);
        assert_eq!(answer, Answer::Refused(questions[0]), "{}: {}", case.name, case.shows);
        refused[questions[0] as usize] += 1;
    }
    refused
}

#[test]
fn damaged_ones_are_refused_by_their_first_question() {
    let refused = refused((0..2000).map(damaged));
    let often = |&n: &u8| refused[n as usize] > if n == 19 { 10 } else { 50 };
    assert!(ASKED.iter().all(often), "{refused:?}");
}

#[test]
fn damaged_ones_with_loops_are_refused_by_their_first_question() {
    let refused = refused((0..2000).map(damaged_loops));
    assert!([3, 4, 5, 19].iter().all(|&n| refused[n] > 200), "{refused:?}");
    assert_eq!(refused.iter().sum::<usize>(), 2000);
}

#[test]
fn a_seed_gives_one_case() {
    for seed in [0, 7] {
        let (a, b) = (valid(seed, Family::Mixed), valid(seed, Family::Mixed));
        assert_eq!((a.circuit, a.script), (b.circuit, b.script));
    }
    let (a, b) = (valid(0, Family::Mixed), valid(1, Family::Mixed));
    assert_ne!(a.circuit, b.circuit);
}

#[test]
fn the_families_reach_what_they_are_about() {
    let (mut carried, mut stopped, mut late, mut main) = (0, 0, 0, 0);
    let mut begun = std::collections::BTreeSet::new();
    for family in FAMILIES {
        for seed in 0..100 {
            let played = reading::read(&valid(seed, family)).unwrap();
            stopped += usize::from(played.stop != 0);
            for tick in &played.ticks {
                carried += tick.carried.len();
                late += tick.late.len();
                main += tick.main.len();
                begun.extend(tick.late.iter().chain(&tick.main).map(|u| (played.kinds[u.0 as usize], u.1)));
            }
        }
    }
    assert!(
        carried > 1000 && stopped > 50 && late > 10_000 && main > 5_000,
        "{carried} {stopped} {late} {main}"
    );
    // Every form of a unit that document 01 has: kinds 6, 9, 11, 13 to 28; and of document 02 kinds 29 and 31.
    assert_eq!(begun.len(), 1 + 2 + 2 + 1 + (1 + 3) + 2 * 2 + 5 + 2 + 2 + 2 + 1 + 2, "{begun:?}");
}

#[test]
fn small_ones_are_small() {
    for seed in 0..200 {
        let played = reading::read(&valid(seed, Family::Small)).unwrap();
        assert!(played.kinds.len() <= 12 && played.ticks.len() <= 6);
    }
}

#[test]
fn numbers_are_splitmix64() {
    // The first numbers of splitmix64 from the state 1 are fixed.
    let mut r = Random::new(0);
    assert_eq!([r.number(), r.number()], [0x910A_2DEC_8902_5CC1, 0xBEEB_8DA1_658E_EC67]);
}
