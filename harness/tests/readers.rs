//! The proved reader and the other one agree on hall files and damaged texts.

use harness::random::Random;
use harness::task::{self, write, QUESTIONS};
use harness::{calls, halls};

const SEED: u64 = 20_261;
const FILES: usize = 60_000;

/// How often each number was told, 0 for an accepted text.
fn compare(text: &[u8], numbers: &mut [usize; QUESTIONS + 1]) {
    let expected = task::read(text).map(|_| ());
    assert_eq!(calls::read(text), expected, "text {:?}", String::from_utf8_lossy(text));
    numbers[expected.err().map_or(0, |refusal| refusal.number)] += 1;
}

#[test]
fn files_and_damaged_files() {
    println!("seed {SEED}");
    let mut random = Random::new(SEED);
    let mut numbers = [0; QUESTIONS + 1];
    for _ in 0..FILES {
        let text = write(&halls::any(&mut random));
        compare(&text, &mut numbers);
        compare(&halls::damaged(&mut random, &text), &mut numbers);
    }
    println!("texts by number: {numbers:?}");
    let unused = 8..=16;
    assert!(
        (0..=QUESTIONS).all(|number| (numbers[number] > 0) != unused.contains(&number)),
        "numbers that came up: {numbers:?}"
    );
}

#[test]
fn what_is_read_back_is_the_task() {
    println!("seed {SEED}");
    let mut random = Random::new(SEED);
    for _ in 0..FILES {
        let task = halls::any(&mut random);
        assert_eq!(task::read(&write(&task)), Ok(task));
    }
}

#[test]
fn only_the_first_places_are_told() {
    let cases =
        [(&b"facts=007\n"[..], [18, 1]), (b"", [2, 1]), (b"facts=1\nstart=\ngoal=\noutages=0\nmoves=0\n", [0, 0])];
    for (text, expected) in cases {
        for length in 0..5 {
            let mut told = vec![77; length];
            calls::read_told(text, &mut told);
            let mut wanted = vec![77; length];
            wanted.iter_mut().zip(expected).for_each(|(place, number)| *place = number);
            assert_eq!(told, wanted);
        }
    }
}
