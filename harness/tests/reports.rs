//! The proved report and the other planner agree in what is returned and in every lent place.

use harness::calls::{report, report_told, Working, Written};
use harness::halls::{any_text, FAMILIES};
use harness::planner::{run, Lent, Report, MAX_PLACES, SLICES};
use harness::random::Random;
use harness::task::{write, Refusal, QUESTIONS};

const SEED: u64 = 20_262;
const TEXTS: usize = 30_000;
/// A random task of larger reach is tried in a few places only, where it is refused.
const LARGE: usize = 4_096;

/// The working slices, plan slice and output text of one call, with any content.
#[derive(Clone)]
struct Slices {
    working: Working,
    plans: Vec<u8>,
    output: Vec<u8>,
}

impl Slices {
    fn soiled(random: &mut Random, lent: &Lent) -> Slices {
        let mut slices =
            Slices { working: Working::clear(lent.places), plans: vec![0; lent.plans], output: vec![0; lent.text] };
        slices.working.soil(random);
        random.fill(&mut slices.plans);
        random.fill(&mut slices.output);
        slices
    }

    /// What the call has to leave.
    fn after(&self, outcome: &Result<Report, Refusal>) -> Slices {
        let mut left = self.clone();
        match outcome {
            Ok(report) => {
                left.working = Working::clear(self.working.places());
                left.plans[..report.plans.len()].copy_from_slice(&report.plans);
                left.output[..report.text.len()].copy_from_slice(&report.text);
            }
            Err(refusal) if refusal.is_before_the_search() => {}
            Err(_) => left.working = Working::clear(self.working.places()),
        }
        left
    }
}

/// One call in slices of any content: what it returns and every lent place.
fn compare(random: &mut Random, text: &[u8], lent: &Lent) -> Result<Report, Refusal> {
    let expected = run(text, lent);
    let before = Slices::soiled(random, lent);
    let mut slices = before.clone();
    let outcome = report(text, &mut slices.working, lent.entries, &mut slices.plans, &mut slices.output);
    let wanted = expected
        .as_ref()
        .map(|report| Written { entries: report.lines.len(), bytes: report.text.len() })
        .map_err(|refusal| *refusal);
    let shown = || format!("{lent:?}\n{}", String::from_utf8_lossy(text));
    assert_eq!(outcome, wanted, "{}", shown());
    let after = before.after(&expected);
    assert!(slices.plans == after.plans, "plan slice: {}", shown());
    assert!(slices.output == after.output, "output text: {}", shown());
    assert!(slices.working == after.working, "working slices: {}", shown());
    expected
}

/// Just what the report takes, or more, or one place too few of something.
fn fitting(random: &mut Random, report: &Report) -> Lent {
    let mut near = |exact: usize| match random.within(0, 7) {
        0 => exact.saturating_sub(1),
        1 => exact + random.within(0, 40),
        _ => exact,
    };
    let (entries, plans, text) = (near(report.lines.len()), near(report.plans.len()), near(report.text.len()));
    let mut places = [report.reach; SLICES];
    if random.once_in(2) {
        places.fill_with(|| report.reach + random.within(0, 9));
    }
    if random.once_in(6) {
        places[random.within(0, SLICES - 1)] = random.of(&[0, 1, report.reach - 1, MAX_PLACES + 1]);
    }
    Lent { places, entries, plans, text }
}

#[test]
fn random_texts() {
    println!("seed {SEED}");
    let mut random = Random::new(SEED);
    let mut numbers = [0; QUESTIONS + 1];
    for _ in 0..TEXTS {
        let text = any_text(&mut random);
        let lent = match run(&text, &Lent { places: [LARGE; SLICES], ..Lent::most() }) {
            Ok(report) => fitting(&mut random, &report),
            Err(_) => Lent { places: [random.within(0, 50); SLICES], entries: 5, plans: 20, text: 200 },
        };
        let outcome = compare(&mut random, &text, &lent);
        numbers[outcome.err().map_or(0, |refusal| refusal.number)] += 1;
    }
    println!("texts by number: {numbers:?}");
    let unused = [9, 10, 11, 12];
    assert!(
        (0..=QUESTIONS).all(|number| (numbers[number] > 0) != unused.contains(&number)),
        "numbers that came up: {numbers:?}"
    );
}

/// One place, entry, plan number or byte too few, and the question that gets no.
fn too_short(random: &mut Random, exact: &Lent) -> [(usize, Lent); 4] {
    let mut places = exact.places;
    places[random.within(0, SLICES - 1)] -= 1;
    [
        (13, Lent { places, ..*exact }),
        (14, Lent { entries: exact.entries - 1, ..*exact }),
        (15, Lent { plans: exact.plans - 1, ..*exact }),
        (16, Lent { text: exact.text - 1, ..*exact }),
    ]
}

/// The report in just what it takes and in more, and the refusals in less.
fn compare_around(random: &mut Random, text: &[u8]) -> Report {
    let report = run(text, &Lent::most()).unwrap();
    let exact = Lent::exactly(&report);
    assert_eq!(compare(random, text, &exact), Ok(report.clone()));
    let roomy =
        Lent { places: [MAX_PLACES; SLICES], entries: exact.entries + 1, plans: exact.plans + 9, text: exact.text + 9 };
    assert_eq!(compare(random, text, &roomy), Ok(report.clone()));
    for (number, lent) in too_short(random, &exact) {
        assert_eq!(compare(random, text, &lent), Err(Refusal::of(number)));
    }
    report
}

#[test]
fn families_of_each_size() {
    println!("seed {SEED}");
    let mut random = Random::new(SEED);
    for family in &FAMILIES {
        for bits in family.least..=family.most {
            let report = compare_around(&mut random, &write(&(family.of)(bits)));
            assert_eq!(report.reach, 1 << bits, "{}", family.name);
        }
    }
}

/// Document 01's hall: 7 places, 3 entries, 5 plan numbers and 118 bytes do.
#[test]
fn the_worked_hall() {
    let text = include_bytes!("../../examples/worked_hall.txt");
    let report = compare_around(&mut Random::new(SEED), text);
    assert_eq!((report.reach, report.lines.len(), report.plans.len(), report.text.len()), (7, 3, 5, 118));
}

/// One state, so that one place of each slice is enough.
#[test]
fn one_place() {
    let text = b"facts=1\nstart=1\ngoal=1\noutages=0\nmoves=0\n";
    let lent = Lent { places: [1; SLICES], entries: 1, plans: 0, text: 44 };
    let mut random = Random::new(SEED);
    let report = compare(&mut random, text, &lent).unwrap();
    assert_eq!((report.reach, report.text.len()), (1, 43));
}

/// Question 8 is asked of each slice, and a text is refused before it.
#[test]
fn each_slice_is_asked() {
    let text = b"facts=1\nstart=1\ngoal=1\noutages=0\nmoves=0\n";
    let mut random = Random::new(SEED);
    for slice in 0..SLICES {
        for (places, expected) in [(0, Err(8)), (1, Ok(())), (MAX_PLACES, Ok(())), (MAX_PLACES + 1, Err(8))] {
            let mut lent = Lent { places: [3; SLICES], entries: 1, plans: 0, text: 50 };
            lent.places[slice] = places;
            assert_eq!(compare(&mut random, text, &lent).map(|_| ()).map_err(|refusal| refusal.number), expected);
            assert_eq!(compare(&mut random, b"", &lent), Err(Refusal { number: 2, place: 1 }));
        }
    }
}

#[test]
fn only_the_first_places_are_told() {
    let text = b"facts=1\nstart=1\ngoal=1\noutages=0\nmoves=0\n";
    for (room, expected) in [(1, [0, 0, 1, 43]), (0, [14, 0, 0, 0])] {
        for length in 0..7 {
            let mut told = vec![77; length];
            report_told(text, &mut Working::clear([2; SLICES]), room, &mut [], &mut [0; 60], &mut told);
            let mut wanted = vec![77; length];
            wanted.iter_mut().zip(expected).for_each(|(place, number)| *place = number);
            assert_eq!(told, wanted);
        }
    }
}
