//! The proved answer call and the other planner agree in what is returned and in every lent place.

use harness::calls::{response, response_told, Answered, Working};
use harness::halls::any_text;
use harness::planner::{respond, run, Lent, Response, MAX_PLACES, MAX_STEPS, SLICES};
use harness::random::Random;
use harness::task::{read, Refusal, Task, QUESTIONS};

const SEED: u64 = 20_264;
const TEXTS: usize = 30_000;
const STATE: &[u8] = b"facts=1\nstart=1\ngoal=1\noutages=0\nmoves=0\n";

/// What the call has to leave in the working slices.
fn left(before: &Working, outcome: &Result<Response, Refusal>) -> Working {
    match outcome {
        Err(refusal) if refusal.is_before_the_search() => before.clone(),
        _ => Working::clear(before.places()),
    }
}

/// One call in slices of any content: what it returns and every lent place.
fn compare(random: &mut Random, text: &[u8], leader_plan: &[u8], lent: &Lent) -> Result<Response, Refusal> {
    let expected = respond(text, leader_plan, lent);
    let mut working = Working::clear(lent.places);
    working.soil(random);
    let wanted_working = left(&working, &expected);
    let mut plan = vec![0; lent.plans];
    random.fill(&mut plan);
    let mut wanted_plan = plan.clone();
    if let Ok(found) = &expected {
        wanted_plan[..found.plan.len()].copy_from_slice(&found.plan);
    }
    let outcome = response(text, leader_plan, &mut working, &mut plan);
    let wanted = expected
        .as_ref()
        .map(|found| Answered { answer: found.answer, steps: found.plan.len() })
        .map_err(|refusal| *refusal);
    let shown = || format!("{leader_plan:?} {lent:?}\n{}", String::from_utf8_lossy(text));
    assert_eq!(outcome, wanted, "{}", shown());
    assert!(plan == wanted_plan, "plan slice: {}", shown());
    assert!(working == wanted_working, "working slices: {}", shown());
    expected
}

/// A walk of leader actions, now and then with a step that no action has or that does not apply, or too long.
fn any_leader_plan(random: &mut Random, task: &Task) -> Vec<u8> {
    if random.once_in(300) {
        return vec![1; random.of(&[MAX_STEPS, MAX_STEPS + 1])];
    }
    let mut state = task.initial;
    let mut plan = Vec::new();
    for _ in 0..random.within(0, 6) {
        let number = random.within(1, task.leader.len().max(1));
        match task.leader.get(number - 1).filter(|action| action.applies(state)) {
            Some(action) => state = action.successor(state),
            None if random.once_in(3) => {}
            None => continue,
        }
        plan.push(number as u8);
    }
    if random.once_in(20) {
        plan.push(random.of(&[0, 17, 255]));
    }
    plan
}

/// Just what the call takes, or more, or one place too few of something.
fn fitting(random: &mut Random, reach: usize, steps: usize) -> Lent {
    let mut places = [reach; SLICES];
    if random.once_in(2) {
        places.fill_with(|| reach + random.within(0, 9));
    }
    if random.once_in(6) {
        places[random.within(0, SLICES - 1)] = random.of(&[0, 1, reach - 1, MAX_PLACES + 1]);
    }
    let more = steps + random.within(0, 9);
    let plans = random.of(&[steps, steps, more, steps.saturating_sub(1)]);
    Lent { places, plans, ..Lent::most() }
}

#[test]
fn random_leader_plans() {
    println!("seed {SEED}");
    let mut random = Random::new(SEED);
    let mut numbers = [0; QUESTIONS + 1];
    for _ in 0..TEXTS {
        let text = any_text(&mut random);
        let leader_plan = any_leader_plan(&mut random, &read(&text).unwrap_or_default());
        let reach = run(&text, &Lent { places: [4_096; SLICES], ..Lent::most() }).map_or(9, |report| report.reach);
        let steps = respond(&text, &leader_plan, &Lent { places: [reach; SLICES], ..Lent::most() })
            .map_or(3, |found| found.plan.len());
        let lent = fitting(&mut random, reach, steps);
        let outcome = compare(&mut random, &text, &leader_plan, &lent);
        numbers[outcome.err().map_or(0, |refusal| refusal.number)] += 1;
    }
    println!("texts by number: {numbers:?}");
    let unused = [9, 14, 16];
    assert!(
        (0..=QUESTIONS).all(|number| (numbers[number] > 0) != unused.contains(&number)),
        "numbers that came up: {numbers:?}"
    );
}

#[test]
fn only_the_first_places_are_told() {
    for (text, expected) in [(STATE, [0, 0, 0, 0, 0]), (b"", [2, 1, 0, 0, 0])] {
        for length in 0..8 {
            let mut told = vec![77; length];
            response_told(text, &[], &mut Working::clear([2; SLICES]), &mut [], &mut told);
            let mut wanted = vec![77; length];
            wanted.iter_mut().zip(expected).for_each(|(place, number)| *place = number);
            assert_eq!(told, wanted);
        }
    }
}
