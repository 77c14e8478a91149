//! Times the report of a hall file's text and the best response in it, proved and by the other planner, and prints two
//! tables: cargo run --release --bin benchmark. Both take the same text, on one thread, one after the other.

use std::hint::black_box;
use std::time::{Duration, Instant};

use harness::calls::{report, response, Working};
use harness::halls::{Family, FAMILIES};
use harness::planner::{respond, run, Lent, MAX_PLACES, SLICES};
use harness::random::Random;
use harness::task::write;

const BITS: [usize; 4] = [7, 10, 13, 15];
const SEED: u64 = 20_263;
/// The median is of so many calls, fewer of them where they are slow.
const MOST_CALLS: usize = 205;
const FEWEST_CALLS: usize = 15;
const ENOUGH: Duration = Duration::from_millis(800);

/// Calls in a row before another kind has its turn.
const TURN: usize = 5;

/// The median times of calls that take turns, so that what else the machine does falls on all of them.
fn medians<const N: usize>(mut calls: [&mut dyn FnMut() -> Duration; N]) -> [Duration; N] {
    let mut times = [const { Vec::new() }; N];
    let mut total = Duration::ZERO;
    while times[0].len() < FEWEST_CALLS || (times[0].len() < MOST_CALLS && total < ENOUGH) {
        for (call, times) in calls.iter_mut().zip(&mut times) {
            times.extend((0..TURN).map(|_| call()));
            total += times.iter().rev().take(TURN).sum::<Duration>();
        }
    }
    times.map(|mut times| {
        times.sort();
        times[times.len() / 2]
    })
}

/// The proved report in slices of so many places, which are soiled before the time is taken.
fn proved<'t>(text: &'t [u8], places: usize, lent: &'t Lent) -> impl FnMut() -> Duration + 't {
    let mut random = Random::new(SEED);
    let mut working = Working::clear([places; SLICES]);
    let (mut plans, mut output) = (vec![0; lent.plans], vec![0; lent.text]);
    move || {
        working.soil(&mut random);
        let start = Instant::now();
        let written = report(black_box(text), &mut working, lent.entries, &mut plans, &mut output);
        let time = start.elapsed();
        assert_eq!(written.unwrap().bytes, lent.text);
        time
    }
}

/// The other planner's report.
fn other<'t>(text: &'t [u8], lent: &'t Lent) -> impl FnMut() -> Duration + 't {
    move || {
        let start = Instant::now();
        let report = run(black_box(text), lent);
        let time = start.elapsed();
        assert_eq!(report.unwrap().text.len(), lent.text);
        time
    }
}

/// The proved best response to no leader action at all, in soiled slices.
fn proved_response<'t>(text: &'t [u8], lent: &'t Lent) -> impl FnMut() -> Duration + 't {
    let mut random = Random::new(SEED);
    let mut working = Working::clear(lent.places);
    let mut plan = vec![0; lent.plans];
    move || {
        working.soil(&mut random);
        let start = Instant::now();
        let answered = response(black_box(text), &[], &mut working, &mut plan);
        let time = start.elapsed();
        assert_eq!(answered.unwrap().steps, lent.plans);
        time
    }
}

/// The other planner's.
fn other_response<'t>(text: &'t [u8], lent: &'t Lent) -> impl FnMut() -> Duration + 't {
    move || {
        let start = Instant::now();
        let found = respond(black_box(text), &[], lent);
        let time = start.elapsed();
        assert_eq!(found.unwrap().plan.len(), lent.plans);
        time
    }
}

struct Row {
    reach: usize,
    exact: Duration,
    other: Duration,
}

fn milliseconds(time: Duration) -> String {
    let milliseconds = time.as_secs_f64() * 1000.0;
    match milliseconds {
        m if m < 1.0 => format!("{m:.3}"),
        m if m < 100.0 => format!("{m:.2}"),
        m => format!("{m:.0}"),
    }
}

/// How a time grew from one row to the next.
fn growth(before: Option<&Row>, now: &Row, time: fn(&Row) -> Duration) -> String {
    before.map_or("".into(), |before| format!("{:.1}", time(now).as_secs_f64() / time(before).as_secs_f64()))
}

fn print_family(family: &Family) {
    let mut rows: Vec<Row> = Vec::new();
    for bits in BITS.into_iter().filter(|&bits| bits <= family.most) {
        let text = write(&(family.of)(bits));
        let front = run(&text, &Lent::most()).expect("a family's task fits");
        let lent = Lent::exactly(&front);
        let [exact, other] = medians([&mut proved(&text, front.reach, &lent), &mut other(&text, &lent)]);
        let [largest] = medians([&mut proved(&text, MAX_PLACES, &lent)]);
        let now = Row { reach: front.reach, exact, other };
        let before = rows.last();
        println!(
            "| {} | {} | {} | {} | {} | {} | {} | {:.2} | {} | {} | {} |",
            family.name,
            now.reach,
            lent.entries,
            lent.plans,
            milliseconds(now.exact),
            milliseconds(largest),
            milliseconds(now.other),
            now.exact.as_secs_f64() / now.other.as_secs_f64(),
            before.map_or("".into(), |before| (now.reach / before.reach).to_string()),
            growth(before, &now, |row| row.exact),
            growth(before, &now, |row| row.other),
        );
        rows.push(now);
    }
}

/// The answer call on a family's largest task.
fn print_response(family: &Family) {
    let text = write(&(family.of)(family.most));
    let reach = run(&text, &Lent::most()).expect("a family's task fits").reach;
    let places = [reach; SLICES];
    let found = respond(&text, &[], &Lent { places, ..Lent::most() }).expect("a family's task fits");
    let lent = Lent { places, entries: 0, plans: found.plan.len(), text: 0 };
    let [exact, other] = medians([&mut proved_response(&text, &lent), &mut other_response(&text, &lent)]);
    println!(
        "| {} | {} | {} | {} | {} | {:.2} |",
        family.name,
        reach,
        lent.plans,
        milliseconds(exact),
        milliseconds(other),
        exact.as_secs_f64() / other.as_secs_f64(),
    );
}

fn main() {
    println!("Times are in milliseconds, each the median of {FEWEST_CALLS} to {MOST_CALLS} calls, from a hall file's text to the report's text.");
    println!(
        "The working slices held random content before each proved call: nothing was cleared first. They had as many"
    );
    println!("places as there are reachable states (\"exact\"), and {MAX_PLACES}. Plan slice and output text were as long as what is");
    println!("written to them. The Rust planner allocates what it needs within its time. \"Ratio\" is the proved report in exact");
    println!("slices over the Rust planner; \"grows\" is against the row above.");
    println!();
    println!("| hall | reach | lines | plan numbers | proved, exact | proved, {MAX_PLACES} places | Rust planner | ratio | reach grows | proved grows | Rust grows |");
    println!("|---|--:|--:|--:|--:|--:|--:|--:|--:|--:|--:|");
    FAMILIES.iter().for_each(print_family);
    println!();
    println!("The best response to no leader action, from the text to the plan, in exact slices:");
    println!();
    println!("| hall | reach | steps | proved, exact | Rust planner | ratio |");
    println!("|---|--:|--:|--:|--:|--:|");
    FAMILIES.iter().for_each(print_response);
}
