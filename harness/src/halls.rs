//! Tasks to try: small random ones of many kinds, damaged texts, and families of a given reach.

use crate::random::Random;
use crate::task::{write, Action, Task, MAX_COST, MAX_FACTS, MAX_FOLLOWER, MAX_LEADER, MAX_TEXT};

/// The set that holds one fact.
fn fact(number: usize) -> u64 {
    1 << (number - 1)
}

/// The facts 1 to count.
fn facts_to(count: usize) -> u64 {
    (1..=count).map(fact).sum()
}

fn some(random: &mut Random, facts: usize, most: usize) -> u64 {
    let count = random.within(0, most.min(facts));
    (0..count).fold(0, |set, _| set | fact(random.within(1, facts)))
}

fn cost(random: &mut Random) -> u32 {
    let any = random.within(0, MAX_COST as usize) as u32;
    random.of(&[0, 0, 1, 1, 2, 3, 5, 7, 10, MAX_COST, any])
}

fn action(cost: u32, precondition: u64, delete: u64, add: u64) -> Action {
    Action { cost, precondition, delete, add }
}

/// No pattern at all: small sets, overlapping deletes and adds among them.
fn free(random: &mut Random) -> Task {
    let most = random.of(&[9, 9, 9, MAX_FACTS]);
    let facts = random.within(1, most);
    let mut any = |most: usize| -> Vec<Action> {
        (0..random.within(0, most))
            .map(|_| action(cost(random), some(random, facts, 2), some(random, facts, 2), some(random, facts, 2)))
            .collect()
    };
    let (leader, follower) = (any(4), any(5));
    Task { facts, initial: some(random, facts, 4), goal: some(random, facts, 2), leader, follower }
}

/// As many actions as a hall may have, over few facts.
fn crowded(random: &mut Random) -> Task {
    let facts = random.within(1, 7);
    let mut any = |count: usize| -> Vec<Action> {
        (0..count)
            .map(|_| action(cost(random), some(random, facts, 3), some(random, facts, 3), some(random, facts, 1)))
            .collect()
    };
    let (leader, follower) = (any(MAX_LEADER), any(MAX_FOLLOWER));
    Task { facts, initial: some(random, facts, 5), goal: some(random, facts, 3), leader, follower }
}

/// Parallel belts, each stopped by a leader action; some can be repaired, by the follower or the leader.
fn belts(random: &mut Random) -> Task {
    let count = random.within(1, 6);
    let running = 3..3 + count;
    let mut leader: Vec<Action> = running.clone().map(|belt| action(cost(random), fact(belt), fact(belt), 0)).collect();
    let mut follower: Vec<Action> =
        running.clone().map(|belt| action(cost(random), fact(1) | fact(belt), fact(1), fact(2))).collect();
    for belt in running {
        if random.once_in(3) {
            follower.push(action(cost(random), 0, 0, fact(belt)));
        }
        if random.once_in(5) {
            leader.push(action(cost(random), 0, 0, fact(belt)));
        }
    }
    random.shuffle(&mut leader);
    random.shuffle(&mut follower);
    Task { facts: count + 2, initial: facts_to(count + 2) & !fact(2), goal: fact(2), leader, follower }
}

/// A dear short way, and a long chain of cheap steps that the leader can cut.
fn detour(random: &mut Random) -> Task {
    let length = random.within(2, 7);
    let guard = length + 1;
    let mut follower: Vec<Action> =
        (1..length).map(|at| action(random.within(0, 2) as u32, fact(at), fact(at), fact(at + 1))).collect();
    follower.push(action(random.within(5, 30) as u32, fact(1), fact(1), fact(length)));
    let cut = random.within(0, follower.len() - 1);
    follower[cut].precondition |= fact(guard);
    random.shuffle(&mut follower);
    let mut leader = vec![action(cost(random), fact(guard), fact(guard), 0)];
    if random.once_in(2) {
        leader.push(action(cost(random), fact(1), fact(1), fact(2)));
    }
    Task { facts: guard, initial: fact(1) | fact(guard), goal: fact(length), leader, follower }
}

/// Equal costs everywhere, so that steps and numbers decide.
fn ties(random: &mut Random) -> Task {
    let kind = random.of(&[free as Kind, belts, detour, crowded, cube]);
    let mut task = kind(random);
    let same = random.of(&[0, 1, 4]);
    for action in task.leader.iter_mut().chain(&mut task.follower) {
        action.cost = same;
    }
    task
}

/// Leader actions that switch facts on one by one: many leader states.
fn cube(random: &mut Random) -> Task {
    let size = random.within(3, 9);
    let leader = (1..=size).map(|switch| action(cost(random), 0, 0, fact(switch))).collect();
    let follower =
        (0..random.within(0, 2)).map(|_| action(cost(random), some(random, size, 2), 0, fact(size + 1))).collect();
    Task { facts: size + 1, initial: 0, goal: fact(size + 1), leader, follower }
}

/// A goal that nothing adds, or an empty one, or no follower action at all.
fn stuck(random: &mut Random) -> Task {
    let kind = random.of(&[free as Kind, belts]);
    let mut task = kind(random);
    match random.within(0, 2) {
        0 if task.facts < MAX_FACTS => {
            task.facts += 1;
            task.goal = fact(task.facts);
        }
        1 => task.goal = 0,
        _ => task.follower.clear(),
    }
    task
}

/// Every set of leader actions is a line of its own: fronts of up to 256 lines, with one or two digits to a plan number.
fn ladder(random: &mut Random) -> Task {
    let size = random.within(2, 8);
    let scale = random.of(&[1, 3, 39]);
    let idle = vec![action(0, fact(size + 1), 0, 0); random.of(&[0, 0, 8])];
    let stop = |at: usize| action(scale << (at - 1), fact(at), fact(at), 0);
    let repair = |at: usize| action(scale << (at - 1), 0, 0, fact(at));
    let leader = idle.iter().copied().chain((1..=size).map(stop)).collect();
    let follower = idle.iter().copied().chain((1..=size).map(repair)).collect();
    Task { facts: size + 1, initial: facts_to(size), goal: facts_to(size), leader, follower }
}

/// The bits of a counter: fact 2i + 1 says that bit i is one, fact 2i + 2 that it is zero.
fn one(bit: usize) -> u64 {
    fact(2 * bit + 1)
}

fn zero(bit: usize) -> u64 {
    fact(2 * bit + 2)
}

/// The state of a counter of so many bits.
fn counted(bits: usize, number: usize) -> u64 {
    (0..bits).map(|bit| if number >> bit & 1 == 1 { one(bit) } else { zero(bit) }).sum()
}

/// Counts on by one, where this bit is the lowest that is zero.
fn count_on(cost: u32, bit: usize) -> Action {
    let ones: u64 = (0..bit).map(one).sum();
    let zeros: u64 = (0..bit).map(zero).sum();
    action(cost, zero(bit) | ones, zero(bit) | ones, one(bit) | zeros)
}

/// A toll that the leader can demand before the follower counts through every number of some bits: long plans.
fn toll(random: &mut Random) -> Task {
    let bits = random.within(1, 9);
    let paid = fact(2 * bits + 1);
    let idle = vec![action(0, fact(2 * bits + 2), 0, 0); random.of(&[0, 9])];
    let mut follower = idle;
    follower.push(action(random.within(0, 2) as u32, 0, 0, paid));
    follower.extend((0..bits).map(|bit| {
        let mut step = count_on(random.within(0, 1) as u32, bit);
        step.precondition |= paid;
        step
    }));
    let leader = vec![action(cost(random), paid | zero(0), paid, 0)];
    Task { facts: 2 * bits + 2, initial: counted(bits, 0) | paid, goal: (0..bits).map(one).sum(), leader, follower }
}

pub type Kind = fn(&mut Random) -> Task;

pub const KINDS: [Kind; 10] = [free, free, crowded, belts, detour, ties, cube, stuck, ladder, toll];

/// A random task of one of the kinds.
pub fn any(random: &mut Random) -> Task {
    let kind = random.of(&KINDS);
    kind(random)
}

/// What is put behind a line.
const ENDS: [&[u8]; 12] = [b"\r", b" ", b",", b"0", b",0", b",1", b"x", b",64", b"\xff", b",,1", b",01", b",00"];

/// Values that break a rule on most lines, many of them two rules, in one order and the other. Blanks part them, and the
/// first is empty.
const VALUES: &str = " 0 00 02 007 00004 00007 000007 010000 0000000 64 65 10000 10001 99999 100000 \
    1,1 2,2 2,1 3,1 5,x x,5 , ,, 1, ,1 1,,2 2,,1 65, ,65 1,,x x,,1 ,000001 000001, \
    01, ,01 01,,2 1,,02 01,x x,01 0,01 01,0 01,000002 000001,02 01,65 65,01 \
    01,5 5,01 3,01 03,1 1,02 02,1 2,02 02,2 1,2,03";

/// The text with a fault of some kind, or with none: not every change breaks a rule.
pub fn damaged(random: &mut Random, text: &[u8]) -> Vec<u8> {
    let mut text = text.to_vec();
    match random.within(0, 9) {
        0 => text.truncate(text.len() - 1),
        1 => text.extend_from_slice(random.of(&[b"\n" as &[u8], b"x", b"cost=1\n", b"\n\n"])),
        2 => text.truncate(random.within(0, text.len())),
        3 => text.resize(random.of(&[MAX_TEXT, MAX_TEXT + 1]), b'#'),
        4 => {
            let place = random.within(0, text.len() - 1);
            text[place] = random.next() as u8;
        }
        _ => return damaged_line(random, &text),
    }
    text
}

fn damaged_line(random: &mut Random, text: &[u8]) -> Vec<u8> {
    let mut lines: Vec<Vec<u8>> = text.split(|&byte| byte == b'\n').map(<[u8]>::to_vec).collect();
    let at = random.within(0, lines.len() - 1);
    let equals = lines[at].iter().position(|&byte| byte == b'=').unwrap_or(0);
    let value = (equals + 1).min(lines[at].len());
    match random.within(0, 8) {
        0 => {
            lines.remove(at);
        }
        1 => lines.insert(at, lines[at].clone()),
        2 => lines[at].extend_from_slice(random.of(&ENDS)),
        3 => {
            let sign = random.of(&[b"=0" as &[u8], b"=,", b"= ", b"==", b"", b"=0,", b"=,0"]);
            lines[at].splice(equals..value, sign.iter().copied());
        }
        4 => {
            let values: Vec<&str> = VALUES.split(' ').collect();
            lines[at].truncate(value);
            lines[at].extend_from_slice(random.of(&values).as_bytes());
        }
        5 => lines[at].make_ascii_uppercase(),
        6 => lines[at].clear(),
        _ => {
            let other = spoilt(random, &lines[at][value..]);
            lines[at].splice(value.., other);
        }
    }
    lines.join(&b'\n')
}

/// The value with one fault put into it, or with several: an empty place, a zero in front of a number, a foreign byte.
fn spoilt(random: &mut Random, value: &[u8]) -> Vec<u8> {
    let mut parts: Vec<Vec<u8>> = value.split(|&byte| byte == b',').map(<[u8]>::to_vec).collect();
    for _ in 0..random.of(&[1, 1, 2, 3]) {
        let part = random.within(0, parts.len() - 1);
        match random.within(0, 5) {
            0 | 1 => parts.insert(random.within(0, parts.len()), Vec::new()),
            2 => {
                let place = random.within(0, parts[part].len());
                parts[part].insert(place, random.of(b"\r x-\xff"));
            }
            _ => {
                let zeros = random.of(&[1, 1, 4, 5]);
                parts[part].splice(..0, vec![b'0'; zeros]);
            }
        }
    }
    parts.join(&b',')
}

/// A text: the file of a random task three times in four, else a damaged one.
pub fn any_text(random: &mut Random) -> Vec<u8> {
    let text = write(&any(random));
    if random.once_in(4) {
        damaged(random, &text)
    } else {
        text
    }
}

/// Tasks with exactly 2^bits reachable states.
pub struct Family {
    pub name: &'static str,
    /// The least and the greatest number of bits.
    pub least: usize,
    pub most: usize,
    pub of: fn(usize) -> Task,
}

pub const FAMILIES: [Family; 6] = [
    Family { name: "belts, 7 outages", least: 4, most: 15, of: seven_belts },
    Family { name: "repairs", least: 1, most: 15, of: repairs },
    Family { name: "long chain of moves", least: 1, most: 15, of: chain_of_moves },
    Family { name: "long chain of outages", least: 2, most: 15, of: chain_of_outages },
    Family { name: "wide cube", least: 1, most: 15, of: wide_cube },
    Family { name: "a line for each state", least: 1, most: 13, of: doubling_drives },
];

/// Drives that cost twice as much to stop and to repair from one to the next: the front has as many lines as there are states.
fn doubling_drives(bits: usize) -> Task {
    let stop = |drive: usize| action(1 << (drive - 1), fact(drive), fact(drive), 0);
    let repair = |drive: usize| action(1 << (drive - 1), 0, 0, fact(drive));
    Task {
        facts: bits,
        initial: facts_to(bits),
        goal: facts_to(bits),
        leader: (1..=bits).map(stop).collect(),
        follower: (1..=bits).map(repair).collect(),
    }
}

/// Trays that go by one of three belts of seven, or by hand, and an outage of each belt. From 10 bits on the outages are
/// free, 128 leader states; below, each needs the one before it, 8 leader states.
fn seven_belts(bits: usize) -> Task {
    const BELTS: usize = 7;
    let (trays, in_order) = if bits < 10 { (bits - 3, true) } else { (bits - BELTS, false) };
    let stopped = |belt: usize| fact(BELTS + belt);
    let (house, dock) = (|tray: usize| fact(2 * BELTS + 2 * tray - 1), |tray: usize| fact(2 * BELTS + 2 * tray));
    let leader = (1..=BELTS).map(|belt| {
        let before = if in_order && belt > 1 { stopped(belt - 1) } else { 0 };
        action(2 + 3 * belt as u32 % 5, fact(belt) | before, fact(belt), stopped(belt))
    });
    let carry = |tray: usize, way: usize| {
        let belt = (tray + 2 * way) % BELTS + 1;
        action((1 + (3 * tray + 5 * way) % 7) as u32, house(tray) | fact(belt), house(tray), dock(tray))
    };
    let by_hand = |tray: usize| action(20 + tray as u32, house(tray), house(tray), dock(tray));
    let follower = (1..=trays).flat_map(|tray| (0..3).map(move |way| carry(tray, way)).chain([by_hand(tray)]));
    Task {
        facts: 2 * (BELTS + trays),
        initial: facts_to(BELTS) | (1..=trays).map(house).sum::<u64>(),
        goal: (1..=trays).map(dock).sum(),
        leader: leader.collect(),
        follower: follower.collect(),
    }
}

/// Drives that outages stop and moves repair, one or two neighbours at a time: every leader state is on the way of others.
fn repairs(bits: usize) -> Task {
    let running: u64 = (0..bits).map(one).sum();
    let stop = |drive: usize| action(1 + drive as u32 % 3, one(drive), one(drive), zero(drive));
    let repair = |drive: usize| action(2 + 2 * drive as u32 % 5, zero(drive), zero(drive), one(drive));
    let repair_two = |drive: usize| {
        let (stopped, runs) = (zero(drive) | zero(drive + 1), one(drive) | one(drive + 1));
        action(3 + 3 * drive as u32 % 5, stopped, stopped, runs)
    };
    let follower = (0..bits).map(repair).chain((1..bits).map(|drive| repair_two(drive - 1))).collect();
    Task { facts: 2 * bits, initial: running, goal: running, leader: (0..bits).map(stop).collect(), follower }
}

/// Moves that count from one through all numbers; an outage that sets the counter back by one.
fn chain_of_moves(bits: usize) -> Task {
    let back = action(3, one(0), one(0), zero(0));
    Task {
        facts: 2 * bits,
        initial: counted(bits, 1),
        goal: (0..bits).map(one).sum(),
        leader: vec![back],
        follower: (0..bits).map(|bit| count_on(1 + bit as u32 % 2, bit)).collect(),
    }
}

/// Outages that count from one through all numbers, the first of them there twice; a move that leads out while the highest bit is
/// zero.
fn chain_of_outages(bits: usize) -> Task {
    let out = 2 * bits + 1;
    let leader = (0..bits).chain([0]).map(|bit| count_on(1 + bit as u32 % 2, bit)).collect();
    let leave = action(5, zero(bits - 1), facts_to(2 * bits), fact(out));
    Task { facts: out, initial: counted(bits, 1), goal: fact(out), leader, follower: vec![leave] }
}

/// Outages that stop ways to the goal one by one, in any order; the last way is always there.
fn wide_cube(bits: usize) -> Task {
    let ways = bits - 1;
    let goal = fact(ways + 1);
    let leader = (1..=ways).map(|way| action(1 + way as u32 % 4, fact(way), fact(way), 0)).collect();
    let follower =
        (1..=ways).map(|way| action(2 * way as u32, fact(way), 0, goal)).chain([action(50, 0, 0, goal)]).collect();
    Task { facts: ways + 1, initial: facts_to(ways), goal, leader, follower }
}
