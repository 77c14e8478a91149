//! A planning task (document 01: a hall), its hall file read and written. Written from document 01 alone; it shares
//! nothing with the proved reader.

pub const MAX_TEXT: usize = 28_672;
pub const MAX_FACTS: usize = 64;
pub const MAX_LEADER: usize = 16;
pub const MAX_FOLLOWER: usize = 32;
pub const MAX_COST: u32 = 10_000;
const MAX_DIGITS: usize = 5;

/// The questions have the numbers from 1 to this.
pub const QUESTIONS: usize = 18;

/// The first question that gets no: its number, and its place or 0.
#[derive(Clone, Copy, Debug, PartialEq, Eq)]
pub struct Refusal {
    pub number: usize,
    pub place: usize,
}

impl Refusal {
    /// A refusal that names no place.
    pub fn of(number: usize) -> Refusal {
        Refusal { number, place: 0 }
    }

    /// Whether the question comes before the search, so that every lent place is as it was: one about the text (1 to 7,
    /// 17 and 18), or about what else is given and lent (8 to 12).
    pub fn is_before_the_search(&self) -> bool {
        matches!(self.number, 1..=12 | 17 | 18)
    }
}

/// Sets of facts are bits: fact f is bit f - 1.
#[derive(Clone, Copy, Debug, Default, PartialEq, Eq)]
pub struct Action {
    pub cost: u32,
    pub precondition: u64,
    pub delete: u64,
    pub add: u64,
}

impl Action {
    pub fn applies(&self, state: u64) -> bool {
        self.precondition & !state == 0
    }

    pub fn successor(&self, state: u64) -> u64 {
        state & !self.delete | self.add
    }
}

#[derive(Clone, Debug, Default, PartialEq, Eq)]
pub struct Task {
    pub facts: usize,
    pub initial: u64,
    pub goal: u64,
    pub leader: Vec<Action>,
    pub follower: Vec<Action>,
}

/// The text, taken line by line.
struct Lines<'t> {
    rest: &'t [u8],
    line: usize,
}

impl<'t> Lines<'t> {
    fn refuse<T>(&self, number: usize) -> Result<T, Refusal> {
        Err(Refusal { number, place: self.line })
    }

    fn value(&mut self, key: &str) -> Result<&'t [u8], Refusal> {
        self.line += 1;
        if self.rest.is_empty() {
            return self.refuse(2);
        }
        let text = self.rest;
        let end = text.iter().position(|&byte| byte == b'\n').unwrap_or(text.len());
        self.rest = text.get(end + 1..).unwrap_or_default();
        let value = text[..end].strip_prefix(key.as_bytes()).and_then(|rest| rest.strip_prefix(b"="));
        value.map_or_else(|| self.refuse(3), Ok)
    }

    fn number(&mut self, key: &str, low: u32, high: u32) -> Result<u32, Refusal> {
        let value = self.value(key)?;
        if value.is_empty() || !has_form(value) {
            return self.refuse(4);
        }
        if has_leading_zero(value) {
            return self.refuse(18);
        }
        let number = numeral(value);
        if number < low || high < number {
            return self.refuse(5);
        }
        Ok(number)
    }

    fn set(&mut self, key: &str, facts: usize) -> Result<u64, Refusal> {
        let value = self.value(key)?;
        if value.is_empty() {
            return Ok(0);
        }
        let parts = || value.split(|&byte| byte == b',');
        if !parts().all(has_form) {
            return self.refuse(4);
        }
        if parts().any(<[u8]>::is_empty) {
            return self.refuse(17);
        }
        if parts().any(has_leading_zero) {
            return self.refuse(18);
        }
        let members: Vec<u32> = parts().map(numeral).collect();
        if members.iter().any(|&member| member < 1 || facts < member as usize) {
            return self.refuse(5);
        }
        if members.windows(2).any(|pair| pair[1] <= pair[0]) {
            return self.refuse(6);
        }
        Ok(members.iter().fold(0, |set, member| set | 1 << (member - 1)))
    }

    fn action(&mut self, facts: usize) -> Result<Action, Refusal> {
        Ok(Action {
            cost: self.number("cost", 0, MAX_COST)?,
            precondition: self.set("needs", facts)?,
            delete: self.set("drops", facts)?,
            add: self.set("gives", facts)?,
        })
    }

    fn actions(&mut self, count: u32, facts: usize) -> Result<Vec<Action>, Refusal> {
        (0..count).map(|_| self.action(facts)).collect()
    }
}

/// At most five digits and nothing else; it may be empty.
fn has_form(part: &[u8]) -> bool {
    part.len() <= MAX_DIGITS && part.iter().all(u8::is_ascii_digit)
}

fn has_leading_zero(part: &[u8]) -> bool {
    part.len() > 1 && part[0] == b'0'
}

fn numeral(digits: &[u8]) -> u32 {
    digits.iter().fold(0, |number, digit| number * 10 + u32::from(digit - b'0'))
}

/// The task that a text says, or the first of questions 1 to 7, 17 and 18 that gets no.
pub fn read(text: &[u8]) -> Result<Task, Refusal> {
    if text.len() > MAX_TEXT {
        return Err(Refusal::of(1));
    }
    let mut lines = Lines { rest: text, line: 0 };
    let facts = lines.number("facts", 1, MAX_FACTS as u32)? as usize;
    let initial = lines.set("start", facts)?;
    let goal = lines.set("goal", facts)?;
    let outages = lines.number("outages", 0, MAX_LEADER as u32)?;
    let moves = lines.number("moves", 0, MAX_FOLLOWER as u32)?;
    let leader = lines.actions(outages, facts)?;
    let follower = lines.actions(moves, facts)?;
    if !lines.rest.is_empty() {
        return Err(Refusal { number: 7, place: lines.line + 1 });
    }
    Ok(Task { facts, initial, goal, leader, follower })
}

/// The hall file of a task.
pub fn write(task: &Task) -> Vec<u8> {
    let mut text = format!(
        "facts={}\nstart={}\ngoal={}\noutages={}\nmoves={}\n",
        task.facts,
        listed(task.initial),
        listed(task.goal),
        task.leader.len(),
        task.follower.len()
    );
    for action in task.leader.iter().chain(&task.follower) {
        text += &format!(
            "cost={}\nneeds={}\ndrops={}\ngives={}\n",
            action.cost,
            listed(action.precondition),
            listed(action.delete),
            listed(action.add)
        );
    }
    text.into_bytes()
}

/// The members of a set, rising, parted by single commas.
fn listed(set: u64) -> String {
    let members: Vec<String> =
        (0..MAX_FACTS).filter(|bit| set >> bit & 1 == 1).map(|bit| (bit + 1).to_string()).collect();
    members.join(",")
}
