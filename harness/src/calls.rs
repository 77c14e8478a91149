//! The proved calls, declared as `crates/c_interface` exports them, and wrapped for safe use.

use crate::planner::{Answer, SLICES};
use crate::random::Random;
use crate::task::Refusal;

type Bucket = [u16; 4];
type Link = [u16; 64];
type Row = [u64; 8];

extern "C" {
    fn faldwern_report(
        text: *const u8,
        text_len: usize,
        states: *mut u64,
        states_len: usize,
        index: *mut Bucket,
        index_len: usize,
        links: *mut Link,
        links_len: usize,
        rows: *mut Row,
        rows_len: usize,
        room: usize,
        plans: *mut u8,
        plans_len: usize,
        output: *mut u8,
        output_len: usize,
        told: *mut usize,
        told_len: usize,
    );

    fn faldwern_response(
        text: *const u8,
        text_len: usize,
        leader_plan: *const u8,
        leader_plan_len: usize,
        states: *mut u64,
        states_len: usize,
        index: *mut Bucket,
        index_len: usize,
        links: *mut Link,
        links_len: usize,
        rows: *mut Row,
        rows_len: usize,
        plan: *mut u8,
        plan_len: usize,
        told: *mut usize,
        told_len: usize,
    );

    fn faldwern_read(text: *const u8, text_len: usize, told: *mut usize, told_len: usize);
}

/// The four working slices.
#[derive(Clone, Debug, PartialEq, Eq)]
pub struct Working {
    pub states: Vec<u64>,
    pub index: Vec<Bucket>,
    pub links: Vec<Link>,
    pub rows: Vec<Row>,
}

impl Working {
    /// Zeros, so many places of each slice.
    pub fn clear(places: [usize; SLICES]) -> Working {
        Working {
            states: vec![0; places[0]],
            index: vec![[0; 4]; places[1]],
            links: vec![[0; 64]; places[2]],
            rows: vec![[0; 8]; places[3]],
        }
    }

    /// Any content: whole words of it, or small numbers that look like rows.
    pub fn soil(&mut self, random: &mut Random) {
        let most = random.of(&[u64::MAX, 3, 40_000]);
        let mut any = || match most {
            u64::MAX => random.next() << 16 | random.next() & 0xffff,
            most => random.next() % most,
        };
        self.states.fill_with(&mut any);
        self.index.as_flattened_mut().fill_with(|| any() as u16);
        self.links.as_flattened_mut().fill_with(|| any() as u16);
        self.rows.as_flattened_mut().fill_with(&mut any);
    }

    pub fn places(&self) -> [usize; SLICES] {
        [self.states.len(), self.index.len(), self.links.len(), self.rows.len()]
    }

    pub fn is_clear(&self) -> bool {
        *self == Working::clear(self.places())
    }
}

/// What a successful report tells: the number of entries, and of bytes written.
#[derive(Clone, Copy, Debug, PartialEq, Eq)]
pub struct Written {
    pub entries: usize,
    pub bytes: usize,
}

/// The report of a text with what is lent, and room for so many entries. `told` gets, as far as it goes, the number and
/// place of a refusal or zeros, and the number of entries and of bytes or zeros.
pub fn report_told(
    text: &[u8],
    working: &mut Working,
    room: usize,
    plans: &mut [u8],
    output: &mut [u8],
    told: &mut [usize],
) {
    // SAFETY: each pointer and length is that of a slice that is lent for the call, no two of them overlap, and the
    // exported function has no precondition.
    unsafe {
        faldwern_report(
            text.as_ptr(),
            text.len(),
            working.states.as_mut_ptr(),
            working.states.len(),
            working.index.as_mut_ptr(),
            working.index.len(),
            working.links.as_mut_ptr(),
            working.links.len(),
            working.rows.as_mut_ptr(),
            working.rows.len(),
            room,
            plans.as_mut_ptr(),
            plans.len(),
            output.as_mut_ptr(),
            output.len(),
            told.as_mut_ptr(),
            told.len(),
        )
    }
}

/// The report of a text with what is lent, or the first question that gets no.
pub fn report(
    text: &[u8],
    working: &mut Working,
    room: usize,
    plans: &mut [u8],
    output: &mut [u8],
) -> Result<Written, Refusal> {
    let mut told = [usize::MAX; 4];
    report_told(text, working, room, plans, output, &mut told);
    match told {
        [0, _, entries, bytes] => Ok(Written { entries, bytes }),
        [number, place, ..] => Err(Refusal { number, place }),
    }
}

/// What a successful answer call tells: the answer, and how many steps its plan has.
#[derive(Clone, Copy, Debug, PartialEq, Eq)]
pub struct Answered {
    pub answer: Answer,
    pub steps: usize,
}

/// The best response to a leader plan in the task of a text. `told` gets, as far as it goes, the number and place of a
/// refusal or zeros, 1 where the answer is none, the minutes, and the number of steps.
pub fn response_told(text: &[u8], leader_plan: &[u8], working: &mut Working, plan: &mut [u8], told: &mut [usize]) {
    // SAFETY: as above.
    unsafe {
        faldwern_response(
            text.as_ptr(),
            text.len(),
            leader_plan.as_ptr(),
            leader_plan.len(),
            working.states.as_mut_ptr(),
            working.states.len(),
            working.index.as_mut_ptr(),
            working.index.len(),
            working.links.as_mut_ptr(),
            working.links.len(),
            working.rows.as_mut_ptr(),
            working.rows.len(),
            plan.as_mut_ptr(),
            plan.len(),
            told.as_mut_ptr(),
            told.len(),
        )
    }
}

/// The best response to a leader plan with what is lent, or the first question that gets no.
pub fn response(text: &[u8], leader_plan: &[u8], working: &mut Working, plan: &mut [u8]) -> Result<Answered, Refusal> {
    let mut told = [usize::MAX; 5];
    response_told(text, leader_plan, working, plan, &mut told);
    match told {
        [0, _, 0, minutes, steps] => Ok(Answered { answer: Answer::Cost(minutes as u32), steps }),
        [0, _, _, _, steps] => Ok(Answered { answer: Answer::None, steps }),
        [number, place, ..] => Err(Refusal { number, place }),
    }
}

/// Reads a text. `told` gets, as far as it goes, the number and place of a refusal, or zeros.
pub fn read_told(text: &[u8], told: &mut [usize]) {
    // SAFETY: as above.
    unsafe { faldwern_read(text.as_ptr(), text.len(), told.as_mut_ptr(), told.len()) }
}

/// Whether a text is a hall file, or the first question that gets no.
pub fn read(text: &[u8]) -> Result<(), Refusal> {
    let mut told = [usize::MAX; 2];
    read_told(text, &mut told);
    match told {
        [0, _] => Ok(()),
        [number, place] => Err(Refusal { number, place }),
    }
}
