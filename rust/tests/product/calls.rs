//! One call to the library in guarded memory, held to the independent implementation: return value, bytes written, and all
//! other memory unchanged. Every test compares through these functions.

use crate::guarded::{Against, Guarded};
use crate::support::{cases, compared};
use mill::sys;
use reference::{self, Degree, Refused};
use std::cell::RefCell;
use std::collections::BTreeMap;
use std::panic::Location;

/// The memory of a thread's calls.
pub struct Desk {
    pub recording: Guarded,
    pub second: Guarded,
    pub third: Guarded,
    /// What a call takes as the last call left it.
    carried: Guarded,
    out: Guarded,
    numbers: [Guarded; 4],
    /// What outputs hold before a call, from a place that changes with the turn.
    filling: Vec<u8>,
    turn: u64,
}

/// Bytes around an output that must stay as they are.
const CANARY: usize = 64;
const MOST_LENGTH: usize = 1 << 18;

thread_local! {
    static DESK: RefCell<Desk> = RefCell::new(Desk {
        recording: Guarded::input(MOST_LENGTH),
        second: Guarded::input(1 << 16),
        third: Guarded::input(1 << 16),
        carried: Guarded::output(1 << 16),
        out: Guarded::output(MOST_LENGTH),
        numbers: [(); 4].map(|()| Guarded::output(8)),
        filling: (0..MOST_LENGTH + 256).map(|at| (at % 251) as u8).collect(),
        turn: 0,
    });
}

/// Works with the thread's memory.
pub fn at_the_desk<T>(work: impl FnOnce(&mut Desk) -> T) -> T {
    DESK.with_borrow_mut(work)
}

/// Counts a call, and notes where it is made.
#[track_caller]
pub fn count() {
    cases::calling(Location::caller());
    compared::count();
}

impl Desk {
    /// Where things lie changes from call to call: the recording, the other input, the output, a third input.
    pub fn turn(&mut self) -> [Against; 4] {
        self.turn += 1;
        [1, 3, 9, 27].map(|each| [Against::Rear, Against::Front, Against::Neither][(self.turn / each % 3) as usize])
    }

    /// A call that writes bytes: its return value, and what it wrote.
    fn writing(
        &mut self,
        recording: &[u8],
        second: &[u8],
        room: usize,
        call: unsafe extern "C" fn(*const u8, usize, *const u8, usize, *mut u8, usize) -> u64,
    ) -> (u64, Vec<u8>) {
        let [first, other, output, _] = self.turn();
        let recording_at = self.recording.put(recording, first);
        let second_at = self.second.put(second, other);
        // SAFETY: each pointer lies before as many bytes as its length says.
        self.written(room, output, |out| unsafe { call(recording_at, recording.len(), second_at, second.len(), out, room) })
    }

    /// What a call returns that is handed an output of so many bytes, and what it wrote; that all else is untouched.
    pub fn written(&mut self, room: usize, output: Against, call: impl FnOnce(*mut u8) -> u64) -> (u64, Vec<u8>) {
        let out_at = self.out.place(room, output);
        let start = self.out.offset(room, output);
        let (from, to) = (start.saturating_sub(CANARY), (start + room + CANARY).min(self.out.bytes().len()));
        let filling = &self.filling[self.turn as usize % 251..][..to - from];
        self.out.bytes()[from..to].copy_from_slice(filling);
        let returned = call(out_at);
        let written = if returned >> 32 == 0 { returned as usize } else { 0 };
        assert!(written <= room, "{written} bytes written into {room}; {}", place());
        let result = self.out.bytes()[start..start + written].to_vec();
        let (before, behind) = (start - from, start + written - from);
        assert_eq!(self.out.bytes()[from..start], filling[..before], "bytes before the output were touched; {}", place());
        let touched = self.out.bytes()[start + written..to].iter().zip(&filling[behind..]).position(|(now, then)| now != then);
        assert_eq!(touched, None, "a byte so far behind the result was touched; {}", place());
        (returned, result)
    }

    /// What a call returns that is handed these bytes to take and to leave; that nothing around them is touched.
    pub fn carried(&mut self, bytes: &mut [u8], against: Against, call: impl FnOnce(*mut u8) -> u64) -> u64 {
        let length = bytes.len();
        let (at, start) = (self.carried.place(length, against), self.carried.offset(length, against));
        let (from, to) = (start.saturating_sub(CANARY), (start + length + CANARY).min(self.carried.bytes().len()));
        let filler = filler(self.turn);
        self.carried.bytes()[from..to].fill(filler);
        self.carried.bytes()[start..start + length].copy_from_slice(bytes);
        let returned = call(at);
        let after = self.carried.bytes();
        let around = after[from..start].iter().chain(&after[start + length..to]);
        assert!(around.copied().all(|byte| byte == filler), "bytes around what is carried were touched; {}", place());
        bytes.copy_from_slice(&after[start..start + length]);
        returned
    }

    /// Places for four numbers of so many bytes, filled.
    pub fn number_places(&mut self, against: Against, size: usize) -> [*mut u8; 4] {
        self.places_of(against, [size; 4])
    }

    /// The same for numbers of these sizes.
    pub fn places_of(&mut self, against: Against, sizes: [usize; 4]) -> [*mut u8; 4] {
        let turn = self.turn;
        let against = aligned(against);
        for number in &mut self.numbers {
            let at = number.offset(16, against);
            number.bytes()[at..at + 16].fill(filler(turn));
        }
        [0, 1, 2, 3].map(|which| self.numbers[which].place(sizes[which], against))
    }

    /// What number places hold before a call.
    pub fn filler(&self) -> u8 {
        filler(self.turn)
    }

    /// The bytes at the number places, and that the bytes beside them are untouched.
    pub fn numbers_after(&mut self, against: Against, size: usize) -> [Vec<u8>; 4] {
        self.numbers_of(against, [size; 4])
    }

    /// The same of numbers of these sizes.
    pub fn numbers_of(&mut self, against: Against, sizes: [usize; 4]) -> [Vec<u8>; 4] {
        let turn = self.turn;
        let against = aligned(against);
        let mut read = |which: usize, size: usize| {
            let number = &mut self.numbers[which];
            let at = number.offset(16, against);
            let around = number.bytes()[at..at + 16].to_vec();
            let (own, beside) = match against {
                Against::Rear => (&around[16 - size..], &around[..16 - size]),
                _ => (&around[..size], &around[size..]),
            };
            assert!(beside.iter().all(|byte| *byte == filler(turn)), "bytes beside a number were touched; {}", place());
            own.to_vec()
        };
        [0, 1, 2, 3].map(|which| read(which, sizes[which]))
    }
}

/// Numbers lie at either end, where C has them aligned.
fn aligned(against: Against) -> Against {
    if against == Against::Rear {
        Against::Rear
    } else {
        Against::Front
    }
}

fn filler(turn: u64) -> u8 {
    0xA5 ^ (turn as u8)
}

/// The case, as one reads it in a failure.
pub fn place() -> String {
    let (name, case) = cases::current();
    let (file, line) = cases::called();
    format!("case '{name}:{case}' at {file}:{line}")
}

/// How the outcomes of a test's calls are spread: 0 for a result, else the refusal's number.
#[derive(Default)]
pub struct Tally {
    outcomes: BTreeMap<u32, u64>,
}

impl Tally {
    pub fn add(&mut self, number: u32) {
        *self.outcomes.entry(number).or_default() += 1;
    }

    /// Each of the outcomes came up at least so often: the test saw what it is for.
    pub fn saw(&self, outcomes: &[u32], at_least: u64) {
        for outcome in outcomes {
            let seen = self.outcomes.get(outcome).copied().unwrap_or(0);
            assert!(cases::one_alone() || seen >= at_least, "outcome {outcome} came up {seen} times: {:?}", self.outcomes);
        }
    }
}

pub fn number_of<T>(expected: &Result<T, Refused>) -> u32 {
    expected.as_ref().err().map_or(0, |refused| refused.number)
}

/// Asks and compares; the outcome's number.
#[track_caller]
pub fn question(recording: &[u8], text: &[u8], room: usize) -> u32 {
    count();
    let expected = reference::question(recording, text, room);
    let found = DESK.with_borrow_mut(|desk| desk.writing(recording, text, room, sys::mill_question));
    same_bytes(&expected, found, || format!("mill_question, {room} bytes of output\n{}\n{}", shown(text), hex(recording)));
    number_of(&expected)
}

/// Thins and compares; the outcome's number.
#[track_caller]
pub fn thin(recording: &[u8], marks: &[u8], room: usize) -> u32 {
    let expected = reference::thin(recording, marks, room);
    thin_as(recording, marks, room, &expected);
    number_of(&expected)
}

/// Thins and compares with what is expected.
#[track_caller]
pub fn thin_as(recording: &[u8], marks: &[u8], room: usize, expected: &Result<Vec<u8>, Refused>) {
    count();
    let found = DESK.with_borrow_mut(|desk| desk.writing(recording, marks, room, sys::mill_thin));
    same_bytes(expected, found, || format!("mill_thin, {room} bytes of output\nmarks {}\n{}", hex(marks), hex(recording)));
}

/// Holds what a call that writes bytes returned and wrote to what is expected.
pub fn same_bytes(expected: &Result<Vec<u8>, Refused>, found: (u64, Vec<u8>), call: impl Fn() -> String) {
    let expected = match expected {
        Ok(bytes) => (bytes.len() as u64, bytes.clone()),
        Err(refused) => (refused.returned(), Vec::new()),
    };
    if found != expected {
        panic!(
            "{}\nexpected {} {}\nfound    {} {}\nin {}",
            place(),
            outcome(expected.0),
            hex(&expected.1),
            outcome(found.0),
            hex(&found.1),
            call()
        );
    }
}

/// Asks for a degree and compares; the outcome's number.
#[track_caller]
pub fn degree(recording: &[u8], text: &[u8], target: i64) -> u32 {
    count();
    let expected = reference::degree(recording, text, target);
    let (returned, numbers, filler) = DESK.with_borrow_mut(|desk| {
        let [first, other, output, _] = desk.turn();
        let recording_at = desk.recording.put(recording, first);
        let text_at = desk.second.put(text, other);
        let [distance, degree, ..] = desk.number_places(output, 8);
        // SAFETY: each pointer lies before as many bytes as its length says, or before its number.
        let returned = unsafe {
            sys::mill_degree(recording_at, recording.len(), text_at, text.len(), target, distance.cast(), degree.cast())
        };
        let [distance, degree, ..] = desk.numbers_after(output, 8);
        (returned, [distance, degree], desk.filler())
    });
    let call = || format!("mill_degree of target {target}\n{}\n{}", shown(text), hex(recording));
    same_numbers(degree_numbers(&expected), returned, &numbers, filler, call);
    number_of(&expected)
}

/// What a degree call returns, and the bytes of the two numbers where they are written.
pub fn degree_numbers(expected: &Result<Degree, Refused>) -> (u64, Option<[Vec<u8>; 2]>) {
    match expected {
        Ok(Degree::Met) => (0, None),
        Ok(Degree::Short { distance, degree }) => (1, Some([distance.to_le_bytes().to_vec(), degree.to_le_bytes().to_vec()])),
        Ok(Degree::NoValue) => (2, None),
        Err(refused) => (refused.returned(), None),
    }
}

/// What a pair call returns, and the bytes of the two times where they are written.
pub fn pair_numbers(expected: &Result<Option<(u32, u32)>, Refused>) -> (u64, Option<[Vec<u8>; 2]>) {
    match expected {
        Ok(None) => (0, None),
        Ok(Some((earlier, later))) => (1, Some([earlier, later].map(|time| time.to_le_bytes().to_vec()))),
        Err(refused) => (refused.returned(), None),
    }
}

/// Holds what a call that writes numbers returned, and what its places hold, to what is expected: bytes, or none where the places stay.
pub fn same_numbers<const N: usize>(
    (expected_return, expected): (u64, Option<[Vec<u8>; N]>),
    returned: u64,
    numbers: &[Vec<u8>; N],
    filler: u8,
    call: impl Fn() -> String,
) {
    let untouched = || numbers.each_ref().map(|number| vec![filler; number.len()]);
    let expected = expected.unwrap_or_else(untouched);
    if (returned, numbers) != (expected_return, &expected) {
        let written = |numbers: &[Vec<u8>; N]| numbers.iter().map(|number| hex(number)).collect::<Vec<_>>().join(" ");
        panic!(
            "{}\nexpected {} {}\nfound    {} {}\nin {}",
            place(),
            outcome(expected_return),
            written(&expected),
            outcome(returned),
            written(numbers),
            call()
        );
    }
}

/// Asks for a pair and compares the two times; the outcome's number.
#[track_caller]
pub fn pair(recording: &[u8], curve: u32, target: i64) -> u32 {
    count();
    let expected = reference::pair(recording, curve, target);
    let (returned, numbers, filler) = DESK.with_borrow_mut(|desk| {
        let [first, _, output, _] = desk.turn();
        let recording_at = desk.recording.put(recording, first);
        let [earlier, later, ..] = desk.number_places(output, 4);
        // SAFETY: the pointer lies before as many bytes as its length says, the others before their numbers.
        let returned = unsafe { sys::mill_pair(recording_at, recording.len(), curve, target, earlier.cast(), later.cast()) };
        let [earlier, later, ..] = desk.numbers_after(output, 4);
        (returned, [earlier, later], desk.filler())
    });
    let call = || format!("mill_pair of curve {curve}, target {target}\n{}", hex(recording));
    same_numbers(pair_numbers(&expected), returned, &numbers, filler, call);
    number_of(&expected)
}

/// Checks an order sheet and compares the time and the line; the outcome's number.
#[track_caller]
pub fn order(recording: &[u8], sheet: &[u8]) -> u32 {
    count();
    let expected = reference::order(recording, sheet);
    let (returned, found, filler) = DESK.with_borrow_mut(|desk| {
        let [first, other, output, _] = desk.turn();
        let recording_at = desk.recording.put(recording, first);
        let sheet_at = desk.second.put(sheet, other);
        let [time, line, ..] = desk.number_places(output, 4).map(|place| place.cast());
        // SAFETY: each pointer lies before as many bytes as its length says, or before its number.
        let returned = unsafe { sys::mill_order(recording_at, recording.len(), sheet_at, sheet.len(), time, line) };
        let [time, line, ..] = desk.numbers_after(output, 4);
        (returned, [time, line], desk.filler())
    });
    let call = || format!("mill_order of sheet {}\n{}", hex(sheet), hex(recording));
    same_numbers(pair_numbers(&expected), returned, &found, filler, call);
    number_of(&expected)
}

/// Asks within a band and compares the two sets; the outcome's number.
#[track_caller]
pub fn band(recording: &[u8], text: &[u8], e: i64) -> u32 {
    count();
    let expected = reference::band(recording, text, e);
    let (returned, ends, filler) = DESK.with_borrow_mut(|desk| {
        let [first, other, output, _] = desk.turn();
        let recording_at = desk.recording.put(recording, first);
        let text_at = desk.second.put(text, other);
        let [low, high, lowest, highest] = desk.number_places(output, 4).map(|place| place.cast());
        // SAFETY: each pointer lies before as many bytes as its length says, or before its number.
        let returned =
            unsafe { sys::mill_band(recording_at, recording.len(), text_at, text.len(), e, low, high, lowest, highest) };
        (returned, desk.numbers_after(output, 4), desk.filler())
    });
    let (mut expected_return, mut expected_ends) = (0, [(); 4].map(|()| vec![filler; 4]));
    match &expected {
        Err(refused) => expected_return = refused.returned(),
        Ok(sets) => {
            for (which, set) in sets.iter().enumerate() {
                if let Some((low, high)) = set {
                    expected_return |= 1 << which;
                    expected_ends[2 * which] = (*low as i32).to_le_bytes().to_vec();
                    expected_ends[2 * which + 1] = (*high as i32).to_le_bytes().to_vec();
                }
            }
        }
    }
    if (returned, &ends) != (expected_return, &expected_ends) {
        panic!(
            "{}\nexpected {} {expected_ends:?}\nfound    {} {ends:?}\nin mill_band of e {e}\n{}\n{}",
            place(),
            outcome(expected_return),
            outcome(returned),
            shown(text),
            hex(recording)
        );
    }
    number_of(&expected)
}

/// The bytes that a call for which no expectation is at hand gives, in guarded memory.
#[track_caller]
pub fn bytes_of(
    recording: &[u8],
    second: &[u8],
    room: usize,
    call: unsafe extern "C" fn(*const u8, usize, *const u8, usize, *mut u8, usize) -> u64,
) -> (u64, Vec<u8>) {
    count();
    DESK.with_borrow_mut(|desk| desk.writing(recording, second, room, call))
}

pub fn outcome(returned: u64) -> String {
    match sys::mill_number(returned) {
        0 => format!("result {}", sys::mill_place(returned)),
        number => format!("refused {number} {}", sys::mill_place(returned)),
    }
}

pub fn shown(text: &[u8]) -> String {
    format!("text '{}'", text.escape_ascii())
}

/// Bytes in hexadecimal, whole; a recording of any length can be put together from them again.
pub fn hex(bytes: &[u8]) -> String {
    let digits: String = bytes.iter().map(|byte| format!("{byte:02x}")).collect();
    format!("[{} bytes] {digits}", bytes.len())
}
