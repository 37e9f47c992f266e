//! Covers: growing runs: long lists of steps, readings of any bytes, moments set and gone back to, refused steps among them, against a
//! history of plain lists, and after each step what the run holds, its entry and what its bytes are; the limits of 128 and of 4,096;
//! buffers that are too short or longer, garbage in them, copies; that what is held answers as the run does and thins with further
//! readings.

use crate::calls::{at_the_desk, count, hex, number_of, same_bytes, same_numbers, Tally};
use crate::laws::same_answers;
use crate::support::cases::{begin, cases, one_alone};
use crate::support::r2::r2_bytes;
use crate::support::random::Random;
use crate::support::recordings::{self, damaged, flat, odd_marks, with_additions};
use mill::sys::{self, MILL_ENTRY_BYTES, MILL_HELD_BYTES, MILL_LIVE_BYTES};
use mill::{Entry, Live, Refusal};
use reference::kept::mark_bytes;
use reference::live::{self, MOST_HELD};
use reference::recording::{bytes, in_rules, Record, FALLING, MOST_TIME, RISING};
use reference::stored::{self, Step, LIVE_HEAD};
use reference::Refused;

/// A run as a caller holds it: the carried bytes, and the history that they stand for; none where every step is refused 11.
#[derive(Clone)]
pub struct Held {
    pub bytes: Vec<u8>,
    pub live: Option<live::Live>,
}

impl Held {
    /// A buffer of so many bytes in which no call has been.
    pub fn unused(length: usize) -> Held {
        Held { bytes: vec![0; length], live: None }
    }

    /// A run under these marks.
    pub fn begun(marks: &[i64]) -> Held {
        let mut held = Held::unused(MILL_LIVE_BYTES);
        assert_eq!(held.start(&mark_bytes(marks)), 0);
        held
    }

    /// Begins a run and compares, with every byte after it; the outcome's number. Marks that 11 refuses end the run that was held.
    #[track_caller]
    pub fn start(&mut self, marks: &[u8]) -> u32 {
        count();
        let before = self.bytes.clone();
        let room = self.bytes.len() >= MILL_LIVE_BYTES;
        let mut expected = live::start(marks);
        if expected.is_ok() && !room {
            expected = Err(Refused::plain(10));
        }
        let length = self.bytes.len();
        let returned = at_the_desk(|desk| {
            let [_, first, output, _] = desk.turn();
            let marks_at = desk.second.put(marks, first);
            // SAFETY: each pointer lies before as many bytes as its length says.
            desk.carried(&mut self.bytes, output, |live| unsafe { sys::mill_live_start(marks_at, marks.len(), live, length) })
        });
        let expected_return = expected.as_ref().map_or_else(|refused| refused.returned(), |_| 0);
        same_numbers((expected_return, Some([])), returned, &[], 0, || {
            format!("mill_live_start, {length} bytes, of {}", hex(marks))
        });
        self.left_as(&stored::started(&before, marks), &expected, &before);
        let number = number_of(&expected);
        self.live = expected.ok();
        number
    }

    /// A step, compared, with every byte after it; the outcome's number. A refused one leaves every byte.
    #[track_caller]
    fn step(&mut self, step: &Step) -> u32 {
        count();
        let before = self.bytes.clone();
        let expected = match (&mut self.live, step) {
            (None, _) => Err(Refused::plain(11)),
            (Some(live), Step::Add(reading)) => live.add(reading),
            (Some(live), Step::Save(name)) => live.save(*name),
            (Some(live), Step::Restore(name)) => live.restore(*name),
        };
        let returned = made(&mut self.bytes, step);
        let expected_return = expected.as_ref().map_or_else(|refused| refused.returned(), |_| 0);
        same_numbers((expected_return, Some([])), returned, &[], 0, || format!("{step:?} of {}", hex(&before)));
        self.left_as(&stored::stepped(&before, step), &expected, &before);
        number_of(&expected)
    }

    #[track_caller]
    pub fn add(&mut self, reading: &[u8]) -> u32 {
        self.step(&Step::Add(reading.to_vec()))
    }

    #[track_caller]
    pub fn save(&mut self, name: u32) -> u32 {
        self.step(&Step::Save(name))
    }

    #[track_caller]
    pub fn restore(&mut self, name: u32) -> u32 {
        self.step(&Step::Restore(name))
    }

    /// Reads out what is held and compares; the outcome's number. It only reads the run.
    #[track_caller]
    pub fn kept(&self, room: usize) -> u32 {
        count();
        let expected = match &self.live {
            None => Err(Refused::plain(11)),
            Some(live) if live.kept().len() > room => Err(Refused::plain(10)),
            Some(live) => Ok(live.kept()),
        };
        let found = read(&self.bytes, room, sys::mill_live_kept);
        same_bytes(&expected, found, || format!("mill_live_kept, {room} bytes of output, of {}", hex(&self.bytes)));
        number_of(&expected)
    }

    /// Reads out the entry and compares with a fresh reckoning of the history; the outcome's number. It only reads the run.
    #[track_caller]
    pub fn entry(&self, room: usize) -> u32 {
        count();
        let expected = match &self.live {
            None => Err(Refused::plain(11)),
            Some(live) => live.entry(room),
        };
        let found = read(&self.bytes, room, sys::mill_live_entry);
        same_bytes(&expected, found, || format!("mill_live_entry, {room} bytes of output, of {}", hex(&self.bytes)));
        number_of(&expected)
    }

    /// All of a recording's readings, one by one.
    #[track_caller]
    pub fn add_all(&mut self, recording: &[u8]) {
        recording.chunks(16).for_each(|reading| assert_eq!(self.add(reading), 0));
    }

    fn run(&self) -> &[u8] {
        self.live.as_ref().map_or(&[], |live| live.run())
    }

    /// The call's answer, and every byte after it, are those that the bytes before it fix.
    #[track_caller]
    fn left_as<A>(&self, fixed: &stored::Left<()>, answer: &Result<A, Refused>, before: &[u8]) {
        assert_eq!(fixed.0.err(), answer.as_ref().err().copied(), "the bytes fix another answer: {}", hex(before));
        assert!(self.bytes == fixed.1, "the bytes {} after a call of {}", hex(&self.bytes), hex(before));
    }
}

/// Makes a step with these bytes; what it returned.
fn made(live: &mut [u8], step: &Step) -> u64 {
    let length = live.len();
    at_the_desk(|desk| {
        let [_, first, output, _] = desk.turn();
        // SAFETY: each pointer lies before as many bytes as its length says.
        match step {
            Step::Add(reading) => {
                let reading_at = desk.second.put(reading, first);
                desk.carried(live, output, |live| unsafe { sys::mill_live_add(live, length, reading_at, reading.len()) })
            }
            Step::Save(name) => desk.carried(live, output, |live| unsafe { sys::mill_live_save(live, length, *name) }),
            Step::Restore(name) => desk.carried(live, output, |live| unsafe { sys::mill_live_restore(live, length, *name) }),
        }
    })
}

/// A call that reads a run, which lies in memory that can't be written.
pub fn read(live: &[u8], room: usize, call: unsafe extern "C" fn(*const u8, usize, *mut u8, usize) -> u64) -> (u64, Vec<u8>) {
    at_the_desk(|desk| {
        let [first, _, output, _] = desk.turn();
        let live_at = desk.recording.put(live, first);
        // SAFETY: each pointer lies before as many bytes as its length says.
        desk.written(room, output, |out| unsafe { call(live_at, live.len(), out, room) })
    })
}

/// How lively the readings of a run are.
#[derive(Clone, Copy)]
pub struct Kind {
    /// A slope, a level or a pigment changes once in so many readings.
    pub changes: usize,
    pub step: i64,
}

impl Kind {
    pub fn any(random: &mut Random) -> Kind {
        Kind { changes: random.pick(&[1, 2, 8, 60, 2_000]), step: random.pick(&[1, 1, 2, 50]) }
    }

    /// The next reading of a run that ended with this one.
    pub fn next(self, random: &mut Random, last: Option<Record>) -> Record {
        let mut record = last.unwrap_or(flat(1)[0]);
        record.time = match last {
            None => random.pick(&[0, 0, 7, MOST_TIME - 400]),
            Some(last) => last.time + random.between(1, self.step),
        };
        record.pigment = 0;
        if random.once_in(self.changes) {
            match random.below(4) {
                0 => record.slope[random.below(2)] = random.pick(&[0, 1, 2]),
                1 => record.value[random.below(2)] = random.between(-3, 3),
                2 => record.value = [random.between(-9, 9), random.between(-9, 9)],
                _ => record.pigment = 1 + random.below(16) as u8,
            }
        }
        record
    }
}

/// The last reading of a run.
fn last_of(run: &[u8]) -> Option<Record> {
    in_rules(run).unwrap().last().copied()
}

/// A step: mostly a reading that fits, else one that does not, or a moment.
fn any_step(random: &mut Random, kind: Kind, run: &[u8]) -> Step {
    let last = run.len().checked_sub(16).and_then(|at| last_of(&run[at..]));
    let next = kind.next(random, last);
    match random.below(20) {
        0 | 1 => Step::Save(random.pick(&[1, 2, 3, 4, 5, 6, 7, 8, 8, 1, 0, 9, u32::MAX])),
        2 => Step::Restore(random.pick(&[1, 2, 3, 4, 5, 6, 7, 8, 1, 0, 9, 256, u32::MAX])),
        3 => Step::Add(damaged(random, next.bytes().to_vec())),
        4 => Step::Add(Record { time: last.map_or(0, |last| last.time) - random.pick(&[0, 0, 1]), ..next }.bytes().to_vec()),
        5 if random.once_in(4) => Step::Add(vec![next.slope[0]; random.pick(&[0, 1, 15, 17, 32])]),
        _ => Step::Add(next.bytes().to_vec()),
    }
}

#[test]
fn lists_of_steps() {
    let (mut tally, mut back, mut most) = (Tally::default(), 0, 0);
    cases("lists of steps", 600, |random| {
        let mut held = Held::unused(MILL_LIVE_BYTES + random.pick(&[0, 0, 1, 500]));
        if random.once_in(3) {
            held.bytes.fill(random.pick(&[255, 1]));
        }
        let times = [Record { time: random.between(0, 200), ..flat(1)[0] }];
        tally.add(held.kept(2048));
        tally.add(held.entry(MILL_ENTRY_BYTES));
        let marks = if random.once_in(8) { odd_marks(random) } else { mark_bytes(&recordings::marks(random, &times)) };
        tally.add(held.start(&marks));
        tally.add(held.entry(random.pick(&[0, MILL_ENTRY_BYTES])));
        let kind = Kind::any(random);
        for _ in 0..random.pick(&[20, 60, 250, 600]) {
            let step = any_step(random, kind, held.run());
            let (before, number) = (held.run().len(), held.step(&step));
            tally.add(number);
            back += u64::from(held.run().len() < before);
            most = most.max(held.run().len() / 16);
            held.kept(MILL_HELD_BYTES);
            held.entry(MILL_ENTRY_BYTES);
            if random.once_in(12) {
                tally.add(held.entry(random.pick(&[0, 1, 31, 33, 64])));
                let just = held.live.as_ref().map_or(0, |live| live.kept().len());
                tally.add(held.kept(just));
                tally.add(held.kept(just.saturating_sub(1 + random.below(16))));
            }
            if random.once_in(400) {
                // A new run over the old one, its marks refused or not.
                let marks = if random.once_in(2) { odd_marks(random) } else { mark_bytes(&recordings::marks(random, &times)) };
                tally.add(held.start(&marks));
            }
        }
    });
    tally.saw(&[0], 10_000);
    tally.saw(&[1, 3, 4, 10, 11, 18, 19], 100);
    assert!(one_alone() || back > 500 && most > 250, "{back} times shorter by going back, {most} readings at most");
}

/// Calm runs of up to 4,096 readings and beyond, moments among them.
#[test]
fn long_runs() {
    let mut tally = Tally::default();
    cases("long runs", 3, |random| {
        let kind = Kind { changes: 600, step: 2 };
        let mut held = Held::begun(&[10, 3_000]);
        held.add_all(&bytes(&flat(1)));
        for turn in 0..4_400 {
            let next = kind.next(random, held.run().len().checked_sub(16).and_then(|at| last_of(&held.run()[at..])));
            tally.add(held.add(&next.bytes()));
            if turn % 512 == 500 {
                assert_eq!(held.save(1 + turn / 512 % 8), 0);
                held.kept(MILL_HELD_BYTES);
                assert_eq!(held.entry(MILL_ENTRY_BYTES), 0);
            }
        }
        assert_eq!((held.kept(MILL_HELD_BYTES), held.entry(MILL_ENTRY_BYTES)), (0, 0));
        for name in [3, 8, 1] {
            assert_eq!(held.restore(name), 0);
            assert_eq!((held.kept(MILL_HELD_BYTES), held.entry(MILL_ENTRY_BYTES)), (0, 0));
        }
    });
    tally.saw(&[0], 10_000);
    tally.saw(&[2], 20);
}

/// 128 kept readings, and one more; what counts are the kept readings with the new one, so after the former last has gone.
#[test]
fn one_hundred_and_twenty_eight_kept_and_one_more() {
    begin("one hundred and twenty-eight kept and one more", 0);
    let with_pigments = bytes(&with_additions(140, 140, 3));
    let plain = bytes(&flat(140));
    let mut held = Held::begun(&[]);
    held.add_all(&with_pigments[..127 * 16]);
    // The last is kept, and then the next in its place.
    for index in 127..132 {
        assert_eq!(held.add(&plain[16 * index..][..16]), 0);
        assert_eq!(held.kept(2048), 0);
        assert_eq!(held.kept(2047), 10);
    }
    assert_eq!(held.save(4), 0);
    assert_eq!(held.add(&with_pigments[16 * 132..][..16]), 0);
    // 128 with a pigment: none further is taken, with a pigment or without; it may be gone back.
    for index in [133, 134] {
        assert_eq!(held.add(&plain[16 * index..][..16]), 19);
        assert_eq!(held.add(&with_pigments[16 * index..][..16]), 19);
    }
    assert_eq!(held.add(&plain[16 * 132..][..16]), 3, "3 comes before 19");
    assert_eq!(held.add(&plain[16 * 133..][..15]), 1);
    assert_eq!(held.restore(4), 0);
    assert_eq!(held.add(&plain[16 * 133..][..16]), 0);
    // Rises and falls: each reading is kept.
    let mut held = Held::begun(&[]);
    for index in 0..MOST_HELD {
        let slope = if index % 2 == 0 { RISING } else { FALLING };
        assert_eq!(held.add(&Record { time: index as i64, slope: [slope, 1], ..flat(1)[0] }.bytes()), 0);
    }
    assert_eq!(held.add(&Record { time: 128, slope: [RISING, 1], ..flat(1)[0] }.bytes()), 19);
    assert_eq!(held.kept(2048), 0);
    assert_eq!(held.entry(32), 0);
    assert_eq!(Live::from_bytes(&held.bytes).entry().unwrap().tops_a, 64);
}

/// 4,096 readings and one more: 1 before 2 and 2 before 3; a moment has its own count.
#[test]
fn four_thousand_and_ninety_six_readings_and_one_more() {
    begin("four thousand and ninety-six readings and one more", 0);
    let all = bytes(&flat(4_097));
    let mut held = Held::begun(&[]);
    held.add_all(&all[..16 * 4_000]);
    assert_eq!(held.save(1), 0);
    held.add_all(&all[16 * 4_000..16 * 4_096]);
    assert_eq!(held.save(2), 0);
    let last = &all[16 * 4_096..];
    assert_eq!(held.add(last), 2);
    assert_eq!(held.add(&last[..15]), 1);
    assert_eq!(held.add(&[255; 16]), 2);
    assert_eq!(held.add(&[]), 1);
    // Gone back, so many more are taken again.
    assert_eq!(held.restore(1), 0);
    assert_eq!(held.add(&[255; 16]), 3);
    held.add_all(&all[16 * 4_000..16 * 4_096]);
    assert_eq!(held.add(last), 2);
    assert_eq!(held.restore(2), 0);
    assert_eq!(held.add(last), 2);
    assert_eq!(held.kept(2048), 0);
    assert_eq!(held.entry(32), 0);
    assert_eq!(Live::from_bytes(&held.bytes).entry().unwrap().last_time, 4_095);
}

/// The place of 3 is the reading's index in the run, not among those kept.
#[test]
fn the_place_of_a_bad_reading() {
    begin("the place of a bad reading", 0);
    let r2 = r2_bytes();
    let mut run = Live::start(&[]).unwrap();
    for (index, reading) in r2.chunks(16).enumerate() {
        assert_eq!(run.add(&[255; 16]), Err(Refusal::BadRecord { index: index as u32 }));
        run.add(reading).unwrap();
        assert_eq!(run.add(reading), Err(Refusal::BadRecord { index: index as u32 + 1 }), "a time again");
    }
    assert_eq!(run.kept().unwrap().len(), 6 * 16);
    assert_eq!(run.add(&r2[128..]), Err(Refusal::BadRecord { index: 9 }));
}

/// R2 with moments, by hand.
#[test]
fn moments_by_hand() {
    begin("moments by hand", 0);
    let r2 = r2_bytes();
    let reading = |index: usize| &r2[16 * index..][..16];
    let times = |run: &Live| run.kept().unwrap().chunks(16).map(|reading| i64::from(reading[0])).collect::<Vec<_>>();
    let mut run = Live::start(&[]).unwrap();
    assert_eq!(run.restore(1), Err(Refusal::NoMoment));
    // A moment of the empty run.
    run.save(8).unwrap();
    (0..5).for_each(|index| run.add(reading(index)).unwrap());
    assert_eq!(times(&run), [0, 10, 30, 40]);
    run.save(1).unwrap();
    (5..9).for_each(|index| run.add(reading(index)).unwrap());
    run.save(2).unwrap();
    assert_eq!(times(&run), [0, 10, 30, 40, 60, 80]);
    // Back, and on with a reading at a time that a discarded one had.
    run.restore(1).unwrap();
    assert_eq!(times(&run), [0, 10, 30, 40]);
    run.add(reading(8)).unwrap();
    assert_eq!(times(&run), [0, 10, 30, 40, 80]);
    assert_eq!(run.add(reading(5)), Err(Refusal::BadRecord { index: 6 }));
    // The later moment is still set, and so is the one gone back to.
    run.restore(2).unwrap();
    assert_eq!(times(&run), [0, 10, 30, 40, 60, 80]);
    run.restore(1).unwrap();
    assert_eq!(times(&run), [0, 10, 30, 40]);
    run.restore(8).unwrap();
    assert_eq!(times(&run), []);
    assert_eq!(run.add(&[255; 16]), Err(Refusal::BadRecord { index: 0 }));
    // Set again.
    run.add(reading(3)).unwrap();
    run.save(1).unwrap();
    run.restore(2).unwrap();
    run.restore(1).unwrap();
    assert_eq!(times(&run), [30]);
    for name in [0, 9, 257, u32::MAX] {
        assert_eq!(run.save(name), Err(Refusal::NoMoment));
        assert_eq!(run.restore(name), Err(Refusal::NoMoment));
    }
    for name in [3, 4, 5, 6, 7] {
        assert_eq!(run.restore(name), Err(Refusal::NoMoment));
    }
    assert_eq!(run.kept_into(&mut [0; 15]), Err(Refusal::ShortOutput));
    // A run is its bytes.
    let copy = Live::from_bytes(run.as_bytes());
    assert_eq!((copy.kept(), copy.as_bytes()), (run.kept(), run.as_bytes()));
    assert_eq!(Live::start(&[0; 9]).err(), Some(Refusal::BadMarks));
    assert_eq!(Live::start(&[2_000_000_001]).err(), Some(Refusal::BadMarks));
    assert_eq!(Live::from_bytes(&[]).kept(), Err(Refusal::BadMarks));
}

/// The entry of R2 as it grows and goes back, by hand.
#[test]
fn entries_by_hand() {
    begin("entries of a run by hand", 0);
    let r2 = r2_bytes();
    let mut run = Live::start(&[]).unwrap();
    // An empty run has none, whatever the output.
    assert_eq!(run.entry(), Err(Refusal::NoRecord));
    assert_eq!(run.entry_into(&mut []), Err(Refusal::NoRecord));
    run.save(8).unwrap();
    let entry = |last_time: u32, least_a: i32, tops_a: u32| {
        Ok(Entry { first_time: 0, last_time, greatest_a: 10, least_a, greatest_b: 0, least_b: 0, tops_a, tops_b: 0 })
    };
    for (index, reading) in r2.chunks(16).enumerate() {
        run.add(reading).unwrap();
        assert_eq!(run.entry(), entry(10 * index as u32, 10 - index as i32, u32::from(index >= 4)));
        assert_eq!(run.entry(), mill::entry(&r2[..16 * (index + 1)]));
        // Refused, it changes nothing.
        assert!(run.add(reading).is_err());
        assert_eq!(run.entry().unwrap().last_time, 10 * index as u32);
        if index == 3 {
            run.save(1).unwrap();
        }
    }
    run.save(2).unwrap();
    run.restore(1).unwrap();
    assert_eq!(run.entry(), entry(30, 7, 0));
    // On from there with another reading: the discarded top is none of the run's.
    run.add(&r2[16 * 8..]).unwrap();
    assert_eq!(run.entry(), entry(80, 2, 0));
    run.restore(2).unwrap();
    assert_eq!(run.entry(), entry(80, 2, 1));
    assert_eq!(run.entry_into(&mut [0; 31]), Err(Refusal::ShortOutput));
    assert_eq!(run.entry_into(&mut [0; 33]), Ok(32));
    run.restore(8).unwrap();
    assert_eq!(run.entry(), Err(Refusal::NoRecord));
}

/// Marks that 11 refuses: every step is refused 11, before all else, until a run is begun anew.
#[test]
fn a_run_whose_marks_are_refused() {
    begin("a run whose marks are refused", 0);
    let good = r2_bytes();
    for marks in [vec![0; 3], vec![0; 36], mark_bytes(&[2_000_000_001])] {
        let mut held = Held::begun(&[40]);
        held.add_all(&good);
        assert_eq!(held.save(3), 0);
        assert_eq!(held.start(&marks), 11);
        for _ in 0..2 {
            assert_eq!(held.add(&good[..16]), 11);
            assert_eq!(held.add(&good[..15]), 11);
            assert_eq!(held.save(1), 11);
            assert_eq!(held.save(9), 11);
            assert_eq!(held.restore(3), 11);
            assert_eq!(held.restore(0), 11);
            assert_eq!(held.kept(0), 11);
            assert_eq!((held.entry(0), held.entry(MILL_ENTRY_BYTES)), (11, 11));
        }
        // A new run has no moment of the old one.
        assert_eq!(held.start(&[]), 0);
        assert_eq!(held.restore(3), 18);
        assert_eq!(held.kept(0), 0);
        assert_eq!((held.entry(0), held.entry(MILL_ENTRY_BYTES)), (4, 4));
    }
}

/// Every length of the buffer: a start is refused 10 after 11 where it is too short, and no step is taken from it.
#[test]
fn every_length_of_the_buffer() {
    let good = Held::begun(&[40]);
    let reading = &r2_bytes()[..16];
    let near = (0..40).chain((40..MILL_LIVE_BYTES - 40).step_by(97)).chain(MILL_LIVE_BYTES - 40..MILL_LIVE_BYTES + 20);
    for length in near {
        begin("every length of the buffer of a run", length as u64);
        let short = length < MILL_LIVE_BYTES;
        let mut held = Held::unused(length);
        held.bytes.fill(length as u8);
        assert_eq!(held.start(&[1]), 11);
        assert_eq!(held.add(reading), 11);
        assert_eq!(held.start(&[]), if short { 10 } else { 0 });
        assert_eq!(held.add(reading), if short { 11 } else { 0 });
        // The first bytes of a run are none.
        if short {
            let mut cut = Held { bytes: good.bytes[..length].to_vec(), live: None };
            assert_eq!(cut.add(reading), 11);
            assert_eq!(cut.save(1), 11);
            assert_eq!(cut.restore(1), 11);
            assert_eq!(cut.kept(2048), 11);
            assert_eq!(cut.entry(MILL_ENTRY_BYTES), 11);
        }
    }
}

/// Bytes that no call left: all zero and all 255 are no run. Of any others a step answers by a number of its list, a refused one leaves
/// every byte, a read-out writes what it says, and the same bytes give the same.
#[test]
fn garbage_in_the_buffer() {
    let (mut tally, mut starts, odd) = (Tally::default(), [0, 0], [0; 3]);
    cases("garbage in the buffer of a run", 700, |random| {
        for filler in [0, 255] {
            let mut held = Held::unused(MILL_LIVE_BYTES + random.below(3));
            held.bytes.fill(filler);
            let kind = Kind::any(random);
            let step = any_step(random, kind, &[]);
            assert_eq!(held.step(&step), 11);
            assert_eq!(held.kept(2048), 11);
            assert_eq!(held.entry(MILL_ENTRY_BYTES), 11);
        }
        let mut held = Held::begun(&[7, 40]);
        let kind = Kind { changes: 2, step: 2 };
        for _ in 0..random.below(40) {
            let step = any_step(random, kind, held.run());
            held.step(&step);
        }
        if random.once_in(4) {
            held.bytes.iter_mut().for_each(|byte| *byte = random.next() as u8);
        }
        for _ in 0..1 + random.below(6) {
            let at = random.pick(&[64, 64, 600, MILL_LIVE_BYTES]);
            let (at, any) = (random.below(at), random.next() as u8);
            held.bytes[at] = random.pick(&[0, 1, 2, 127, 128, 255, any]);
        }
        for _ in 0..6 {
            let step = any_step(random, kind, held.run());
            let mut again = held.bytes.clone();
            let before = held.bytes.clone();
            let returned = made(&mut held.bytes, &step);
            assert_eq!((returned, &held.bytes), (made(&mut again, &step), &again), "the same bytes, the same outcome");
            let number = sys::mill_number(returned);
            tally.add(number);
            assert!(returned == 0 || number > 0, "{returned}");
            assert!([0, 1, 2, 3, 11, 18, 19].contains(&number), "{number}");
            let (expected, after) = stored::stepped(&before, &step);
            assert_eq!(returned, expected.map_or_else(|refused| refused.returned(), |()| 0), "{step:?} of {}", hex(&before));
            assert!(held.bytes == after, "the bytes after {step:?}");
            // Refused, a start ends the run that the bytes hold, and leaves those that hold none.
            let mut ended = Held { bytes: after, live: None };
            starts[usize::from(stored::run_held(&ended.bytes).is_some())] += 1;
            assert_eq!(ended.start(&odd), 11);
            assert_eq!(ended.kept(0), 11);
            let room = random.pick(&[0, 100, 2048, 4096]);
            let found = read(&held.bytes, room, sys::mill_live_kept);
            assert_eq!(found, read(&held.bytes, room, sys::mill_live_kept));
            assert!([0, 10, 11].contains(&sys::mill_number(found.0)) && found.1.len() <= MILL_HELD_BYTES);
            let entry = read(&held.bytes, room, sys::mill_live_entry);
            assert_eq!(entry, read(&held.bytes, room, sys::mill_live_entry));
            let (number, all) = (sys::mill_number(entry.0), read(&held.bytes, MILL_HELD_BYTES, sys::mill_live_kept));
            assert_eq!(number == 11, sys::mill_number(all.0) == 11, "a run or none");
            assert_eq!(number == 4, all.0 == 0, "an empty run");
            assert_eq!(number == 10, all.0 > 0 && number != 11 && room < MILL_ENTRY_BYTES);
            assert!(number > 0 || entry.1.len() == MILL_ENTRY_BYTES);
        }
        // A run begins anew over any bytes.
        assert_eq!(held.start(&[]), 0);
        held.add_all(&r2_bytes());
        assert_eq!((held.kept(96), held.restore(1)), (0, 18));
    });
    tally.saw(&[0, 11], 300);
    assert!(one_alone() || starts[0] > 300 && starts[1] > 300, "{starts:?}");
}

/// Stored runs of another format or another kept rule are none: 11, and a start that 11 refuses leaves them.
#[test]
fn stored_formats() {
    begin("stored formats of a run", 0);
    let mut held = Held::begun(&[40]);
    held.add_all(&r2_bytes());
    assert_eq!(held.bytes[..4], LIVE_HEAD);
    for head in [[b'M', b'L', 3, 4], [b'M', b'L', 2, 5], [b'M', b'L', 1, 4], [b'M', b'L', 2, 3], [b'M', b'R', 2, 4], *b"live"] {
        let mut other = Held { bytes: [&head[..], &held.bytes[4..]].concat(), live: None };
        assert_eq!((other.add(&r2_bytes()[..16]), other.save(1), other.restore(1)), (11, 11, 11));
        assert_eq!((other.kept(MILL_HELD_BYTES), other.entry(MILL_ENTRY_BYTES)), (11, 11));
        assert_eq!(other.start(&[0; 3]), 11);
        assert_eq!(other.bytes[..4], head);
        assert_eq!(other.start(&[]), 0);
    }
}

/// A copy of the bytes, at another place, goes on as the original.
#[test]
fn copies_go_on() {
    cases("copies of a run go on", 60, |random| {
        let mut held = Held::begun(&[random.between(0, 30)]);
        let kind = Kind::any(random);
        for _ in 0..60 {
            let step = any_step(random, kind, held.run());
            let mut copy = held.clone();
            assert_eq!((held.step(&step), &held.bytes), (copy.step(&step), &copy.bytes));
            assert_eq!(held.entry(MILL_ENTRY_BYTES), copy.entry(MILL_ENTRY_BYTES));
        }
    });
}

/// What is held answers as the run does; read out, with any further piece behind it, it thins to the kept readings of both; and
/// what was discarded is no part of it.
#[test]
fn what_is_held_stands_for_the_run() {
    let mut discarded = 0;
    cases("what is held stands for the run", 900, |random| {
        let kind = Kind::any(random);
        let marks: Vec<i64> = (0..random.below(3)).map(|_| random.between(0, 60)).collect();
        let mut held = Held::begun(&marks);
        for _ in 0..random.pick(&[10, 40, 120]) {
            let step = any_step(random, kind, held.run());
            let before = held.run().len();
            held.step(&step);
            discarded += u64::from(held.run().len() < before);
        }
        let (_, out) = read(&held.bytes, MILL_HELD_BYTES, sys::mill_live_kept);
        let (run, records) = (held.run().to_vec(), in_rules(held.run()).unwrap());
        if !records.is_empty() {
            same_answers(random, &records, &marks, &out, &run);
        }
        let entry = Live::from_bytes(&held.bytes).entry();
        assert_eq!((&entry, &entry), (&mill::entry(&out), &mill::entry(&run)));
        let mut further = records.clone();
        for _ in 0..random.below(12) {
            further.push(kind.next(random, further.last().copied()));
        }
        further.retain(|record| record.time <= MOST_TIME);
        let piece = &bytes(&further)[run.len()..];
        let marks: Vec<u32> = marks.iter().map(|mark| *mark as u32).collect();
        assert_eq!(mill::thin(&[&out[..], piece].concat(), &marks), mill::thin(&bytes(&further), &marks));
    });
    assert!(one_alone() || discarded > 200, "{discarded} times gone back");
}
