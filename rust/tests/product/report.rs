//! Covers: reports over batches: lists of namings and recordings of any bytes, refused ones and recordings after the last among them,
//! against a plain fold; 1,000 batches, bit for bit, and how near the mean is to the exact one; what the carried bytes are after each call,
//! whatever they were before: buffers that are too short or longer, garbage in them, other formats, copies; 256 and 257 tops; kept readings
//! as full ones.

use crate::calls::{at_the_desk, count, hex, number_of, same_numbers, shown, Tally};
use crate::support::cases::{begin, cases, one_alone};
use crate::support::r1::r1_bytes;
use crate::support::r2::r2_bytes;
use crate::support::random::Random;
use crate::support::recordings::{self, damaged, flat, with_many_events, with_tops};
use crate::support::texts::{self, Kind};
use mill::sys::{self, MILL_REPORT_BYTES};
use mill::{Figures, Refusal};
use reference::recording::{bytes, Record};
use reference::report::{self, Added, MOST_BATCHES};
use reference::set::{HIGH, LOW};
use reference::stored::{self, REPORT_HEAD};

/// A report as a caller holds it: the carried bytes, and by the plain fold what they stand for; none where no report is under way.
#[derive(Clone)]
pub struct Held {
    pub bytes: Vec<u8>,
    report: Option<report::Report>,
}

impl Held {
    /// A buffer of so many bytes in which no call has been.
    pub fn unused(length: usize) -> Held {
        Held { bytes: vec![0; length], report: None }
    }

    /// Names a report and compares, with every byte after it; the outcome's number. A naming that is refused ends the report that was held.
    #[track_caller]
    pub fn start(&mut self, named: u32, text: &[u8], target: i64) -> u32 {
        count();
        let before = self.bytes.clone();
        let room = self.bytes.len() >= MILL_REPORT_BYTES;
        let mut expected = report::start(named, text, target);
        if expected.is_ok() && !room {
            expected = Err(reference::Refused::plain(10));
        }
        let returned = at_the_desk(|desk| {
            let [first, _, output, _] = desk.turn();
            let (text_at, length) = (desk.second.put(text, first), self.bytes.len());
            // SAFETY: each pointer lies before as many bytes as its length says.
            desk.carried(&mut self.bytes, output, |report| unsafe {
                sys::mill_report_start(named, text_at, text.len(), target, report, length)
            })
        });
        let expected_return = expected.as_ref().map_or_else(|refused| refused.returned(), |_| 0);
        let call = || format!("mill_report_start of {named}, target {target}, {} bytes\n{}", before.len(), shown(text));
        same_numbers((expected_return, Some([])), returned, &[], 0, call);
        self.left_as((expected.as_ref().map(|_| ()).map_err(|refused| *refused), before.clone()), |bytes| {
            stored::named(bytes, named, text, target)
        });
        let number = number_of(&expected);
        self.report = expected.ok();
        number
    }

    /// Hands in a recording and compares; the outcome's number. Only a step that counts, and one that stops the report, changes the bytes.
    #[track_caller]
    pub fn add(&mut self, recording: &[u8]) -> u32 {
        count();
        let before = self.bytes.clone();
        let expected = match &mut self.report {
            Some(report) => report.add(recording),
            None => Err(reference::Refused::plain(15)),
        };
        let (returned, numbers, filler) = add(&mut self.bytes, recording);
        let (expected_return, figures) = match &expected {
            Ok(Added::Taken) => (0, None),
            Ok(Added::Report(figures)) => (if figures.mean.is_some() { 1 } else { 2 }, Some(figures)),
            Err(refused) => (refused.returned(), None),
        };
        let numbers_expected = figures.map(|figures| {
            let mean = figures.mean.map_or(vec![filler; 8], |mean| mean.to_le_bytes().to_vec());
            let (met, empty) = (figures.met.to_le_bytes().to_vec(), figures.empty.to_le_bytes().to_vec());
            [met, empty, figures.distances.to_le_bytes().to_vec(), mean]
        });
        let call = || format!("mill_report_add to {}\n{}", hex(&before), hex(recording));
        same_numbers((expected_return, numbers_expected), returned, &numbers, filler, call);
        let number = number_of(&expected);
        self.left_as((expected, before), |bytes| stored::handed_in(bytes, recording));
        number
    }

    /// The call's answer, and every byte after it, are those that the bytes before it fix.
    #[track_caller]
    fn left_as<A: PartialEq + std::fmt::Debug>(
        &self,
        (answer, before): stored::Left<A>,
        fixed: impl Fn(&[u8]) -> stored::Left<A>,
    ) {
        let (expected, after) = fixed(&before);
        assert_eq!(answer, expected, "the bytes fix another answer: {}", hex(&before));
        assert_eq!(hex(&self.bytes), hex(&after), "the bytes after a call of {}", hex(&before));
    }
}

const SIZES: [usize; 4] = [4, 4, 8, 8];

/// One call: what it returned, its four numbers, and what their places held before.
fn add(report: &mut [u8], recording: &[u8]) -> (u64, [Vec<u8>; 4], u8) {
    at_the_desk(|desk| {
        let [first, _, output, other] = desk.turn();
        let (recording_at, length) = (desk.recording.put(recording, first), report.len());
        let [met, empty, distances, mean] = desk.places_of(output, SIZES);
        // SAFETY: each pointer lies before as many bytes as its length says, or before its number.
        let returned = desk.carried(report, other, |report| unsafe {
            let (met, empty, distances, mean) = (met.cast(), empty.cast(), distances.cast(), mean.cast());
            sys::mill_report_add(report, length, recording_at, recording.len(), met, empty, distances, mean)
        });
        (returned, desk.numbers_of(output, SIZES), desk.filler())
    })
}

/// A buffer with room, often longer, now and then with junk in it.
fn buffer(random: &mut Random) -> Held {
    let mut held = Held::unused(MILL_REPORT_BYTES + random.pick(&[0, 0, 1, 7, 300]));
    if random.once_in(3) {
        held.bytes.fill(255);
    }
    held
}

/// A text, mostly one with a reading.
fn text(random: &mut Random, records: &[Record]) -> Vec<u8> {
    let size = random.pick(&[1, 1, 2, 4]);
    let kind = random.pick(&[Kind::Listed, Kind::Listed, Kind::Temporal, Kind::Mixed]);
    let text = texts::made(random, kind, size, records);
    if random.once_in(8) {
        return texts::changed(random, &text);
    }
    text.into_bytes()
}

/// A recording, now and then damaged or empty.
fn batch(random: &mut Random) -> Vec<u8> {
    let records = if random.once_in(40) { with_many_events(random) } else { recordings::any(random) };
    match random.below(24) {
        0 | 1 => damaged(random, bytes(&records)),
        2 if random.once_in(3) => vec![],
        _ => bytes(&records),
    }
}

#[test]
fn random_reports() {
    let (mut started, mut added) = (Tally::default(), Tally::default());
    cases("random reports", 6_000, |random| {
        let mut held = buffer(random);
        if random.once_in(4) {
            added.add(held.add(&batch(random)));
        }
        for _ in 0..1 + random.below(3) {
            let records = recordings::any(random);
            let named = random.pick(&[1, 1, 2, 2, 3, 5, 9, 1_000, 0, 1_001, u32::MAX]);
            let (text, target) = (text(random, &records), texts::target(random, &records));
            started.add(held.start(named, &text, target));
            // All of them, fewer, or some after the last.
            let all = if named > 9 { 3 } else { named as usize };
            for _ in 0..(all + random.below(3)).saturating_sub(random.below(2)) {
                added.add(held.add(&batch(random)));
            }
        }
    });
    started.saw(&[0, 6, 12, 15], 100);
    started.saw(&[5], 1);
    added.saw(&[0, 15], 2_000);
    added.saw(&[1, 3, 4], 50);
    added.saw(&[8, 9], 1);
}

/// What the library said a finished report is, after as many more that are refused.
fn figures(found: &(u64, [Vec<u8>; 4], u8)) -> Figures {
    let number = |which: usize| found.1[which].iter().rev().fold(0u64, |number, byte| number << 8 | u64::from(*byte));
    let mean = (found.0 == sys::MILL_REPORT).then(|| f64::from_bits(number(3)));
    Figures { met: number(0) as u32, empty: number(1) as u32, distances: number(2), mean }
}

/// Up to 1,000 batches of one reading at every kind of distance; the mean lies within one part in 1,000,000,000 of the exact fraction.
#[test]
fn a_thousand_batches() {
    cases("a thousand batches", 12, |random| {
        let named = random.pick(&[1_000, 1_000, 1_000, 999, 512]);
        let target = random.pick(&[0, 0, HIGH, LOW, 7]);
        // One reading: `A=v` is met or missed by the reading, `A=v&T=0` is empty where the time is another, `A<v` is far off below.
        let text = random.pick(&[&b"A=v"[..], b"A=v&T=0", b"T=v", b"A>v"]);
        let near = random.pick(&[1, 10, 1_000, 1_000_000_000]);
        let mut held = buffer(random);
        assert_eq!(held.start(named, text, target), 0);
        let mut degrees = Vec::new();
        for index in 0..named {
            let mut record = flat(1)[0];
            record.value[0] = random.between(-near, near);
            record.time = random.pick(&[0, 0, 1, 2_000_000_000]);
            let recording = record.bytes();
            match mill::degree(&recording, text, target).unwrap() {
                mill::Degree::Met => degrees.push(0),
                mill::Degree::Short { distance, .. } => degrees.push(distance as u128),
                mill::Degree::NoValue => {}
            }
            if index + 1 < named {
                assert_eq!(held.add(&recording), 0);
            } else {
                let mut copy = held.bytes.clone();
                assert_eq!(held.add(&recording), 0);
                mean_is_near(&figures(&add(&mut copy, &recording)), &degrees);
                assert_eq!(copy, held.bytes, "a copy goes on as the original");
            }
        }
        assert_eq!(held.add(&r1_bytes()), 15);
        assert_eq!(held.add(&[0; 17]), 15);
    });
}

/// |mean * D - N| * 10^9 <= N, where N / D is the exact mean: degrees in parts of 2^90, of which a mean is a whole number.
fn mean_is_near(found: &Figures, distances: &[u128]) {
    assert_eq!(u128::from(found.distances), distances.iter().sum::<u128>());
    let Some(mean) = found.mean else {
        assert!(distances.is_empty());
        return;
    };
    let one = 1u128 << 90;
    // Each part is cut off by less than one.
    let sum: u128 = distances.iter().map(|distance| one / (1 + distance)).sum();
    let times = (mean * one as f64) as u128 * distances.len() as u128;
    let apart = times.abs_diff(sum).saturating_sub(distances.len() as u128);
    assert!(apart.checked_mul(1_000_000_000).is_some_and(|apart| apart <= sum), "mean {mean:e} of {} batches", distances.len());
}

/// A reading whose `A=v` lies this far from target 0.
fn away(distance: i64) -> Vec<u8> {
    let mut record = flat(1)[0];
    record.value[0] = distance;
    record.bytes().to_vec()
}

/// Sums in the order handed in, each rounded once, and one division: the bits tell the order.
#[test]
fn the_order_of_the_batches_is_in_the_bits() {
    begin("the order of the batches is in the bits", 0);
    let mean = |distances: &[i64]| {
        let mut held = Held::unused(MILL_REPORT_BYTES);
        assert_eq!(held.start(distances.len() as u32, b"A=v", 0), 0);
        let (last, others) = distances.split_last().unwrap();
        others.iter().for_each(|distance| assert_eq!(held.add(&away(*distance)), 0));
        let found = figures(&add(&mut held.bytes, &away(*last)));
        found.mean.unwrap().to_bits()
    };
    let by_hand = |distances: &[i64]| {
        let sum = distances.iter().fold(0.0, |sum, distance| sum + 1.0 / (1.0 + *distance as f64));
        (sum / distances.len() as f64).to_bits()
    };
    let mut told = 0;
    for distances in [[0, 0, 2], [0, 2, 6], [1_000_000, 6, 0], [0, 0, 999_999_999], [2, 2, 2], [9, 9, 9]] {
        let backward: Vec<i64> = distances.iter().rev().copied().collect();
        assert_eq!(mean(&distances), by_hand(&distances));
        assert_eq!(mean(&backward), by_hand(&backward));
        told += u32::from(mean(&distances) != mean(&backward));
    }
    assert!(told > 0, "no order tells");
    // Not by the distance's mean, nor by one division of whole numbers: 0.1 + 0.2 + 0.25.
    assert_eq!(mean(&[9, 4, 3]), ((0.1f64 + 0.2 + 0.25) / 3.0).to_bits());
}

#[test]
fn reports_by_hand() {
    begin("reports by hand", 0);
    let (r1, r2) = (r1_bytes(), r2_bytes());
    let mut report = mill::Report::start(3, b"peaks(A)", 70).unwrap();
    assert_eq!(report.add(&r1), Ok(mill::Added::Taken));
    assert_eq!(report.add(&r1[..64]), Ok(mill::Added::Taken));
    // A report is its bytes.
    let mut copy = mill::Report::from_bytes(*report.as_bytes());
    let all = Figures { met: 1, empty: 1, distances: 40, mean: Some((1.0 + 1.0 / 41.0) / 2.0) };
    assert_eq!(report.add(&r1[..16]), Ok(mill::Added::Report(all)));
    assert_eq!(report.add(&r1[..16]), Err(Refusal::NoReport));
    assert_eq!(report.add(&[]), Err(Refusal::NoReport));
    // The second recording is refused: the report stops, and says no more.
    assert_eq!(copy.add(&r1[..17]), Err(Refusal::PartialRecord));
    assert_eq!(copy.add(&r1), Err(Refusal::NoReport));
    // All empty: no mean. All met: 1.
    let mut report = mill::Report::start(2, b"lag", 0).unwrap();
    assert_eq!(report.add(&r1), Ok(mill::Added::Taken));
    let none = Figures { met: 0, empty: 2, distances: 0, mean: None };
    assert_eq!(report.add(&r2), Ok(mill::Added::Report(none)));
    let mut report = mill::Report::start(1, b"high(A)", 10).unwrap();
    let met = Figures { met: 1, empty: 0, distances: 0, mean: Some(1.0) };
    assert_eq!(report.add(&r2), Ok(mill::Added::Report(met)));
    for (named, text, target, refusal) in [
        (0, &b""[..], HIGH + 1, Refusal::NoReport),
        (1_001, b"", HIGH + 1, Refusal::NoReport),
        (u32::MAX, b"lag", 0, Refusal::NoReport),
        (1, b"", HIGH + 1, Refusal::TextLength),
        (1, b"F(A>v", HIGH + 1, Refusal::NoReading),
        (1_000, b"(((((((((((((((((A>=v)))))))))))))))))", HIGH + 1, Refusal::TextTooLarge),
        (1_000, b"lag", HIGH + 1, Refusal::BadTarget),
        (1_000, b"lag", i64::MIN, Refusal::BadTarget),
    ] {
        assert_eq!(mill::Report::start(named, text, target), Err(refusal));
    }
}

/// The greatest sum of distances: 1,000 batches that lie 4,000,000,000 off.
#[test]
fn the_greatest_distances() {
    begin("the greatest distances", 0);
    let last = bytes(&[Record { time: HIGH, ..flat(1)[0] }]);
    let mut held = Held::unused(MILL_REPORT_BYTES);
    assert_eq!(held.start(MOST_BATCHES, b"T=v", LOW), 0);
    for _ in 1..MOST_BATCHES {
        assert_eq!(held.add(&last), 0);
    }
    let found = figures(&add(&mut held.bytes.clone(), &last));
    assert_eq!(held.add(&last), 0);
    assert_eq!((found.met, found.empty, found.distances), (0, 0, 4_000_000_000_000));
    assert!((found.mean.unwrap() * 4_000_000_001.0 - 1.0).abs() < 1e-9);
}

/// Every length of the buffer: naming is refused 10 after all else where it is too short, and no recording is taken from it.
#[test]
fn every_length_of_the_buffer() {
    let r1 = r1_bytes();
    let mut good = Held::unused(MILL_REPORT_BYTES);
    begin("every length of the buffer", 0);
    assert_eq!(good.start(2, b"peaks(A)", 30), 0);
    for length in (0..MILL_REPORT_BYTES + 20).rev() {
        begin("every length of the buffer", length as u64);
        let short = length < MILL_REPORT_BYTES;
        let mut held = Held::unused(length);
        held.bytes.fill(length as u8);
        for (named, text, target, number) in
            [(0, &b""[..], HIGH + 1, 15), (2, b"", HIGH + 1, 5), (2, b"F", HIGH + 1, 6), (2, b"lag", HIGH + 1, 12)]
        {
            assert_eq!(held.start(named, text, target), number);
            assert_eq!(held.add(&r1), 15);
        }
        assert_eq!(held.start(2, b"peaks(A)", 30), if short { 10 } else { 0 });
        assert_eq!(held.add(&r1), if short { 15 } else { 0 });
        // The first bytes of a report are none.
        let mut cut = Held { bytes: good.bytes.clone(), report: None };
        cut.bytes.truncate(length);
        if short {
            assert_eq!(cut.add(&r1), 15);
        }
    }
}

/// A naming that is refused ends the report that was under way; one that is taken begins anew, whatever the buffer held.
#[test]
fn a_new_naming_ends_the_old_report() {
    begin("a new naming ends the old report", 0);
    let r1 = r1_bytes();
    for (named, text, target, number) in [(0, &b"lag"[..], 0, 15), (1, b"", 0, 5), (1, b"X", 0, 6), (1, b"lag", HIGH + 1, 12)] {
        let mut held = Held::unused(MILL_REPORT_BYTES + 9);
        assert_eq!(held.start(3, b"peaks(A)", 30), 0);
        assert_eq!(held.add(&r1), 0);
        assert_eq!(held.start(named, text, target), number);
        assert_eq!(held.add(&r1), 15);
        assert_eq!(held.start(1, b"gaps(A)", 41), 0);
        assert_eq!(held.add(&r1), 0);
        assert_eq!(held.add(&r1), 15);
    }
}

/// The numbers by which `mill_report_add` refuses, whatever the bytes.
const OF_ADDING: [u32; 7] = [15, 1, 2, 3, 4, 9, 8];

/// Bytes that no call left: all zero and all 255 are no report. Of any others a call answers by a number of its list, writes its
/// numbers or not as it says, and leaves what the bytes before it fix: a refusal changes nothing where they hold no report.
#[test]
fn garbage_in_the_buffer() {
    let (mut tally, mut namings, mut unread) = (Tally::default(), [0, 0], 0);
    cases("garbage in the buffer", 6_000, |random| {
        for filler in [0, 255] {
            let mut held = Held::unused(MILL_REPORT_BYTES + random.below(3));
            held.bytes.fill(filler);
            assert_eq!(held.add(&batch(random)), 15);
        }
        let mut held = Held::unused(MILL_REPORT_BYTES);
        if random.once_in(3) {
            held.bytes.iter_mut().for_each(|byte| *byte = random.next() as u8);
        } else {
            assert_eq!(held.start(random.pick(&[1, 2, 1_000]), b"peaks(A)|A=v", 7), 0);
            for _ in 0..random.below(2) {
                held.add(&r1_bytes());
            }
            for _ in 0..1 + random.below(3) {
                let at = if random.once_in(3) { random.below(MILL_REPORT_BYTES) } else { random.below(64) };
                let any = random.next() as u8;
                held.bytes[at] = random.pick(&[0, 1, 2, 127, 128, 255, any]);
            }
        }
        // Refused, a naming ends the report that the bytes hold, and leaves those that hold none.
        let mut ended = Held { bytes: held.bytes.clone(), report: None };
        let holds = stored::report_in(&held.bytes).is_some();
        namings[usize::from(holds)] += 1;
        unread += u32::from(!holds && held.bytes[..4] == REPORT_HEAD);
        assert_eq!(ended.start(random.pick(&[0, 1_001]), b"lag", 0), 15);
        assert_eq!(ended.bytes == held.bytes, !holds);
        assert_eq!(ended.add(&r1_bytes()), 15);
        let recording = batch(random);
        let (mut first, mut second) = (held.bytes.clone(), held.bytes.clone());
        let (returned, numbers, filler) = add(&mut first, &recording);
        let (again, same, other_filler) = add(&mut second, &recording);
        let number = sys::mill_number(returned);
        tally.add(number);
        assert_eq!((returned, &first), (again, &second), "the same bytes, the same outcome");
        assert!(number == 0 && returned <= 2 || OF_ADDING.contains(&number), "{returned:x}");
        let (expected, after) = stored::handed_in(&held.bytes, &recording);
        assert_eq!((number, &first), (number_of(&expected), &after), "{}", hex(&held.bytes));
        if let (Ok(Added::Report(expected)), 1..) = (expected, returned) {
            let found = figures(&(returned, numbers.clone(), filler));
            assert_eq!((found.met, found.empty, found.distances), (expected.met, expected.empty, expected.distances));
            assert_eq!(found.mean.map(f64::to_bits), expected.mean.map(f64::to_bits));
        }
        let written = if number == 0 { [0, 4, 3][returned as usize] } else { 0 };
        for which in 0..4 {
            let untouched = |numbers: &[Vec<u8>; 4], filler: u8| numbers[which].iter().all(|byte| *byte == filler);
            assert!(
                which < written || untouched(&numbers, filler) && untouched(&same, other_filler),
                "number {which} of {returned}"
            );
        }
        // Naming begins anew over any bytes.
        held.bytes = first;
        assert_eq!(held.start(1, b"high(A)", 0), 0);
        assert_eq!(held.add(&r1_bytes()), 0);
    });
    tally.saw(&[15], 500);
    assert!(
        one_alone() || namings[0] > 500 && namings[1] > 500 && unread > 500,
        "{namings:?}, {unread} with the head of a report"
    );
}

/// Stored reports that hold a text without a reading, and those of another format or another kept rule, are none: 15 before all else.
#[test]
fn stored_texts_and_formats() {
    begin("stored texts and formats", 0);
    let mut held = Held::unused(MILL_REPORT_BYTES);
    assert_eq!(held.start(2, b"peaks(A)", 30), 0);
    assert_eq!(held.bytes[..4], REPORT_HEAD);
    let none = |bytes: Vec<u8>| {
        let mut other = Held { bytes, report: None };
        assert_eq!(other.add(&r1_bytes()), 15);
        assert_eq!(other.add(&[0; 17]), 15);
        assert_eq!(other.start(0, b"", 0), 15);
    };
    // A length of the text of 0, and over 256; a text without a reading; one with 17 brackets open.
    let with = |at: usize, part: &[u8]| [&held.bytes[..at], part, &held.bytes[at + part.len()..]].concat();
    none(with(48, &[0]));
    none(with(48, &[1, 1]));
    none(with(52, b"beaks"));
    let deep = [&[b'('; 17][..], b"A>=v", &[b')'; 17]].concat();
    none(with(48, &[&[deep.len() as u8, 0, 0, 0][..], &deep].concat()));
    // One more format, one more rule, and the head of version 1.0.
    for head in [[b'M', b'R', 3, 4], [b'M', b'R', 2, 5], [b'M', b'R', 1, 4], [b'M', b'R', 2, 3], [b'M', b'L', 2, 4], *b"rept"] {
        none(with(0, &head));
    }
    assert_eq!(held.add(&r1_bytes()), 0);
}

/// A copy of the bytes, at another place, goes on as the original.
#[test]
fn copies_go_on() {
    cases("copies go on", 600, |random| {
        let mut held = buffer(random);
        let records = recordings::any(random);
        let text = text(random, &records);
        if held.start(4, &text, 3) != 0 {
            return;
        }
        for _ in 0..5 {
            let recording = batch(random);
            let mut copy = held.clone();
            let (one, two) = (held.add(&recording), copy.add(&recording));
            assert_eq!((one, &held.bytes), (two, &copy.bytes));
        }
    });
}

/// 256 tops are counted, 257 stop the report with 8 or, where the tops themselves count, 9.
#[test]
fn two_hundred_and_fifty_six_tops_and_one_more() {
    begin("two hundred and fifty-six tops and one more", 0);
    let tops = |count: usize| bytes(&with_tops(4096, [count, 0]));
    for (text, number) in [(&b"peaks(A)"[..], 8), (b"gaps(A)", 9)] {
        let mut held = Held::unused(MILL_REPORT_BYTES);
        assert_eq!(held.start(3, text, 16), 0);
        assert_eq!(held.add(&tops(256)), 0);
        assert_eq!(held.add(&tops(257)), number);
        assert_eq!(held.add(&tops(256)), 15);
        assert_eq!(held.start(2, text, 16), 0);
        assert_eq!(held.add(&tops(256)), 0);
        assert_eq!(held.add(&tops(256)), 0);
    }
}

/// Every refusal of the degree call stops a report with its number and place.
#[test]
fn every_refusal_stops_the_report() {
    begin("every refusal stops the report", 0);
    let mut bad = r1_bytes();
    bad[5 * 16 + 13] = 3;
    let many = bytes(&with_tops(4096, [257, 0]));
    for (recording, number) in [(&bad[1..], 1), (&bytes(&flat(4097))[..], 2), (&bad[..], 3), (&[][..], 4), (&many[..], 9)] {
        let mut held = Held::unused(MILL_REPORT_BYTES + 1);
        assert_eq!(held.start(2, b"gaps(A)", 0), 0);
        assert_eq!(held.add(recording), number);
        assert_eq!(held.add(&r1_bytes()), 15);
    }
}

/// From kept readings the same report, bit for bit, for texts and after-times as the thinning promises.
#[test]
fn kept_readings_give_the_same_report() {
    let mut dropped = 0;
    cases("kept readings give the same report", 1_500, |random| {
        let mark = random.between(0, 40) as u32;
        let text =
            random.pick(&["peaks(A)", "high(A)&low(B)", "lag|gaps(B)", "ampl(A)", "cross", "lowafter(B,K)", "!capafter(A,K)"]);
        let text = text.replace('K', &mark.to_string());
        let target = random.between(-50, 50);
        let mut reports = [(); 2].map(|()| mill::Report::start(4, text.as_bytes(), target).unwrap());
        for _ in 0..4 {
            let full = bytes(&recordings::any(random));
            let kept = mill::thin(&full, &[mark]).unwrap();
            dropped += u64::from(kept.len() < full.len());
            let [of_full, of_kept] = [(0, &full), (1, &kept)].map(|(which, recording)| {
                let added = reports[which].add(recording);
                let bits = |figures: Figures| figures.mean.map(f64::to_bits);
                (added, added.ok().and_then(|added| if let mill::Added::Report(figures) = added { bits(figures) } else { None }))
            });
            assert_eq!(of_full, of_kept, "{text}");
        }
    });
    assert!(one_alone() || dropped > 1_000, "readings were dropped in {dropped} cases only");
}
