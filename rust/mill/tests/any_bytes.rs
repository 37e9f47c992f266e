//! Covers: the crate on any bytes: random ones, recordings with some bytes changed, texts of all kinds. Every call gives a result
//! that is as its type says or a refusal that has a number and a sentence; none panics. (`tests/rust/panics` looks at the object
//! code for the same.)

use mill::{Curve, Degree, Entry, Live, Order, Reading, Refusal, Report, Set, Slope, Thinning};

/// Random numbers with a seed (xorshift).
struct Random(u64);

impl Random {
    fn next(&mut self) -> u64 {
        self.0 ^= self.0 << 13;
        self.0 ^= self.0 >> 7;
        self.0 ^= self.0 << 17;
        self.0
    }

    fn below(&mut self, end: u64) -> u64 {
        self.next() % end
    }

    fn bytes(&mut self, most: u64) -> Vec<u8> {
        (0..self.below(most + 1)).map(|_| self.next() as u8).collect()
    }

    /// A reading that keeps the rules.
    fn reading(&mut self, time: u32) -> Reading {
        let slopes = [Slope::Falling, Slope::Flat, Slope::Rising];
        let slope = |number: u64| slopes[number as usize % 3];
        Reading {
            time,
            a: self.below(200) as i32 - 100,
            b: self.below(200) as i32 - 100,
            slope_a: slope(self.next()),
            slope_b: slope(self.next()),
            pigment: if self.below(4) == 0 { self.below(17) as u8 } else { 0 },
        }
    }

    fn recording(&mut self, most: u64) -> Vec<u8> {
        let readings: Vec<Reading> = (0..self.below(most + 1)).map(|index| self.reading(10 * index as u32)).collect();
        mill::encode(&readings)
    }

    /// A recording, one with some of its bytes changed or left out, or bytes that never were one.
    fn bytes_of_any_kind(&mut self) -> Vec<u8> {
        let mut bytes = self.recording(40);
        match self.below(4) {
            0 => return self.bytes(400),
            1 if !bytes.is_empty() => {
                for _ in 0..1 + self.below(3) {
                    let at = self.below(bytes.len() as u64) as usize;
                    bytes[at] = self.next() as u8;
                }
            }
            2 => bytes.truncate(self.below(641) as usize),
            _ => {}
        }
        bytes
    }

    fn text(&mut self) -> Vec<u8> {
        const TEXTS: [&str; 16] = [
            "high(A)",
            "low(B)",
            "peaks(A)",
            "dips(B)",
            "cross",
            "crossup|lag",
            "gaps(A)",
            "steps(B)&!ampl(A)",
            "lowafter(A,40)",
            "capafter(A,40)",
            "dose(7)",
            "F(A>=v&X(P=3))",
            "G(A>B)|T<v",
            "U(rise(A),fall(B)&T=v)",
            "ampl(A)",
            "W(A=v,B=v)",
        ];
        let mut text = TEXTS[self.below(16) as usize].as_bytes().to_vec();
        match self.below(6) {
            0 => return self.bytes(300),
            1 => {
                let at = self.below(text.len() as u64) as usize;
                text[at] = b"()!&|AFGXUWTPv0"[self.below(15) as usize];
            }
            _ => {}
        }
        text
    }

    fn number(&mut self) -> i64 {
        match self.below(4) {
            0 => self.next() as i64,
            1 => i64::from(self.next() as i32),
            _ => self.below(400) as i64 - 200,
        }
    }

    fn marks(&mut self) -> Vec<u32> {
        (0..self.below(10)).map(|_| if self.below(8) == 0 { self.next() as u32 } else { 40 }).collect()
    }
}

/// A refusal is one of the table; its sentence is its own.
fn judge<T>(outcome: Result<T, Refusal>) -> Option<T> {
    outcome
        .map_err(|refusal| {
            assert!((1..=20).contains(&refusal.number()), "{refusal:?}");
            assert!(refusal.number() == 3 || refusal.place() == 0, "{refusal:?}");
            assert!(refusal.to_string().starts_with(refusal.sentence()));
        })
        .ok()
}

fn judge_set(set: &Set) {
    assert!(set.iter().all(|run| run.low <= run.high));
    assert!(set.runs().windows(2).all(|two| i64::from(two[0].high) + 1 < i64::from(two[1].low)), "{set:?}");
    assert_eq!(set.is_empty(), set.len() == 0);
    let all: u64 = set.into_iter().map(|run| (i64::from(run.high) - i64::from(run.low) + 1) as u64).sum();
    assert_eq!(set.len(), all);
    for run in set {
        assert!(set.contains(run.low.into()) && set.contains(run.high.into()));
        assert!(!set.contains(i64::from(run.low) - 1) && !set.contains(i64::from(run.high) + 1));
    }
    assert!(!set.contains(i64::MIN) && !set.contains(i64::MAX));
}

#[test]
fn calls_on_a_recording() {
    let mut random = Random(0x5eed_0001);
    let mut answered = [0; 10];
    for _ in 0..20_000 {
        let (recording, text) = (random.bytes_of_any_kind(), random.text());
        let (target, marks) = (random.number(), random.marks());
        let curve = [Curve::A, Curve::B][random.below(2) as usize];
        let sheet: Vec<[u8; 2]> = (0..random.below(35)).map(|_| [random.below(18) as u8, 1 + random.below(16) as u8]).collect();
        let mut seen = |call: usize, there: bool| answered[call] += u32::from(there);

        let set = judge(mill::question(&recording, &text));
        set.iter().for_each(judge_set);
        let near = judge(mill::degree(&recording, &text, target));
        if let (Some(set), Some(near)) = (&set, near) {
            assert_eq!(near == Degree::Met, set.contains(target));
            assert_eq!(near == Degree::NoValue, set.is_empty());
        }
        seen(0, set.is_some());
        seen(1, near.is_some());
        seen(2, judge(mill::pair(&recording, curve, target)).is_some());
        let kept = judge(mill::thin(&recording, &marks));
        if let Some(kept) = &kept {
            assert_eq!(mill::thin(kept, &marks).as_ref(), Ok(kept));
            assert_eq!(mill::encode(&mill::decode(kept).unwrap()), *kept);
        }
        seen(3, kept.is_some());
        seen(4, judge(mill::band(&recording, &text, target)).is_some());
        let order = judge(mill::order(&recording, &sheet));
        assert!(!matches!(order, Some(Order::Broken { line, .. }) if line as usize >= sheet.len()));
        seen(5, order.is_some());
        let told = judge(mill::lab_question(&recording, &marks, &text));
        told.iter().for_each(|told| assert_eq!(Some(told), set.as_ref()));
        seen(6, told.is_some());
        seen(7, judge(mill::lab_degree(&recording, &marks, &text, target)).is_some());
        seen(8, judge(mill::lab_pair(&recording, curve, target)).is_some());
        let assured = judge(mill::assured(&text, &marks));
        if let (Some(true), Some(kept)) = (assured, &kept) {
            assert_eq!(mill::question(kept, &text), mill::question(&recording, &text));
        }
        seen(9, assured.is_some());
    }
    assert!(answered.iter().all(|count| *count > 100), "each call has results: {answered:?}");
}

#[test]
fn recordings_decoded_and_encoded() {
    let mut random = Random(0x5eed_0002);
    let mut taken = 0;
    for _ in 0..20_000 {
        let bytes = random.bytes_of_any_kind();
        // The library says of the same bytes what the decoder says.
        let library = mill::thin(&bytes, &[]).map(|_| ());
        let decoded = mill::decode(&bytes);
        assert_eq!(decoded.as_ref().map(|_| ()).map_err(|refusal| *refusal), library);
        if let Some(readings) = judge(decoded) {
            assert_eq!(mill::encode(&readings), bytes);
            for (reading, bytes) in readings.iter().zip(bytes.chunks(16)) {
                assert_eq!(Reading::from_bytes(bytes.try_into().unwrap()).as_ref(), Ok(reading));
            }
            taken += 1;
        }
        let one: [u8; 16] = std::array::from_fn(|_| random.next() as u8);
        judge(Reading::from_bytes(one));
    }
    assert!(taken > 5_000, "{taken}");
}

#[test]
fn pieces() {
    let mut random = Random(0x5eed_0003);
    let mut taken = 0;
    for _ in 0..3_000 {
        let marks = random.marks();
        let Some(mut thinning) = judge(Thinning::start(&marks)) else { continue };
        let mut joined = Vec::new();
        for _ in 0..4 {
            let mut piece = random.bytes_of_any_kind();
            if random.below(2) == 0 {
                // Behind what is there.
                let first = mill::decode(&joined).unwrap().last().map_or(0, |last| last.time + 1);
                piece = mill::encode(&[random.reading(first), random.reading(first + 1)]);
            }
            let before = thinning.clone();
            match judge(thinning.take(&piece)) {
                Some(()) => joined.extend_from_slice(&piece),
                None => assert_eq!(thinning, before, "a refused piece loses nothing"),
            }
            assert_eq!(thinning.held(), mill::thin(&joined, &marks).unwrap());
            taken += 1;
        }
        assert_eq!(Thinning::resume(&marks, thinning.held()).as_ref(), Ok(&thinning));
    }
    assert!(taken > 4_000, "{taken}");
}

#[test]
fn entries() {
    let mut random = Random(0x5eed_0006);
    let mut found = 0;
    for _ in 0..4_000 {
        let recording = random.bytes_of_any_kind();
        let entry = judge(mill::entry(&recording));
        let mut entries = vec![Entry::from_bytes(std::array::from_fn(|_| random.next() as u8)); random.below(3) as usize];
        entries.extend(entry);
        let (curve, level) = ([Curve::A, Curve::B][random.below(2) as usize], random.number());
        if let Some(numbers) = judge(mill::find(&entries, curve, level)) {
            assert!(
                numbers.windows(2).all(|two| two[0] < two[1]) && numbers.iter().all(|number| (*number as usize) < entries.len())
            );
            found += numbers.len();
        }
        judge(mill::find_into(&random.bytes(100), curve, level, &mut [0; 8]));
    }
    assert!(found > 500, "{found}");
}

#[test]
fn reports() {
    let mut random = Random(0x5eed_0004);
    for _ in 0..2_000 {
        let report = Report::start(random.below(4) as u32, &random.text(), random.number());
        let Some(mut report) = judge(report) else { continue };
        for _ in 0..4 {
            judge(report.add(&random.bytes_of_any_kind()));
        }
        let mut bytes = *report.as_bytes();
        for _ in 0..3 {
            bytes[random.below(320) as usize] = random.next() as u8;
        }
        judge(Report::from_bytes(bytes).add(&random.recording(10)));
        let any = std::array::from_fn(|_| random.next() as u8);
        judge(Report::from_bytes(any).add(&random.recording(10)));
    }
}

#[test]
fn growing_runs() {
    let mut random = Random(0x5eed_0005);
    for round in 0..1_000 {
        let Some(mut run) = judge(Live::start(&random.marks())) else { continue };
        for time in 0..20 {
            judge(run.add(&random.reading(time).to_bytes()));
            judge(run.add(&random.bytes(20)));
            judge(run.save(random.below(10) as u32));
            judge(run.restore(random.next() as u32 % 12));
            judge(run.kept()).expect("a run that was started");
            judge(run.entry());
        }
        if round % 4 == 0 {
            let mut bytes = run.as_bytes().to_vec();
            for _ in 0..3 {
                let at = random.below(bytes.len() as u64) as usize;
                bytes[at] = random.next() as u8;
            }
            bytes.truncate(if random.below(4) == 0 { random.below(18_625) as usize } else { usize::MAX });
            let mut run = Live::from_bytes(&bytes);
            judge(run.kept());
            judge(run.add(&random.reading(1_000).to_bytes()));
            judge(run.restore(1));
            judge(run.kept_into(&mut [0; 40]));
        }
    }
}
