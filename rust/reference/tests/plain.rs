//! Covers: the plain Rust of the benchmarks against the independent implementation.

use crate::support::cases::cases;
use crate::support::{recordings, sheets, summaries, texts};
use reference::recording::bytes;
use reference::summary::ENTRY_BYTES;
use reference::{self, Degree};

#[test]
fn plain_rust_answers_alike() {
    cases("plain Rust answers alike", 20_000, |random| {
        let records = if random.once_in(20) { recordings::with_many_events(random) } else { recordings::any(random) };
        let mut recording = bytes(&records);
        if random.once_in(8) {
            recording = recordings::damaged(random, recording);
        }
        let size = 1 + random.below(12);
        let mut text = texts::made(random, texts::Kind::Mixed, size, &records).into_bytes();
        if random.once_in(6) {
            text = texts::changed(random, &String::from_utf8(text).unwrap());
        }
        let room = random.pick(&[2048, 2048, 16, 7]);
        let mut out = vec![0; room];
        let plain = plain::question(&recording, &text, &mut out).map(|length| out[..length].to_vec());
        assert_eq!(plain, reference::question(&recording, &text, room).map_err(pair));

        let target = texts::number(random, &records) * random.pick(&[1, 1, 1, 3]);
        let plain = plain::degree(&recording, &text, target);
        assert_eq!(plain, reference::degree(&recording, &text, target).map(nearness).map_err(pair));

        let marks = reference::kept::mark_bytes(&recordings::marks(random, &records));
        let mut out = vec![0; recording.len()];
        let plain = plain::thin(&recording, &marks, &mut out).map(|length| out[..length].to_vec());
        assert_eq!(plain, reference::thin(&recording, &marks, recording.len()).map_err(pair));

        let e = random.pick(&[0, 1, 7, 1_000_000, 1_000_001, -1]);
        let ends = |sets: [Option<(i64, i64)>; 2]| sets.map(|set| set.map(|(low, high)| (low as i32, high as i32)));
        assert_eq!(plain::band(&recording, &text, e), reference::band(&recording, &text, e).map(ends).map_err(pair));

        let sheet = sheets::any(random);
        assert_eq!(plain::order(&recording, &sheet), reference::order(&recording, &sheet).map_err(pair));

        let room = random.pick(&[0, 31, 32, 40]);
        let mut out = vec![0; room];
        let plain = plain::entry(&recording, &mut out).map(|length| out[..length].to_vec());
        assert_eq!(plain, reference::entry(&recording, room).map_err(pair));

        let curve = random.below(3) as u32;
        let gap = random.between(0, 30);
        assert_eq!(plain::pair(&recording, curve, gap), reference::pair(&recording, curve, gap).map_err(pair));

        let mut out = vec![0; room];
        let plain = plain::lab_question(&recording, &marks, &text, &mut out).map(|length| out[..length].to_vec());
        assert_eq!(plain, reference::lab_question(&recording, &marks, &text, room).map_err(pair));
        let plain = plain::lab_degree(&recording, &marks, &text, target);
        assert_eq!(plain, reference::lab_degree(&recording, &marks, &text, target).map(nearness).map_err(pair));
        assert_eq!(plain::lab_pair(&recording, curve, gap), reference::lab_pair(&recording, curve, gap).map_err(pair));
        for kind in [texts::Kind::Temporal, texts::Kind::Temporal, texts::Kind::Listed] {
            let size = 1 + random.below(6);
            let text = texts::made(random, kind, size, &records).into_bytes();
            assert_eq!(plain::assured(&text, &marks), reference::assured(&text, &marks).map_err(pair), "{}", text.escape_ascii());
        }
        assert_eq!(plain::assured(&text, &marks), reference::assured(&text, &marks).map_err(pair));
    });
}

#[test]
fn plain_rust_finds_alike() {
    cases("plain Rust finds alike", 20_000, |random| {
        let mut entries: Vec<u8> = (0..random.below(12)).flat_map(|_| summaries::entry(random)).collect();
        if random.once_in(10) {
            entries.resize(random.pick(&[31, 33, 2_048 * ENTRY_BYTES, 2_049 * ENTRY_BYTES]), 7);
        }
        let (curve, level, room) =
            (random.below(3) as u32, summaries::level(random, &entries), random.pick(&[0, 4, 11, 48, 8_192]));
        let mut out = vec![9; room];
        let plain = plain::find(&entries, curve, level, &mut out).map(|length| out[..length].to_vec());
        // A refused call writes nothing.
        assert!(plain.is_ok() || out.iter().all(|byte| *byte == 9));
        assert_eq!(plain, reference::find(&entries, curve, level, room).map_err(pair));
    });
}

#[test]
fn plain_rust_takes_differences_alike() {
    cases("plain Rust takes differences alike", 2_000, |random| {
        let records =
            if random.once_in(2) { recordings::with_many_tops(random) } else { recordings::with_tops_on_a_grid(random) };
        let (recording, text) =
            (bytes(&records), random.pick(&["gaps(A)", "gaps(B)", "steps(A)", "lag", "lag|gaps(A)", "gaps(B)|!lag"]));
        let mut out = vec![0; 2048];
        let plain = plain::question(&recording, text.as_bytes(), &mut out).map(|length| out[..length].to_vec());
        assert_eq!(plain, reference::question(&recording, text.as_bytes(), 2048).map_err(pair));
    });
}

/// A set that stays from one record to the next, below X and elsewhere.
#[test]
fn plain_rust_looks_ahead_alike() {
    cases("plain Rust looks ahead alike", 2_000, |random| {
        let parts = [0; 2].map(|_| {
            let [p, q] = [0; 2].map(|_| random.pick(&["A=v", "T=v&fall(A)", "A<=v", "T>=v|rise(A)", "A<B", "X(B=v)"]));
            random.pick(&["F(p)", "G(p)", "U(p,q)", "W(p,q)", "(p)"]).replace('p', p).replace('q', q)
        });
        let form = random.pick(&["X(p)", "X(X(p))&q", "F(X(p)&!q)", "G(p|X(q))"]);
        let text = form.replace('p', &parts[0]).replace('q', &parts[1]);
        let recording = bytes(&recordings::any(random));
        let mut out = vec![0; 2048];
        let plain = plain::question(&recording, text.as_bytes(), &mut out).map(|length| out[..length].to_vec());
        assert_eq!(plain, reference::question(&recording, text.as_bytes(), 2048).map_err(pair), "{text}");
    });
}

#[test]
fn plain_rust_reports_alike() {
    cases("plain Rust reports alike", 500, |random| {
        let records = recordings::any(random);
        let size = 1 + random.below(6);
        let text = texts::made(random, texts::Kind::Mixed, size, &records).into_bytes();
        let target = texts::number(random, &records);
        let count = random.below(6) as u32;
        let plain = plain::Report::start(count, &text, target);
        let reference = reference::report::start(count, &text, target).map_err(pair);
        assert_eq!(plain.as_ref().err(), reference.as_ref().err());
        let (Ok(mut plain), Ok(mut reference)) = (plain, reference) else { return };
        for _ in 0..count + 1 {
            let mut recording = bytes(&recordings::any(random));
            if random.once_in(12) {
                recording = recordings::damaged(random, recording);
            }
            let added = reference.add(&recording).map(|added| match added {
                reference::report::Added::Taken => plain::Added::Taken,
                reference::report::Added::Report(reference::report::Figures { met, empty, distances, mean }) => {
                    plain::Added::Report(plain::Figures { met, empty, distances, mean })
                }
            });
            assert_eq!(plain.add(&recording), added.map_err(pair));
        }
    });
}

#[test]
fn plain_rust_grows_alike() {
    cases("plain Rust grows alike", 500, |random| {
        let records = if random.once_in(8) { recordings::with_many_events(random) } else { recordings::any(random) };
        let marks = reference::kept::mark_bytes(&recordings::marks(random, &records));
        let plain = plain::Live::start(&marks);
        let reference = reference::live::start(&marks).map_err(pair);
        assert_eq!(plain.as_ref().err(), reference.as_ref().err());
        let (Ok(mut plain), Ok(mut reference)) = (plain, reference) else { return };
        for reading in bytes(&records).chunks(16).take(200) {
            if random.once_in(6) {
                let name = random.below(10) as u32;
                assert_eq!(plain.save(name), reference.save(name).map_err(pair));
            }
            if random.once_in(12) {
                let name = random.below(10) as u32;
                assert_eq!(plain.restore(name), reference.restore(name).map_err(pair));
            }
            assert_eq!(plain.add(reading), reference.add(reading).map_err(pair));
            assert_eq!(plain.kept(), reference.kept());
            let room = random.pick(&[0, 31, 32, 40]);
            let mut out = vec![0; room];
            let entry = plain.entry(&mut out).map(|length| out[..length].to_vec());
            assert_eq!(entry, reference.entry(room).map_err(pair));
        }
    });
}

fn pair(refused: reference::Refused) -> (u32, u32) {
    (refused.number, refused.place)
}

fn nearness(degree: Degree) -> plain::Nearness {
    match degree {
        Degree::Met => Some((0.0, 1.0)),
        Degree::Short { distance, degree } => Some((distance, degree)),
        Degree::NoValue => None,
    }
}
