//! Covers: the question call on random recordings and texts, read and unread, with outputs of any length; sets near the limit
//! of 256 runs; many tops, dips, crossings and additions; long recordings.

use crate::calls::{question, Tally};
use crate::support::cases::cases;
use crate::support::random::Random;
use crate::support::recordings::{self, put_top, with_additions, with_many_additions, with_many_events, with_many_tops};
use crate::support::texts::{self, Kind};
use mill::sys::MILL_SET_BYTES;
use reference::recording::{bytes, Record, FLAT};

/// An output's length: room for all, or some few bytes.
pub fn room(random: &mut Random) -> usize {
    match random.below(8) {
        0 | 1 => 8 * random.below(8),
        2 => random.below(70),
        3 => random.below(MILL_SET_BYTES),
        _ => MILL_SET_BYTES + random.below(40),
    }
}

fn random_questions(name: &'static str, count: u64) {
    let mut tally = Tally::default();
    cases(name, count, |random| {
        let records = recordings::any(random);
        let most = random.pick(&[9, 9, 9, 9, 9, 34]);
        let size = 1 + random.below(most);
        let mut text = texts::made(random, Kind::Mixed, size, &records).into_bytes();
        if random.once_in(6) {
            text = texts::changed(random, &String::from_utf8(text).unwrap());
        }
        let room = room(random);
        tally.add(question(&bytes(&records), &text, room));
    });
    tally.saw(&[0], count / 5);
    tally.saw(&[5, 6, 7, 10], count / 1000);
}

#[test]
fn random_questions_one() {
    random_questions("random questions one", 30_000);
}

#[test]
fn random_questions_two() {
    random_questions("random questions two", 30_000);
}

/// Values that lie apart, so that each makes a run of its own, on about as many records as a set may have runs.
fn spread(random: &mut Random) -> Vec<Record> {
    let distinct = 242 + random.below(30) as i64;
    let apart = random.pick(&[1, 2, 2, 3, 1000]);
    let count = 250 + random.below(110);
    let mut records = recordings::accepted(random, count);
    let ordered = random.once_in(2);
    for (index, record) in records.iter_mut().enumerate() {
        let chosen = if ordered { index as i64 % distinct } else { random.between(0, distinct) };
        record.value[0] = apart * chosen;
        record.value[1] = record.value[0] + random.pick(&[0, 0, 1, 5]);
    }
    records
}

/// Texts whose sets have many runs.
fn wide_text(random: &mut Random, records: &[Record]) -> String {
    let size = 1 + random.below(3);
    let inner = random.pick(&["A=v", "A=v|B=v", "A<=v&B>=v", "A=v&!fall(A)", "T=v&A>B", "A=v|T=v", "X(A=v)"]);
    let other = texts::made(random, Kind::Temporal, size, records);
    match random.below(9) {
        0 => format!("F({inner})"),
        1 => format!("!F({inner})"),
        2 => format!("G(!({inner}))"),
        3 => format!("U({other},{inner})"),
        4 => format!("U(!({inner}),{other})"),
        5 => format!("W({other},{inner})"),
        6 => format!("F({inner})&{other}|F({inner})"),
        7 => format!("U(F({inner}),F({other}))"),
        _ => format!("X(F({inner}))|{other}"),
    }
}

#[test]
fn sets_near_the_limit() {
    let mut tally = Tally::default();
    cases("sets near the limit", 3_000, |random| {
        let records = spread(random);
        let text = wide_text(random, &records);
        let room = room(random);
        tally.add(question(&bytes(&records), text.as_bytes(), room));
    });
    tally.saw(&[0, 8], 300);
    tally.saw(&[10], 100);
}

#[test]
fn many_tops() {
    let mut tally = Tally::default();
    cases("many tops", 6_000, |random| {
        let records = with_many_tops(random);
        let size = random.pick(&[1, 1, 1, 3, 5]);
        let text = texts::made(random, Kind::Listed, size, &records);
        let room = room(random);
        tally.add(question(&bytes(&records), text.as_bytes(), room));
    });
    tally.saw(&[0, 8, 9, 10], 100);
}

/// Names of events alone, joined, complemented and met.
#[test]
fn many_events() {
    let mut tally = Tally::default();
    cases("many events", 9_000, |random| {
        let records = with_many_events(random);
        let names = ["peaks(A)", "peaks(B)", "dips(A)", "dips(B)", "cross", "crossup"];
        let (one, other) = (random.pick(&names), random.pick(&names));
        let text = match random.below(6) {
            0 | 1 => one.into(),
            2 => format!("{one}|{other}"),
            3 => format!("!({one}&{other})"),
            4 => format!("!{one}&T<v"),
            _ => format!("!!{one}"),
        };
        let room = room(random);
        tally.add(question(&bytes(&records), text.as_bytes(), room));
    });
    tally.saw(&[0, 8, 10], 300);
}

/// Doses and their atom, alone, joined, complemented and in formulas.
#[test]
fn many_additions() {
    let mut tally = Tally::default();
    cases("many additions", 9_000, |random| {
        let records = with_many_additions(random);
        let (k, other) = (texts::pigment(random, &records), texts::pigment(random, &records));
        let text = match random.below(9) {
            0 | 1 => format!("dose({k})"),
            2 => format!("dose({k})|dose({other})"),
            3 => format!("!(dose({k})&!dose({other}))"),
            4 => format!("!dose({k})&T<v|P={other}"),
            5 => format!("F(P={k}&T=v)"),
            6 => format!("F(P={k}&A=v|P={other}&T=v)"),
            7 => format!("U(!P={k},P={other}&T=v)|F(P={k}&X(T=v))"),
            _ => format!("dose({k})&peaks(A)|cross&dose({other})"),
        };
        let room = room(random);
        tally.add(question(&bytes(&records), text.as_bytes(), room));
    });
    tally.saw(&[0, 8, 10], 300);
}

/// 4,096 additions, of one kind or of several.
#[test]
fn four_thousand_and_ninety_six_additions() {
    let mut tally = Tally::default();
    cases("four thousand and ninety-six additions", 60, |random| {
        let mut records = with_additions(4096, 4096, 1 + random.below(16) as u8);
        let others = random.pick(&[0, 0, 100, 255, 256, 300, 4096]);
        for _ in 0..others {
            records[random.below(4096)].pigment = 1 + random.below(16) as u8;
        }
        let (k, other) = (texts::pigment(random, &records), texts::pigment(random, &records));
        for text in [format!("dose({k})"), format!("dose({k})|dose({other})"), format!("F(P={k}&T=v)")] {
            tally.add(question(&bytes(&records), text.as_bytes(), MILL_SET_BYTES));
        }
    });
    tally.saw(&[0, 8], 20);
}

/// Chains of `|` and `&` over sets of about 180 runs: which two are put together first decides whether 8 is due.
#[test]
fn chains_near_the_limit() {
    let mut tally = Tally::default();
    cases("chains near the limit", 6_000, |random| {
        let mut records = recordings::accepted(random, 800);
        for curve in 0..2 {
            records.iter_mut().for_each(|record| record.slope[curve] = FLAT);
            for top in 0..100 + random.below(160) {
                put_top(&mut records, curve, 1 + curve + 3 * top);
            }
        }
        let parts = [
            "peaks(A)",
            "peaks(B)",
            "!peaks(A)",
            "!peaks(B)",
            "dips(A)",
            "!dips(B)",
            "cross",
            "crossup",
            "dose(1)",
            "!dose(16)",
            "high(A)",
            "low(B)",
            "A<v",
            "A>v",
            "T<v",
            "lag",
        ];
        let mut text = random.pick(&parts).to_string();
        for _ in 0..2 + random.below(4) {
            let sign = random.pick(&["|", "&"]);
            text = match random.below(5) {
                0 => format!("({text}){sign}{}", random.pick(&parts)),
                1 => format!("{}{sign}({text})", random.pick(&parts)),
                2 => format!("{}{sign}{text}", random.pick(&parts)),
                _ => format!("{text}{sign}{}", random.pick(&parts)),
            };
        }
        tally.add(question(&bytes(&records), text.as_bytes(), MILL_SET_BYTES));
    });
    tally.saw(&[0, 8], 1_000);
}

#[test]
fn long_recordings() {
    let mut tally = Tally::default();
    cases("long recordings", 160, |random| {
        let count = random.pick(&[4096, 4096, 4095, 3000]);
        let mut records = recordings::accepted(random, count);
        let few = random.between(1, 160);
        records.iter_mut().for_each(|record| record.value = record.value.map(|value| value.rem_euclid(few) * 2));
        let size = 1 + random.below(6);
        let text = texts::made(random, Kind::Mixed, size, &records);
        tally.add(question(&bytes(&records), text.as_bytes(), MILL_SET_BYTES));
    });
    tally.saw(&[0, 8], 10);
}
