//! Covers: the order call: sheets of every length on recordings with few and many additions, damaged ones of both; every small
//! recording with every small sheet; the edges of the sheet; lines taken off; that kept readings, and every selection that
//! includes them, give the same time and line.

use crate::calls::{order, Tally};
use crate::support::cases::{begin, cases, one_alone};
use crate::support::r3::r3_bytes;
use crate::support::random::Random;
use crate::support::recordings::{self, flat};
use crate::support::sheets;
use mill::{Order, Refusal};
use reference::kept::chosen;
use reference::recording::{bytes, Record, MOST_PIGMENT};
use reference::sheet::{LINE_BYTES, MOST_LINES};

/// A recording with these pigments, ten tenths of a second apart.
fn with(pigments: &[u8]) -> Vec<Record> {
    let mut records = flat(pigments.len());
    for (index, (record, pigment)) in records.iter_mut().zip(pigments).enumerate() {
        record.time = 10 * index as i64;
        record.pigment = *pigment;
    }
    records
}

fn lines(sheet: &[u8]) -> Vec<[u8; LINE_BYTES]> {
    sheet.chunks_exact(LINE_BYTES).map(|line| [line[0], line[1]]).collect()
}

/// Additions of few pigments or of all, now and then at every record.
fn additions(random: &mut Random) -> Vec<Record> {
    let mut records = if random.once_in(10) { recordings::with_many_additions(random) } else { recordings::any(random) };
    if random.once_in(2) {
        let most = random.pick(&[2, 4, 17]);
        records.iter_mut().for_each(|record| record.pigment = random.below(most) as u8);
    }
    records
}

#[test]
fn random_sheets() {
    let (mut tally, mut met, mut broken) = (Tally::default(), 0, 0);
    cases("random sheets", 40_000, |random| {
        let records = additions(random);
        let mut recording = bytes(&records);
        if random.once_in(8) {
            recording = recordings::damaged(random, recording);
        }
        let lines_wanted = sheets::length(random);
        let mut sheet = if random.once_in(2) { sheets::met(random, &records, lines_wanted) } else { sheets::any(random) };
        if random.once_in(3) && sheet.len() + LINE_BYTES <= MOST_LINES * LINE_BYTES {
            sheet.extend(sheets::accepted(random, 1));
        }
        tally.add(order(&recording, &sheet));
        match mill::order(&recording, &lines(&sheet)) {
            Ok(Order::Met) if !sheet.is_empty() => met += 1,
            Ok(Order::Broken { .. }) => broken += 1,
            _ => {}
        }
    });
    tally.saw(&[0, 3, 13], 200);
    tally.saw(&[1, 4], 10);
    assert!(one_alone() || met > 5_000 && broken > 5_000, "{met} met, {broken} broken");
}

/// Every recording of up to four records with pigments 0 to 3, and every sheet of up to two lines of 1 to 3.
#[test]
fn every_small_sheet() {
    begin("every small sheet", 0);
    let mut recordings: Vec<Vec<u8>> = vec![vec![]];
    let mut all: Vec<Vec<u8>> = vec![];
    for _ in 0..4 {
        recordings = recordings.iter().flat_map(|r| (0..4).map(move |k| [&r[..], &[k]].concat())).collect();
        all.extend(recordings.clone());
    }
    let line = || (1..4).flat_map(|a| (1..4).map(move |b| vec![a, b]));
    let two = line().flat_map(|first| line().map(move |second| [&first[..], &second].concat()));
    let sheets: Vec<Vec<u8>> = [vec![]].into_iter().chain(line()).chain(two).collect();
    for pigments in &all {
        let recording = bytes(&with(pigments));
        for sheet in &sheets {
            assert_eq!(order(&recording, sheet), 0);
        }
    }
}

#[test]
fn findings_by_hand() {
    begin("findings by hand", 0);
    let broken = |time: u32, line: u32| Ok(Order::Broken { time, line });
    for (pigments, sheet, expected) in [
        // First the record, then the line.
        (&[0, 3, 2][..], &[[1, 2], [4, 3]][..], broken(10, 1)),
        (&[2, 1], &[[5, 6], [1, 2], [3, 2]], broken(0, 1)),
        (&[1, 2, 1, 2], &[[1, 2]], Ok(Order::Met)),
        (&[2, 1, 2], &[[1, 2]], broken(0, 0)),
        // Never added.
        (&[0, 2], &[[1, 2]], broken(10, 0)),
        (&[1, 3], &[[1, 2]], Ok(Order::Met)),
        // A line with a equal to b.
        (&[1, 3, 3], &[[3, 3]], broken(10, 0)),
        (&[1, 2, 1], &[[3, 3]], Ok(Order::Met)),
        (&[0], &[], Ok(Order::Met)),
        (&[16, 16], &[], Ok(Order::Met)),
        (&[0, 15, 16], &[[15, 16]], Ok(Order::Met)),
        (&[0, 16, 15], &[[15, 16]], broken(10, 0)),
    ] {
        let recording = bytes(&with(pigments));
        assert_eq!(mill::order(&recording, sheet), expected, "{pigments:?} {sheet:?}");
        order(&recording, sheet.as_flattened());
    }
    assert_eq!(mill::order(&r3_bytes(), &[[7, 16]]), Ok(Order::Met));
    assert_eq!(mill::order(&r3_bytes(), &[[7, 16], [16, 7]]), broken(20, 1));
    assert_eq!(mill::order(&[], &[[7, 16]]), Err(Refusal::NoRecord));
    assert_eq!(mill::order(&r3_bytes(), &[[7, 17]]), Err(Refusal::BadSheet));
    assert_eq!(mill::order(&r3_bytes(), &[[0, 16]]), Err(Refusal::BadSheet));
}

/// 32 lines and 33, every number of a byte at either place of every line, odd lengths; 4 before 13, and 13 after 1, 2 and 3.
#[test]
fn edges_of_the_sheet() {
    begin("edges of the sheet", 0);
    let recording = bytes(&with(&[1, 2, 16]));
    for length in 0..=2 * MOST_LINES + 4 {
        let sheet: Vec<u8> = [1, 2].into_iter().cycle().take(length).collect();
        let refused = length % LINE_BYTES != 0 || length > MOST_LINES * LINE_BYTES;
        assert_eq!(order(&recording, &sheet), if refused { 13 } else { 0 }, "{length}");
        assert_eq!(order(&[], &sheet), 4);
        assert_eq!(order(&recording[1..], &sheet), 1);
    }
    for at in 0..2 * MOST_LINES {
        for number in 0..=255 {
            let mut sheet = [1, 2].repeat(MOST_LINES);
            sheet[at] = number;
            let refused = number == 0 || number > MOST_PIGMENT;
            assert_eq!(order(&recording, &sheet), if refused { 13 } else { 0 }, "{number} at {at}");
        }
    }
    assert_eq!(order(&recording, &[1; 1 << 16]), 13);
    assert_eq!(order(&bytes(&flat(4097)), &[1]), 2);
    let mut bad = recording.clone();
    bad[31] = 1;
    assert_eq!(order(&bad, &[1]), 3);
    // As many additions as records, and the last of them breaks the last line.
    let mut pigments = [1, 2, 3].repeat(1_365);
    pigments.push(16);
    let sheet = [&[1, 2].repeat(MOST_LINES - 1)[..], &[15, 16]].concat();
    let recording = bytes(&with(&pigments));
    order(&recording, &sheet);
    assert_eq!(mill::order(&recording, &lines(&sheet)), Ok(Order::Broken { time: 40_950, line: 31 }));
}

/// A line taken off never breaks what was met, nor lets the break come earlier; a line 'a, a' is broken exactly if a is added.
#[test]
fn lines_taken_off() {
    cases("lines taken off", 4_000, |random| {
        let mut records = additions(random);
        records.truncate(400);
        if records.is_empty() {
            return;
        }
        let recording = bytes(&records);
        let mut sheet = sheets::met(random, &records, 4);
        if random.once_in(2) {
            sheet.extend(sheets::accepted(random, 2));
        }
        let all = lines(&sheet);
        let time = |sheet: &[[u8; 2]]| match mill::order(&recording, sheet).unwrap() {
            Order::Met => u32::MAX,
            Order::Broken { time, .. } => time,
        };
        for off in 0..all.len() {
            let fewer = [&all[..off], &all[off + 1..]].concat();
            assert!(time(&all) <= time(&fewer), "{all:?} without {off} of {records:?}");
        }
        for a in 1..=MOST_PIGMENT {
            let first = records.iter().find(|record| record.pigment == a).map_or(u32::MAX, |record| record.time as u32);
            assert_eq!(time(&[[a, a]]), first, "{a} of {records:?}");
        }
    });
}

/// Kept readings, and every selection in order that includes them, give the same time and line, or the same refusal.
#[test]
fn kept_readings_give_the_same_finding() {
    let (mut dropped, mut broken) = (0, 0);
    cases("kept readings give the same finding", 15_000, |random| {
        let records = additions(random);
        let full = bytes(&records);
        let marks = recordings::marks(random, &records);
        let kept = chosen(&records, &marks);
        let some: Vec<bool> = kept.iter().map(|kept| *kept || random.once_in(2)).collect();
        let lines_wanted = sheets::length(random);
        let sheet = if random.once_in(2) { sheets::met(random, &records, lines_wanted) } else { sheets::any(random) };
        let of_full = mill::order(&full, &lines(&sheet));
        for held in [kept, some] {
            let selected: Vec<Record> = records.iter().zip(held).filter(|(_, held)| *held).map(|(record, _)| *record).collect();
            dropped += u64::from(selected.len() < records.len());
            assert_eq!(mill::order(&bytes(&selected), &lines(&sheet)), of_full, "{sheet:?} of {records:?}");
            order(&bytes(&selected), &sheet);
        }
        broken += u64::from(matches!(of_full, Ok(Order::Broken { .. })));
    });
    assert!(one_alone() || dropped > 5_000 && broken > 2_000, "readings were dropped in {dropped} cases, {broken} broken");
}
