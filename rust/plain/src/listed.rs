//! The listed questions: each is one loop over the records, with their rules checked in it where it is to CHECK.

use crate::recording::{scan, some, tops, tops_of_both, turns, FALLING, MOST_TOPS, RISING};
use crate::set::{add, differences, of_numbers, Set, HIGH, LOW, MOST_RUNS};
use crate::text::Op;
use crate::Refused;

/// The set of a listed question, or refusal 3 or 4 where it is to CHECK, 9 or 8.
pub fn set<const CHECK: bool>(records: &[[u8; 16]], listed: Op) -> Result<Set, Refused> {
    some(records)?;
    // Room for all runs at once, where there can be more than one.
    let one = matches!(listed, Op::High(_) | Op::Low(_) | Op::LowAfter(..) | Op::CapAfter(..) | Op::Ampl(_));
    let mut out = Set::with_capacity(if one { 1 } else { MOST_RUNS + 1 });
    match listed {
        Op::High(curve) => out.push((LOW, greatest::<CHECK>(records, curve)?)),
        Op::Low(curve) => out.push((least::<CHECK>(records, curve)?, HIGH)),
        Op::LowAfter(curve, k) => {
            let least = least_after::<CHECK>(records, curve, k)?;
            out.extend((least < HIGH).then_some((least, HIGH)));
        }
        Op::CapAfter(curve, k) => out.push((greatest_after::<CHECK>(records, curve, k)?, HIGH)),
        Op::Ampl(curve) => {
            let (least, greatest) = both::<CHECK>(records, curve)?;
            out.push((LOW, greatest - least));
        }
        Op::Peaks(curve) => turns::<CHECK>(records, curve, FALLING, |time| out.push((time, time)))?,
        Op::Dips(curve) => turns::<CHECK>(records, curve, RISING, |time| out.push((time, time)))?,
        Op::Cross => crossings::<CHECK>(records, false, &mut out)?,
        Op::Crossup => crossings::<CHECK>(records, true, &mut out)?,
        // Neighbours among these times join.
        Op::Dose(k) => scan::<CHECK>(records, |_, record, _| {
            if record.pigment() == k {
                add(&mut out, (record.time(), record.time()));
            }
        })?,
        Op::Gaps(curve) => {
            let tops = few(tops::<CHECK>(records, curve)?)?;
            differences((1..tops.len()).map(|later| (tops[later - 1], &tops[later..])).collect(), &mut out);
        }
        Op::Steps(curve) => {
            let tops = few(tops::<CHECK>(records, curve)?)?;
            of_numbers(tops.windows(2).map(|tops| tops[1] - tops[0]).collect(), &mut out);
        }
        Op::Lag => {
            let [of_a, of_b] = tops_of_both::<CHECK>(records)?;
            let (of_a, of_b) = (few(of_a)?, few(of_b)?);
            if !of_b.is_empty() {
                differences(of_a.iter().map(|top| (*top, &of_b[..])).collect(), &mut out);
            }
        }
        _ => unreachable!("not a listed question"),
    }
    if out.len() > MOST_RUNS {
        return Err((8, 0));
    }
    Ok(out)
}

/// The tops, or refusal 9.
pub fn few(tops: Vec<i32>) -> Result<Vec<i32>, Refused> {
    if tops.len() > MOST_TOPS {
        return Err((9, 0));
    }
    Ok(tops)
}

/// The times of the records with A above B where `up`, else of those with A not above B, each after one of the other kind.
fn crossings<const CHECK: bool>(records: &[[u8; 16]], up: bool, out: &mut Set) -> Result<(), Refused> {
    let mut before = true;
    scan::<CHECK>(records, |_, record, _| {
        let there = record.above() == up;
        if there && !before {
            out.push((record.time(), record.time()));
        }
        before = there;
    })
}

/// Hands over the curve's values. They lie within LOW and HIGH, and are neither.
fn values<const CHECK: bool>(records: &[[u8; 16]], curve: usize, mut each: impl FnMut(i32)) -> Result<(), Refused> {
    scan::<CHECK>(records, |_, record, _| each(record.value(curve)))
}

/// Those in the records after a time.
fn values_after<const CHECK: bool>(
    records: &[[u8; 16]],
    curve: usize,
    after: i32,
    mut each: impl FnMut(i32),
) -> Result<(), Refused> {
    scan::<CHECK>(records, |_, record, _| {
        if record.time() > after {
            each(record.value(curve));
        }
    })
}

/// The greatest value; LOW where there is no record.
pub fn greatest<const CHECK: bool>(records: &[[u8; 16]], curve: usize) -> Result<i32, Refused> {
    let mut greatest = LOW;
    values::<CHECK>(records, curve, |value| greatest = greatest.max(value))?;
    Ok(greatest)
}

/// The least value; HIGH where there is no record.
pub fn least<const CHECK: bool>(records: &[[u8; 16]], curve: usize) -> Result<i32, Refused> {
    let mut least = HIGH;
    values::<CHECK>(records, curve, |value| least = least.min(value))?;
    Ok(least)
}

/// The least and the greatest value.
pub fn both<const CHECK: bool>(records: &[[u8; 16]], curve: usize) -> Result<(i32, i32), Refused> {
    let (mut least, mut greatest) = (HIGH, LOW);
    values::<CHECK>(records, curve, |value| (least, greatest) = (least.min(value), greatest.max(value)))?;
    Ok((least, greatest))
}

/// The greatest value after a time.
pub fn greatest_after<const CHECK: bool>(records: &[[u8; 16]], curve: usize, after: i32) -> Result<i32, Refused> {
    let mut greatest = LOW;
    values_after::<CHECK>(records, curve, after, |value| greatest = greatest.max(value))?;
    Ok(greatest)
}

/// The least value after a time.
pub fn least_after<const CHECK: bool>(records: &[[u8; 16]], curve: usize, after: i32) -> Result<i32, Refused> {
    let mut least = HIGH;
    values_after::<CHECK>(records, curve, after, |value| least = least.min(value))?;
    Ok(least)
}
