//! The product as plain fast Rust, for the benchmarks: it reads records in place and checks them in the loop that uses them. A text
//! that looks ahead checks them first and then goes from the last record to the first, with the sets of each node there and at the record
//! behind it. The tests hold it to the package `reference`.

mod assured;
mod listed;
mod live;
mod recording;
mod report;
mod set;
mod summary;
mod text;
mod thin;
mod walk;

use listed::{both, few, greatest, greatest_after, least, least_after};
use recording::{check, marks, records, scan, some, tops, MOST_PIGMENT};
use set::{Set, HIGH, LOW};
use text::{is_listed, is_temporal, nodes, Op, Right};

pub use assured::assured;
pub use live::Live;
pub use report::{Added, Figures, Report};
pub use summary::{entry, find};
pub use thin::thin;

/// A refusal's number, and its place.
pub type Refused = (u32, u32);

/// The distance and degree: none for the empty set, distance 0 where the target is met.
pub type Nearness = Option<(f64, f64)>;

/// Writes the question's set into `out`; the bytes written.
pub fn question(recording: &[u8], text: &[u8], out: &mut [u8]) -> Result<usize, Refused> {
    write(&answer(recording, nodes(text))?, out)
}

pub fn degree(recording: &[u8], text: &[u8], target: i64) -> Result<Nearness, Refused> {
    let nodes = nodes(text).and_then(|nodes| on_axis(target).map(|()| nodes));
    Ok(nearness(&answer(recording, nodes)?, target))
}

/// The times of the first two tops that lie the target apart.
pub fn pair(recording: &[u8], curve: u32, target: i64) -> Result<Option<(u32, u32)>, Refused> {
    pair_or(recording, curve, target, Ok(()))
}

/// As `question`, of what a laboratory may ask.
pub fn lab_question(recording: &[u8], marks: &[u8], text: &[u8], out: &mut [u8]) -> Result<usize, Refused> {
    write(&answer(recording, open_nodes(text, marks))?, out)
}

/// As `degree`, of what a laboratory may ask.
pub fn lab_degree(recording: &[u8], marks: &[u8], text: &[u8], target: i64) -> Result<Nearness, Refused> {
    let nodes = open_nodes(text, marks).and_then(|nodes| on_axis(target).map(|()| nodes));
    Ok(nearness(&answer(recording, nodes)?, target))
}

/// As `pair`, of A alone.
pub fn lab_pair(recording: &[u8], curve: u32, target: i64) -> Result<Option<(u32, u32)>, Refused> {
    pair_or(recording, curve, target, if curve == 0 { Ok(()) } else { Err((14, 0)) })
}

/// The certain and the possible set of a question on extremes within e, each by its ends, none where it is empty.
pub fn band(recording: &[u8], text: &[u8], e: i64) -> Result<[Option<(i32, i32)>; 2], Refused> {
    let records = records(recording)?;
    let one = nodes(text).and_then(|nodes| match nodes[..] {
        _ if !(0..=1_000_000).contains(&e) => Err((16, 0)),
        [one @ (Op::High(_) | Op::Low(_) | Op::LowAfter(..) | Op::CapAfter(..) | Op::Ampl(_))] => Ok(one),
        _ => Err((17, 0)),
    });
    let one = one.or_else(|refused| check(records).and(Err(refused)))?;
    some(records)?;
    let e = e as i32;
    Ok(match one {
        Op::High(curve) => {
            let most = greatest::<true>(records, curve)?;
            [most - e, most + e].map(|end| Some((LOW, end)))
        }
        Op::Low(curve) => {
            let least = least::<true>(records, curve)?;
            [least + e, least - e].map(|end| Some((end, HIGH)))
        }
        Op::LowAfter(curve, k) => {
            let least = least_after::<true>(records, curve, k)?;
            [least.saturating_add(e), least - e].map(|end| (least < HIGH).then_some((end, HIGH)))
        }
        Op::CapAfter(curve, k) => match greatest_after::<true>(records, curve, k)? {
            LOW => [Some((LOW, HIGH)); 2],
            most => [most + e, most - e].map(|end| Some((end, HIGH))),
        },
        Op::Ampl(curve) => {
            let (least, most) = both::<true>(records, curve)?;
            let moved = if records.len() == 1 { 0 } else { 2 * e };
            [(most - least - moved).max(0), (most - least).saturating_add(moved).min(HIGH)].map(|end| Some((LOW, end)))
        }
        _ => unreachable!("not a question on extremes"),
    })
}

/// The time of the first record whose addition breaks a line of the sheet, and the first line that it breaks.
pub fn order(recording: &[u8], sheet: &[u8]) -> Result<Option<(u32, u32)>, Refused> {
    let records = records(recording)?;
    let (lines, rest) = sheet.as_chunks();
    if !rest.is_empty() || lines.len() > 32 || sheet.iter().any(|k| !(1..=MOST_PIGMENT).contains(k)) {
        check(records)?;
        return Err((13, 0));
    }
    some(records)?;
    // For each pigment, as bits, those that must be in before it; and those that are.
    let (mut needed, mut added) = ([0u32; 1 + MOST_PIGMENT as usize], 0u32);
    for [before, pigment] in lines {
        needed[usize::from(*pigment)] |= 1 << before;
    }
    let mut broken = None;
    scan::<true>(records, |_, record, new| {
        // The pigment of the record before is in, and was judged.
        if !new {
            return;
        }
        let pigment = record.pigment();
        if needed[usize::from(pigment)] & !added != 0 && broken.is_none() {
            let line = lines.iter().position(|line| line[1] == pigment && added >> line[0] & 1 == 0);
            broken = line.map(|line| (record.time() as u32, line as u32));
        }
        added |= 1 << pigment;
    })?;
    Ok(broken)
}

/// The set of a text that was read, or what it was refused with, behind the refusals of the recording. A listed question alone is
/// worked out while the records are checked.
fn answer(recording: &[u8], nodes: Result<impl AsRef<[Op]>, Refused>) -> Result<Set, Refused> {
    let records = records(recording)?;
    match nodes.as_ref().map(AsRef::as_ref) {
        Ok([one]) if is_listed(one) => listed::set::<true>(records, *one),
        Ok(nodes) => walk::answer(records, nodes),
        Err(refused) => check(records).and(Err(*refused)),
    }
}

fn write(set: &Set, out: &mut [u8]) -> Result<usize, Refused> {
    let length = set.len() * 8;
    if out.len() < length {
        return Err((10, 0));
    }
    for ((low, high), bytes) in set.iter().zip(out.as_chunks_mut::<8>().0) {
        bytes[..4].copy_from_slice(&low.to_le_bytes());
        bytes[4..].copy_from_slice(&high.to_le_bytes());
    }
    Ok(length)
}

fn nearness(set: &Set, target: i64) -> Nearness {
    let away = |(low, high): &(i32, i32)| (i64::from(*low) - target).max(target - i64::from(*high)).max(0);
    set.iter().map(away).min().map(|d| (d as f64, 1.0 / (1.0 + d as f64)))
}

fn on_axis(target: i64) -> Result<(), Refused> {
    if !(i64::from(LOW)..=i64::from(HIGH)).contains(&target) {
        return Err((12, 0));
    }
    Ok(())
}

/// The first fitting pair of tops, or, behind the refusals of the recording and 12, what it is refused with. The later top is sought
/// for each earlier one in turn, from where the search before it ended.
fn pair_or(recording: &[u8], curve: u32, target: i64, open: Result<(), Refused>) -> Result<Option<(u32, u32)>, Refused> {
    let records = records(recording)?;
    let fine = if curve > 1 { Err((12, 0)) } else { on_axis(target).and(open) };
    if let Err(refused) = fine {
        check(records)?;
        return Err(refused);
    }
    some(records)?;
    let tops = few(tops::<true>(records, curve as usize)?)?;
    let mut place = 0;
    for earlier in tops.iter().filter(|_| target > 0) {
        let later = i64::from(*earlier) + target;
        while place < tops.len() && i64::from(tops[place]) < later {
            place += 1;
        }
        if place == tops.len() {
            break;
        }
        if i64::from(tops[place]) == later {
            return Ok(Some((*earlier as u32, tops[place] as u32)));
        }
    }
    Ok(None)
}

/// The nodes of a text that a laboratory may ask, or refusal 5, 6, 7, 11 or 14.
fn open_nodes(text: &[u8], mark_bytes: &[u8]) -> Result<Vec<Op>, Refused> {
    let (nodes, marks) = (nodes(text)?, marks(mark_bytes)?);
    let shut = |node: &Op| match *node {
        Op::Compare(left, _, _, right) => left == 1 || matches!(right, Right::CurveB),
        Op::LowAfter(curve, k) | Op::CapAfter(curve, k) => curve == 1 || !marks.contains(&k),
        Op::Slope(curve, _)
        | Op::High(curve)
        | Op::Low(curve)
        | Op::Peaks(curve)
        | Op::Dips(curve)
        | Op::Ampl(curve)
        | Op::Gaps(curve)
        | Op::Steps(curve) => curve == 1,
        Op::Cross | Op::Crossup | Op::Lag => true,
        _ => is_temporal(node),
    };
    if nodes.iter().any(shut) {
        return Err((14, 0));
    }
    Ok(nodes)
}
