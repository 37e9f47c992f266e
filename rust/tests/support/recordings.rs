//! Recordings of many shapes, with and without pigments, marks, and damage.

use super::random::Random;
use reference::recording::{self, Record, FALLING, FLAT, MOST_PIGMENT, MOST_TIME, MOST_VALUE, RISING};
use std::cmp::Ordering;

/// `count` flat records at times 0, 1, .., all values 0.
pub fn flat(count: usize) -> Vec<Record> {
    (0..count).map(|i| Record { time: i as i64, value: [0, 0], slope: [FLAT, FLAT], pigment: 0 }).collect()
}

/// Flat records at times 0, 1, .., all values 0, with these slopes of the curve.
pub fn with_slopes(curve: usize, slopes: &[u8]) -> Vec<Record> {
    let mut records = flat(slopes.len());
    records.iter_mut().zip(slopes).for_each(|(record, slope)| record.slope[curve] = *slope);
    records
}

/// One plateau of the curve: so many flat records, a rise, so many flat ones, and a fall, which is the last. The first record is kept
/// whatever it is; so only where some lie before the rise is it kept as a rise.
pub fn plateau(curve: usize, before: usize, flat: usize) -> Vec<Record> {
    with_slopes(curve, &[&vec![FLAT; before][..], &[RISING], &vec![FLAT; flat], &[FALLING]].concat())
}

/// The records of this one that are kept: the first, the rise, the one before the fall, the fall.
pub fn kept_of_plateau(records: &[Record], before: usize) -> Vec<Record> {
    let last = records.len() - 1;
    let mut places = vec![0, before, last - 1, last];
    places.dedup();
    places.into_iter().map(|place| records[place]).collect()
}

/// Makes record `index`, which lies after the first, a top of the curve: the record before it rises.
pub fn put_top(records: &mut [Record], curve: usize, index: usize) {
    records[index - 1].slope[curve] = RISING;
    records[index].slope[curve] = FALLING;
}

/// As many tops of the curve as `count` records can have: rise, fall, rise, fall.
pub fn with_most_tops(curve: usize, count: usize) -> Vec<Record> {
    with_slopes(curve, &[RISING, FALLING].repeat(count.div_ceil(2))[..count])
}

/// A recording of `count` records with `tops` tops of either curve, evenly spaced, at least two records apart.
pub fn with_tops(count: usize, tops: [usize; 2]) -> Vec<Record> {
    assert!(tops.iter().all(|tops| 2 * tops < count), "{tops:?} tops in {count} records");
    let mut records = flat(count);
    for (curve, tops) in tops.into_iter().enumerate() {
        for top in 0..tops {
            put_top(&mut records, curve, 1 + top * (count - 1) / tops);
        }
    }
    records
}

/// A recording of `count` records with `dips` dips of either curve, evenly spaced.
pub fn with_dips(count: usize, dips: [usize; 2]) -> Vec<Record> {
    upside_down(with_tops(count, dips))
}

/// The same upside down: falls for rises, and for each value its opposite.
pub fn upside_down(mut records: Vec<Record>) -> Vec<Record> {
    for record in &mut records {
        record.slope = record.slope.map(|slope| RISING - slope);
        record.value = record.value.map(|value| -value);
    }
    records
}

/// A recording of `count` records with `crossings` crossings either way, evenly spaced: A is above B for one record at a time, and
/// else at B as often as below it.
pub fn with_crossings(count: usize, crossings: usize) -> Vec<Record> {
    let mut records = flat(count);
    for (index, record) in records.iter_mut().enumerate() {
        record.value[1] = index as i64 % 2;
    }
    for crossing in 0..crossings {
        records[1 + crossing * (count - 2) / crossings].value = [1, 0];
    }
    records
}

/// A recording of `count` records with `additions` additions of the pigment, evenly spaced, the first at the first record.
pub fn with_additions(count: usize, additions: usize, pigment: u8) -> Vec<Record> {
    let mut records = flat(count);
    for addition in 0..additions {
        records[addition * count / additions].pigment = pigment;
    }
    records
}

/// How many records a random recording has: few, mostly.
pub fn length(random: &mut Random) -> usize {
    match random.below(10) {
        0 => 1,
        1 => 2,
        2..=5 => 3 + random.below(6),
        6..=8 => 9 + random.below(24),
        _ => 33 + random.below(40),
    }
}

/// An accepted recording of `count` records.
pub fn accepted(random: &mut Random, count: usize) -> Vec<Record> {
    let times = times(random, count);
    let a = values(random, &times);
    let b = if random.once_in(4) { beside(random, &a) } else { values(random, &times) };
    let (slopes_a, slopes_b) = (slopes(random, &a), slopes(random, &b));
    let pigments = pigments(random, count);
    (0..count)
        .map(|i| Record { time: times[i], value: [a[i], b[i]], slope: [slopes_a[i], slopes_b[i]], pigment: pigments[i] })
        .collect()
}

/// An accepted recording of a random length.
pub fn any(random: &mut Random) -> Vec<Record> {
    let count = length(random);
    accepted(random, count)
}

/// Strictly ascending times.
fn times(random: &mut Random, count: usize) -> Vec<i64> {
    let most_step = match random.below(6) {
        0 => 1,
        1 | 2 => 3,
        3 => 20,
        4 => 1_000,
        _ => MOST_TIME / count as i64,
    };
    let mut steps: Vec<i64> = (0..count).map(|_| random.between(1, most_step)).collect();
    let slack = MOST_TIME - steps.iter().sum::<i64>();
    steps[0] = match random.below(4) {
        0 => 0,
        1 => random.between(0, slack.min(5)),
        2 => random.between(0, slack),
        // The last time is the greatest there is.
        _ => slack + steps[0],
    };
    steps
        .iter()
        .scan(0, |time, step| {
            *time += step;
            Some(*time)
        })
        .collect()
}

/// Values of one curve, out of one of several palettes.
fn values(random: &mut Random, times: &[i64]) -> Vec<i64> {
    let palette: Vec<i64> = match random.below(8) {
        0 => vec![random.between(-MOST_VALUE, MOST_VALUE)],
        1 => vec![0, 1],
        2 | 3 => (-3..=3).collect(),
        4 => (0..20).map(|i| 2 * i).collect(),
        5 => vec![-MOST_VALUE, -MOST_VALUE + 1, -1, 0, 1, MOST_VALUE - 1, MOST_VALUE],
        6 => times.iter().map(|time| (*time).min(MOST_VALUE)).collect(),
        _ => (0..6).map(|_| random.between(-MOST_VALUE, MOST_VALUE)).collect(),
    };
    times.iter().map(|_| random.pick(&palette)).collect()
}

/// Values close to these: below, above, and often the same.
fn beside(random: &mut Random, values: &[i64]) -> Vec<i64> {
    values.iter().map(|value| (value + random.pick(&[-1, 0, 0, 1])).clamp(-MOST_VALUE, MOST_VALUE)).collect()
}

/// Slopes that fit the values, that alternate, that seldom change, that last for some records, that lie flat for long, or any.
fn slopes(random: &mut Random, values: &[i64]) -> Vec<u8> {
    let from: &[u8] = match random.below(11) {
        0 => return fitting_slopes(values),
        1 => return (0..values.len()).map(|i| if i % 2 == 0 { RISING } else { FALLING }).collect(),
        2 => &[FLAT, FLAT, FLAT, FLAT, FALLING],
        3 => &[FLAT, FLAT, FLAT, FLAT, RISING],
        4 => &[FALLING, FALLING, FLAT],
        5 => &[RISING, RISING, FLAT],
        6 => return lasting_slopes(random, values.len()),
        7 => &[FLAT, FLAT, FLAT, FLAT, FALLING, RISING],
        8 => return slopes_on_plateaus(random, values.len(), 3),
        9 => return slopes_on_plateaus(random, values.len(), values.len()),
        _ => &[FALLING, FLAT, RISING],
    };
    values.iter().map(|_| random.pick(from)).collect()
}

/// Slopes that go on as they are, mostly.
fn lasting_slopes(random: &mut Random, count: usize) -> Vec<u8> {
    let mut slope = random.pick(&[FALLING, FLAT, RISING]);
    let mut next = || {
        if random.once_in(4) {
            slope = random.pick(&[FALLING, FLAT, RISING]);
        }
        slope
    };
    (0..count).map(|_| next()).collect()
}

/// Rises and falls with up to `longest` flat records between them: mostly a fall after a rise and a rise after a fall, else a shoulder.
fn slopes_on_plateaus(random: &mut Random, count: usize, longest: usize) -> Vec<u8> {
    let mut slope = random.pick(&[FALLING, RISING]);
    let mut slopes = vec![FLAT; random.below(longest + 1)];
    while slopes.len() < count {
        slopes.push(slope);
        slopes.extend(vec![FLAT; random.below(longest + 1)]);
        if !random.once_in(5) {
            slope = RISING - slope;
        }
    }
    slopes.truncate(count);
    slopes
}

fn fitting_slopes(values: &[i64]) -> Vec<u8> {
    let slope = |i: usize| match values[i].cmp(&values[i.saturating_sub(1)]) {
        Ordering::Less => FALLING,
        Ordering::Equal => FLAT,
        Ordering::Greater => RISING,
    };
    (0..values.len()).map(slope).collect()
}

/// Pigments: mostly none, else sparse, or dense of few kinds or of all.
fn pigments(random: &mut Random, count: usize) -> Vec<u8> {
    let any = (1 + random.below(MOST_PIGMENT.into())) as u8;
    let from: &[u8] = match random.below(8) {
        0 | 1 => &[0, 0, 0, 0, 0, 0, 0, 0, 0, any],
        2 => &[0, any],
        3 => &[0, 1, 2, 16],
        4 => return (0..count).map(|_| random.below(1 + usize::from(MOST_PIGMENT)) as u8).collect(),
        _ => &[0],
    };
    (0..count).map(|_| random.pick(from)).collect()
}

/// Accepted marks: 0 to 8, near the recording's times or anywhere, with repeats.
pub fn marks(random: &mut Random, records: &[Record]) -> Vec<i64> {
    let count = random.pick(&[0, 0, 1, 1, 2, 3, 8]);
    (0..count).map(|_| mark(random, records)).collect()
}

pub fn mark(random: &mut Random, records: &[Record]) -> i64 {
    match random.below(8) {
        0 => random.pick(&[0, 1, MOST_TIME - 1, MOST_TIME]),
        1 => random.between(0, MOST_TIME),
        _ if records.is_empty() => 0,
        n => (records[random.below(records.len())].time + n as i64 % 3 - 1).clamp(0, MOST_TIME),
    }
}

/// Bytes with some damage: flipped bits, a byte set, a cut, junk behind, records swapped, or a field out of its range.
pub fn damaged(random: &mut Random, mut bytes: Vec<u8>) -> Vec<u8> {
    for _ in 0..1 + random.below(2) {
        let length = bytes.len();
        match random.below(9) {
            0 | 1 if length > 0 => bytes[random.below(length)] ^= 1 << random.below(8),
            2 if length > 0 => bytes[random.below(length)] = random.pick(&[0, 1, 2, 3, 127, 128, 255]),
            3 => bytes.truncate(random.below(length + 1)),
            4 => bytes.extend((0..1 + random.below(20)).map(|i| i as u8)),
            5 if length >= 32 => {
                let at = 16 * random.below(length / 16 - 1);
                bytes[at..at + 32].rotate_left(16);
            }
            6 if length >= 16 => {
                let at = 16 * random.below(length / 16) + random.pick(&[0, 4, 8]);
                let number = random.pick(&[
                    2_000_000_000,
                    2_000_000_001,
                    1_000_000_000,
                    1_000_000_001,
                    -1_000_000_000,
                    -1_000_000_001,
                    i64::from(i32::MIN),
                    i64::from(i32::MAX),
                    -1,
                    0,
                ]);
                bytes[at..at + 4].copy_from_slice(&(number as u32).to_le_bytes());
            }
            7 if length >= 16 => {
                let at = 16 * random.below(length / 16) + 12 + random.below(4);
                bytes[at] = random.pick(&[0, 1, 2, 3, 16, 17, 255]);
            }
            8 if length >= 32 => {
                // A time again.
                let at = 16 * (1 + random.below(length / 16 - 1));
                bytes.copy_within(at - 16..at - 12, at);
            }
            _ => {}
        }
    }
    bytes
}

/// Marks that 11 may refuse.
pub fn odd_marks(random: &mut Random) -> Vec<u8> {
    let mut bytes: Vec<u8> = Vec::new();
    for _ in 0..random.pick(&[0, 1, 2, 7, 8, 9, 10, 64]) {
        let mark = random.pick(&[0, 5, 1_999_999_999, 2_000_000_000, 2_000_000_001, u32::MAX]);
        bytes.extend(if random.once_in(3) { mark } else { mark.min(2_000_000_000) }.to_le_bytes());
    }
    bytes.truncate(bytes.len() - random.pick(&[0, 0, 0, 1, 2, 3]).min(bytes.len()));
    bytes
}

/// A recording with up to 300 tops of either curve, at times that make many or few runs.
pub fn with_many_tops(random: &mut Random) -> Vec<Record> {
    let most = random.pick(&[3, 12, 66, 257, 300]);
    let count = 2 * most + 10;
    let mut records = accepted(random, count);
    records.iter_mut().for_each(|record| record.slope = [FLAT, FLAT]);
    for curve in 0..2 {
        let tops = if random.once_in(3) { most } else { random.below(most) };
        let gap = random.pick(&[0, 0, 1, 2]);
        let mut index = 1;
        for _ in 0..tops {
            index += random.below(gap + 1);
            if index >= count {
                break;
            }
            put_top(&mut records, curve, index);
            index += 2;
        }
    }
    if random.once_in(2) {
        // Times so close that differences meet.
        let mut time = 0;
        for record in &mut records {
            time += random.pick(&[1, 1, 1, 2]);
            record.time = time;
        }
    }
    records
}

/// A recording with up to 300 dips of either curve.
pub fn with_many_dips(random: &mut Random) -> Vec<Record> {
    upside_down(with_many_tops(random))
}

/// A recording with up to some 300 tops and as many dips of either curve on plateaus, shoulders among them.
pub fn with_many_plateaus(random: &mut Random) -> Vec<Record> {
    let most = random.pick(&[3, 12, 66, 257, 300]);
    let longest = random.pick(&[1, 2, 2, 5]);
    let count = most * (2 + longest) * 5 / 4;
    let mut records = accepted(random, count);
    for curve in 0..2 {
        let slopes = slopes_on_plateaus(random, count, longest);
        records.iter_mut().zip(slopes).for_each(|(record, slope)| record.slope[curve] = slope);
    }
    records
}

/// A recording with up to some 300 crossings both ways; where A is not above B it is often at B.
pub fn with_many_crossings(random: &mut Random) -> Vec<Record> {
    let most = random.pick(&[3, 12, 66, 257, 300]);
    let mut records = accepted(random, 2 * most + 10);
    let stays = random.pick(&[1, 1, 1, 2, 20]);
    let mut above = random.once_in(2);
    for record in &mut records {
        above ^= random.once_in(stays);
        record.value[0] = record.value[0].clamp(1 - MOST_VALUE, MOST_VALUE - 1);
        record.value[1] = record.value[0] + if above { -1 } else { random.pick(&[0, 0, 1]) };
    }
    records
}

/// A recording with up to some 600 additions of one pigment, others among them, at times that join or lie apart.
pub fn with_many_additions(random: &mut Random) -> Vec<Record> {
    let most = random.pick(&[3, 12, 66, 257, 300]);
    let mut records = accepted(random, 2 * most + 10);
    let pigment = 1 + random.below(MOST_PIGMENT.into()) as u8;
    let other = 1 + random.below(MOST_PIGMENT.into()) as u8;
    let stays = random.pick(&[1, 1, 1, 2, 20]);
    let mut here = random.once_in(2);
    for record in &mut records {
        here ^= random.once_in(stays);
        record.pigment = if here { pigment } else { random.pick(&[0, 0, other]) };
    }
    records
}

/// A recording with many tops, many dips, many of both on plateaus, many crossings both ways or many additions.
pub fn with_many_events(random: &mut Random) -> Vec<Record> {
    match random.below(5) {
        0 => with_many_tops(random),
        1 => with_many_dips(random),
        2 => with_many_plateaus(random),
        3 => with_many_additions(random),
        _ => with_many_crossings(random),
    }
}

/// A recording whose tops stand on a grid of times, some left out, so that many pairs of them lie equally far apart.
pub fn with_tops_on_a_grid(random: &mut Random) -> Vec<Record> {
    let places = random.pick(&[4, 8, 20, 60, 250]);
    let (start, step) = (random.between(0, 9), random.pick(&[1, 2, 7, 1_000]));
    let mut records = accepted(random, 2 * places);
    for (index, record) in records.iter_mut().enumerate() {
        (record.time, record.slope) = (start + step * index as i64, [FLAT, FLAT]);
    }
    for curve in 0..2 {
        let left_out = random.pick(&[0, 1, 2]);
        for place in (0..places).filter(|_| random.below(4) >= left_out) {
            put_top(&mut records, curve, 2 * place + 1);
        }
    }
    records
}

/// The time between two tops of the curve, taken at random; 0 where there is none.
pub fn gap(random: &mut Random, records: &[Record], curve: usize) -> i64 {
    let times = recording::top_times(records, curve);
    if times.is_empty() {
        return 0;
    }
    (random.pick(&times) - random.pick(&times)).abs()
}

/// Flat records at times 0, 1, .. with these values.
pub fn with_values(values: &[[i64; 2]]) -> Vec<u8> {
    let record = |(time, value): (usize, &[i64; 2])| Record { time: time as i64, value: *value, slope: [FLAT, FLAT], pigment: 0 };
    recording::bytes(&values.iter().enumerate().map(record).collect::<Vec<_>>())
}

/// A recording whose tops are at just these times, at least 2 apart on each curve.
pub fn with_tops_at(tops: [&[i64]; 2]) -> Vec<u8> {
    let mut times: Vec<i64> = tops.iter().flat_map(|times| times.iter().flat_map(|time| [time - 1, *time])).collect();
    times.sort_unstable();
    times.dedup();
    let slope = |curve: usize, time: i64| if tops[curve].contains(&time) { FALLING } else { RISING };
    recording::bytes(
        &times
            .iter()
            .map(|time| Record { time: *time, value: [0, 0], slope: [slope(0, *time), slope(1, *time)], pigment: 0 })
            .collect::<Vec<_>>(),
    )
}
