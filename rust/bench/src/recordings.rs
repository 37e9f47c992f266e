//! The recordings that are measured: a reading every second, as a mill has them, unless a row says dense.

use mill::{Reading, Slope};

pub const RECORDS: usize = 4096;

/// So many record indices, evenly spaced.
pub fn evenly(count: usize, records: usize) -> Vec<usize> {
    (0..count).map(|i| 1 + i * ((records - 1) / count)).collect()
}

/// 256 record indices, every second one and then at such steps, whose differences join into few runs.
pub fn twos_and(step: usize) -> Vec<usize> {
    (0..128).map(|i| 1 + 2 * i).chain((0..128).map(|i| 260 + step * i)).collect()
}

/// 256 record indices at `steps` different steps by turns, the least of 2.
pub fn stepping(steps: usize) -> Vec<usize> {
    let step = |i: usize| 2 + i % steps;
    (0..256).scan(1, |at, i| Some(std::mem::replace(at, *at + step(i)))).filter(|at| *at < RECORDS).collect()
}

/// Slow waves for values, and tops at just these records.
pub fn with_tops(of_a: &[usize], of_b: &[usize]) -> Vec<Reading> {
    let wave = |index: usize, period: usize| ((index % period) as i32 - period as i32 / 2).abs() * 1_000 + index as i32;
    let slope = |tops: &[usize], index: usize| if tops.contains(&index) { Slope::Falling } else { Slope::Rising };
    let reading = |index: usize| Reading {
        time: index as u32,
        a: wave(index, 1_024),
        b: 600_000 + wave(index, 700),
        slope_a: slope(of_a, index),
        slope_b: slope(of_b, index),
        pigment: 0,
    };
    (0..RECORDS).map(reading).collect()
}

/// The same values, both curves flat but for a rise or a fall by turns behind each `flat` readings; the first rises.
pub fn with_plateaus(flat: usize) -> Vec<Reading> {
    let mut readings = with_tops(&[], &[]);
    for (index, reading) in readings.iter_mut().enumerate() {
        let slope = match (index % (flat + 1), index / (flat + 1) % 2) {
            (0, 0) => Slope::Rising,
            (0, _) => Slope::Falling,
            _ => Slope::Flat,
        };
        (reading.slope_a, reading.slope_b) = (slope, slope);
    }
    readings
}

/// 64 tops of A, and so many additions of pigment 1, evenly spaced.
pub fn with_additions(additions: usize) -> Vec<Reading> {
    let mut readings = with_tops(&evenly(64, RECORDS), &[]);
    for addition in 0..additions {
        readings[addition * RECORDS / additions].pigment = 1;
    }
    readings
}

/// A reading every second. Times count tenths of a second.
pub fn bytes(readings: &[Reading]) -> Vec<u8> {
    dense_bytes(&readings.iter().map(|reading| Reading { time: 10 * reading.time, ..*reading }).collect::<Vec<_>>())
}

/// A reading every tenth of a second.
pub fn dense_bytes(readings: &[Reading]) -> Vec<u8> {
    readings.iter().copied().flat_map(Reading::to_bytes).collect()
}
