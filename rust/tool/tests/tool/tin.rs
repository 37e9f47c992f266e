//! Tins as their page says they are, read and written here by other code than the tool's.

/// CRC-64/XZ, bit by bit.
pub fn crc64(bytes: &[u8]) -> u64 {
    let mut rest = u64::MAX;
    for byte in bytes {
        rest ^= u64::from(*byte);
        for _ in 0..8 {
            rest = if rest & 1 == 1 { (rest >> 1) ^ 0xC96C_5795_D787_0F42 } else { rest >> 1 };
        }
    }
    !rest
}

#[derive(Clone, PartialEq, Eq, Debug)]
pub struct Tin {
    pub marks: Vec<u32>,
    pub taken: Option<u64>,
    pub pins: u32,
    pub readings: Vec<u8>,
}

pub const MAGIC: [u8; 16] = [0x89, b'm', b'i', b'l', b'l', b' ', b't', b'i', b'n', 13, 10, 26, 10, b'T', b'I', b'N'];

fn number(bytes: &[u8], at: usize) -> u32 {
    u32::from_le_bytes(bytes[at..at + 4].try_into().unwrap())
}

impl Tin {
    /// Of readings that were all taken.
    pub fn of(marks: &[u32], taken: u64, readings: &[u8]) -> Tin {
        Tin { marks: marks.to_vec(), taken: Some(taken), pins: 0, readings: readings.to_vec() }
    }

    pub fn bytes(&self) -> Vec<u8> {
        let mut head = MAGIC.to_vec();
        let held = (self.readings.len() / 16) as u32;
        for number in [1, 4, self.marks.len() as u32, held, self.pins, 0] {
            head.extend(number.to_le_bytes());
        }
        head.extend(self.taken.unwrap_or(u64::MAX).to_le_bytes());
        head.extend(self.marks.iter().flat_map(|mark| mark.to_le_bytes()));
        head.resize(120, 0);
        summed(head, &self.readings)
    }

    pub fn read(bytes: &[u8]) -> Option<Tin> {
        let (head, readings) = bytes.split_at_checked(128)?;
        let marks = (0..number(head, 24).min(8) as usize).map(|at| number(head, 48 + 4 * at)).collect();
        let taken = u64::from_le_bytes(head[40..48].try_into().unwrap());
        let tin = Tin { marks, taken: (taken != u64::MAX).then_some(taken), pins: number(head, 32), readings: readings.to_vec() };
        (tin.bytes() == bytes).then_some(tin)
    }
}

/// 120 bytes of a head, their checksum with the readings, and the readings.
pub fn summed(head: Vec<u8>, readings: &[u8]) -> Vec<u8> {
    let sum = crc64(&[&head, readings].concat());
    [&head, &sum.to_le_bytes()[..], readings].concat()
}

#[test]
fn the_check_value_of_the_catalogue() {
    assert_eq!(crc64(b"123456789"), 0x995D_C9BB_DF19_39FA);
}
