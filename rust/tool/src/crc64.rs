//! CRC-64/XZ: the checksum of tins and of summaries.

/// The polynomial of ECMA-182, its bits reversed.
const POLYNOMIAL: u64 = 0xC96C_5795_D787_0F42;

const TABLE: [u64; 256] = table();

const fn table() -> [u64; 256] {
    let mut table = [0; 256];
    let mut byte = 0;
    while byte < 256 {
        let mut rest = byte as u64;
        let mut bit = 0;
        while bit < 8 {
            rest = if rest & 1 == 1 { rest >> 1 ^ POLYNOMIAL } else { rest >> 1 };
            bit += 1;
        }
        table[byte] = rest;
        byte += 1;
    }
    table
}

/// The checksum of the parts, one behind another.
pub fn checksum(parts: &[&[u8]]) -> u64 {
    let bytes = parts.iter().copied().flatten();
    !bytes.fold(u64::MAX, |rest, byte| TABLE[usize::from(rest as u8 ^ byte)] ^ rest >> 8)
}

#[test]
fn the_check_values_of_the_catalogue() {
    assert_eq!(checksum(&[b"123456789"]), 0x995D_C9BB_DF19_39FA);
    assert_eq!(checksum(&[b"1234", b"", b"56789"]), 0x995D_C9BB_DF19_39FA);
    assert_eq!(checksum(&[]), 0);
}
