//! The reader of texts behind `libtext_c.a`.

extern "C" {
    fn text_read(text: *const u8, text_len: usize) -> u64;
}

/// The number of nodes of the text, or the number of the refusal.
pub fn read(text: &[u8]) -> Result<usize, u32> {
    // SAFETY: the pointer is a live slice's with its own length.
    let returned = unsafe { text_read(text.as_ptr(), text.len()) };
    match (returned >> 32) as u32 {
        0 => Ok(returned as usize),
        number => {
            assert_eq!(returned as u32, 0, "a refusal's place is 0");
            Err(number)
        }
    }
}
