//! The checks of a plate file's block, by document 02's text.

/// Writes the two checks of a block's content.
pub fn seal(block: &mut [u8]) {
    let (words, _) = block[..504].as_chunks();
    let (mut first, mut second) = (0u32, 0u32);
    for &word in words {
        first = first.wrapping_add(u32::from_le_bytes(word));
        second = second.wrapping_add(first);
    }
    block[504..508].copy_from_slice(&first.to_le_bytes());
    block[508..].copy_from_slice(&second.to_le_bytes());
}
