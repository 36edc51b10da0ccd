//! A bar's lines, drawn as they are ordinarily in Rust: a vector of bytes that grows.

/// Id and length in 10 columns each, then blanks.
pub fn first_line(id: u32, length: u32) -> Vec<u8> {
    format!("{id:10}{length:10}{:60}\n", "").into_bytes()
}

/// The name in 12 characters, 64 steps, and the number of hits, which rise.
pub fn line(sheet: &mut Vec<u8>, name: &str, length: u32, hits: &[u32]) {
    let mut places = 12;
    for character in name.chars().take(12) {
        let shown = if character < ' ' || character == '\u{7f}' { '?' } else { character };
        sheet.extend_from_slice(shown.encode_utf8(&mut [0; 4]).as_bytes());
        places -= 1;
    }
    sheet.resize(sheet.len() + places, b' ');
    let steps = sheet.len();
    sheet.resize(steps + length as usize, b'.');
    sheet.resize(steps + 64, b' ');
    for hit in hits {
        sheet[steps + *hit as usize] = b'o';
    }
    sheet.extend_from_slice(format!("{:4}\n", hits.len()).as_bytes());
}
