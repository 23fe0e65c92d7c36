//! Bytes as hex digits, and back.

/// The bytes of hex digits, where spaces, line ends, bars and `0x` don't count.
pub fn from_hex(text: &str) -> Option<Vec<u8>> {
    match read_digits(text) {
        Some(Ok(bytes)) => Some(bytes),
        _ => None,
    }
}

/// One line of hex digits.
pub fn hex_line(bytes: &[u8]) -> String {
    bytes.iter().map(|byte| format!("{byte:02X}")).collect()
}

/// Lines of 32 bytes in hex.
pub fn to_hex(bytes: &[u8]) -> String {
    bytes.chunks(32).map(|chunk| hex_line(chunk) + "\n").collect()
}

/// The bytes of hex digits or of what xxd writes, or how many digits there are if that is odd; nothing if it is neither.
pub fn read(text: &str) -> Option<Result<Vec<u8>, usize>> {
    from_xxd(text).map(Ok).or_else(|| read_digits(text))
}

fn read_digits(text: &str) -> Option<Result<Vec<u8>, usize>> {
    let words = text.split(|c: char| c.is_whitespace() || c == '|');
    let digits = words.flat_map(|word| word.strip_prefix("0x").unwrap_or(word).chars());
    let digits: Vec<u32> = digits.map(|c| c.to_digit(16)).collect::<Option<_>>()?;
    if !digits.len().is_multiple_of(2) {
        return Some(Err(digits.len()));
    }
    Some(Ok(digits.chunks(2).map(|pair| (pair[0] << 4 | pair[1]) as u8).collect()))
}

/// The bytes of lines of place, colon, hex digits, and letters behind two spaces.
fn from_xxd(text: &str) -> Option<Vec<u8>> {
    let line = |line: &str| {
        let (place, rest) = line.split_once(": ")?;
        u64::from_str_radix(place, 16).ok()?;
        from_hex(rest.split("  ").next()?)
    };
    Some(text.lines().map(line).collect::<Option<Vec<_>>>()?.concat())
}
