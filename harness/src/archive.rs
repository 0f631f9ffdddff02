//! The list of symbols that an `ar` archive carries in front, read here so that no other program is needed.

/// The names in the archive's symbol index, or nothing where there is no such index.
pub fn symbols(bytes: &[u8]) -> Option<Vec<String>> {
    let rest = bytes.strip_prefix(b"!<arch>\n")?;
    let head = rest.get(..60)?;
    // The index is the first member and has the name `/`. Its size is in decimal.
    if head[0] != b'/' || head[1] != b' ' {
        return None;
    }
    let size: usize = std::str::from_utf8(&head[48..58]).ok()?.trim().parse().ok()?;
    let index = rest.get(60..60 + size)?;
    let count = u32::from_be_bytes(index.get(..4)?.try_into().ok()?) as usize;
    let names = index.get(4 + 4 * count..)?;
    Some(names.split(|&b| b == 0).take(count).map(|name| String::from_utf8_lossy(name).into_owned()).collect())
}
