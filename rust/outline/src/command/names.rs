//! Names of files. A name need not be text: bytes of it that are none are kept as characters of private use, so that the
//! name leads to its file, and are told as `\xE4`.

use std::ffi::OsStr;
use std::path::PathBuf;

/// The character that stands for the byte 0.
const FIRST: u32 = 0x10_FF00;

fn stand_in(byte: u8) -> char {
    char::from_u32(FIRST + u32::from(byte)).expect("a character of private use")
}

/// The byte that a character stands for.
fn byte_of(c: char) -> Option<u8> {
    (c as u32).checked_sub(FIRST).and_then(|byte| u8::try_from(byte).ok())
}

/// A name as text: what is UTF-8 stays, but for characters that would be taken for stand-ins.
#[cfg(unix)]
pub fn from_os(name: &OsStr) -> String {
    use std::os::unix::ffi::OsStrExt;
    let mut text = String::new();
    for chunk in name.as_bytes().utf8_chunks() {
        for c in chunk.valid().chars() {
            match byte_of(c) {
                Some(_) => text.extend(c.to_string().bytes().map(stand_in)),
                None => text.push(c),
            }
        }
        text.extend(chunk.invalid().iter().copied().map(stand_in));
    }
    text
}

#[cfg(not(unix))]
pub fn from_os(name: &OsStr) -> String {
    name.to_string_lossy().into_owned()
}

/// The file that a name leads to.
#[cfg(unix)]
pub fn path(name: &str) -> PathBuf {
    use std::os::unix::ffi::OsStringExt;
    let mut bytes = Vec::new();
    for c in name.chars() {
        match byte_of(c) {
            Some(byte) => bytes.push(byte),
            None => bytes.extend(c.to_string().bytes()),
        }
    }
    std::ffi::OsString::from_vec(bytes).into()
}

#[cfg(not(unix))]
pub fn path(name: &str) -> PathBuf {
    name.into()
}

/// A text in which names may stand, as it is told.
pub fn shown(text: &str) -> String {
    let told = |c: char| byte_of(c).map_or(c.to_string(), |byte| format!("\\x{byte:02X}"));
    text.chars().map(told).collect()
}

#[cfg(all(test, unix))]
mod tests {
    use super::*;
    use std::os::unix::ffi::OsStrExt;

    #[test]
    fn names_come_back_byte_by_byte() {
        let stand_ins = "a\u{10FF00}\u{10FFFF}b".as_bytes();
        for bytes in
            [&b"plain.outline"[..], "gr\u{fc}n".as_bytes(), b"gr\xFCn", b"\xE4\x80", stand_ins]
        {
            let name = from_os(OsStr::from_bytes(bytes));
            assert_eq!(path(&name).as_os_str().as_bytes(), bytes);
        }
        assert_eq!(shown(&from_os(OsStr::from_bytes(b"gr\xFCn.image"))), "gr\\xFCn.image");
        assert_eq!(from_os(OsStr::new("gr\u{fc}n")), "gr\u{fc}n");
    }
}
