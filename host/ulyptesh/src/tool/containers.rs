//! Files of other kinds than raw samples, known by their first bytes.
use super::samples::STANDARD_INPUT;
use std::ffi::OsStr;

/// So many bytes tell all kinds.
pub const TELLING: u64 = 12;

/// Bytes and the place where a file of some kind has them.
type Mark = (usize, &'static [u8]);

/// Two marks that a file of a kind has, and the kind's name. Together they are four bytes or more.
const KINDS: [(Mark, Mark, &str); 10] = [
    ((0, b"RIFF"), (8, b"WAVE"), "a WAV file (RIFF)"),
    ((0, b"RF64"), (8, b"WAVE"), "a WAV file (RF64)"),
    ((0, b"FORM"), (8, b"AIFF"), "an AIFF file (FORM)"),
    ((0, b"FORM"), (8, b"AIFC"), "an AIFF file (FORM)"),
    ((0, b"fLaC"), (0, b""), "a FLAC file (fLaC)"),
    ((0, b"ID3"), (3, b"\x02"), "an MP3 file (ID3)"),
    ((0, b"ID3"), (3, b"\x03"), "an MP3 file (ID3)"),
    ((0, b"ID3"), (3, b"\x04"), "an MP3 file (ID3)"),
    ((0, b"OggS"), (0, b""), "an Ogg file (OggS)"),
    ((4, b"ftyp"), (0, b""), "an MP4 file (ftyp)"),
];

/// The kind of file that begins so; none where these may be samples.
pub fn kind(first: &[u8]) -> Option<&'static str> {
    let has = |(at, mark): &Mark| first.get(*at..).is_some_and(|from| from.starts_with(mark));
    KINDS.iter().find(|(one, another, _)| has(one) && has(another)).map(|(_, _, name)| *name)
}

/// A file as ffmpeg takes it from a shell, in which no part of its name means a protocol; FILE where it can't be typed.
fn typed(file: &OsStr) -> String {
    match file.to_str() {
        Some(STANDARD_INPUT) => STANDARD_INPUT.into(),
        Some(name) if !name.chars().any(char::is_control) => {
            format!("'file:{}'", name.replace('\'', "'\\''"))
        }
        _ => "FILE".into(),
    }
}

/// The line that decodes a file on the way into the tool.
pub fn decoding(file: &OsStr, rate: u32) -> String {
    let file = typed(file);
    format!(
        "ffmpeg -nostdin -v error -i {file} -f f32le -ac 1 -ar {rate} - | ulyptesh analyse - --rate {rate}"
    )
}
