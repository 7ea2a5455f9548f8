//! The reading where the Rust shows nothing: how many segments a frame has, which length below six stopped the Rust and where
//! it stands, and of a frame that isn't whole whether further bytes can mend it. It is written from document 01 alone, the last
//! from document 02, W-203, and the type 5 from W-210.

/// What the bytes from a position on come to.
#[derive(Debug, PartialEq)]
pub enum Walked {
    /// Answer 1.
    NotWhole,
    /// Answer 16: how far behind the position the length of 0 or 1 stands.
    Dead { behind: usize },
    /// Answer 2 or 3, of which the Rust says the values.
    BadHead,
    /// Answer 7: the length, and how far behind the position its head stands.
    TooShort { length: u64, behind: usize },
    /// A frame, of so many segments.
    Frame { segments: u64 },
}

/// Two bytes as a number.
fn number(bytes: &[u8], at: usize) -> usize {
    bytes[at] as usize * 256 + bytes[at + 1] as usize
}

/// The type and whether same correlation is set, of a head that isn't refused.
fn head(bytes: &[u8]) -> Option<(u8, bool)> {
    let (kind, good) = (bytes[3] & 15, bytes[2] == 0xD0);
    (good && (1..=5).contains(&kind)).then_some((kind, bytes[3] & 0x10 != 0))
}

/// "The frame's end": the segments that the frame at the first byte has of its own, or why it isn't whole. "16 says a
/// continuation length of 0 or 1 was reached in an otherwise present frame, with the place of that length; 1 remains for all
/// else".
fn own_segments(bytes: &[u8]) -> Result<u64, Walked> {
    if bytes.len() < 6 {
        return Err(Walked::NotWhole);
    }
    let raw = number(bytes, 0);
    if raw != 0xFFFF {
        let whole = raw <= bytes.len();
        return whole.then_some(1).ok_or(Walked::NotWhole);
    }
    let (mut behind, mut segments) = (32_767, 1);
    while behind + 2 <= bytes.len() {
        segments += 1;
        match number(bytes, behind) {
            0 | 1 => return Err(Walked::Dead { behind }),
            0x7FFF | 0xFFFF => behind += 32_767,
            last => {
                let whole = behind + last <= bytes.len();
                return whole.then_some(segments).ok_or(Walked::NotWhole);
            }
        }
    }
    Err(Walked::NotWhole)
}

/// "Length above 10, bytes 3 and 4 of its payload above 0x0100 as a number, and bytes 1 and 2 at most length - 2".
fn is_own_object(bytes: &[u8], length: usize) -> bool {
    length > 10 && number(bytes, 8) > 0x0100 && number(bytes, 6) <= length - 2
}

pub fn walk(bytes: &[u8]) -> Walked {
    let own = match own_segments(bytes) {
        Ok(own) => own,
        Err(not_whole) => return not_whole,
    };
    let Some((first, _)) = head(bytes) else {
        return Walked::BadHead;
    };
    let raw = number(bytes, 0);
    if raw < 6 {
        let (length, behind) = (raw as u64, 0);
        return Walked::TooShort { length, behind };
    }
    if raw == 0xFFFF {
        return Walked::Frame { segments: own };
    }
    let (mut behind, mut segments) = (raw, own);
    while bytes.len() - behind >= 6 {
        let rest = &bytes[behind..];
        let Some((kind, same_correlation)) = head(rest) else {
            return Walked::BadHead;
        };
        let length = number(rest, 0);
        let follows = kind == first || kind == 3 && [1, 2, 5].contains(&first);
        if length == 0xFFFF || !same_correlation || !follows || length > rest.len() {
            break;
        }
        if length < 6 {
            let length = length as u64;
            return Walked::TooShort { length, behind };
        }
        if is_own_object(rest, length) {
            break;
        }
        behind += length;
        segments += 1;
    }
    Walked::Frame { segments }
}
