//! The salvage reading as document 01 has it, and document 02 where it changes that: their sentences in document 01's order, each
//! above what does it. Reading one frame is here by either's rules: by salvage's for measuring and taking (W-208), by the reader's for
//! what the Rust refuses and the port reads. It is written from that text alone, shares nothing with the port or with the rest of
//! the comparison, and is meant to be read beside the document.

/// What a salvage reading hands out: entries in order, and the tail's place.
pub struct Salvage {
    pub entries: Vec<Stood>,
    pub tail: usize,
}

/// Document 02, W-201: "Each frame record gains the first byte and the byte after the last one in the run, absorbed segments
/// included; salvage entries that are refusals gain the same two".
pub struct Stood {
    pub from: usize,
    pub end: usize,
    pub entry: Entry,
}

pub enum Entry {
    Frame(Frame),
    Refused(Refusal),
}

/// A frame: its head, its payload, and of how many segments it was made.
pub struct Frame {
    pub head: Head,
    pub payload: Vec<u8>,
    pub segments: usize,
}

/// A refusal: its number, its place, and the one value that 2, 3 and 7 carry, 0 of 1 and 16.
pub struct Refusal {
    pub number: usize,
    pub place: usize,
    pub value: usize,
}

fn refusal(number: usize, place: usize, value: usize) -> Refusal {
    Refusal {
        number,
        place,
        value,
    }
}

impl Refusal {
    /// 1 or 16.
    pub fn is_not_whole(&self) -> bool {
        self.number == 1 || self.number == 16
    }
}

/// "The parsed head holds the type and the three flags beside its numbers."
pub struct Head {
    pub length: u16,
    pub kind: u8,
    pub chained: bool,
    pub continue_on_error: bool,
    pub same_correlation: bool,
    pub correlation: u16,
}

const REQUEST: u8 = 1;
const REPLY: u8 = 2;
const OBJECT: u8 = 3;
const NO_REPLY: u8 = 5;

/// The reader's rules, or salvage's.
#[derive(Clone, Copy, PartialEq)]
pub enum Rules {
    Reader,
    Salvage,
}

/// Two bytes as a number, big-endian.
fn number(run: &[u8], place: usize) -> usize {
    run[place] as usize * 256 + run[place + 1] as usize
}

// ---- "Modules in port order", 1

/// "Parsing a head checks 4 (six bytes), 2, 3." Here six bytes are there.
fn parse(run: &[u8], place: usize) -> Result<Head, Refusal> {
    // 2: "magic not D0", "the byte".
    let magic = run[place + 2];
    if magic != 0xD0 {
        return Err(refusal(2, place, magic as usize));
    }
    // "Format byte: low four bits the type (1 request, 2 reply, 3 object, 4 communication)". Document 02, W-210: "the no-reply
    // request DSS, type 5", "The type reading accepts 1 to 5". 3: any other, "the low four bits".
    let format = run[place + 3];
    let kind = format & 0x0F;
    if kind < 1 || kind > 5 {
        return Err(refusal(3, place, kind as usize));
    }
    // "Raw 0xFFFF reads as length 32,767, every other raw length as itself, also 0x8000 to 0xFFFE."
    let raw = number(run, place) as u16;
    let length = if raw == 0xFFFF { 32_767 } else { raw };
    // "0x40 chained, 0x20 continue on error, 0x10 same correlation; 0x80 is dropped."
    Ok(Head {
        length,
        kind,
        chained: format & 0x40 != 0,
        continue_on_error: format & 0x20 != 0,
        same_correlation: format & 0x10 != 0,
        correlation: number(run, place + 4) as u16,
    })
}

// ---- "Reading"

/// A whole frame's own segments: the bytes behind the framing of each, from one place up to another, and the frame's end.
struct Own {
    parts: Vec<(usize, usize)>,
    end: usize,
}

/// "The frame's end." Where it isn't whole, document 02, W-203: "Answer 1 is to split. 16 says a continuation length of 0 or 1 was
/// reached in an otherwise present frame, with the place of that length; 1 remains for all else."
fn own(run: &[u8], place: usize, rules: Rules) -> Result<Own, Refusal> {
    let not_yet = Err(refusal(1, place, 0));
    let left = run.len() - place;
    // "Fewer than six bytes: 1."
    if left < 6 {
        return not_yet;
    }
    let raw = number(run, place);
    // "Raw not 0xFFFF: whole when that many bytes are there."
    if raw != 0xFFFF {
        if left < raw {
            return not_yet;
        }
        let end = place + raw;
        let parts = vec![(place + 6, end)];
        return Ok(Own { parts, end });
    }
    // "Raw 0xFFFF: 32,767 bytes, then continuations."
    if left < 32_767 {
        return not_yet;
    }
    let mut parts = vec![(place + 6, place + 32_767)];
    let mut at = place + 32_767;
    loop {
        let left = run.len() - at;
        if left < 2 {
            return not_yet;
        }
        // "The decision by raw continuation length: 0 and 1 are never whole; 2 to 0x7FFE and 0x8000 to 0xFFFE are the last;
        // 0x7FFF and 0xFFFF take 32,767 bytes and another must follow." Document 02, W-205: "In salvage 0x7FFF becomes a last
        // continuation".
        let raw = number(run, at);
        let (takes, last) = match raw {
            0 | 1 => return Err(refusal(16, at, 0)),
            0xFFFF => (32_767, false),
            0x7FFF if rules == Rules::Reader => (32_767, false),
            _ => (raw, true),
        };
        if left < takes {
            return not_yet;
        }
        parts.push((at + 2, at + takes));
        at += takes;
        if last {
            return Ok(Own { parts, end: at });
        }
    }
}

/// "head 2, 3, 7": the head of a whole frame.
fn own_head(run: &[u8], place: usize) -> Result<Head, Refusal> {
    let head = parse(run, place)?;
    // 7: "DSS length below 6", "the length".
    let raw = number(run, place);
    if raw < 6 {
        return Err(refusal(7, place, raw));
    }
    Ok(head)
}

/// The frame of a head and its own segments, with what it absorbs; and where that ends. Or, by the reader's rules, what a head
/// that is looked at is refused for.
fn read(
    run: &[u8],
    place: usize,
    mut head: Head,
    own: Own,
    rules: Rules,
) -> Result<(Frame, usize), Refusal> {
    let mut payload = Vec::new();
    for (from, to) in &own.parts {
        payload.extend_from_slice(&run[*from..*to]);
    }
    // "The answer counts segments: one, plus each continuation or absorbed segment."
    let mut segments = own.parts.len();
    let mut at = own.end;
    // "A 0xFFFF frame is its chunks joined, head length 32,767, and nothing is absorbed. Any other frame then looks at what
    // follows, again and again".
    let looks = number(run, place) != 0xFFFF;
    while looks {
        // "Fewer than six bytes left: finished."
        let left = run.len() - at;
        if left < 6 {
            break;
        }
        // "Parse the head there." Salvage: "A head refused while looking for segments to absorb closes the frame instead."
        let next = match parse(run, at) {
            Ok(next) => next,
            Err(refusal) if rules == Rules::Reader => return Err(refusal),
            Err(_) => break,
        };
        // "Raw 0xFFFF, or same correlation clear: finished."
        let length = number(run, at);
        if length == 0xFFFF || !next.same_correlation {
            break;
        }
        // "Finished unless the type equals the first frame's, or is object after a first reply or request." W-210: "an object may
        // follow a first type 5 as it follows a request".
        let equals = next.kind == head.kind;
        let object_after = next.kind == OBJECT && [REPLY, REQUEST, NO_REPLY].contains(&head.kind);
        if !equals && !object_after {
            break;
        }
        // "Length beyond the run: finished."
        if length > left {
            break;
        }
        // "Length 0 to 5: refusal 7", which in salvage closes the frame, as above.
        if length <= 5 {
            if rules == Rules::Reader {
                return Err(refusal(7, at, length));
            }
            break;
        }
        // "Length above 10, bytes 3 and 4 of its payload above 0x0100 as a number, and bytes 1 and 2 at most length - 2:
        // finished, it is an object of its own."
        if length > 10 && number(run, at + 8) > 0x0100 && number(run, at + 6) <= length - 2 {
            break;
        }
        // "Else absorb it. If the payload so far has at least four bytes and starts 80 04, and this payload starts 7F FE or
        // 7F FF, those two are dropped."
        let mut this = &run[at + 6..at + length];
        let extended = payload.len() >= 4 && payload.starts_with(&[0x80, 0x04]);
        let marked = this.starts_with(&[0x7F, 0xFE]) || this.starts_with(&[0x7F, 0xFF]);
        if extended && marked {
            this = &this[2..];
        }
        payload.extend_from_slice(this);
        // "The first head's chained flag becomes this one's."
        head.chained = next.chained;
        segments += 1;
        at += length;
    }
    let frame = Frame {
        head,
        payload,
        segments,
    };
    Ok((frame, at))
}

/// "`next_frame`, order: 10, 1, then head 2, 3, 7", at a place of the run: a frame and its end, or a refusal. W-203: "16 takes 1's
/// place in the order." W-208: measuring and taking "are told which rules hold, the reader's or salvage's", and refuse "in the
/// present order".
pub fn next_frame(run: &[u8], place: usize, rules: Rules) -> Result<(Frame, usize), Refusal> {
    let own = own(run, place, rules)?;
    let head = own_head(run, place)?;
    read(run, place, head, own, rules)
}

// ---- "Salvage reading"

pub fn salvage(run: &[u8]) -> Salvage {
    let mut entries = Vec::new();
    // "From byte 0".
    let mut place = 0;
    loop {
        // "Not whole ends the walk with no entry. The tail's place, where the walk ended, is given". Document 02, W-203, has two
        // answers for not whole and leaves that as it is: "`read_all_frames` and salvage end at either".
        let Ok(own) = own(run, place, Rules::Salvage) else {
            break;
        };
        let own_end = own.end;
        let head = own_head(run, place);
        match head.and_then(|head| read(run, place, head, own, Rules::Salvage)) {
            Ok((frame, end)) => {
                entries.push(Stood {
                    from: place,
                    end,
                    entry: Entry::Frame(frame),
                });
                place = end;
            }
            // "A whole frame whose own head is refused becomes an entry with number and place, and is stepped over to its end;
            // if its raw length is below 6 the walk ends there."
            Err(refusal) => {
                // W-201: "equal where the walk ends at a length below six".
                let ends = number(run, place) < 6;
                entries.push(Stood {
                    from: place,
                    end: if ends { place } else { own_end },
                    entry: Entry::Refused(refusal),
                });
                if ends {
                    break;
                }
                place = own_end;
            }
        }
    }
    let tail = place;
    Salvage { entries, tail }
}
