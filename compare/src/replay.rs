//! Replays a recorded file on our side alone, as RECORDED.md has it: the reference for other programs that do.

use compare::case::*;
use compare::record::{ENTRIES, Record};

use crate::ours::Ours;
use crate::recorded::*;

/// Why a replay ends before the file does. The program `recorded` says it in the same words, all but one: it hands the C functions
/// a record as it stands, and here a list of that length has no place.
const CUT_SHORT: &str = "the file is cut short there";
const NO_FRAME: &str = "a frame there is of none of the kinds 0 to 6";
const OUT_OF_BUFFER: &str = "a frame there leaves its buffer, or names none of the seven";
const NO_CALL: &str = "a frame there names none of the calls";
const LONG_REQUEST: &str = "a request there is for more bytes than a buffer has";
const LONG_LIST: &str = "a record there lists more than 126 items";
const OUT_OF_ORDER: &str = "a call and its compare do not follow each other there";
const BEHIND: &str = "bytes follow the end frame there";
const OTHER_NUMBER: &str = "the file ends there, and its head says another number";

/// Where a record has the length of its list.
const LIST_LENGTH: usize = 44;

/// The buffers of a case as they went in, and as our side left them.
struct Replay {
    buffers: [Vec<u8>; 7],
    left: [Vec<u8>; 7],
    /// Whether a call waits for its compare.
    open: bool,
    compared: u32,
    wrong: u32,
}

/// How many cases the file has, and how many of them our side answers otherwise.
pub fn replay(file: &[u8]) -> Result<(u32, u32), String> {
    let (head, frames) =
        file.split_at_checked(16).ok_or("the file is cut short: its first 16 bytes are not all there")?;
    if head[..8] != *MAGIC || head[8..12] != VERSION.to_le_bytes() {
        return Err("this is no recorded file of version 1: its first 12 bytes are others".into());
    }
    let cases = number(&head[12..]) as u32;
    let buffers = SIZES.map(|size| vec![0; size]);
    let mut replay = Replay { left: buffers.clone(), buffers, open: false, compared: 0, wrong: 0 };
    let ended = replay.run(frames, cases);
    ended.map_err(|why| format!("the replay stops after {} cases: {why}", replay.compared))?;
    Ok((cases, replay.wrong))
}

impl Replay {
    /// Every frame in turn, up to the end frame.
    fn run(&mut self, mut rest: &[u8], cases: u32) -> Result<(), &'static str> {
        loop {
            let (frame, after) = rest.split_at_checked(FRAME).ok_or(CUT_SHORT)?;
            rest = after;
            match frame[0] {
                END if self.open => return Err(OUT_OF_ORDER),
                END if !rest.is_empty() => return Err(BEHIND),
                END if self.compared != cases => return Err(OTHER_NUMBER),
                END => return Ok(()),
                CALL if !self.open => self.call(frame[1])?,
                COMPARE if self.open => self.compare(),
                CALL | COMPARE => return Err(OUT_OF_ORDER),
                _ => rest = self.change(frame, rest)?,
            }
        }
    }

    /// The frames that change a buffer; what is left of the file.
    fn change<'a>(&mut self, frame: &[u8], rest: &'a [u8]) -> Result<&'a [u8], &'static str> {
        let [offset, length, argument] = [2, 4, 6].map(|at| number(&frame[at..at + 2]) as usize);
        let name = frame[1] as usize;
        if SIZES.get(name).is_none_or(|&size| offset + length > size) {
            return Err(OUT_OF_BUFFER);
        }
        let copied = |buffer: usize| self.buffers[buffer].get(argument..argument + length).ok_or(OUT_OF_BUFFER);
        let (bytes, rest) = match frame[0] {
            PUT => rest.split_at_checked(length).map(|(bytes, rest)| (bytes.to_vec(), rest)).ok_or(CUT_SHORT)?,
            FILL => (vec![argument as u8; length], rest),
            COPY_DATA => (copied(DATA)?.to_vec(), rest),
            COPY_SOURCE => (copied(SOURCE)?.to_vec(), rest),
            _ => return Err(NO_FRAME),
        };
        self.buffers[name][offset..offset + length].copy_from_slice(&bytes);
        Ok(rest)
    }

    fn compare(&mut self) {
        self.open = false;
        self.compared += 1;
        self.wrong += u32::from(!self.agrees());
    }

    fn agrees(&self) -> bool {
        [IMAGE, PAGE, OUTPUT, RESULT].iter().all(|&buffer| self.buffers[buffer] == self.left[buffer])
    }

    fn call(&mut self, call: u8) -> Result<(), &'static str> {
        let call = CALLS.get(call as usize).filter(|&&call| call != Call::Open).ok_or(NO_CALL)?;
        if self.buffers[PAGE][LIST_LENGTH] as usize > ENTRIES {
            return Err(LONG_LIST);
        }
        let case = self.case(*call).ok_or(LONG_REQUEST)?;
        self.open = true;
        let mut outcome = Outcome::default();
        Ours::default().run(&case, number(&self.buffers[REQUEST][24..32]), &mut outcome);
        self.left.clone_from(&self.buffers);
        self.left[RESULT][..4].copy_from_slice(&outcome.returned.to_le_bytes());
        self.left[RESULT][4..].copy_from_slice(&outcome.answer);
        for (buffer, bytes) in [(IMAGE, outcome.image), (PAGE, outcome.record), (OUTPUT, outcome.output)] {
            self.left[buffer][..bytes.len()].copy_from_slice(&bytes);
        }
        Ok(())
    }

    /// None where the request is for more bytes than a buffer has.
    fn case(&self, call: Call) -> Option<Case> {
        let request = &self.buffers[REQUEST];
        let mut case = Case::new(call);
        case.image.copy_from_slice(&self.buffers[IMAGE]);
        case.source.copy_from_slice(&self.buffers[SOURCE]);
        case.record = Record::decode(self.buffers[PAGE][..].try_into().expect("the size of a record"));
        [case.namespace, case.type_byte, case.chunk, case.value] = [0, 1, 2, 3].map(|at| request[at]);
        case.number = number(&request[4..8]) as u32;
        case.index = number(&request[8..16]);
        case.span = number(&request[16..24]);
        case.data = self.buffers[DATA].get(..number(&request[32..34]) as usize)?.to_vec();
        case.output = self.buffers[OUTPUT].get(..number(&request[34..36]) as usize)?.to_vec();
        case.key.copy_from_slice(&request[40..56]);
        case.single.copy_from_slice(&request[56..]);
        Some(case)
    }
}

/// Little endian.
fn number(bytes: &[u8]) -> u64 {
    bytes.iter().rev().fold(0, |number, &byte| number << 8 | u64::from(byte))
}

#[cfg(test)]
mod tests {
    use super::*;

    /// A file of so many cases, by its head.
    fn file(cases: u8, frames: &[[u8; FRAME]]) -> Vec<u8> {
        [MAGIC, &VERSION.to_le_bytes()[..], &[cases, 0, 0, 0], frames.as_flattened()].concat()
    }

    fn frame(kind: u8, name: u8) -> [u8; FRAME] {
        [kind, name, 0, 0, 0, 0, 0, 0]
    }

    const END_FRAME: [u8; FRAME] = [END, 0, 0, 0, 0, 0, 0, 0];

    fn stops(cases: u8, frames: &[[u8; FRAME]], compared: u32, why: &str) {
        assert_eq!(replay(&file(cases, frames)), Err(format!("the replay stops after {compared} cases: {why}")));
    }

    #[test]
    fn a_whole_file_is_replayed() {
        let (call, compare) = (frame(CALL, 4), frame(COMPARE, 0));
        let [asked, right, wrong] =
            [[FILL, 5, 1, 0, 1, 0, 1, 0], [FILL, 6, 0, 0, 1, 0, 1, 0], [FILL, 6, 0, 0, 1, 0, 2, 0]];
        let frames = [asked, call, right, compare, call, wrong, compare, END_FRAME];
        assert_eq!(replay(&file(2, &frames)), Ok((2, 1)));
    }

    #[test]
    fn a_head_that_is_wrong_has_a_sentence() {
        let cut = "the file is cut short: its first 16 bytes are not all there";
        let other = "this is no recorded file of version 1: its first 12 bytes are others";
        assert_eq!(replay(&file(0, &[])[..15]), Err(cut.into()));
        assert_eq!(replay(&[0; 24]), Err(other.into()));
    }

    #[test]
    fn a_frame_that_is_wrong_has_a_sentence() {
        let (call, compare) = (frame(CALL, 4), frame(COMPARE, 0));
        stops(0, &[], 0, CUT_SHORT);
        stops(0, &[[PUT, 0, 0, 0, 9, 0, 0, 0], END_FRAME], 0, CUT_SHORT);
        stops(0, &[frame(7, 0), END_FRAME], 0, NO_FRAME);
        stops(0, &[frame(FILL, 7), END_FRAME], 0, OUT_OF_BUFFER);
        stops(0, &[[FILL, 5, 60, 0, 5, 0, 0, 0], END_FRAME], 0, OUT_OF_BUFFER);
        stops(0, &[[COPY_DATA, 0, 0, 0, 1, 0, 0, 16], END_FRAME], 0, OUT_OF_BUFFER);
        stops(1, &[frame(CALL, 22), compare, END_FRAME], 0, NO_CALL);
        stops(1, &[frame(CALL, 12), compare, END_FRAME], 0, NO_CALL);
        stops(1, &[[FILL, 5, 33, 0, 1, 0, 17, 0], call, compare, END_FRAME], 0, LONG_REQUEST);
        stops(2, &[call, compare, [FILL, 5, 35, 0, 1, 0, 17, 0], call, compare, END_FRAME], 1, LONG_REQUEST);
        stops(1, &[[FILL, 2, 44, 0, 1, 0, 127, 0], call, compare, END_FRAME], 0, LONG_LIST);
        stops(1, &[call, call, compare, END_FRAME], 0, OUT_OF_ORDER);
        stops(1, &[call, compare, compare, END_FRAME], 1, OUT_OF_ORDER);
        stops(1, &[call, END_FRAME], 0, OUT_OF_ORDER);
        stops(1, &[call, compare, END_FRAME, END_FRAME], 1, BEHIND);
        stops(2, &[call, compare, END_FRAME], 1, OTHER_NUMBER);
    }
}
