//! The checksum of a frame, readings by byte planes, and the report over a box of cards.

use crate::{raw, refused, Refused, UNSET};

/// The checksum of a frame: CRC-32 (IEEE 802.3) over the type byte, then the data.
pub fn checksum(frame_type: u8, data: &[u8]) -> u32 {
    // Safety: the slice is given by its own pointer and length.
    unsafe { raw::mrecordlog_checksum(frame_type, data.as_ptr(), data.len()) }
}

/// Readings of `width` bytes each, stored by byte planes: first byte 0 of every reading, then byte 1, and so on. Refused 18 for a width outside 1 to 64 or one that does
/// not divide the payload.
pub fn to_planes(payload: &[u8], width: u64) -> Result<Vec<u8>, Refused> {
    let mut target = vec![0; payload.len()];
    // Safety: each slice is given by its own pointer and length, and the two do not overlap.
    refused(unsafe { raw::mrecordlog_to_planes(payload.as_ptr(), payload.len(), width, target.as_mut_ptr(), target.len()) }, &[])?;
    Ok(target)
}

/// The readings that a payload of planes holds: the inverse, with the same refusal.
pub fn from_planes(payload: &[u8], width: u64) -> Result<Vec<u8>, Refused> {
    let mut target = vec![0; payload.len()];
    // Safety: as in `to_planes`.
    refused(unsafe { raw::mrecordlog_from_planes(payload.as_ptr(), payload.len(), width, target.as_mut_ptr(), target.len()) }, &[])?;
    Ok(target)
}

/// A report over a box of cards: 12 little-endian numbers, as include/mrecordlog.h names them.
#[derive(Clone, Debug, PartialEq, Eq)]
pub struct Report {
    pub bytes: Vec<u8>,
}

/// The mean data length of sound frames: `whole + remainder / count`.
#[derive(Clone, Copy, Debug, PartialEq, Eq)]
pub struct Mean {
    pub whole: u64,
    pub remainder: u64,
    pub count: u64,
}

impl Default for Report {
    /// The empty report.
    fn default() -> Self {
        Report { bytes: vec![0; 96] }
    }
}

impl Report {
    /// Counts the frames of a log. A refusal leaves the report as it was.
    pub fn feed(&mut self, log: &[u8]) -> Result<(), Refused> {
        // Safety: each slice is given by its own pointer and length, and the two do not overlap.
        refused(unsafe { raw::mrecordlog_report_feed(self.bytes.as_mut_ptr(), self.bytes.len(), log.as_ptr(), log.len()) }, &[])
    }

    /// The 12 numbers: logs fed; right and wrong frames of type Full, First, Middle, Last; unreadable headers; over-long frames; bytes of data in sound frames.
    pub fn numbers(&self) -> Vec<u64> {
        self.bytes.chunks_exact(8).map(|number| u64::from_le_bytes(number.try_into().unwrap())).collect()
    }

    /// The mean data length of the sound frames counted, or none.
    pub fn mean(&self) -> Result<Option<Mean>, Refused> {
        let [mut found, mut whole, mut remainder, mut count] = [UNSET; 4];
        // Safety: the slice is given by its own pointer and length.
        let number = unsafe { raw::mrecordlog_report_mean(self.bytes.as_ptr(), self.bytes.len(), &mut found, &mut whole, &mut remainder, &mut count) };
        refused(number, &[found, whole, remainder, count])?;
        Ok((found == 1).then_some(Mean { whole, remainder, count }))
    }
}
