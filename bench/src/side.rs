//! The calls of a side with slices for pointers. An answer of more than 16 bytes is stored where the caller wants it and is
//! not copied.

#![allow(clippy::too_many_arguments)]

use crate::abi::*;

// SAFETY of each call below: pointers and counts are those of slices, and what may change is borrowed exclusively.
impl Side {
    #[inline(always)]
    pub fn reset(&self, answer: &mut DeskAnswer, seats: &mut [Seat], desk: Desk, tally: &mut Tally) {
        unsafe { (self.reset)(answer, seats.as_mut_ptr(), seats.len(), desk, tally) };
    }

    #[inline(always)]
    pub fn open(
        &self,
        answer: &mut DeskAnswer,
        seats: &mut [Seat],
        desk: Desk,
        cells: &[u8],
        marks: &[u32],
        tally: &Tally,
        frame: &[u8],
    ) {
        let (row, n) = (seats.as_mut_ptr(), seats.len());
        let (c, c_len) = (cells.as_ptr(), cells.len());
        let (m, m_len) = (marks.as_ptr(), marks.len());
        unsafe { (self.open)(answer, row, n, desk, c, c_len, m, m_len, tally, frame.as_ptr(), frame.len()) };
    }

    #[inline(always)]
    pub fn reply(
        &self,
        answer: &mut DeskAnswer,
        seats: &mut [Seat],
        desk: Desk,
        cells: &mut [u8],
        marks: &mut [u32],
        tally: &mut Tally,
        frame: &[u8],
    ) {
        let (row, n) = (seats.as_mut_ptr(), seats.len());
        let (c, c_len) = (cells.as_mut_ptr(), cells.len());
        let (m, m_len) = (marks.as_mut_ptr(), marks.len());
        unsafe { (self.reply)(answer, row, n, desk, c, c_len, m, m_len, tally, frame.as_ptr(), frame.len()) };
    }

    #[inline(always)]
    pub fn capture(
        &self,
        answer: &mut CapturedAnswer,
        seats: &mut [Seat],
        desk: Desk,
        cells: &mut [u8],
        marks: &mut [u32],
        tally: &mut Tally,
        capture: &[u8],
    ) {
        let (row, n) = (seats.as_mut_ptr(), seats.len());
        let (c, c_len) = (cells.as_mut_ptr(), cells.len());
        let (m, m_len) = (marks.as_mut_ptr(), marks.len());
        unsafe { (self.capture)(answer, row, n, desk, c, c_len, m, m_len, tally, capture.as_ptr(), capture.len()) };
    }

    #[inline(always)]
    pub fn look(&self, tally: &Tally, letter: u8, status: u8) -> LookedAnswer {
        unsafe { (self.look)(tally, letter, status) }
    }

    #[inline(always)]
    pub fn seats_in_use(&self, desk: Desk) -> u32 {
        unsafe { (self.seats_in_use)(desk) }
    }

    #[inline(always)]
    pub fn capacity(&self, cells: usize, marks: usize) -> usize {
        unsafe { (self.capacity)(cells, marks) }
    }

    #[inline(always)]
    pub fn next_held(&self, desk: Desk, cells: &[u8], marks: &[u32], seat: u32, from: usize) -> CellAnswer {
        unsafe { (self.next_held)(desk, cells.as_ptr(), cells.len(), marks.as_ptr(), marks.len(), seat, from) }
    }

    #[inline(always)]
    pub fn read_request(&self, answer: &mut RequestAnswer, frame: &[u8]) {
        unsafe { (self.read_request)(answer, frame.as_ptr(), frame.len()) };
    }

    #[inline(always)]
    pub fn write_request(&self, record: StaticRequest, out: &mut [u8]) -> WrittenAnswer {
        unsafe { (self.write_request)(record, out.as_mut_ptr(), out.len()) }
    }

    #[inline(always)]
    pub fn read_reply(&self, answer: &mut ReplyAnswer, frame: &[u8]) {
        unsafe { (self.read_reply)(answer, frame.as_ptr(), frame.len()) };
    }

    #[inline(always)]
    pub fn write_reply(&self, record: ReplyRecord, out: &mut [u8]) -> WrittenAnswer {
        unsafe { (self.write_reply)(record, out.as_mut_ptr(), out.len()) }
    }

    #[inline(always)]
    pub fn read_dynamic(&self, answer: &mut DynamicAnswer, frame: &[u8]) {
        unsafe { (self.read_dynamic)(answer, frame.as_ptr(), frame.len()) };
    }

    #[inline(always)]
    pub fn write_dynamic(&self, record: DynamicRequest, out: &mut [u8]) -> WrittenAnswer {
        unsafe { (self.write_dynamic)(record, out.as_mut_ptr(), out.len()) }
    }

    #[inline(always)]
    pub fn next_frame(&self, answer: &mut FrameAnswer, capture: &[u8], at: usize) {
        unsafe { (self.next_frame)(answer, capture.as_ptr(), capture.len(), at) };
    }

    #[inline(always)]
    pub fn list(&self, capture: &[u8], cells: &mut [u8], marks: &mut [u32], out: &mut [u8]) -> ListedAnswer {
        let (bytes, len) = (capture.as_ptr(), capture.len());
        let (c, c_len) = (cells.as_mut_ptr(), cells.len());
        let (m, m_len) = (marks.as_mut_ptr(), marks.len());
        unsafe { (self.list)(bytes, len, c, c_len, m, m_len, out.as_mut_ptr(), out.len()) }
    }

    #[inline(always)]
    pub fn running_time(&self, of: RunningOf) -> RunningAnswer {
        unsafe { (self.running_time)(of) }
    }

    #[inline(always)]
    pub fn refusal_name(&self, refusal: u32, out: &mut [u8]) -> WrittenAnswer {
        unsafe { (self.refusal_name)(refusal, out.as_mut_ptr(), out.len()) }
    }
}
