//! Request (v): a block with its summary kept beside it, so that nobody counts it anew: one record for each 4x4 sub-block and one for the whole.
//!
//! ```
//! use bulmegart::summary::KeptBlock;
//!
//! let mut block = KeptBlock::new(3, 15)?;
//! block.set_level(0, 5)?;
//! block.set_level(63, -7)?;
//! let whole = block.whole();
//! assert_eq!((whole.count, whole.sum, whole.map), (2, 12, 0b1001));
//! assert_eq!(block.sub_block(3), Some((1, 7)));
//! # Ok::<(), bulmegart::Refusal>(())
//! ```
use crate::raw::{RawBlockAnswer, RawListAnswer, RawParams, RawState};
use crate::{accepted, found, seen, Found, Params, Refusal, State, CONTEXTS, STATISTICS};
use std::mem::{offset_of, size_of};

/// How many sub-blocks the largest block has, and so how many records there are.
pub const RECORDS: usize = 64;

/// What a kept block is made for.
#[repr(C)]
#[derive(Clone, Copy, Debug, PartialEq, Eq)]
pub struct Form {
    /// 2 to 5: the block is n by n, n = 2^log2.
    pub log2: u32,
    /// T, 15 to 22: levels are −2^T to 2^T − 1.
    pub bits: u32,
}

/// The record of the whole.
#[repr(C)]
#[derive(Clone, Copy, Debug, Default, PartialEq, Eq)]
pub struct Whole {
    /// Levels that are not zero.
    pub count: u64,
    /// The sum of magnitudes.
    pub sum: u64,
    /// Bit s: sub-block s holds a level. Sub-blocks are numbered row by row, bit 0 is the top left one.
    pub map: u64,
}

/// What a change answers: 0 with the new record of the whole, or the number of the refusal with the record handed in.
#[repr(C)]
#[derive(Clone, Copy, Debug, PartialEq, Eq)]
pub struct RawChanged {
    /// 0, 4 or 8.
    pub number: u32,
    /// Behind the change.
    pub whole: Whole,
}

/// A block read from a payload into a kept block.
#[repr(C)]
#[derive(Clone, Copy, Debug, PartialEq, Eq)]
pub struct RawKeptBlockAnswer {
    /// The reader's answer.
    pub block: RawBlockAnswer,
    /// Behind it.
    pub whole: Whole,
}

/// A block read from a list into a kept block.
#[repr(C)]
#[derive(Clone, Copy, Debug, PartialEq, Eq)]
pub struct RawKeptListAnswer {
    /// The reader's answer.
    pub list: RawListAnswer,
    /// Behind it.
    pub whole: Whole,
}

const _: () = assert!(size_of::<Form>() == 8 && offset_of!(Form, bits) == 4);
const _: () = assert!(size_of::<Whole>() == 24 && offset_of!(Whole, sum) == 8 && offset_of!(Whole, map) == 16);
const _: () = assert!(size_of::<RawChanged>() == 32 && offset_of!(RawChanged, whole) == 8);
const _: () = assert!(size_of::<RawKeptBlockAnswer>() == 72 && offset_of!(RawKeptBlockAnswer, whole) == 48);
const _: () = assert!(size_of::<RawKeptListAnswer>() == 48 && offset_of!(RawKeptListAnswer, whole) == 24);

extern "C" {
    /// See [`KeptBlock::set_level`]. Each takes 64 counts and 64 sums.
    pub fn bulmegart_set_level(
        levels: *mut i32,
        levels_length: usize,
        counts: *mut u32,
        sums: *mut u64,
        form: Form,
        whole: Whole,
        place: usize,
        level: i32,
    ) -> RawChanged;
    /// See [`KeptBlock::clear_kept`].
    pub fn bulmegart_clear_kept(levels: *mut i32, levels_length: usize, counts: *mut u32, sums: *mut u64, form: Form, whole: Whole) -> RawChanged;
    /// See [`KeptBlock::copy_in`].
    pub fn bulmegart_copy_in(
        levels: *mut i32,
        levels_length: usize,
        counts: *mut u32,
        sums: *mut u64,
        form: Form,
        whole: Whole,
        other: Form,
        from: *const i32,
        from_length: usize,
    ) -> RawChanged;
    /// See [`KeptBlock::recount`].
    pub fn bulmegart_recount(levels: *const i32, levels_length: usize, counts: *mut u32, sums: *mut u64, form: Form, whole: Whole) -> RawChanged;
    /// See [`KeptBlock::read_kept`].
    pub fn bulmegart_read_kept(
        payload: *const u8,
        length: usize,
        state: RawState,
        contexts: *mut u8,
        statistics: *mut u8,
        params: RawParams,
        levels: *mut i32,
        levels_length: usize,
        counts: *mut u32,
        sums: *mut u64,
        form: Form,
        whole: Whole,
    ) -> RawKeptBlockAnswer;
    /// See [`KeptBlock::read_kept_bins`].
    pub fn bulmegart_read_kept_bins(
        list: *const u8,
        length: usize,
        statistics: *mut u8,
        params: RawParams,
        levels: *mut i32,
        levels_length: usize,
        counts: *mut u32,
        sums: *mut u64,
        form: Form,
        whole: Whole,
    ) -> RawKeptListAnswer;
}

/// A block with its summary. Its fields are closed, so the summary is always what a fresh count gives.
#[derive(Clone, Debug, PartialEq, Eq)]
pub struct KeptBlock {
    form: Form,
    levels: Vec<i32>,
    counts: [u32; RECORDS],
    sums: [u64; RECORDS],
    whole: Whole,
}

impl KeptBlock {
    /// A block of zeros of side 2^log2 whose levels are −2^bits to 2^bits − 1. Refusal: 4, unless log2 is 2 to 5 and bits 15 to 22.
    pub fn new(log2: u32, bits: u32) -> Result<KeptBlock, Refusal> {
        let levels = vec![0; if (2..=5).contains(&log2) { 1 << (2 * log2) } else { 0 }];
        let mut block = KeptBlock { form: Form { log2, bits }, levels, counts: [0; RECORDS], sums: [0; RECORDS], whole: Whole::default() };
        block.clear_kept()?;
        Ok(block)
    }

    /// Size and range.
    pub fn form(&self) -> Form {
        self.form
    }

    /// n·n levels, row by row.
    pub fn levels(&self) -> &[i32] {
        &self.levels
    }

    /// The record of the whole.
    pub fn whole(&self) -> Whole {
        self.whole
    }

    /// Count and sum of a sub-block, numbered row by row; none outside the block.
    pub fn sub_block(&self, number: usize) -> Option<(u32, u64)> {
        let subs = self.levels.len() / 16;
        (number < subs).then(|| (self.counts[number], self.sums[number]))
    }

    fn changed(&mut self, r: RawChanged) -> Result<(), Refusal> {
        self.whole = r.whole;
        accepted(r.number, ())
    }

    /// One level: touches its place, its sub-block's record and the whole record. Refusals, with nothing changed: 4 (place), 8 (level).
    pub fn set_level(&mut self, place: usize, level: i32) -> Result<(), Refusal> {
        // Sound, as each call below: every pointer comes from a borrow of the length handed on or of 64 records, and what is written is borrowed alone.
        let r = unsafe {
            let (counts, sums) = (self.counts.as_mut_ptr(), self.sums.as_mut_ptr());
            bulmegart_set_level(self.levels.as_mut_ptr(), self.levels.len(), counts, sums, self.form, self.whole, place, level)
        };
        self.changed(r)
    }

    /// All levels zero. Refusal: 4 where the form is none, which a block that was made has not.
    pub fn clear_kept(&mut self) -> Result<(), Refusal> {
        let r = unsafe {
            let (counts, sums) = (self.counts.as_mut_ptr(), self.sums.as_mut_ptr());
            bulmegart_clear_kept(self.levels.as_mut_ptr(), self.levels.len(), counts, sums, self.form, self.whole)
        };
        self.changed(r)
    }

    /// Another block of the same size and range. Refusal, with nothing changed: 4 (another size or range).
    pub fn copy_in(&mut self, other: &KeptBlock) -> Result<(), Refusal> {
        let r = unsafe {
            let (counts, sums) = (self.counts.as_mut_ptr(), self.sums.as_mut_ptr());
            let (levels, length) = (self.levels.as_mut_ptr(), self.levels.len());
            bulmegart_copy_in(levels, length, counts, sums, self.form, self.whole, other.form, other.levels.as_ptr(), other.levels.len())
        };
        self.changed(r)
    }

    /// A fresh count, which changes nothing of a block that was made here.
    pub fn recount(&mut self) -> Result<(), Refusal> {
        let r = unsafe {
            let (counts, sums) = (self.counts.as_mut_ptr(), self.sums.as_mut_ptr());
            bulmegart_recount(self.levels.as_ptr(), self.levels.len(), counts, sums, self.form, self.whole)
        };
        self.changed(r)
    }

    /// One block from a payload. Refusals: as [`residual_coding`](crate::residual_coding), with 4 also for parameters of another size or range; 7 and 8 leave
    /// zeros, and the summary of zeros.
    pub fn read_kept(
        &mut self,
        payload: &[u8],
        state: State,
        contexts: &mut [u8; CONTEXTS],
        statistics: &mut [u8; STATISTICS],
        params: Params,
    ) -> Result<(Found, State), Refusal> {
        let r = unsafe {
            bulmegart_read_kept(
                payload.as_ptr(),
                payload.len(),
                state.raw(),
                contexts.as_mut_ptr(),
                statistics.as_mut_ptr(),
                params.raw(),
                self.levels.as_mut_ptr(),
                self.levels.len(),
                self.counts.as_mut_ptr(),
                self.sums.as_mut_ptr(),
                self.form,
                self.whole,
            )
        };
        self.whole = r.whole;
        accepted(r.block.number, (found(r.block.found), seen(r.block.state)))
    }

    /// One block from a bin list, which it must end. Refusals: as [`read_bins`](crate::read_bins), with 4 also for parameters of another size or
    /// range; 8 and 13 leave zeros, and the summary of zeros.
    pub fn read_kept_bins(&mut self, list: &[u8], statistics: &mut [u8; STATISTICS], params: Params) -> Result<Found, Refusal> {
        let r = unsafe {
            bulmegart_read_kept_bins(
                list.as_ptr(),
                list.len(),
                statistics.as_mut_ptr(),
                params.raw(),
                self.levels.as_mut_ptr(),
                self.levels.len(),
                self.counts.as_mut_ptr(),
                self.sums.as_mut_ptr(),
                self.form,
                self.whole,
            )
        };
        self.whole = r.whole;
        accepted(r.list.number, found(r.list.found))
    }
}
