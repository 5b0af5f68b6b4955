//! Request (x): the morning figures over up to 4,096 accepted blocks of one size, exact and in any order.
//!
//! ```
//! use bulmegart::figures::Figures;
//!
//! let mut figures = Figures::begin_figures(2)?;
//! let mut levels = [0; 16];
//! levels[5] = -9;
//! figures.add_block(2, &levels, 7)?;
//! figures.add_refusal(8)?;
//! let place = figures.at_place(5)?;
//! assert_eq!((place.blocks, place.sum, place.greatest), (1, 9, 9));
//! assert_eq!((figures.accepted(), figures.past(), figures.tally_of(8)?), (1, 7, 1));
//! # Ok::<(), bulmegart::Refusal>(())
//! ```
use crate::{accepted, Refusal};
use std::mem::{offset_of, size_of};

/// Places of the largest block.
pub const PLACES: usize = 1024;
/// Numbers of refusals, 1 to 24.
pub const NUMBERS: usize = 24;

/// What is not by place or by number.
#[repr(C)]
#[derive(Clone, Copy, Debug, Default, PartialEq, Eq)]
pub struct Totals {
    /// 2 to 5: the blocks are n by n, n = 2^log2.
    pub log2: u32,
    /// Accepted blocks, at most 4,096.
    pub accepted: u32,
    /// The sum of their totals past the end.
    pub past: u64,
}

/// What adding answers: 0 with the new totals, or the number of the refusal with the totals handed in.
#[repr(C)]
#[derive(Clone, Copy, Debug, PartialEq, Eq)]
pub struct RawAdded {
    /// 0, 4 or 23.
    pub number: u32,
    /// Behind the adding.
    pub totals: Totals,
}

/// What stands at a place; zeros after a refusal.
#[repr(C)]
#[derive(Clone, Copy, Debug, PartialEq, Eq)]
pub struct PlaceFigures {
    /// 0 or 4.
    pub number: u32,
    /// Blocks that have a non-zero level there.
    pub blocks: u32,
    /// The greatest magnitude.
    pub greatest: u32,
    /// The sum of magnitudes.
    pub sum: u64,
}

/// The tally of a number; 0 after a refusal.
#[repr(C)]
#[derive(Clone, Copy, Debug, PartialEq, Eq)]
pub struct RawTally {
    /// 0 or 4.
    pub number: u32,
    /// How often, stopping at 65,535.
    pub count: u32,
}

const _: () = assert!(size_of::<Totals>() == 16 && offset_of!(Totals, accepted) == 4 && offset_of!(Totals, past) == 8);
const _: () = assert!(size_of::<RawAdded>() == 24 && offset_of!(RawAdded, totals) == 8);
const _: () = assert!(size_of::<PlaceFigures>() == 24 && offset_of!(PlaceFigures, greatest) == 8 && offset_of!(PlaceFigures, sum) == 16);
const _: () = assert!(size_of::<RawTally>() == 8 && offset_of!(RawTally, count) == 4);

extern "C" {
    /// See [`Figures::begin_figures`]. Each takes 1,024 numbers for each of the first three and 24 tallies.
    pub fn bulmegart_begin_figures(blocks: *mut u32, sums: *mut u64, greatests: *mut u32, tallies: *mut u32, totals: Totals, log2: u32) -> RawAdded;
    /// See [`Figures::add_block`].
    pub fn bulmegart_add_block(
        blocks: *mut u32,
        sums: *mut u64,
        greatests: *mut u32,
        totals: Totals,
        log2: u32,
        levels: *const i32,
        levels_length: usize,
        past: u32,
    ) -> RawAdded;
    /// See [`Figures::add_refusal`].
    pub fn bulmegart_add_refusal(tallies: *mut u32, totals: Totals, number: u32) -> RawAdded;
    /// See [`Figures::merge_figures`].
    pub fn bulmegart_merge_figures(
        blocks: *mut u32,
        sums: *mut u64,
        greatests: *mut u32,
        tallies: *mut u32,
        totals: Totals,
        other_blocks: *const u32,
        other_sums: *const u64,
        other_greatests: *const u32,
        other_tallies: *const u32,
        other: Totals,
    ) -> RawAdded;
    /// See [`Figures::at_place`].
    pub fn bulmegart_at_place(blocks: *const u32, sums: *const u64, greatests: *const u32, totals: Totals, place: usize) -> PlaceFigures;
    /// See [`Figures::tally_of`].
    pub fn bulmegart_tally_of(tallies: *const u32, totals: Totals, number: u32) -> RawTally;
}

/// Figures of one size. Its fields are closed, so they are always what is counted over the blocks and numbers that were added.
#[derive(Clone, Debug, PartialEq, Eq)]
pub struct Figures {
    blocks: Box<[u32; PLACES]>,
    sums: Box<[u64; PLACES]>,
    greatests: Box<[u32; PLACES]>,
    tallies: [u32; NUMBERS],
    totals: Totals,
}

impl Figures {
    /// Of blocks of side 2^log2. Refusal: 4, unless log2 is 2 to 5.
    pub fn begin_figures(log2: u32) -> Result<Figures, Refusal> {
        let (blocks, sums, greatests) = (Box::new([0; PLACES]), Box::new([0; PLACES]), Box::new([0; PLACES]));
        let mut figures = Figures { blocks, sums, greatests, tallies: [0; NUMBERS], totals: Totals::default() };
        // Sound, as each call below: every pointer is to as many numbers as are told, and what is written is borrowed alone.
        let r = unsafe {
            let f = &mut figures;
            bulmegart_begin_figures(f.blocks.as_mut_ptr(), f.sums.as_mut_ptr(), f.greatests.as_mut_ptr(), f.tallies.as_mut_ptr(), f.totals, log2)
        };
        figures.added(r)?;
        Ok(figures)
    }

    fn added(&mut self, r: RawAdded) -> Result<(), Refusal> {
        self.totals = r.totals;
        accepted(r.number, ())
    }

    /// An accepted block with its total past the end. Refusals, with nothing changed: 4 (another size), 23 (a 4,097th).
    pub fn add_block(&mut self, log2: u32, levels: &[i32], past: u32) -> Result<(), Refusal> {
        let r = unsafe {
            let (blocks, sums, greatests) = (self.blocks.as_mut_ptr(), self.sums.as_mut_ptr(), self.greatests.as_mut_ptr());
            bulmegart_add_block(blocks, sums, greatests, self.totals, log2, levels.as_ptr(), levels.len(), past)
        };
        self.added(r)
    }

    /// The number of a refused block. Refusal, with nothing changed: 4 (not 1 to 24).
    pub fn add_refusal(&mut self, number: u32) -> Result<(), Refusal> {
        let r = unsafe { bulmegart_add_refusal(self.tallies.as_mut_ptr(), self.totals, number) };
        self.added(r)
    }

    /// Other figures of the same size, as those of another bench. Refusals, with nothing changed: 4 (another size), 23 (more than 4,096 together).
    pub fn merge_figures(&mut self, other: &Figures) -> Result<(), Refusal> {
        let r = unsafe {
            bulmegart_merge_figures(
                self.blocks.as_mut_ptr(),
                self.sums.as_mut_ptr(),
                self.greatests.as_mut_ptr(),
                self.tallies.as_mut_ptr(),
                self.totals,
                other.blocks.as_ptr(),
                other.sums.as_ptr(),
                other.greatests.as_ptr(),
                other.tallies.as_ptr(),
                other.totals,
            )
        };
        self.added(r)
    }

    /// What stands at a place. Refusal: 4 (outside the block).
    pub fn at_place(&self, place: usize) -> Result<PlaceFigures, Refusal> {
        let r = unsafe { bulmegart_at_place(self.blocks.as_ptr(), self.sums.as_ptr(), self.greatests.as_ptr(), self.totals, place) };
        accepted(r.number, r)
    }

    /// How often a number was added, stopping at 65,535. Refusal: 4 (not 1 to 24).
    pub fn tally_of(&self, number: u32) -> Result<u32, Refusal> {
        let r = unsafe { bulmegart_tally_of(self.tallies.as_ptr(), self.totals, number) };
        accepted(r.number, r.count)
    }

    /// Size: n = 2^log2.
    pub fn log2(&self) -> u32 {
        self.totals.log2
    }

    /// Accepted blocks.
    pub fn accepted(&self) -> u32 {
        self.totals.accepted
    }

    /// The sum of the totals past the end.
    pub fn past(&self) -> u64 {
        self.totals.past
    }
}
