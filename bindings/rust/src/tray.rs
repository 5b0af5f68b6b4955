//! A tray: up to [`TRAY_MOST`] blocks of one payload in one call, into one long buffer cut into consecutive n·n parts.
use crate::raw::RawState;
use crate::{seen, Found, Params, Rdpcm, Reader, Refusal, State, CONTEXTS, STATISTICS};
use std::mem::{align_of, offset_of, size_of};

/// The most records of one tray.
pub const TRAY_MOST: usize = 256;

/// The parameters of one block of a tray, a byte each, as the archive takes them. A flag is 0 or 1.
#[repr(C)]
#[derive(Clone, Copy, Debug, PartialEq, Eq)]
pub struct Record {
    /// 2 to 5: the block is n by n, n = 2^log2.
    pub log2: u8,
    /// 0 diagonal, 1 rows, 2 columns.
    pub scan: u8,
    /// Bit depth of the component, 8 to 16.
    pub depth: u8,
    /// Flag: 1 luma, 0 chroma.
    pub luma: u8,
    /// Flag: sign hiding enabled.
    pub hiding: u8,
    /// Flag: transform skip may be coded.
    pub skip_allowed: u8,
    /// Flag: transquant bypass.
    pub lossless: u8,
    /// Flag: persistent Rice.
    pub persistent: u8,
    /// Flag: skip context enabled.
    pub skip_context: u8,
    /// Flag: explicit RDPCM enabled.
    pub explicit_rdpcm: u8,
    /// Flag: implicit RDPCM enabled, in an intra block of mode 10 or 26.
    pub implicit_rdpcm: u8,
    /// Flag: inter block.
    pub inter: u8,
    /// Flag: bypass alignment enabled.
    pub aligning: u8,
    /// Flag: extended precision.
    pub extended: u8,
}

impl Record {
    /// How many places the block's part of the buffer has; none for a size that no block has.
    pub const fn area(&self) -> Option<usize> {
        match self.log2 {
            2..=5 => Some(1 << (2 * self.log2)),
            _ => None,
        }
    }
}

/// A number that no byte holds becomes 255, which is as far out of its limits.
impl From<Params> for Record {
    fn from(p: Params) -> Record {
        let byte = |v: u32| v.min(255) as u8;
        Record {
            log2: byte(p.log2),
            scan: byte(p.scan),
            depth: byte(p.depth),
            luma: p.luma as u8,
            hiding: p.hiding as u8,
            skip_allowed: p.skip_allowed as u8,
            lossless: p.lossless as u8,
            persistent: p.persistent as u8,
            skip_context: p.skip_context as u8,
            explicit_rdpcm: p.explicit_rdpcm as u8,
            implicit_rdpcm: p.implicit_rdpcm as u8,
            inter: p.inter as u8,
            aligning: p.aligning as u8,
            extended: p.extended as u8,
        }
    }
}

/// What is found of one block of a tray, as the archive writes it; [`Found`] has it in words.
#[repr(C)]
#[derive(Clone, Copy, Debug, Default, PartialEq, Eq)]
pub struct TrayFound {
    /// Transform skip: 0 or 1.
    pub skip: u32,
    /// Explicit RDPCM: 0 none, 1 horizontal, 2 vertical.
    pub rdpcm: u32,
    /// Column extent.
    pub column: u32,
    /// Row extent.
    pub row: u32,
    /// Greatest magnitude.
    pub greatest: u32,
}

impl From<TrayFound> for Found {
    fn from(f: TrayFound) -> Found {
        let rdpcm = match f.rdpcm {
            0 => Rdpcm::None,
            1 => Rdpcm::Horizontal,
            _ => Rdpcm::Vertical,
        };
        Found { skip: f.skip != 0, rdpcm, column: f.column, row: f.row, greatest: f.greatest }
    }
}

/// A tray's answer in C.
#[repr(C)]
#[derive(Clone, Copy, Debug, PartialEq, Eq)]
pub struct RawTrayAnswer {
    /// The refusal that stopped it, or 0.
    pub number: u32,
    /// How many blocks were done.
    pub done: usize,
    /// As the last block done left it.
    pub state: RawState,
}

// The header's assertions: a record is 14 bytes with nothing between them, what is found five numbers.
const _: () = assert!(size_of::<Record>() == 14 && align_of::<Record>() == 1);
const _: () = assert!(offset_of!(Record, log2) == 0 && offset_of!(Record, scan) == 1 && offset_of!(Record, depth) == 2);
const _: () = assert!(offset_of!(Record, luma) == 3 && offset_of!(Record, hiding) == 4 && offset_of!(Record, skip_allowed) == 5);
const _: () = assert!(offset_of!(Record, lossless) == 6 && offset_of!(Record, persistent) == 7 && offset_of!(Record, skip_context) == 8);
const _: () = assert!(offset_of!(Record, explicit_rdpcm) == 9 && offset_of!(Record, implicit_rdpcm) == 10 && offset_of!(Record, inter) == 11);
const _: () = assert!(offset_of!(Record, aligning) == 12 && offset_of!(Record, extended) == 13);
const _: () = assert!(size_of::<TrayFound>() == 20 && align_of::<TrayFound>() == 4);
const _: () = assert!(offset_of!(TrayFound, skip) == 0 && offset_of!(TrayFound, rdpcm) == 4 && offset_of!(TrayFound, column) == 8);
const _: () = assert!(offset_of!(TrayFound, row) == 12 && offset_of!(TrayFound, greatest) == 16);
const _: () = assert!(size_of::<RawTrayAnswer>() == 40 && offset_of!(RawTrayAnswer, number) == 0);
const _: () = assert!(offset_of!(RawTrayAnswer, done) == 8 && offset_of!(RawTrayAnswer, state) == 16);

extern "C" {
    /// See [`read_tray`]. Lengths count records, places and structs.
    pub fn bulmegart_read_tray(
        payload: *const u8,
        length: usize,
        state: RawState,
        contexts: *mut u8,
        statistics: *mut u8,
        records: *const Record,
        records_length: usize,
        levels: *mut i32,
        levels_length: usize,
        found: *mut TrayFound,
        found_length: usize,
    ) -> RawTrayAnswer;
}

/// What became of a tray.
#[derive(Clone, Copy, Debug, PartialEq, Eq)]
pub struct Tray {
    /// How many blocks were done.
    pub done: usize,
    /// What stopped it; none if all blocks were done.
    pub refusal: Option<Refusal>,
    /// As the last block done left it.
    pub state: State,
}

/// A tray of blocks: what [`residual_coding`](crate::residual_coding) gives of one record after the other, with state, contexts and statistics carried along.
/// Contexts and statistics are left as the last block done left them; `found` has what was found of each block done, and [`parts`] their levels.
///
/// No records at all are accepted, whatever else is handed in. Refusals before anything is read, with everything untouched: 1, 2, 4 (more than
/// [`TRAY_MOST`] records, one out of its limits, too few places, `found` shorter than the records), 3, 6. Then 7 or 8 of a block stops the tray: its
/// part is zero, the blocks before it stand, and later parts and what is found of them are untouched. Places past the last part are never changed.
///
/// ```
/// use bulmegart::{parts, read_tray, start, Params, Record, TrayFound, CONTEXTS, STATISTICS};
///
/// let payload = [0xc9, 0x62, 0x0f, 0xc0];
/// let records = [Record::from(Params::plain(2)); 2];
/// let (mut contexts, mut statistics) = ([64; CONTEXTS], [0; STATISTICS]);
/// let (mut levels, mut found) = ([0; 32], [TrayFound::default(); 2]);
/// let tray = read_tray(&payload, start(&payload)?, &mut contexts, &mut statistics, &records, &mut levels, &mut found);
/// assert_eq!((tray.done, tray.refusal, tray.state.position), (2, None, 26));
/// let sums: Vec<i32> = parts(&records, &levels).map(|part| part.iter().sum()).collect();
/// assert_eq!((sums, found[0].greatest), (vec![5, 0], 5));
/// # Ok::<(), bulmegart::Refusal>(())
/// ```
pub fn read_tray(
    payload: &[u8],
    state: State,
    contexts: &mut [u8; CONTEXTS],
    statistics: &mut [u8; STATISTICS],
    records: &[Record],
    levels: &mut [i32],
    found: &mut [TrayFound],
) -> Tray {
    // Sound: every pointer comes from a borrow of the length handed on, what is written is borrowed alone, and a record and what is found are as
    // the assertions above have them.
    let r = unsafe {
        bulmegart_read_tray(
            payload.as_ptr(),
            payload.len(),
            state.raw(),
            contexts.as_mut_ptr(),
            statistics.as_mut_ptr(),
            records.as_ptr(),
            records.len(),
            levels.as_mut_ptr(),
            levels.len(),
            found.as_mut_ptr(),
            found.len(),
        )
    };
    Tray { done: r.done, refusal: Refusal::of_number(r.number), state: seen(r.state) }
}

/// The parts of a tray's buffer, one for each record: see [`parts`].
#[derive(Clone, Debug)]
pub struct Parts<'r, 'a> {
    records: &'r [Record],
    levels: &'a [i32],
}

/// The part of the buffer that each record has, row by row, n·n places. It ends where the buffer is too short or a record has no size, where
/// [`read_tray`] answers by 4. `parts(..).take(done)` are those of the blocks done.
pub fn parts<'r, 'a>(records: &'r [Record], levels: &'a [i32]) -> Parts<'r, 'a> {
    Parts { records, levels }
}

impl<'a> Iterator for Parts<'_, 'a> {
    type Item = &'a [i32];

    fn next(&mut self) -> Option<&'a [i32]> {
        let (first, others) = self.records.split_first()?;
        let area = first.area().filter(|&area| area <= self.levels.len())?;
        let (part, rest) = self.levels.split_at(area);
        (self.records, self.levels) = (others, rest);
        Some(part)
    }

    fn size_hint(&self) -> (usize, Option<usize>) {
        (0, Some(self.records.len()))
    }
}

impl Reader<'_> {
    /// A tray of blocks, with the state, contexts and statistics behind it as the last block done left them. See [`read_tray`].
    pub fn read_tray(&mut self, records: &[Record], levels: &mut [i32], found: &mut [TrayFound]) -> (usize, Option<Refusal>) {
        let tray = read_tray(self.payload, self.state, &mut self.contexts, &mut self.statistics, records, levels, found);
        self.state = tray.state;
        (tray.done, tray.refusal)
    }
}
