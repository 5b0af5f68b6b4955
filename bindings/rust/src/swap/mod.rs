//! The names and signatures of the Rust that the bench is built around (NOTICE names it), over this crate's functions.
//!
//! The modules are its files: [`contexts`], [`engine`], [`residual_full`]; docs/BENCH.md says how to put them in their place. What is
//! accepted is what the Rust gives, but for the row of a block ([`residual_coding`](residual_full::residual_coding)). What document 01
//! refuses is told: where the Rust's function has no error to give, the decoder keeps the first refusal
//! ([`refused`](engine::CabacDecoder::refused)), and from then on every call answers 0 and moves nothing.
//!
//! ```
//! use bulmegart::swap::contexts::ContextSet;
//! use bulmegart::swap::engine::CabacDecoder;
//! use bulmegart::swap::residual_full::{residual_coding, resolve_residual_scan_tables, RextResidual};
//! use bulmegart::Refusal;
//!
//! # fn main() -> Result<(), Refusal> {
//! let mut dec = CabacDecoder::new_borrowed(&[0x60, 0x40, 0x80])?;
//! let mut ctx = ContextSet::init(0, 26);
//! let options = RextResidual { bit_depth: 8, ..RextResidual::default() };
//! let mut coeffs = [0; 16];
//! let (skip, column, row, greatest, rdpcm) =
//!     residual_coding(&mut dec, &mut ctx, resolve_residual_scan_tables(), 2, true, 0, false, None, false, &options, &mut coeffs)?;
//! assert_eq!((skip, column, row, greatest, rdpcm), (false, 3, 2, 3, None));
//! assert_eq!((dec.decode_bypass_bits(33), dec.refused()), (0, Some(Refusal::BadParameter)));
//! # Ok(())
//! # }
//! ```
#![forbid(unsafe_code)]

pub mod contexts;
pub mod engine;
pub mod residual_full;
