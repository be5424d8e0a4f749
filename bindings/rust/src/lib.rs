//! Safe calls of the proved reader and writer for JPEG XT finish pictures.
//!
//! Each call fills the destination and gives the count written, or an [`Error`] with the number and the two places of the rules;
//! after an error the whole destination is zeros.

use std::fmt;

/// Why a call refused: a number of the rules' table, and the places it names.
#[derive(Clone, Copy, Debug, PartialEq, Eq)]
pub struct Error {
    pub number: u32,
    pub place: u64,
    /// Of 12 to 17 the byte of the coded data to look at, from 0: the data's length for 12, the FF for 13, for 14 to 17 the byte of the last bit asked for. 0 for every other number.
    pub second: u64,
}

const MEANINGS: [&str; 23] = [
    "done",
    "the file does not begin FF D8",
    "a segment or marker is broken, or there is no SOS",
    "a packet's head is broken",
    "there is no packet of this type and instance",
    "packets disagree on the box's length or its form",
    "two packets claim the same sequence number",
    "a sequence number is missing",
    "the payloads do not add up to the box's length",
    "the destination is too short",
    "the code table is bad",
    "a value is out of range",
    "the data end early",
    "an FF has no 00 after it",
    "16 bits and no code",
    "a code that refinement does not use",
    "no place is left in the block",
    "an end run passes the last block",
    "the padding is not ones, or bytes are left",
    "the writer's table lacks a code",
    "a setting or count is out of range",
    "a lent input has the wrong length",
    "a quantiser entry is not 1 to 255",
];

impl Error {
    /// A short sentence for the number.
    pub fn meaning(&self) -> &'static str {
        match self.number {
            // no call answers 23 to 27
            28 => "this level is no longer written",
            number => MEANINGS.get(number as usize).copied().unwrap_or("no such number"),
        }
    }
}

impl fmt::Display for Error {
    fn fmt(&self, f: &mut fmt::Formatter<'_>) -> fmt::Result {
        match self.number {
            12..=17 => write!(f, "{} ({}, block {}, byte {})", self.meaning(), self.number, self.place, self.second),
            _ => write!(f, "{} ({}, place {})", self.meaning(), self.number, self.place),
        }
    }
}

impl std::error::Error for Error {}

mod c {
    // A slice is a pointer and a length in elements: include/auhowipi.h.
    extern "C" {
        pub fn xt_box_bytes(file: *const u8, file_len: usize, kind: u32, instance: u16, destination: *mut u8, destination_len: usize, place: *mut u64, second: *mut u64) -> u32;
        pub fn xt_list_packets(file: *const u8, file_len: usize, text: *mut u8, text_len: usize, place: *mut u64, second: *mut u64) -> u32;
        pub fn xt_read_dc_plane(plane: u32, blocks: usize, data: *const u8, data_len: usize, values: *const i32, values_len: usize, destination: *mut i32, destination_len: usize, place: *mut u64, second: *mut u64) -> u32;
        pub fn xt_write_dc_plane(plane: u32, blocks: usize, values: *const i32, values_len: usize, destination: *mut u8, destination_len: usize, place: *mut u64, second: *mut u64) -> u32;
        pub fn xt_read_ac_plane(plane: u32, blocks: usize, counts: *const u8, counts_len: usize, codes: *const u8, codes_len: usize, data: *const u8, data_len: usize, values: *const i32, values_len: usize, destination: *mut i32, destination_len: usize, place: *mut u64, second: *mut u64) -> u32;
        pub fn xt_write_ac_plane(plane: u32, blocks: usize, counts: *const u8, counts_len: usize, codes: *const u8, codes_len: usize, values: *const i32, values_len: usize, destination: *mut u8, destination_len: usize, place: *mut u64, second: *mut u64) -> u32;
        pub fn xt_inverse_transform(refinement: u32, blocks: usize, values: *const i32, values_len: usize, quantisers: *const u16, quantisers_len: usize, destination: *mut i32, destination_len: usize, place: *mut u64, second: *mut u64) -> u32;
        pub fn xt_preview_owes(left: u32, quantisers: *const u16, quantisers_len: usize, destination: *mut u32, destination_len: usize, place: *mut u64, second: *mut u64) -> u32;
        pub fn xt_merge(
            rb: u32, rh: u32, rr: u32, components: u32, pixels: usize, base_transform: u32, curve: u32, matrix_on: u32, residual_on: u32, residual_transform: u32,
            base: *const i32, base_len: usize, residual: *const i32, residual_len: usize, table: *const u16, table_len: usize, matrix: *const i16, matrix_len: usize,
            destination: *mut u16, destination_len: usize, place: *mut u64, second: *mut u64,
        ) -> u32;
    }
}

fn done(number: u32, place: u64, second: u64) -> Result<usize, Error> {
    if number == 0 {
        Ok(place as usize)
    } else {
        Err(Error { number, place, second })
    }
}

/// The bytes of one box, assembled from its packets; `kind` is the type's four bytes. In a file that can be walked through, boxes of another type or instance change nothing. LBox 1 and an eight-byte length after the type (long boxes) are read too.
pub fn box_bytes(file: &[u8], kind: [u8; 4], instance: u16, destination: &mut [u8]) -> Result<usize, Error> {
    let (mut place, mut second) = (0, 0);
    // SAFETY: each pointer stands with its own slice's length, and the call writes only to the destination and the two places, which are apart.
    let number = unsafe { c::xt_box_bytes(file.as_ptr(), file.len(), u32::from_be_bytes(kind), instance, destination.as_mut_ptr(), destination.len(), &mut place, &mut second) };
    done(number, place, second)
}

/// The listing of a file's packets as text.
pub fn list_packets(file: &[u8], text: &mut [u8]) -> Result<usize, Error> {
    let (mut place, mut second) = (0, 0);
    // SAFETY: as in `box_bytes`.
    let number = unsafe { c::xt_list_packets(file.as_ptr(), file.len(), text.as_mut_ptr(), text.len(), &mut place, &mut second) };
    done(number, place, second)
}

/// A code table of T.81 Annex C: 16 counts, and the values in the order of their codes.
#[derive(Clone, Copy, Debug)]
pub struct Table<'a> {
    pub counts: &'a [u8],
    pub codes: &'a [u8],
}

/// A DC plane read, 1 to 4: one value a block, level plane-1 to level plane.
pub fn read_dc_plane(plane: u32, blocks: usize, data: &[u8], values: &[i32], destination: &mut [i32]) -> Result<usize, Error> {
    let (mut place, mut second) = (0, 0);
    // SAFETY: as in `box_bytes`.
    let number = unsafe { c::xt_read_dc_plane(plane, blocks, data.as_ptr(), data.len(), values.as_ptr(), values.len(), destination.as_mut_ptr(), destination.len(), &mut place, &mut second) };
    done(number, place, second)
}

/// A DC plane written from level `plane` values, `plane` being 1 to 3. A fourth one is read and no longer written (28).
pub fn write_dc_plane(plane: u32, blocks: usize, values: &[i32], destination: &mut [u8]) -> Result<usize, Error> {
    let (mut place, mut second) = (0, 0);
    // SAFETY: as in `box_bytes`.
    let number = unsafe { c::xt_write_dc_plane(plane, blocks, values.as_ptr(), values.len(), destination.as_mut_ptr(), destination.len(), &mut place, &mut second) };
    done(number, place, second)
}

/// An AC plane read, 1 to 4: 63 values a block.
pub fn read_ac_plane(plane: u32, blocks: usize, table: Table, data: &[u8], values: &[i32], destination: &mut [i32]) -> Result<usize, Error> {
    let (mut place, mut second) = (0, 0);
    // SAFETY: as in `box_bytes`.
    let number = unsafe {
        c::xt_read_ac_plane(
            plane, blocks, table.counts.as_ptr(), table.counts.len(), table.codes.as_ptr(), table.codes.len(), data.as_ptr(), data.len(), values.as_ptr(), values.len(),
            destination.as_mut_ptr(), destination.len(), &mut place, &mut second,
        )
    };
    done(number, place, second)
}

/// An AC plane written from level `plane` values, `plane` being 1 to 3. A fourth one is read and no longer written (28).
pub fn write_ac_plane(plane: u32, blocks: usize, table: Table, values: &[i32], destination: &mut [u8]) -> Result<usize, Error> {
    let (mut place, mut second) = (0, 0);
    // SAFETY: as in `box_bytes`.
    let number = unsafe {
        c::xt_write_ac_plane(
            plane, blocks, table.counts.as_ptr(), table.counts.len(), table.codes.as_ptr(), table.codes.len(), values.as_ptr(), values.len(), destination.as_mut_ptr(),
            destination.len(), &mut place, &mut second,
        )
    };
    done(number, place, second)
}

/// Dequantising and the inverse transform: 64 values a block and 64 quantisers, both in zigzag order.
pub fn inverse_transform(refinement: u32, blocks: usize, values: &[i32], quantisers: &[u16], destination: &mut [i32]) -> Result<usize, Error> {
    let (mut place, mut second) = (0, 0);
    // SAFETY: as in `box_bytes`.
    let number = unsafe { c::xt_inverse_transform(refinement, blocks, values.as_ptr(), values.len(), quantisers.as_ptr(), quantisers.len(), destination.as_mut_ptr(), destination.len(), &mut place, &mut second) };
    done(number, place, second)
}

/// What a preview owes: how far the transform's sample at each place of a block, times 2^left, can be from the full picture's, with `left` planes (0 to 4) not yet read. 64 numbers, row by row.
pub fn preview_owes(left: u32, quantisers: &[u16], destination: &mut [u32]) -> Result<usize, Error> {
    let (mut place, mut second) = (0, 0);
    // SAFETY: as in `box_bytes`.
    let number = unsafe { c::xt_preview_owes(left, quantisers.as_ptr(), quantisers.len(), destination.as_mut_ptr(), destination.len(), &mut place, &mut second) };
    done(number, place, second)
}

/// The base curve of a merge.
#[derive(Clone, Copy, Debug)]
pub enum Curve<'a> {
    Straight,
    Table(&'a [u16]),
    Srgb,
}

/// How base and residual are merged. `rb` 1 to 8; `rh`, `rr` 0 to 4; 1 or 3 components.
#[derive(Clone, Copy, Debug)]
pub struct Setting<'a> {
    pub rb: u32,
    pub rh: u32,
    pub rr: u32,
    pub components: u32,
    /// Y, Cb, Cr to red, green, blue, with Cb and Cr taken less 2^(7+rh).
    pub base_transform: bool,
    pub curve: Curve<'a>,
    pub matrix: Option<&'a [i16; 9]>,
    /// The same for the residual, less 2^(7+rb).
    pub residual_transform: bool,
}

/// The merge to 9 to 16 bits; component planes follow one another.
pub fn merge(setting: Setting, pixels: usize, base: &[i32], residual: Option<&[i32]>, destination: &mut [u16]) -> Result<usize, Error> {
    let (mut place, mut second) = (0, 0);
    let (curve, table): (u32, &[u16]) = match setting.curve {
        Curve::Straight => (0, &[]),
        Curve::Table(table) => (1, table),
        Curve::Srgb => (2, &[]),
    };
    let matrix: &[i16] = setting.matrix.map_or(&[], |m| &m[..]);
    let added: &[i32] = residual.unwrap_or(&[]);
    // SAFETY: as in `box_bytes`.
    let number = unsafe {
        c::xt_merge(
            setting.rb, setting.rh, setting.rr, setting.components, pixels, setting.base_transform as u32, curve, setting.matrix.is_some() as u32, residual.is_some() as u32,
            setting.residual_transform as u32, base.as_ptr(), base.len(), added.as_ptr(), added.len(), table.as_ptr(), table.len(), matrix.as_ptr(), matrix.len(),
            destination.as_mut_ptr(), destination.len(), &mut place, &mut second,
        )
    };
    done(number, place, second)
}
