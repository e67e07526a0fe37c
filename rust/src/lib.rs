//! AV1 headers written and read by a library in which every function is proved: the sequence header
//! OBU, the temporal delimiter and five parts of the frame header. This crate gives its calls the
//! types and names of the AV1 standard.
//!
//! A record is written whole, as the standard codes it, or refused by the name of its first bad
//! element with the buffer untouched. The reader of a sequence header accepts exactly the spellings
//! of the records that the writer accepts; the reader of a part takes any bits that are enough.
//!
//! ```
//! use friscurella::{
//!     read_sequence_header, write_sequence_header, SequenceHeaderObu, SEQUENCE_HEADER_MAX,
//! };
//!
//! // Video of 3840 by 2160 in 10 bits, at level 5.1.
//! let mut header = SequenceHeaderObu::video(3840, 2160, 10);
//! header.operating_points[0].seq_level_idx = 13;
//! let mut buffer = [0; SEQUENCE_HEADER_MAX];
//! let length = write_sequence_header(&header, &mut buffer)?;
//! assert_eq!(read_sequence_header(&buffer[..length])?, header);
//!
//! header.operating_points[0].seq_tier = 2;
//! let refusal = write_sequence_header(&header, &mut buffer).unwrap_err();
//! assert_eq!(refusal.to_string(), "seq_tier[0] does not fit its field: 2 bits are needed");
//! # Ok::<(), friscurella::Refusal>(())
//! ```
//!
//! # Linking
//!
//! The proved library is `libfriscurella.a`, for x86-64 Linux; `./staticlib` writes
//! it. The build looks for it in the folder that the environment variable `FRISCURELLA_LIB_DIR`
//! names, or else in `target/staticlib` of the repository that this crate stands in. [`version`]
//! tells the library's version, which is to be [`VERSION`]. No call panics, whatever the library
//! answers: what this crate does not know is [`Refusal::Unknown`].
//!
//! The crate needs no `std`, and allocates nothing.
#![no_std]
#![warn(missing_docs)]
#![deny(unsafe_code)]

#[cfg(test)]
extern crate std;

#[allow(unsafe_code)]
mod ffi;
#[cfg(test)]
mod header_tests;
mod numbers;
mod record;
mod refusal;

use numbers::{from_signed, from_unsigned, signed, unsigned, Numbers};
pub use record::*;
pub use refusal::{Element, Refusal};

/// The version of the library that this crate is for: 10000 * major + 100 * minor + patch.
pub const VERSION: u32 = 600;

/// The version of the library that is linked. Another than [`VERSION`] may answer what this crate
/// does not know.
pub fn version() -> u32 {
    ffi::version()
}

/// The most bytes that [`write_sequence_header`] writes, whatever the record: a buffer of so many is
/// never [`Refusal::Short`]. One record takes them all.
pub const SEQUENCE_HEADER_MAX: usize = 397;

/// The most bytes that [`write_temporal_delimiter`] writes.
pub const TEMPORAL_DELIMITER_MAX: usize = 3;

/// The most bits that [`write_quantization_params`] writes, whatever the record and the context: a
/// buffer that has so many from the part's place on is never [`Refusal::Short`]. One record takes
/// them all.
pub const QUANTIZATION_PARAMS_MAX_BITS: usize = 62;

/// The most bits that [`write_segmentation_params`] writes.
pub const SEGMENTATION_PARAMS_MAX_BITS: usize = 388;

/// The most bits that [`write_loop_filter_params`] writes.
pub const LOOP_FILTER_PARAMS_MAX_BITS: usize = 109;

/// The most bits that [`write_cdef_params`] writes.
pub const CDEF_PARAMS_MAX_BITS: usize = 100;

/// The most bits that [`write_lr_params`] writes.
pub const LR_PARAMS_MAX_BITS: usize = 9;

// The lengths of the arrays that cross.
const _: () = assert!(SequenceHeaderObu::COUNT == 348 && ObuHeader::COUNT == 5);
const _: () = assert!(QuantizationContext::COUNT == 2 && LoopFilterContext::COUNT == 3);
const _: () = assert!(CdefContext::COUNT == 4 && LoopRestorationContext::COUNT == 7);
const _: () = assert!(QuantizationContext::COUNT + QuantizationParams::COUNT == 13);
const _: () = assert!(SegmentationContext::COUNT + SegmentationParams::COUNT == 133);
const _: () = assert!(LoopFilterContext::COUNT + LoopFilterParams::COUNT == 20);
const _: () = assert!(LoopFilterDeltas::COUNT == 10);
const _: () = assert!(CdefContext::COUNT + CdefParams::COUNT == 38);
const _: () = assert!(LoopRestorationContext::COUNT + LoopRestorationParams::COUNT == 14);

/// Writes a sequence header OBU (5.5) at the start of `out`, in its shortest spelling, and answers
/// the number of its bytes. All bytes behind them are as they were.
///
/// # Errors
///
/// The first of: [`Refusal::Long`]; [`Refusal::Inconsistent`] or [`Refusal::Unfit`] at the first
/// element, in the order of the standard, that earns it; [`Refusal::Short`]. No byte of `out` has
/// changed then.
pub fn write_sequence_header(header: &SequenceHeaderObu, out: &mut [u8]) -> Result<usize, Refusal> {
    let answer = ffi::write_sequence_header(&unsigned(header), out);
    refusal::done(answer).map(|bytes| bytes as usize)
}

/// Writes a temporal delimiter OBU (5.6) at the start of `out`, and answers the number of its
/// bytes.
///
/// # Errors
///
/// As [`write_sequence_header`].
pub fn write_temporal_delimiter(header: &ObuHeader, out: &mut [u8]) -> Result<usize, Refusal> {
    let answer = ffi::write_temporal_delimiter(&unsigned(header), out);
    refusal::done(answer).map(|bytes| bytes as usize)
}

/// What [`write_quantization_params`] and [`read_quantization_params`] go by. Of a header that
/// [`write_sequence_header`] accepts, or that [`read_sequence_header`] gave, there is one plane
/// exactly with `mono_chrome`, here and in the other contexts.
pub fn quantization_context(header: &SequenceHeaderObu) -> QuantizationContext {
    from_signed(&ffi::quantization_context(&unsigned(header)))
}

/// What [`write_segmentation_params`] and [`read_segmentation_params`] go by: nothing of the
/// sequence header.
pub fn segmentation_context(primary_ref_frame: u32) -> SegmentationContext {
    SegmentationContext { primary_ref_frame }
}

/// What [`write_loop_filter_params`] and [`read_loop_filter_params`] go by.
pub fn loop_filter_context(
    header: &SequenceHeaderObu,
    coded_lossless: bool,
    allow_intrabc: bool,
) -> LoopFilterContext {
    let numbers = unsigned(header);
    let context = ffi::loop_filter_context(&numbers, coded_lossless, allow_intrabc);
    from_signed(&context)
}

/// What [`write_cdef_params`] and [`read_cdef_params`] go by.
pub fn cdef_context(
    header: &SequenceHeaderObu,
    coded_lossless: bool,
    allow_intrabc: bool,
) -> CdefContext {
    let numbers = unsigned(header);
    let context = ffi::cdef_context(&numbers, coded_lossless, allow_intrabc);
    from_signed(&context)
}

/// What [`write_lr_params`] and [`read_lr_params`] go by.
pub fn lr_context(
    header: &SequenceHeaderObu,
    all_lossless: bool,
    allow_intrabc: bool,
) -> LoopRestorationContext {
    let numbers = unsigned(header);
    let context = ffi::lr_context(&numbers, all_lossless, allow_intrabc);
    from_signed(&context)
}

/// Writes `quantization_params` (5.9.12) from the bit `place` of `out` on (bit 0 is the top bit of
/// the first byte), and answers the bit behind its last. All other bits are as they were.
///
/// # Errors
///
/// The first of: [`Refusal::Long`]; [`Refusal::Inconsistent`] or [`Refusal::Unfit`] at the first
/// element, in the order of the standard, that earns it; [`Refusal::Short`], also where `place` is
/// beyond the end. No bit of `out` has changed then.
pub fn write_quantization_params(
    params: &QuantizationParams,
    context: &QuantizationContext,
    out: &mut [u8],
    place: u32,
) -> Result<u32, Refusal> {
    refusal::done(ffi::write_quantization_params(
        &signed(context, params),
        place,
        out,
    ))
}

/// Writes `segmentation_params` (5.9.14) from the bit `place` of `out` on, and answers the bit
/// behind its last.
///
/// # Errors
///
/// As [`write_quantization_params`].
pub fn write_segmentation_params(
    params: &SegmentationParams,
    context: &SegmentationContext,
    out: &mut [u8],
    place: u32,
) -> Result<u32, Refusal> {
    refusal::done(ffi::write_segmentation_params(
        &signed(context, params),
        place,
        out,
    ))
}

/// Writes `loop_filter_params` (5.9.11) from the bit `place` of `out` on, and answers the bit
/// behind its last.
///
/// # Errors
///
/// As [`write_quantization_params`].
pub fn write_loop_filter_params(
    params: &LoopFilterParams,
    context: &LoopFilterContext,
    out: &mut [u8],
    place: u32,
) -> Result<u32, Refusal> {
    refusal::done(ffi::write_loop_filter_params(
        &signed(context, params),
        place,
        out,
    ))
}

/// Writes `cdef_params` (5.9.19) from the bit `place` of `out` on, and answers the bit behind its
/// last.
///
/// # Errors
///
/// As [`write_quantization_params`].
pub fn write_cdef_params(
    params: &CdefParams,
    context: &CdefContext,
    out: &mut [u8],
    place: u32,
) -> Result<u32, Refusal> {
    refusal::done(ffi::write_cdef_params(&signed(context, params), place, out))
}

/// Writes `lr_params` (5.9.20) from the bit `place` of `out` on, and answers the bit behind its
/// last.
///
/// # Errors
///
/// As [`write_quantization_params`].
pub fn write_lr_params(
    params: &LoopRestorationParams,
    context: &LoopRestorationContext,
    out: &mut [u8],
    place: u32,
) -> Result<u32, Refusal> {
    refusal::done(ffi::write_lr_params(&signed(context, params), place, out))
}

/// Reads a sequence header OBU (5.5), which has to be the whole input. Inferred fields of the
/// record hold the inferred value, and fields neither coded nor inferred are 0.
///
/// # Errors
///
/// The first refusal that reading meets: the input is then no spelling of a record that
/// [`write_sequence_header`] accepts.
pub fn read_sequence_header(input: &[u8]) -> Result<SequenceHeaderObu, Refusal> {
    let (numbers, answer) = ffi::read_sequence_header(input);
    refusal::done(answer)?;
    Ok(from_unsigned(&numbers))
}

/// The part that a call reads by a context, and its end.
fn read_part<const N: usize, Context: Numbers, Params: Numbers + Default>(
    context: &Context,
    call: impl FnOnce(&mut [i32; N]) -> ffi::Answer,
) -> Result<(Params, u32), Refusal> {
    let mut numbers = signed(context, &Params::default());
    let end = refusal::done(call(&mut numbers))?;
    let part = numbers.get(Context::COUNT..).unwrap_or_default();
    Ok((from_signed(part), end))
}

/// Reads `quantization_params` (5.9.12) from the bit `place` of the input on (bit 0 is the top bit
/// of the first byte), and answers them and the bit behind their last. Fields that are not coded
/// hold the value that their record says for that case, and 0 where it says none. The writer
/// accepts what was read.
///
/// ```
/// use friscurella::{read_quantization_params, QuantizationContext};
///
/// let context = QuantizationContext { planes: 1, separate_uv_delta_q: false };
/// let (params, end) = read_quantization_params(&[0x64, 0xFF, 0x00], 0, &context)?;
/// assert_eq!((params.base_q_idx, params.delta_q_y_dc, end), (100, -1, 17));
/// # Ok::<(), friscurella::Refusal>(())
/// ```
///
/// # Errors
///
/// The first of: [`Refusal::Long`]; [`Refusal::Ends`], where the bits run out or `place` is beyond
/// the end, also where nothing is coded. There is no other.
pub fn read_quantization_params(
    input: &[u8],
    place: u32,
    context: &QuantizationContext,
) -> Result<(QuantizationParams, u32), Refusal> {
    read_part(context, |record| {
        ffi::read_quantization_params(input, place, record)
    })
}

/// Reads `segmentation_params` (5.9.14) from the bit `place` of the input on, and answers them and
/// the bit behind their last. Feature data is clipped. Without `segmentation_update_data` the
/// features are 0, where those of the reference stand.
///
/// # Errors
///
/// As [`read_quantization_params`].
pub fn read_segmentation_params(
    input: &[u8],
    place: u32,
    context: &SegmentationContext,
) -> Result<(SegmentationParams, u32), Refusal> {
    read_part(context, |record| {
        ffi::read_segmentation_params(input, place, record)
    })
}

/// Reads `loop_filter_params` (5.9.11) from the bit `place` of the input on, and answers them and
/// the bit behind their last. A delta whose flag is not set is the previous one, and without
/// `loop_filter_delta_update` all are; but where nothing is coded, they are the default. The writer
/// accepts what was read if the previous deltas are -64 to 63.
///
/// # Errors
///
/// As [`read_quantization_params`].
pub fn read_loop_filter_params(
    input: &[u8],
    place: u32,
    context: &LoopFilterContext,
    previous: &LoopFilterDeltas,
) -> Result<(LoopFilterParams, u32), Refusal> {
    let previous = signed(
        &previous.loop_filter_ref_deltas,
        &previous.loop_filter_mode_deltas,
    );
    read_part(context, |record| {
        ffi::read_loop_filter_params(input, place, &previous, record)
    })
}

/// Reads `cdef_params` (5.9.19) from the bit `place` of the input on, and answers them and the bit
/// behind their last.
///
/// # Errors
///
/// As [`read_quantization_params`].
pub fn read_cdef_params(
    input: &[u8],
    place: u32,
    context: &CdefContext,
) -> Result<(CdefParams, u32), Refusal> {
    read_part(context, |record| {
        ffi::read_cdef_params(input, place, record)
    })
}

/// Reads `lr_params` (5.9.20) from the bit `place` of the input on, and answers them and the bit
/// behind their last.
///
/// # Errors
///
/// As [`read_quantization_params`].
pub fn read_lr_params(
    input: &[u8],
    place: u32,
    context: &LoopRestorationContext,
) -> Result<(LoopRestorationParams, u32), Refusal> {
    read_part(context, |record| ffi::read_lr_params(input, place, record))
}

/// The payload of a sequence header OBU, as a part of the input: all behind the size field, or
/// behind the header if there is no size field. It is empty where [`read_sequence_header`] refuses
/// the input.
pub fn payload(input: &[u8]) -> &[u8] {
    let [start, length] = ffi::payload(input).map(|n| n as usize);
    input.get(start..start + length).unwrap_or_default()
}

/// Whether the input is the temporal delimiter without extension: `12 00`, or `10`.
pub fn is_temporal_delimiter(input: &[u8]) -> bool {
    ffi::is_temporal_delimiter(input)
}
