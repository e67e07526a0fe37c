//! Why nothing was written, or nothing read.
use crate::ffi::{self, Answer};
use core::error::Error;
use core::fmt::{self, Write};

/// Why nothing was written, or nothing read. Its words are the library's, one sentence.
#[derive(Clone, Copy, Debug, PartialEq, Eq, Hash)]
#[non_exhaustive]
pub enum Refusal {
    /// An element is inconsistent with others, or has a value that the rules forbid.
    #[non_exhaustive]
    Inconsistent {
        /// The first such element.
        element: Element,
        /// The operating point or the place in an array; 0 where nothing repeats or several places
        /// are compared at once.
        index: u32,
    },
    /// A value does not fit its field.
    #[non_exhaustive]
    Unfit {
        /// The first such element.
        element: Element,
        /// The operating point or the place in an array; 0 where nothing repeats.
        index: u32,
        /// The least width, in bits, that would hold the value: in two's complement where the
        /// field is signed. 0 where no width helps, and 33 for `num_ticks_per_picture_minus_1`.
        width: u32,
    },
    /// The buffer is too short.
    #[non_exhaustive]
    Short {
        /// The least length, in bytes, that is enough. (It may be over
        /// [`SLICE_LIMIT`](crate::SLICE_LIMIT), which no call takes.)
        needed: u32,
    },
    /// The input ends inside header, size or body, or inside or before a part.
    Ends,
    /// A forbidden or reserved bit is set.
    Reserved,
    /// The size field is wrong.
    Size,
    /// The trailing bits are wrong.
    Trailing,
    /// The slice is longer than [`SLICE_LIMIT`](crate::SLICE_LIMIT).
    Long,
    /// The library refuses with a number, or for an element, that this crate does not know: the two
    /// are of different versions.
    #[non_exhaustive]
    Unknown {
        /// The number of the refusal.
        number: u32,
        /// What it carries.
        first: u32,
        /// What it carries.
        second: u32,
        /// What it carries.
        third: u32,
    },
}

/// The first value of an answer if its number is 0, or the refusal that the answer tells.
pub(crate) fn done([number, first, second, third]: Answer) -> Result<u32, Refusal> {
    let element = || Element::from_number(first);
    let index = second;
    let known = match number {
        0 => return Ok(first),
        1 => element().map(|element| Refusal::Inconsistent { element, index }),
        2 => element().map(|element| Refusal::Unfit {
            element,
            index,
            width: third,
        }),
        3 => Some(Refusal::Short { needed: first }),
        4 => Some(Refusal::Ends),
        5 => Some(Refusal::Reserved),
        6 => Some(Refusal::Size),
        7 => Some(Refusal::Trailing),
        8 => Some(Refusal::Long),
        _ => None,
    };
    Err(known.unwrap_or(Refusal::Unknown {
        number,
        first,
        second,
        third,
    }))
}

/// The answer that tells a refusal.
pub(crate) fn answer(refusal: Refusal) -> Answer {
    match refusal {
        Refusal::Inconsistent { element, index } => [1, element.number(), index, 0],
        Refusal::Unfit {
            element,
            index,
            width,
        } => [2, element.number(), index, width],
        Refusal::Short { needed } => [3, needed, 0, 0],
        Refusal::Ends => [4, 0, 0, 0],
        Refusal::Reserved => [5, 0, 0, 0],
        Refusal::Size => [6, 0, 0, 0],
        Refusal::Trailing => [7, 0, 0, 0],
        Refusal::Long => [8, 0, 0, 0],
        Refusal::Unknown {
            number,
            first,
            second,
            third,
        } => [number, first, second, third],
    }
}

/// More than the longest sentence has; a longer one would be cut.
pub(crate) const ROOM: usize = 256;

impl fmt::Display for Refusal {
    fn fmt(&self, f: &mut fmt::Formatter) -> fmt::Result {
        let mut text = [0; ROOM];
        let length = ffi::explain(&answer(*self), &mut text).min(ROOM - 1);
        text[..length]
            .iter()
            .try_for_each(|&byte| f.write_char(char::from(byte)))
    }
}

impl Error for Refusal {}

macro_rules! elements {
    ($($number:literal $element:ident $name:literal,)+) => {
        /// An element that a refusal names.
        #[derive(Clone, Copy, Debug, PartialEq, Eq, Hash)]
        #[non_exhaustive]
        #[repr(u8)]
        pub enum Element {
            $(#[doc = concat!("`", $name, "`")] $element = $number,)+
        }

        impl Element {
            /// Every element, in the order of the numbers.
            pub const ALL: &'static [Element] = &[$(Element::$element),+];

            /// The element's name in the standard.
            pub fn name(self) -> &'static str {
                match self {
                    $(Element::$element => $name,)+
                }
            }
        }
    };
}

elements! {
    1 ObuType "obu_type",
    2 TemporalId "temporal_id",
    3 SpatialId "spatial_id",
    4 SeqProfile "seq_profile",
    5 ReducedStillPictureHeader "reduced_still_picture_header",
    6 InitialDisplayDelayPresentFlag "initial_display_delay_present_flag",
    7 OperatingPointsCntMinus1 "operating_points_cnt_minus_1",
    8 OperatingPointIdc "operating_point_idc",
    9 SeqLevelIdx "seq_level_idx",
    10 DecoderModelPresentForThisOp "decoder_model_present_for_this_op",
    11 InitialDisplayDelayPresentForThisOp "initial_display_delay_present_for_this_op",
    12 NumTicksPerPictureMinus1 "num_ticks_per_picture_minus_1",
    13 DecoderModelInfoPresentFlag "decoder_model_info_present_flag",
    14 BufferDelayLengthMinus1 "buffer_delay_length_minus_1",
    15 BufferRemovalTimeLengthMinus1 "buffer_removal_time_length_minus_1",
    16 FramePresentationTimeLengthMinus1 "frame_presentation_time_length_minus_1",
    17 SeqTier "seq_tier",
    18 DecoderBufferDelay "decoder_buffer_delay",
    19 EncoderBufferDelay "encoder_buffer_delay",
    20 InitialDisplayDelayMinus1 "initial_display_delay_minus_1",
    21 FrameWidthBitsMinus1 "frame_width_bits_minus_1",
    22 FrameHeightBitsMinus1 "frame_height_bits_minus_1",
    23 FrameIdNumbersPresentFlag "frame_id_numbers_present_flag",
    24 DeltaFrameIdLengthMinus2 "delta_frame_id_length_minus_2",
    25 AdditionalFrameIdLengthMinus1 "additional_frame_id_length_minus_1",
    26 EnableInterintraCompound "enable_interintra_compound",
    27 EnableMaskedCompound "enable_masked_compound",
    28 EnableWarpedMotion "enable_warped_motion",
    29 EnableDualFilter "enable_dual_filter",
    30 EnableOrderHint "enable_order_hint",
    31 EnableJntComp "enable_jnt_comp",
    32 EnableRefFrameMvs "enable_ref_frame_mvs",
    33 SeqForceScreenContentTools "seq_force_screen_content_tools",
    34 SeqForceIntegerMv "seq_force_integer_mv",
    35 OrderHintBitsMinus1 "order_hint_bits_minus_1",
    36 OrderHintBits "OrderHintBits",
    37 TwelveBit "twelve_bit",
    38 MonoChrome "mono_chrome",
    39 ColorPrimaries "color_primaries",
    40 TransferCharacteristics "transfer_characteristics",
    41 MatrixCoefficients "matrix_coefficients",
    42 ColorRange "color_range",
    43 SubsamplingX "subsampling_x",
    44 SubsamplingY "subsampling_y",
    45 ChromaSamplePosition "chroma_sample_position",
    46 SeparateUvDeltaQ "separate_uv_delta_q",
    47 NumPlanes "NumPlanes",
    51 BaseQIdx "base_q_idx",
    52 DeltaQYDc "delta_q_y_dc",
    53 DiffUvDelta "diff_uv_delta",
    54 DeltaQUDc "delta_q_u_dc",
    55 DeltaQUAc "delta_q_u_ac",
    56 DeltaQVDc "delta_q_v_dc",
    57 DeltaQVAc "delta_q_v_ac",
    58 QmY "qm_y",
    59 QmU "qm_u",
    60 QmV "qm_v",
    61 SegmentationUpdateMap "segmentation_update_map",
    62 SegmentationTemporalUpdate "segmentation_temporal_update",
    63 SegmentationUpdateData "segmentation_update_data",
    64 FeatureEnabled "feature_enabled",
    65 FeatureData "feature_data",
    66 LoopFilterLevel "loop_filter_level",
    67 LoopFilterRefDeltas "loop_filter_ref_deltas",
    68 LoopFilterModeDeltas "loop_filter_mode_deltas",
    69 LoopFilterSharpness "loop_filter_sharpness",
    70 CdefBits "cdef_bits",
    71 CdefYPriStrength "cdef_y_pri_strength",
    72 CdefYSecStrength "cdef_y_sec_strength",
    73 CdefUvPriStrength "cdef_uv_pri_strength",
    74 CdefUvSecStrength "cdef_uv_sec_strength",
    75 CdefDamping "cdef_damping",
    76 FrameRestorationType "frame_restoration_type",
    77 UsesLr "uses_lr",
    78 UsesChromaLr "uses_chroma_lr",
    79 LrUnitShift "lr_unit_shift",
    80 LrUvShift "lr_uv_shift",
}

impl Element {
    /// The number of the element in an answer of the library.
    pub fn number(self) -> u32 {
        self as u32
    }

    /// The element of a number.
    pub fn from_number(number: u32) -> Option<Element> {
        Element::ALL
            .iter()
            .copied()
            .find(|element| element.number() == number)
    }
}

impl fmt::Display for Element {
    fn fmt(&self, f: &mut fmt::Formatter) -> fmt::Result {
        f.write_str(self.name())
    }
}
