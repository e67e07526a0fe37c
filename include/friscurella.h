/* Friscurella: AV1 headers written and read. Link with libfriscurella.a (x86-64).

   Every call fills its whole answer, keeps nothing, allocates nothing and writes no other memory
   than is said here, so that calls may run at the same time on different memory. No pointer may be
   NULL, and what a call writes may not overlap its other arguments. */
#ifndef FRISCURELLA_H
#define FRISCURELLA_H

#include <stdbool.h>
#include <stddef.h>
#include <stdint.h>

#ifdef __cplusplus
extern "C" {
#endif

/* The version of this header: 10000 * major + 100 * minor + patch. */
#define FRISCURELLA_VERSION 600

/* The version of the library. A program that finds another than FRISCURELLA_VERSION is linked with
   an archive that this header does not describe. */
uint32_t friscurella_version(void);

/* Limits. */
enum {
  FRISCURELLA_SLICE_LIMIT = 65536,      /* bytes: no writer or reader takes a longer slice */
  FRISCURELLA_MAX_OPERATING_POINTS = 32 /* of a sequence header */
};

/* How much room is enough: no writer writes more, whatever its record, and with one record it
   writes as much. A buffer of so many bytes is never too short for the OBU, and one that has so
   many bits from the part's place on is never too short for the part. */
#define FRISCURELLA_SEQUENCE_HEADER_MAX 397          /* bytes */
#define FRISCURELLA_TEMPORAL_DELIMITER_MAX 3         /* bytes */
#define FRISCURELLA_QUANTIZATION_PARAMS_MAX_BITS 62
#define FRISCURELLA_SEGMENTATION_PARAMS_MAX_BITS 388
#define FRISCURELLA_LOOP_FILTER_PARAMS_MAX_BITS 109
#define FRISCURELLA_CDEF_PARAMS_MAX_BITS 100
#define FRISCURELLA_LR_PARAMS_MAX_BITS 9

/* Values of fields, by the standard's names. */
enum {
  FRISCURELLA_OBU_SEQUENCE_HEADER = 1,         /* obu_type */
  FRISCURELLA_OBU_TEMPORAL_DELIMITER = 2,      /* obu_type */
  FRISCURELLA_SELECT_SCREEN_CONTENT_TOOLS = 2, /* each frame header chooses */
  FRISCURELLA_SELECT_INTEGER_MV = 2,           /* each frame header chooses */
  FRISCURELLA_PRIMARY_REF_NONE = 7             /* primary_ref_frame: there is none */
};

/* An initializer of loop_filter_ref_deltas where nothing is coded. By reference number: intra, LAST,
   LAST2, LAST3, GOLDEN, BWDREF, ALTREF2, ALTREF. (Before version 300, and in cros-codecs 0.0.6, the
   values of GOLDEN and BWDREF are exchanged: such a record is refused now.) */
#define FRISCURELLA_DEFAULT_REF_DELTAS {1, 0, 0, 0, -1, 0, -1, -1}

/* ANSWERS */

/* What a call answers. A call that fills one returns its number as well. */
struct friscurella_answer {
  uint32_t number; /* FRISCURELLA_DONE, or why the call refused */
  uint32_t first;  /* what the number carries, as said below; else 0 */
  uint32_t second; /* what the number carries, as said below; else 0 */
  uint32_t third;  /* what the number carries, as said below; else 0 */
};

/* The numbers, and what first, second and third are. */
enum {
  FRISCURELLA_DONE = 0,         /* first: bytes written, or the end bit of a part; 0 where a
                                   sequence header was read */
  FRISCURELLA_INCONSISTENT = 1, /* inconsistent element, or a value that the rules forbid:
                                   element, index */
  FRISCURELLA_UNFIT = 2,        /* value does not fit its field: element, index, and the least width
                                   that would hold the value as it was given, in bits: in two's
                                   complement if the field is signed. 0 if no width helps
                                   (cdef_damping, the secondary strengths, lr_unit_shift); 33 for
                                   num_ticks_per_picture_minus_1 */
  FRISCURELLA_SHORT = 3,        /* buffer too short. first: the least length that is enough, which
                                   may be over FRISCURELLA_SLICE_LIMIT */
  FRISCURELLA_ENDS = 4,         /* input ends inside header, size or body, or inside or before a
                                   part */
  FRISCURELLA_RESERVED = 5,     /* forbidden or reserved bit set */
  FRISCURELLA_SIZE = 6,         /* size field wrong */
  FRISCURELLA_TRAILING = 7,     /* trailing bits wrong */
  FRISCURELLA_LONG = 8          /* slice over FRISCURELLA_SLICE_LIMIT bytes */
};

/* The elements that a refusal names. The index beside it is the operating point or the place in an
   array (of a feature: 8 times the segment, plus the feature), and 0 where nothing repeats or
   several places are compared at once. */
enum {
  FRISCURELLA_ELEMENT_OBU_TYPE = 1,
  FRISCURELLA_ELEMENT_TEMPORAL_ID = 2,
  FRISCURELLA_ELEMENT_SPATIAL_ID = 3,
  FRISCURELLA_ELEMENT_SEQ_PROFILE = 4,
  FRISCURELLA_ELEMENT_REDUCED_STILL_PICTURE_HEADER = 5,
  FRISCURELLA_ELEMENT_INITIAL_DISPLAY_DELAY_PRESENT_FLAG = 6,
  FRISCURELLA_ELEMENT_OPERATING_POINTS_CNT_MINUS_1 = 7,
  FRISCURELLA_ELEMENT_OPERATING_POINT_IDC = 8,
  FRISCURELLA_ELEMENT_SEQ_LEVEL_IDX = 9,
  FRISCURELLA_ELEMENT_DECODER_MODEL_PRESENT_FOR_THIS_OP = 10,
  FRISCURELLA_ELEMENT_INITIAL_DISPLAY_DELAY_PRESENT_FOR_THIS_OP = 11,
  FRISCURELLA_ELEMENT_NUM_TICKS_PER_PICTURE_MINUS_1 = 12,
  FRISCURELLA_ELEMENT_DECODER_MODEL_INFO_PRESENT_FLAG = 13,
  FRISCURELLA_ELEMENT_BUFFER_DELAY_LENGTH_MINUS_1 = 14,
  FRISCURELLA_ELEMENT_BUFFER_REMOVAL_TIME_LENGTH_MINUS_1 = 15,
  FRISCURELLA_ELEMENT_FRAME_PRESENTATION_TIME_LENGTH_MINUS_1 = 16,
  FRISCURELLA_ELEMENT_SEQ_TIER = 17,
  FRISCURELLA_ELEMENT_DECODER_BUFFER_DELAY = 18,
  FRISCURELLA_ELEMENT_ENCODER_BUFFER_DELAY = 19,
  FRISCURELLA_ELEMENT_INITIAL_DISPLAY_DELAY_MINUS_1 = 20,
  FRISCURELLA_ELEMENT_FRAME_WIDTH_BITS_MINUS_1 = 21,
  FRISCURELLA_ELEMENT_FRAME_HEIGHT_BITS_MINUS_1 = 22,
  FRISCURELLA_ELEMENT_FRAME_ID_NUMBERS_PRESENT_FLAG = 23,
  FRISCURELLA_ELEMENT_DELTA_FRAME_ID_LENGTH_MINUS_2 = 24,
  FRISCURELLA_ELEMENT_ADDITIONAL_FRAME_ID_LENGTH_MINUS_1 = 25,
  FRISCURELLA_ELEMENT_ENABLE_INTERINTRA_COMPOUND = 26,
  FRISCURELLA_ELEMENT_ENABLE_MASKED_COMPOUND = 27,
  FRISCURELLA_ELEMENT_ENABLE_WARPED_MOTION = 28,
  FRISCURELLA_ELEMENT_ENABLE_DUAL_FILTER = 29,
  FRISCURELLA_ELEMENT_ENABLE_ORDER_HINT = 30,
  FRISCURELLA_ELEMENT_ENABLE_JNT_COMP = 31,
  FRISCURELLA_ELEMENT_ENABLE_REF_FRAME_MVS = 32,
  FRISCURELLA_ELEMENT_SEQ_FORCE_SCREEN_CONTENT_TOOLS = 33,
  FRISCURELLA_ELEMENT_SEQ_FORCE_INTEGER_MV = 34,
  FRISCURELLA_ELEMENT_ORDER_HINT_BITS_MINUS_1 = 35,
  FRISCURELLA_ELEMENT_ORDER_HINT_BITS = 36,
  FRISCURELLA_ELEMENT_TWELVE_BIT = 37,
  FRISCURELLA_ELEMENT_MONO_CHROME = 38,
  FRISCURELLA_ELEMENT_COLOR_PRIMARIES = 39,
  FRISCURELLA_ELEMENT_TRANSFER_CHARACTERISTICS = 40,
  FRISCURELLA_ELEMENT_MATRIX_COEFFICIENTS = 41,
  FRISCURELLA_ELEMENT_COLOR_RANGE = 42,
  FRISCURELLA_ELEMENT_SUBSAMPLING_X = 43,
  FRISCURELLA_ELEMENT_SUBSAMPLING_Y = 44,
  FRISCURELLA_ELEMENT_CHROMA_SAMPLE_POSITION = 45,
  FRISCURELLA_ELEMENT_SEPARATE_UV_DELTA_Q = 46,
  FRISCURELLA_ELEMENT_NUM_PLANES = 47,
  FRISCURELLA_ELEMENT_BASE_Q_IDX = 51,
  FRISCURELLA_ELEMENT_DELTA_Q_Y_DC = 52,
  FRISCURELLA_ELEMENT_DIFF_UV_DELTA = 53,
  FRISCURELLA_ELEMENT_DELTA_Q_U_DC = 54,
  FRISCURELLA_ELEMENT_DELTA_Q_U_AC = 55,
  FRISCURELLA_ELEMENT_DELTA_Q_V_DC = 56,
  FRISCURELLA_ELEMENT_DELTA_Q_V_AC = 57,
  FRISCURELLA_ELEMENT_QM_Y = 58,
  FRISCURELLA_ELEMENT_QM_U = 59,
  FRISCURELLA_ELEMENT_QM_V = 60,
  FRISCURELLA_ELEMENT_SEGMENTATION_UPDATE_MAP = 61,
  FRISCURELLA_ELEMENT_SEGMENTATION_TEMPORAL_UPDATE = 62,
  FRISCURELLA_ELEMENT_SEGMENTATION_UPDATE_DATA = 63,
  FRISCURELLA_ELEMENT_FEATURE_ENABLED = 64,
  FRISCURELLA_ELEMENT_FEATURE_DATA = 65,
  FRISCURELLA_ELEMENT_LOOP_FILTER_LEVEL = 66,
  FRISCURELLA_ELEMENT_LOOP_FILTER_REF_DELTAS = 67,
  FRISCURELLA_ELEMENT_LOOP_FILTER_MODE_DELTAS = 68,
  FRISCURELLA_ELEMENT_LOOP_FILTER_SHARPNESS = 69,
  FRISCURELLA_ELEMENT_CDEF_BITS = 70,
  FRISCURELLA_ELEMENT_CDEF_Y_PRI_STRENGTH = 71,
  FRISCURELLA_ELEMENT_CDEF_Y_SEC_STRENGTH = 72,
  FRISCURELLA_ELEMENT_CDEF_UV_PRI_STRENGTH = 73,
  FRISCURELLA_ELEMENT_CDEF_UV_SEC_STRENGTH = 74,
  FRISCURELLA_ELEMENT_CDEF_DAMPING = 75,
  FRISCURELLA_ELEMENT_FRAME_RESTORATION_TYPE = 76,
  FRISCURELLA_ELEMENT_USES_LR = 77,
  FRISCURELLA_ELEMENT_USES_CHROMA_LR = 78,
  FRISCURELLA_ELEMENT_LR_UNIT_SHIFT = 79,
  FRISCURELLA_ELEMENT_LR_UV_SHIFT = 80
};

/* One sentence that explains an answer, such as "seq_tier[3] is inconsistent". The first size - 1
   characters of it go to `text`, with a 0 behind them; a size of 0 writes nothing. Returns the
   length of the whole sentence, as snprintf does: it was cut if that is not below size. */
uint32_t friscurella_explain(const struct friscurella_answer *answer, char *text, size_t size);

/* RECORDS

   The structs have the standard's names and order. f(n), su(n) and uvlc are the codes of its
   section 4.10, and stand here with the condition under which a field is coded. A field that is not
   coded has to hold the value that is said for that case; where none is said, it is not looked at
   and never affects an answer.

   f(1) is a flag, which any number but 0 sets, unless its values are said to be 0 or 1. Every other
   number counts as it is given: one that its field cannot hold is refused where the field is coded
   or checked. (In a part of the frame header, a number below 0 counts as 2^32 - 1 in a field
   without sign.)

   "In a reduced header" is where reduced_still_picture_header is set. */

/* obu_header (5.3.2), and the whole of a temporal delimiter (5.6). */
struct friscurella_obu_header {
  uint32_t obu_type;       /* f(4): each writer takes its own type only, FRISCURELLA_OBU_.. */
  uint32_t extension_flag; /* obu_extension_flag, f(1): whether the two ids are coded */
  uint32_t has_size_field; /* obu_has_size_field, f(1): whether the size of the OBU is coded */
  uint32_t temporal_id;    /* f(3), with extension_flag */
  uint32_t spatial_id;     /* f(2), with extension_flag */
};

/* timing_info (5.5.3). */
struct friscurella_timing_info {
  uint32_t num_units_in_display_tick;     /* f(32) */
  uint32_t time_scale;                    /* f(32) */
  uint32_t equal_picture_interval;        /* f(1) */
  uint32_t num_ticks_per_picture_minus_1; /* uvlc, with equal_picture_interval; 2^32 - 1 is unfit */
};

/* decoder_model_info (5.5.4). */
struct friscurella_decoder_model_info {
  uint32_t buffer_delay_length_minus_1;            /* f(5): the bits, less one, of the points'
                                                      buffer delays */
  uint32_t num_units_in_decoding_tick;             /* f(32) */
  uint32_t buffer_removal_time_length_minus_1;     /* f(5) */
  uint32_t frame_presentation_time_length_minus_1; /* f(5) */
};

/* One operating point (5.5.1), with its operating_parameters_info (5.5.5). */
struct friscurella_operating_point {
  uint32_t idc;                               /* operating_point_idc, f(12); 0 in a reduced
                                                 header */
  uint32_t seq_level_idx;                     /* f(5) */
  uint32_t seq_tier;                          /* f(1), 0 or 1, at levels over 7; else 0; not
                                                 looked at in a reduced header */
  uint32_t decoder_model_present_for_this_op; /* f(1), with decoder_model_info_present_flag; else
                                                 0; 0 in a reduced header */
  uint32_t decoder_buffer_delay;              /* f(buffer_delay_length_minus_1 + 1), with
                                                 decoder_model_present_for_this_op */
  uint32_t encoder_buffer_delay;              /* the same */
  uint32_t low_delay_mode_flag;               /* f(1), with decoder_model_present_for_this_op */
  /* f(1), with initial_display_delay_present_flag; 0 in a reduced header */
  uint32_t initial_display_delay_present_for_this_op;
  uint32_t initial_display_delay_minus_1;     /* f(4), with the flag before, where that is coded */
};

/* color_config (5.5.2). sRGB is color_primaries 1, transfer_characteristics 13 and
   matrix_coefficients 0; "with three planes" is where mono_chrome is not set. */
struct friscurella_color_config {
  uint32_t high_bitdepth;                  /* f(1) */
  uint32_t twelve_bit;                     /* f(1), in profile 2 with high_bitdepth; else 0 */
  uint32_t mono_chrome;                    /* f(1), in profiles 0 and 2; else 0 */
  uint32_t color_description_present_flag; /* f(1) */
  uint32_t color_primaries;                /* f(8), with color_description_present_flag; else 2 */
  uint32_t transfer_characteristics;       /* f(8), with color_description_present_flag; else 2 */
  uint32_t matrix_coefficients;            /* f(8), with color_description_present_flag; else 2 */
  uint32_t color_range;                    /* f(1); 1 with three planes of sRGB */
  uint32_t subsampling_x;                  /* 1 if mono_chrome, 0 for sRGB; else 1 in profile 0,
                                              0 in profile 1, and in profile 2 f(1) with
                                              twelve_bit, 1 without */
  uint32_t subsampling_y;                  /* 1 if mono_chrome, 0 for sRGB; else 1 in profile 0,
                                              0 in profile 1, and in profile 2 f(1) with
                                              twelve_bit and subsampling_x, 0 without */
  uint32_t chroma_sample_position;         /* f(2), with three planes of 4:2:0 that are not sRGB;
                                              else 0 */
  uint32_t separate_uv_delta_q;            /* f(1), with three planes; else 0 */
  uint32_t num_planes;                     /* NumPlanes, not coded: 1 if mono_chrome; else 3 */
};

/* A sequence header OBU (5.5.1). */
struct friscurella_sequence_header {
  struct friscurella_obu_header obu_header;     /* of the type FRISCURELLA_OBU_SEQUENCE_HEADER */
  uint32_t seq_profile;                         /* f(3): 0 to 2 */
  uint32_t still_picture;                       /* f(1) */
  uint32_t reduced_still_picture_header;        /* f(1) */
  uint32_t timing_info_present_flag;            /* f(1); 0 in a reduced header, which is refused
                                                   under reduced_still_picture_header if not */
  struct friscurella_timing_info timing_info;   /* with timing_info_present_flag */
  uint32_t decoder_model_info_present_flag;     /* f(1), with timing_info_present_flag; else 0;
                                                   not looked at in a reduced header */
  /* with the flag before */
  struct friscurella_decoder_model_info decoder_model_info;
  uint32_t initial_display_delay_present_flag;  /* f(1); 0 in a reduced header */
  uint32_t operating_points_cnt_minus_1;        /* f(5): 0 to 31; 0 in a reduced header */
  /* the first operating_points_cnt_minus_1 + 1 of them */
  struct friscurella_operating_point operating_points[FRISCURELLA_MAX_OPERATING_POINTS];
  uint32_t frame_width_bits_minus_1;            /* f(4): the bits, less one, of the width below */
  uint32_t frame_height_bits_minus_1;           /* f(4): the bits, less one, of the height below */
  uint32_t max_frame_width_minus_1;             /* f(frame_width_bits_minus_1 + 1) */
  uint32_t max_frame_height_minus_1;            /* f(frame_height_bits_minus_1 + 1) */
  uint32_t frame_id_numbers_present_flag;       /* f(1); 0 in a reduced header */
  uint32_t delta_frame_id_length_minus_2;       /* f(4), with frame_id_numbers_present_flag */
  uint32_t additional_frame_id_length_minus_1;  /* f(3), with frame_id_numbers_present_flag */
  uint32_t use_128x128_superblock;              /* f(1) */
  uint32_t enable_filter_intra;                 /* f(1) */
  uint32_t enable_intra_edge_filter;            /* f(1) */
  uint32_t enable_interintra_compound;          /* f(1); 0 in a reduced header */
  uint32_t enable_masked_compound;              /* f(1); 0 in a reduced header */
  uint32_t enable_warped_motion;                /* f(1); 0 in a reduced header */
  uint32_t enable_dual_filter;                  /* f(1); 0 in a reduced header */
  uint32_t enable_order_hint;                   /* f(1); 0 in a reduced header */
  uint32_t enable_jnt_comp;                     /* f(1), with enable_order_hint; else 0 */
  uint32_t enable_ref_frame_mvs;                /* f(1), with enable_order_hint; else 0 */
  uint32_t seq_choose_screen_content_tools;     /* f(1); not looked at in a reduced header */
  uint32_t seq_force_screen_content_tools;      /* f(1), 0 or 1;
                                                   FRISCURELLA_SELECT_SCREEN_CONTENT_TOOLS with
                                                   seq_choose_screen_content_tools or in a reduced
                                                   header */
  uint32_t seq_choose_integer_mv;               /* f(1), where seq_force_screen_content_tools is
                                                   over 0; not looked at in a reduced header */
  uint32_t seq_force_integer_mv;                /* f(1), 0 or 1; FRISCURELLA_SELECT_INTEGER_MV
                                                   with seq_choose_integer_mv, where
                                                   seq_force_screen_content_tools is 0, or in a
                                                   reduced header */
  uint32_t order_hint_bits_minus_1;             /* f(3), with enable_order_hint */
  uint32_t order_hint_bits;                     /* OrderHintBits, not coded:
                                                   order_hint_bits_minus_1 + 1 with
                                                   enable_order_hint; else 0 */
  uint32_t enable_superres;                     /* f(1) */
  uint32_t enable_cdef;                         /* f(1) */
  uint32_t enable_restoration;                  /* f(1) */
  struct friscurella_color_config color_config; /* 5.5.2 */
  uint32_t film_grain_params_present;           /* f(1) */
};

/* A part of the frame header begins with its context: what the headers say before it. There, all
   but planes and primary_ref_frame are flags. friscurella_make_.._context below builds it. */

struct friscurella_quantization_context {
  int32_t planes;              /* num_planes: any number but 1 counts as 3 */
  int32_t separate_uv_delta_q; /* of the sequence header's color_config */
};

/* quantization_params (5.9.12). A delta is f(1) and, if it is not 0, su(7): -64 to 63. */
struct friscurella_quantization_params {
  struct friscurella_quantization_context context;
  int32_t base_q_idx;    /* f(8) */
  int32_t delta_q_y_dc;  /* DeltaQYDc, a delta */
  int32_t diff_uv_delta; /* f(1), with three planes and separate_uv_delta_q; 0 with three planes
                            and without; not looked at with one */
  int32_t delta_q_u_dc;  /* DeltaQUDc, a delta with three planes; else 0 */
  int32_t delta_q_u_ac;  /* DeltaQUAc, a delta with three planes; else 0 */
  int32_t delta_q_v_dc;  /* DeltaQVDc, a delta with three planes and diff_uv_delta; else that of
                            U, which is 0 with one plane */
  int32_t delta_q_v_ac;  /* DeltaQVAc, a delta with three planes and diff_uv_delta; else that of
                            U, which is 0 with one plane */
  int32_t using_qmatrix; /* f(1) */
  int32_t qm_y;          /* f(4), with using_qmatrix */
  int32_t qm_u;          /* f(4), with using_qmatrix */
  int32_t qm_v;          /* f(4), with using_qmatrix and separate_uv_delta_q; that of U with
                            using_qmatrix alone */
};

struct friscurella_segmentation_context {
  int32_t primary_ref_frame; /* FRISCURELLA_PRIMARY_REF_NONE; any other number is a reference */
};

/* segmentation_params (5.9.14). Only segmentation_enabled is looked at where it is 0. */
struct friscurella_segmentation_params {
  struct friscurella_segmentation_context context;
  int32_t segmentation_enabled;         /* f(1) */
  int32_t segmentation_update_map;      /* f(1), with a reference; else 1 */
  int32_t segmentation_temporal_update; /* f(1), with a reference and segmentation_update_map; 0
                                           without a reference */
  int32_t segmentation_update_data;     /* f(1), with a reference; else 1 */
  int32_t feature_enabled[8][8];        /* FeatureEnabled[segment][feature], f(1) each, with
                                           segmentation_update_data; else 0 */
  int32_t feature_data[8][8];           /* FeatureData, where feature_enabled is set: su(9) of
                                           feature 0, clipped to -255 to 255; su(7) of 1 to 4,
                                           clipped to -63 to 63; f(3) of 5, clipped to 0 to 7; no
                                           bits of 6 and 7. All are 0 without
                                           segmentation_update_data */
};

struct friscurella_loop_filter_context {
  int32_t coded_lossless; /* CodedLossless */
  int32_t allow_intrabc;  /* of the frame header */
  int32_t planes;         /* num_planes: any number but 1 counts as 3 */
};

/* loop_filter_params (5.9.11). Nothing is coded with coded_lossless or allow_intrabc. */
struct friscurella_loop_filter_params {
  struct friscurella_loop_filter_context context;
  int32_t loop_filter_level[4];       /* f(6) each, 2 and 3 only with three planes and if 0 or 1
                                         is not 0. 0 and 1 are 0 where nothing is coded */
  int32_t loop_filter_sharpness;      /* f(3) */
  int32_t loop_filter_delta_enabled;  /* f(1) */
  int32_t loop_filter_delta_update;   /* f(1), with loop_filter_delta_enabled */
  int32_t loop_filter_ref_deltas[8];  /* a set flag and su(7) each, where
                                         loop_filter_delta_update is coded and set;
                                         FRISCURELLA_DEFAULT_REF_DELTAS where nothing is coded */
  int32_t loop_filter_mode_deltas[2]; /* the same; 0, 0 where nothing is coded */
};

/* The deltas before loop_filter_params, which its reader is lent: those of the frame that
   primary_ref_frame refers to; without one, FRISCURELLA_DEFAULT_REF_DELTAS and 0, 0. */
struct friscurella_loop_filter_deltas {
  int32_t loop_filter_ref_deltas[8];
  int32_t loop_filter_mode_deltas[2];
};

struct friscurella_cdef_context {
  int32_t coded_lossless; /* CodedLossless */
  int32_t allow_intrabc;  /* of the frame header */
  int32_t enable_cdef;    /* of the sequence header */
  int32_t planes;         /* num_planes: any number but 1 counts as 3 */
};

/* cdef_params (5.9.19). Nothing is coded with coded_lossless or allow_intrabc or without
   enable_cdef: then the first of each strength is 0, and the others are not looked at. */
struct friscurella_cdef_params {
  struct friscurella_cdef_context context;
  int32_t cdef_bits;               /* f(2): the first 2^cdef_bits of each strength are coded; 0
                                      where nothing is coded */
  int32_t cdef_damping;            /* 3 to 6, f(2) of 3 less; 3 where nothing is coded */
  int32_t cdef_y_pri_strength[8];  /* f(4) each */
  int32_t cdef_y_sec_strength[8];  /* 0, 1, 2 or 4 each, f(2) */
  int32_t cdef_uv_pri_strength[8]; /* f(4) each, with three planes */
  int32_t cdef_uv_sec_strength[8]; /* 0, 1, 2 or 4 each, f(2), with three planes */
};

struct friscurella_lr_context {
  int32_t all_lossless;           /* AllLossless */
  int32_t allow_intrabc;          /* of the frame header */
  int32_t enable_restoration;     /* of the sequence header */
  int32_t planes;                 /* num_planes: any number but 1 counts as 3 */
  int32_t use_128x128_superblock; /* of the sequence header */
  int32_t subsampling_x;          /* of its color_config */
  int32_t subsampling_y;          /* of its color_config */
};

/* lr_params (5.9.20). Nothing is coded with all_lossless or allow_intrabc or without
   enable_restoration: then frame_restoration_type is 0, 0, 0, uses_lr is 0, and no more is looked
   at. */
struct friscurella_lr_params {
  struct friscurella_lr_context context;
  int32_t frame_restoration_type[3]; /* lr_type, f(2) each: none 0, switchable 1, Wiener 2,
                                        self-guided 3. With one plane only the first is coded */
  int32_t uses_lr;                   /* UsesLr, not coded: whether a coded kind is not 0 */
  int32_t uses_chroma_lr;            /* usesChromaLr, not coded: whether a coded kind of chroma
                                        is not 0 */
  int32_t lr_unit_shift;             /* with uses_lr: 0 to 2, in the bits 0, 10 and 11; with
                                        use_128x128_superblock 1 or 2, f(1) of one less */
  int32_t lr_uv_shift;               /* f(1), 0 or 1, with uses_chroma_lr and 4:2:0; else 0 with
                                        uses_lr */
};

/* CALLS */

/* A sequence header to start from: 4:2:0 video of 8, 10 or 12 bits, with a size field, at level 31
   (maximum parameters), every coding tool but superres enabled; no timing, no colour description,
   no frame ids, no film grain. friscurella_write_sequence_header accepts it for a width and a
   height of 1 to 65536, and refuses it for others and for another bit depth. */
void friscurella_video(uint32_t width, uint32_t height, uint32_t bit_depth,
                       struct friscurella_sequence_header *record);

/* Writes a sequence header OBU at the start of `out`, in its shortest spelling.
   DONE, n: the OBU is out[0] to out[n - 1], whole, and every other byte is as it was.
   Anything else: no byte of `out` has changed. The reason is the first of: LONG; INCONSISTENT or
   UNFIT at the first element, in the standard's order, that earns it; SHORT. */
uint32_t friscurella_write_sequence_header(const struct friscurella_sequence_header *record,
                                           uint8_t *out, size_t length,
                                           struct friscurella_answer *answer);

/* Writes a temporal delimiter OBU at the start of `out`: the same promises. */
uint32_t friscurella_write_temporal_delimiter(const struct friscurella_obu_header *record,
                                              uint8_t *out, size_t length,
                                              struct friscurella_answer *answer);

/* Each fills the context of a part from the sequence header's record and the frame's own values:
   flags are 0 or 1, and planes is 1 or 3. Of a record that friscurella_write_sequence_header
   accepts, or that friscurella_read_sequence_header gave, planes is 1 exactly where mono_chrome is
   set. (Segmentation takes nothing from the sequence header.) */
void friscurella_make_quantization_context(const struct friscurella_sequence_header *header,
                                           struct friscurella_quantization_context *context);
void friscurella_make_segmentation_context(int32_t primary_ref_frame,
                                           struct friscurella_segmentation_context *context);
void friscurella_make_loop_filter_context(const struct friscurella_sequence_header *header,
                                          bool coded_lossless, bool allow_intrabc,
                                          struct friscurella_loop_filter_context *context);
void friscurella_make_cdef_context(const struct friscurella_sequence_header *header,
                                   bool coded_lossless, bool allow_intrabc,
                                   struct friscurella_cdef_context *context);
void friscurella_make_lr_context(const struct friscurella_sequence_header *header,
                                 bool all_lossless, bool allow_intrabc,
                                 struct friscurella_lr_context *context);

/* Each writes a part of a frame header from the bit `place` of `out` on; bit 0 is the top bit of
   out[0].
   DONE, end: the part is the bits from `place` to end - 1, whole, and every other bit is as it was.
   (end = place where nothing is coded.)
   Anything else: no bit of `out` has changed. The reason is the first of: LONG; INCONSISTENT or
   UNFIT at the first element, in the standard's order, that earns it; SHORT, also where `place` is
   beyond the end. */
uint32_t friscurella_write_quantization_params(const struct friscurella_quantization_params *record,
                                               uint32_t place, uint8_t *out, size_t length,
                                               struct friscurella_answer *answer);
uint32_t friscurella_write_segmentation_params(const struct friscurella_segmentation_params *record,
                                               uint32_t place, uint8_t *out, size_t length,
                                               struct friscurella_answer *answer);
uint32_t friscurella_write_loop_filter_params(const struct friscurella_loop_filter_params *record,
                                              uint32_t place, uint8_t *out, size_t length,
                                              struct friscurella_answer *answer);
uint32_t friscurella_write_cdef_params(const struct friscurella_cdef_params *record, uint32_t place,
                                       uint8_t *out, size_t length,
                                       struct friscurella_answer *answer);
uint32_t friscurella_write_lr_params(const struct friscurella_lr_params *record, uint32_t place,
                                     uint8_t *out, size_t length,
                                     struct friscurella_answer *answer);

/* Reads a sequence header OBU, which has to be the whole input.
   DONE: the input is a spelling of a record that friscurella_write_sequence_header accepts, and
   `record` is that record: inferred fields hold the inferred value, and fields neither coded nor
   inferred are 0.
   Anything else: the input is no such spelling, and no number of `record` has changed. */
uint32_t friscurella_read_sequence_header(const uint8_t *input, size_t length,
                                          struct friscurella_sequence_header *record,
                                          struct friscurella_answer *answer);

/* Each reads a part of a frame header from the bit `place` of `input` on; bit 0 is the top bit of
   input[0]. It goes by record->context, which the caller fills and the call does not change.
   DONE, end: the part is the bits from `place` to end - 1, and every other number of `record` is
   the part's. (end = place where nothing is coded.) Flags are 0 or 1, and feature_data is clipped.
   A field that is not coded holds the value that is said above for that case, and 0 where none is
   said. (So the features are 0 without segmentation_update_data, where those of the reference
   stand.) But where the loop filter is coded, a delta whose flag is not set is that of `previous`,
   and without loop_filter_delta_update all ten are. A set flag may stand before a delta of 0.
   Anything else: no number of `record` has changed. The reason is the first of: LONG; ENDS, where
   the bits run out or `place` is beyond the end, also where nothing is coded. There is no other.
   What the part's writer wrote is read with the same end and the same coded fields. A record that
   was read is one that the writer accepts, if the deltas of `previous` are -64 to 63. */
uint32_t friscurella_read_quantization_params(const uint8_t *input, size_t length, uint32_t place,
                                              struct friscurella_quantization_params *record,
                                              struct friscurella_answer *answer);
uint32_t friscurella_read_segmentation_params(const uint8_t *input, size_t length, uint32_t place,
                                              struct friscurella_segmentation_params *record,
                                              struct friscurella_answer *answer);
uint32_t friscurella_read_loop_filter_params(const uint8_t *input, size_t length, uint32_t place,
                                             const struct friscurella_loop_filter_deltas *previous,
                                             struct friscurella_loop_filter_params *record,
                                             struct friscurella_answer *answer);
uint32_t friscurella_read_cdef_params(const uint8_t *input, size_t length, uint32_t place,
                                      struct friscurella_cdef_params *record,
                                      struct friscurella_answer *answer);
uint32_t friscurella_read_lr_params(const uint8_t *input, size_t length, uint32_t place,
                                    struct friscurella_lr_params *record,
                                    struct friscurella_answer *answer);

/* A part of an input: the `length` bytes from input[start] on. */
struct friscurella_part {
  uint32_t start;
  uint32_t length;
};

/* The payload of a sequence header OBU: all behind the size field, or behind the header if there is
   no size field. Both numbers are 0 where friscurella_read_sequence_header refuses the input. */
void friscurella_payload(const uint8_t *input, size_t length, struct friscurella_part *part);

/* Whether the input is the temporal delimiter without extension: 12 00, or 10. */
bool friscurella_is_temporal_delimiter(const uint8_t *input, size_t length);

/* The library takes each record as an array of so many numbers of 32 bits. */
#if defined(__cplusplus) && __cplusplus >= 201103L
#define FRISCURELLA_CLAIM(claim, name) static_assert(claim, #name)
#elif defined(__STDC_VERSION__) && __STDC_VERSION__ >= 201112L
#define FRISCURELLA_CLAIM(claim, name) _Static_assert(claim, #name)
#else
#define FRISCURELLA_CLAIM(claim, name) typedef char friscurella_##name[(claim) ? 1 : -1]
#endif
#define FRISCURELLA_NUMBERS(record, count) \
  FRISCURELLA_CLAIM(sizeof(struct friscurella_##record) == 4 * count, record##_is_##count##_numbers)
FRISCURELLA_NUMBERS(answer, 4);
FRISCURELLA_NUMBERS(part, 2);
FRISCURELLA_NUMBERS(obu_header, 5);
FRISCURELLA_NUMBERS(sequence_header, 348);
FRISCURELLA_NUMBERS(quantization_context, 2);
FRISCURELLA_NUMBERS(quantization_params, 13);
FRISCURELLA_NUMBERS(segmentation_context, 1);
FRISCURELLA_NUMBERS(segmentation_params, 133);
FRISCURELLA_NUMBERS(loop_filter_context, 3);
FRISCURELLA_NUMBERS(loop_filter_params, 20);
FRISCURELLA_NUMBERS(loop_filter_deltas, 10);
FRISCURELLA_NUMBERS(cdef_context, 4);
FRISCURELLA_NUMBERS(cdef_params, 38);
FRISCURELLA_NUMBERS(lr_context, 7);
FRISCURELLA_NUMBERS(lr_params, 14);
#undef FRISCURELLA_NUMBERS
#undef FRISCURELLA_CLAIM

#ifdef __cplusplus
}
#endif

#endif
