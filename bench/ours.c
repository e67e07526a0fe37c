/* Our side: the records of calls.rs, and the calls for C. */
#include "friscurella.h"
#include <stdlib.h>
#include <string.h>

typedef int64_t (*call)(const void *record, uint8_t *out, size_t size);

static int64_t sequence(const void *r, uint8_t *out, size_t n) {
  struct friscurella_answer answer;
  return friscurella_write_sequence_header(r, out, n, &answer) == FRISCURELLA_DONE ? (int64_t)answer.first : -1;
}
#define PART(name) \
  static int64_t name(const void *r, uint8_t *out, size_t n) { \
    struct friscurella_answer answer; \
    return friscurella_write_##name(r, 0, out, n, &answer) == FRISCURELLA_DONE ? ((int64_t)answer.first + 7) / 8 : -1; \
  }
PART(quantization_params)
PART(segmentation_params)
PART(loop_filter_params)
PART(cdef_params)
PART(lr_params)

static uint8_t input[FRISCURELLA_SLICE_LIMIT];
static size_t input_size;
static struct friscurella_sequence_header was_read; /* or the record of a part, which has fewer numbers */
static int64_t read_header(const void *r, uint8_t *out, size_t n) {
  (void)r; (void)out; (void)n;
  struct friscurella_answer answer;
  return friscurella_read_sequence_header(input, input_size, &was_read, &answer) == FRISCURELLA_DONE ? 0 : -1;
}
#define PART_READER(name, previous) \
  static int64_t read_##name(const void *r, uint8_t *out, size_t n) { \
    (void)r; (void)out; (void)n; \
    struct friscurella_answer answer; \
    return friscurella_read_##name(input, input_size, 0 previous, (void *)&was_read, &answer) == FRISCURELLA_DONE ? 0 : -1; \
  }
#define COMMA_PREVIOUS , &previous
static const struct friscurella_loop_filter_deltas previous = {FRISCURELLA_DEFAULT_REF_DELTAS, {0, 0}};
PART_READER(quantization_params, )
PART_READER(segmentation_params, )
PART_READER(loop_filter_params, COMMA_PREVIOUS)
PART_READER(cdef_params, )
PART_READER(lr_params, )

static void common(struct friscurella_sequence_header *q) {
  q->operating_points[0].seq_level_idx = 8;
  q->frame_width_bits_minus_1 = q->frame_height_bits_minus_1 = 10; q->max_frame_width_minus_1 = 1919; q->max_frame_height_minus_1 = 1079;
  q->use_128x128_superblock = q->enable_filter_intra = q->enable_intra_edge_filter = 1;
  q->enable_interintra_compound = q->enable_masked_compound = q->enable_warped_motion = q->enable_dual_filter = 1;
  q->enable_order_hint = q->enable_jnt_comp = q->enable_ref_frame_mvs = 1;
  q->seq_choose_screen_content_tools = q->seq_choose_integer_mv = q->enable_cdef = q->enable_restoration = 1;
  q->order_hint_bits_minus_1 = 6; q->order_hint_bits = 7;
}
static void everything(struct friscurella_sequence_header *q) {
  q->timing_info_present_flag = q->decoder_model_info_present_flag = q->initial_display_delay_present_flag = 1;
  q->timing_info = (struct friscurella_timing_info){1001, 60000, 1, 5};
  q->decoder_model_info = (struct friscurella_decoder_model_info){31, 1001, 31, 31};
  for (uint32_t i = 0; i < FRISCURELLA_MAX_OPERATING_POINTS; i++)
    q->operating_points[i] = (struct friscurella_operating_point){0x101 + i, 8, i & 1, 1, 90000 + i, 0xF0000000u + i, !(i & 1), 1, 9};
  q->frame_id_numbers_present_flag = 1; q->delta_frame_id_length_minus_2 = 12;
  struct friscurella_color_config *c = &q->color_config;
  c->color_description_present_flag = 1; c->color_primaries = 9; c->transfer_characteristics = 16; c->matrix_coefficients = 9;
}
static const struct friscurella_sequence_header *header(unsigned n, bool has_size_field) {
  static struct friscurella_sequence_header record;
  struct friscurella_sequence_header *q = &record;
  struct friscurella_color_config *c = &q->color_config;
  q->obu_header.obu_type = FRISCURELLA_OBU_SEQUENCE_HEADER; q->obu_header.has_size_field = has_size_field;
  q->seq_force_screen_content_tools = FRISCURELLA_SELECT_SCREEN_CONTENT_TOOLS; q->seq_force_integer_mv = FRISCURELLA_SELECT_INTEGER_MV;
  c->color_primaries = c->transfer_characteristics = c->matrix_coefficients = 2; c->subsampling_x = c->subsampling_y = 1;
  c->num_planes = n == 2 ? 1 : 3;
  if (n == 2) q->still_picture = q->reduced_still_picture_header = c->mono_chrome = 1;
  else common(q);
  if (n == 32 || n == 33) q->operating_points_cnt_minus_1 = 31;
  for (uint32_t i = 0; n == 32 && i < FRISCURELLA_MAX_OPERATING_POINTS; i++)
    q->operating_points[i] = (struct friscurella_operating_point){.idc = 0x101 + i, .seq_level_idx = 8, .seq_tier = i & 1};
  if (n == 33) everything(q);
  return q;
}

static const struct friscurella_quantization_params quant_10 = {.context = {1, 0}, .base_q_idx = 100, .delta_q_y_dc = -1};
static const struct friscurella_quantization_params quant_50 = {{3, 1}, 255, -64, 1, 63, -3, 4, -5, 1, 15, 3, 4};
static const struct friscurella_segmentation_params seg_51 = {.context = {FRISCURELLA_PRIMARY_REF_NONE}};
static struct friscurella_segmentation_params seg_52 = {{FRISCURELLA_PRIMARY_REF_NONE}, 1, 1, 0, 1, {{0}}, {{0}}};
static const struct friscurella_loop_filter_params lf_53 = {{0, 0, 3}, {10, 12, 0, 0}, 3, 0, 0, FRISCURELLA_DEFAULT_REF_DELTAS, {0, 0}};
static const struct friscurella_loop_filter_params lf_54 = {{0, 0, 3}, {10, 12, 20, 21}, 7, 1, 1, FRISCURELLA_DEFAULT_REF_DELTAS, {-64, 63}};
static const struct friscurella_cdef_params cdef_11 = {{0, 0, 1, 1}, 0, 3, {1}, {4}, {0}, {0}};
static const struct friscurella_cdef_params cdef_56 = {
  {0, 0, 1, 3}, 3, 6, {0, 1, 2, 3, 4, 5, 6, 7}, {0, 1, 2, 4, 0, 1, 2, 4}, {15, 15, 15, 15, 15, 15, 15, 15}, {4, 4, 4, 4, 4, 4, 4, 4}};
static const struct friscurella_lr_params lr_57 = {.context = {0, 0, 1, 3, 0, 1, 1}};
static const struct friscurella_lr_params lr_58 = {{0, 0, 1, 3, 0, 1, 1}, {1, 2, 3}, 1, 1, 1, 1}; /* the bits of the crate, which codes its own numbers of the kinds */
#define CASE(number, record, name) {number, &record, sizeof record.context, name, read_##name}
static const struct part { unsigned number; const void *record; size_t context; call write, read; } parts[] = {
  CASE(10, quant_10, quantization_params), CASE(50, quant_50, quantization_params), CASE(51, seg_51, segmentation_params), CASE(52, seg_52, segmentation_params),
  CASE(53, lf_53, loop_filter_params), CASE(54, lf_54, loop_filter_params), CASE(11, cdef_11, cdef_params), CASE(56, cdef_56, cdef_params),
  CASE(57, lr_57, lr_params), CASE(58, lr_58, lr_params),
};
static const struct part *find(unsigned n) { /* none for a header */
  for (size_t i = 0; i < sizeof parts / sizeof *parts; i++) if (parts[i].number == n) return parts + i;
  return NULL;
}
static void write_to_read(const struct part *p) {
  static uint8_t again[sizeof input];
  input_size = (size_t)p->write(p->record, input, sizeof input);
  memcpy(&was_read, p->record, p->context);
  if (p->read(NULL, NULL, 0)) abort();
  if (p->write(&was_read, again, sizeof again) != (int64_t)input_size || memcmp(input, again, input_size)) abort(); /* what is read is written as the same bytes */
}

int ours_pick(const char *kind, unsigned n, const void **record, call *f) {
  const bool read = !strcmp(kind, "read"), pad = !strcmp(kind, "pad");
  const struct part *p = find(n);
  if (!strcmp(kind, "seq")) { *record = header(n, true); *f = sequence; return 0; }
  if ((read && !p) || pad) { /* pad: header 6 without a size field, and zeros up to n bytes */
    const struct friscurella_sequence_header *q = header(pad ? 6 : n, !pad);
    input_size = (size_t)sequence(q, input, sizeof input);
    if (pad) input_size = n;
    *f = read_header;
    if (read_header(NULL, NULL, 0) || memcmp(&was_read, q, sizeof was_read)) abort(); /* what is read is the record that was written */
    return 0;
  }
  for (unsigned i = 0; i < 8; i++)
    for (unsigned j = 0; j < 8; j++) { /* eight features of eight segments */
      seg_52.feature_enabled[i][j] = 1;
      seg_52.feature_data[i][j] = (int32_t[]){-300, 40, -63, 64, 5, 7, 0, 0}[j] + (int32_t)i;
    }
  if (!p) return 0;
  if (read) write_to_read(p);
  *record = p->record;
  *f = read ? p->read : p->write;
  return 0;
}
