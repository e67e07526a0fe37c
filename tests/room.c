/* How much room is enough: the longest record of each writer fills a buffer of FRISCURELLA_.._MAX
   to the last byte, or a part's bits to the last one, from any place on; in a buffer of one byte
   less it is refused, and the refusal asks for that byte. */
#include <stdio.h>
#include <string.h>

#include "friscurella.h"

enum { PATTERN = 0x5A, ROOM = FRISCURELLA_SEQUENCE_HEADER_MAX + 8 };

static int failures;

static void check(bool good, const char *writer, const char *claim, uint32_t place) {
  if (good) return;
  printf("%s, from bit %u on: %s: not so\n", writer, (unsigned)place, claim);
  failures++;
}

/* The record of crates/room, which takes 397 bytes: every optional field of all 32 operating
   points, of four spatial and eight temporal layers; from the largest starter record. */
static struct friscurella_sequence_header longest_header(void) {
  struct friscurella_sequence_header h;
  friscurella_video(65536, 65536, 12, &h);
  h.obu_header.extension_flag = 1;
  h.timing_info_present_flag = 1;
  h.timing_info.num_units_in_display_tick = 1;
  h.timing_info.time_scale = 60;
  h.timing_info.equal_picture_interval = 1;
  h.timing_info.num_ticks_per_picture_minus_1 = 0xFFFFFFFE;
  h.decoder_model_info_present_flag = 1;
  h.decoder_model_info.buffer_delay_length_minus_1 = 31;
  h.decoder_model_info.num_units_in_decoding_tick = 1;
  h.decoder_model_info.buffer_removal_time_length_minus_1 = 31;
  h.decoder_model_info.frame_presentation_time_length_minus_1 = 31;
  h.initial_display_delay_present_flag = 1;
  h.operating_points_cnt_minus_1 = FRISCURELLA_MAX_OPERATING_POINTS - 1;
  for (unsigned i = 0; i < FRISCURELLA_MAX_OPERATING_POINTS; i++) {
    struct friscurella_operating_point *point = &h.operating_points[i];
    point->idc = ((1u << (4 - i / 8)) - 1) << 8 | ((1u << (8 - i % 8)) - 1);
    point->seq_level_idx = 31;
    point->seq_tier = 1;
    point->decoder_model_present_for_this_op = 1;
    point->decoder_buffer_delay = 90000;
    point->encoder_buffer_delay = 90000;
    point->low_delay_mode_flag = 1;
    point->initial_display_delay_present_for_this_op = 1;
    point->initial_display_delay_minus_1 = 9;
  }
  h.frame_id_numbers_present_flag = 1;
  h.delta_frame_id_length_minus_2 = 7;
  h.additional_frame_id_length_minus_1 = 5;
  h.use_128x128_superblock = 1;
  h.enable_filter_intra = 1;
  h.enable_intra_edge_filter = 1;
  h.enable_interintra_compound = 1;
  h.enable_masked_compound = 1;
  h.enable_warped_motion = 1;
  h.enable_dual_filter = 1;
  h.enable_order_hint = 1;
  h.enable_jnt_comp = 1;
  h.enable_ref_frame_mvs = 1;
  h.seq_choose_screen_content_tools = 0;
  h.seq_force_screen_content_tools = 1;
  h.seq_choose_integer_mv = 0;
  h.seq_force_integer_mv = 1;
  h.order_hint_bits_minus_1 = 7;
  h.order_hint_bits = 8;
  h.enable_superres = 1;
  h.enable_cdef = 1;
  h.enable_restoration = 1;
  h.color_config.color_description_present_flag = 1;
  h.color_config.color_primaries = 9;
  h.color_config.transfer_characteristics = 16;
  h.color_config.matrix_coefficients = 9;
  h.color_config.color_range = 1;
  h.color_config.chroma_sample_position = 2;
  h.color_config.separate_uv_delta_q = 1;
  h.film_grain_params_present = 1;
  return h;
}

/* What a writer answers to its longest record, from a place on; it is lent `length` bytes. */
typedef struct friscurella_answer writer(uint32_t place, uint8_t *out, size_t length);

static struct friscurella_answer sequence_header(uint32_t place, uint8_t *out, size_t length) {
  struct friscurella_sequence_header record = longest_header();
  struct friscurella_answer answer;
  (void)place;
  friscurella_write_sequence_header(&record, out, length, &answer);
  return answer;
}

static struct friscurella_answer temporal_delimiter(uint32_t place, uint8_t *out, size_t length) {
  struct friscurella_obu_header record = {FRISCURELLA_OBU_TEMPORAL_DELIMITER, 1, 1, 7, 3};
  struct friscurella_answer answer;
  (void)place;
  friscurella_write_temporal_delimiter(&record, out, length, &answer);
  return answer;
}

static struct friscurella_answer quantization(uint32_t place, uint8_t *out, size_t length) {
  struct friscurella_quantization_params record = {
      {3, 1}, 255, -64, 1, 63, -64, -64, 63, 1, 15, 15, 15};
  struct friscurella_answer answer;
  friscurella_write_quantization_params(&record, place, out, length, &answer);
  return answer;
}

static struct friscurella_answer segmentation(uint32_t place, uint8_t *out, size_t length) {
  static struct friscurella_segmentation_params record; /* all 0, which is with a reference */
  struct friscurella_answer answer;
  record.segmentation_enabled = 1;
  record.segmentation_update_map = 1;
  record.segmentation_temporal_update = 1;
  record.segmentation_update_data = 1;
  for (int i = 0; i < 8; i++)
    for (int j = 0; j < 8; j++) record.feature_enabled[i][j] = 1;
  friscurella_write_segmentation_params(&record, place, out, length, &answer);
  return answer;
}

static struct friscurella_answer loop_filter(uint32_t place, uint8_t *out, size_t length) {
  struct friscurella_loop_filter_params record = {
      {0, 0, 3}, {63, 63, 63, 63}, 7, 1, 1, {-64, -64, -64, -64, -64, -64, -64, -64}, {63, 63}};
  struct friscurella_answer answer;
  friscurella_write_loop_filter_params(&record, place, out, length, &answer);
  return answer;
}

static struct friscurella_answer cdef(uint32_t place, uint8_t *out, size_t length) {
  struct friscurella_cdef_params record = {{0, 0, 1, 3},
                                           3,
                                           6,
                                           {15, 15, 15, 15, 15, 15, 15, 15},
                                           {4, 4, 4, 4, 4, 4, 4, 4},
                                           {15, 15, 15, 15, 15, 15, 15, 15},
                                           {4, 4, 4, 4, 4, 4, 4, 4}};
  struct friscurella_answer answer;
  friscurella_write_cdef_params(&record, place, out, length, &answer);
  return answer;
}

static struct friscurella_answer lr(uint32_t place, uint8_t *out, size_t length) {
  struct friscurella_lr_params record = {{0, 0, 1, 3, 0, 1, 1}, {1, 1, 1}, 1, 1, 2, 1};
  struct friscurella_answer answer;
  friscurella_write_lr_params(&record, place, out, length, &answer);
  return answer;
}

/* With `most` bytes in all it is done, and its answer is `end`; with a byte less it is refused. */
static void reaches(const char *name, writer *write, uint32_t place, uint32_t most, uint32_t end) {
  uint8_t out[ROOM], before[ROOM];
  memset(before, PATTERN, sizeof before);
  memset(out, PATTERN, sizeof out);
  struct friscurella_answer answer = write(place, out, most);
  bool done = answer.number == FRISCURELLA_DONE && answer.first == end;
  check(done, name, "the longest record fills the room that is enough", place);
  bool kept = memcmp(out + most, before + most, sizeof out - most) == 0;
  check(kept, name, "no byte behind it changes", place);
  memset(out, PATTERN, sizeof out);
  answer = write(place, out, most - 1);
  bool refused = answer.number == FRISCURELLA_SHORT && answer.first == most;
  check(refused, name, "a byte less is refused, and asked for", place);
  check(memcmp(out, before, sizeof out) == 0, name, "a refusal changes nothing", place);
}

static void part(const char *name, writer *write, uint32_t bits) {
  for (uint32_t place = 0; place < 16; place++)
    reaches(name, write, place, (place + bits + 7) / 8, place + bits);
}

int main(void) {
  const uint32_t header = FRISCURELLA_SEQUENCE_HEADER_MAX;
  const uint32_t delimiter = FRISCURELLA_TEMPORAL_DELIMITER_MAX;
  reaches("sequence header", sequence_header, 0, header, header);
  reaches("temporal delimiter", temporal_delimiter, 0, delimiter, delimiter);
  part("quantization", quantization, FRISCURELLA_QUANTIZATION_PARAMS_MAX_BITS);
  part("segmentation", segmentation, FRISCURELLA_SEGMENTATION_PARAMS_MAX_BITS);
  part("loop filter", loop_filter, FRISCURELLA_LOOP_FILTER_PARAMS_MAX_BITS);
  part("CDEF", cdef, FRISCURELLA_CDEF_PARAMS_MAX_BITS);
  part("restoration", lr, FRISCURELLA_LR_PARAMS_MAX_BITS);
  if (failures == 0) printf("room: the longest record of each writer fills it: as promised\n");
  return failures != 0;
}
