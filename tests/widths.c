/* A width refusal says the least width that would hold the number as it was given: also where the
   library itself goes by a narrower type, and 0 where no width helps. */
#include <stdio.h>
#include <string.h>

#include "friscurella.h"

enum { ROOM = 64 };

static int failures;

/* Whether a call refused an element with an index and a width; a row of it is printed. */
static void judge(const char *name, long long value, const struct friscurella_answer *answer,
                  uint32_t element, uint32_t index, uint32_t width) {
  const struct friscurella_answer *a = answer;
  char text[128];
  friscurella_explain(answer, text, sizeof text);
  printf("%s = %lld: %u %u %u %u, %s\n", name, value, (unsigned)a->number, (unsigned)a->first,
         (unsigned)a->second, (unsigned)a->third, text);
  if (a->number == FRISCURELLA_UNFIT && a->first == element && a->second == index &&
      a->third == width)
    return;
  printf("%s: element %u, index %u, width %u are expected\n", name, (unsigned)element,
         (unsigned)index, (unsigned)width);
  failures++;
}

/* One field of a record that is written else: FIELD is VALUE, which needs WIDTH bits. */
#define HEADER(field, value, element, width) \
  do { \
    struct friscurella_sequence_header record; \
    struct friscurella_answer answer; \
    uint8_t out[ROOM]; \
    friscurella_video(1920, 1080, 8, &record); \
    record.timing_info_present_flag = record.decoder_model_info_present_flag = 1; \
    record.timing_info.equal_picture_interval = 1; \
    record.field = (value); \
    friscurella_write_sequence_header(&record, out, sizeof out, &answer); \
    judge(#field, (value), &answer, FRISCURELLA_ELEMENT_##element, 0, (width)); \
  } while (0)

#define PART(name, field, value, element, index, width) \
  do { \
    struct friscurella_##name record = name; \
    struct friscurella_answer answer; \
    uint8_t out[ROOM]; \
    record.field = (value); \
    friscurella_write_##name(&record, 0, out, sizeof out, &answer); \
    judge(#field, (value), &answer, FRISCURELLA_ELEMENT_##element, (index), (width)); \
  } while (0)

static void headers(void) {
  HEADER(timing_info.num_ticks_per_picture_minus_1, 0xFFFFFFFF, NUM_TICKS_PER_PICTURE_MINUS_1, 33);
  HEADER(decoder_model_info.buffer_delay_length_minus_1, 32, BUFFER_DELAY_LENGTH_MINUS_1, 6);
  HEADER(decoder_model_info.buffer_delay_length_minus_1, 300, BUFFER_DELAY_LENGTH_MINUS_1, 9);
  HEADER(operating_points[0].idc, 4096, OPERATING_POINT_IDC, 13);
  HEADER(operating_points[0].seq_level_idx, 0xFFFFFFFF, SEQ_LEVEL_IDX, 32);
  HEADER(frame_width_bits_minus_1, 16, FRAME_WIDTH_BITS_MINUS_1, 5);
  HEADER(frame_width_bits_minus_1, 255, FRAME_WIDTH_BITS_MINUS_1, 8);
  HEADER(frame_width_bits_minus_1, 300, FRAME_WIDTH_BITS_MINUS_1, 9);
  HEADER(frame_width_bits_minus_1, 0xFFFFFFFF, FRAME_WIDTH_BITS_MINUS_1, 32);
  HEADER(frame_height_bits_minus_1, 256, FRAME_HEIGHT_BITS_MINUS_1, 9);
  HEADER(order_hint_bits_minus_1, 8, ORDER_HINT_BITS_MINUS_1, 4);
  HEADER(order_hint_bits_minus_1, 65536, ORDER_HINT_BITS_MINUS_1, 17);
}

static void deltas(void) {
  struct friscurella_quantization_params quantization_params;
  struct friscurella_loop_filter_params loop_filter_params;
  memset(&quantization_params, 0, sizeof quantization_params);
  memset(&loop_filter_params, 0, sizeof loop_filter_params);
  quantization_params.context.planes = loop_filter_params.context.planes = 3;
  loop_filter_params.loop_filter_delta_enabled = loop_filter_params.loop_filter_delta_update = 1;
  PART(quantization_params, base_q_idx, 256, BASE_Q_IDX, 0, 9);
  PART(quantization_params, base_q_idx, 511, BASE_Q_IDX, 0, 9);
  PART(quantization_params, base_q_idx, 512, BASE_Q_IDX, 0, 10);
  PART(quantization_params, base_q_idx, -1, BASE_Q_IDX, 0, 32);
  PART(quantization_params, delta_q_y_dc, 64, DELTA_Q_Y_DC, 0, 8);
  PART(quantization_params, delta_q_y_dc, 127, DELTA_Q_Y_DC, 0, 8);
  PART(quantization_params, delta_q_y_dc, -65, DELTA_Q_Y_DC, 0, 8);
  PART(quantization_params, delta_q_y_dc, -128, DELTA_Q_Y_DC, 0, 8);
  PART(quantization_params, delta_q_y_dc, -129, DELTA_Q_Y_DC, 0, 9);
  PART(quantization_params, delta_q_y_dc, 300, DELTA_Q_Y_DC, 0, 10);
  PART(quantization_params, delta_q_y_dc, INT32_MAX, DELTA_Q_Y_DC, 0, 32);
  PART(quantization_params, delta_q_y_dc, INT32_MIN, DELTA_Q_Y_DC, 0, 32);
  PART(quantization_params, delta_q_u_dc, 300, DELTA_Q_U_DC, 0, 10);
  PART(quantization_params, delta_q_u_ac, -300, DELTA_Q_U_AC, 0, 10);
  PART(loop_filter_params, loop_filter_level[1], 64, LOOP_FILTER_LEVEL, 1, 7);
  PART(loop_filter_params, loop_filter_ref_deltas[5], 64, LOOP_FILTER_REF_DELTAS, 5, 8);
  PART(loop_filter_params, loop_filter_ref_deltas[7], 300, LOOP_FILTER_REF_DELTAS, 7, 10);
  PART(loop_filter_params, loop_filter_mode_deltas[1], -300, LOOP_FILTER_MODE_DELTAS, 1, 10);
}

static void no_width(void) {
  struct friscurella_cdef_params cdef_params;
  struct friscurella_lr_params lr_params;
  memset(&cdef_params, 0, sizeof cdef_params);
  memset(&lr_params, 0, sizeof lr_params);
  cdef_params.context.enable_cdef = cdef_params.context.planes = 1;
  cdef_params.cdef_damping = 3;
  lr_params.context.enable_restoration = lr_params.context.planes = 1;
  lr_params.frame_restoration_type[0] = lr_params.uses_lr = 1;
  PART(cdef_params, cdef_damping, 2, CDEF_DAMPING, 0, 0);
  PART(cdef_params, cdef_damping, 7, CDEF_DAMPING, 0, 0);
  PART(cdef_params, cdef_y_pri_strength[0], 16, CDEF_Y_PRI_STRENGTH, 0, 5);
  PART(cdef_params, cdef_y_sec_strength[0], 5, CDEF_Y_SEC_STRENGTH, 0, 0);
  PART(lr_params, lr_unit_shift, 3, LR_UNIT_SHIFT, 0, 0);
  lr_params.context.use_128x128_superblock = 1;
  PART(lr_params, lr_unit_shift, 3, LR_UNIT_SHIFT, 0, 0);
}

int main(void) {
  headers();
  deltas();
  no_width();
  if (failures == 0) printf("widths: every refusal says the least width\n");
  return failures != 0;
}
