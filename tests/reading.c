/* Each part of the frame header is read from its bits: every number of the record and the end, at
   whatever place it begins and whatever stands around it. What was read is then written, and read
   again as the same. */
#include <stdio.h>
#include <string.h>

#include "friscurella.h"

enum { PATTERN = 0x5A, ROOM = 64, LIMIT = FRISCURELLA_SLICE_LIMIT };

static int failures;
static struct friscurella_loop_filter_deltas previous;

/* A part: its record, which begins with the context, and its two calls. */
struct part {
  const char *name;
  size_t size, context; /* bytes of the record, and of its context */
  uint32_t (*read)(const uint8_t *, size_t, uint32_t, void *, struct friscurella_answer *);
  uint32_t (*write)(const void *, uint32_t, uint8_t *, size_t, struct friscurella_answer *);
};

#define PART(name, previous) \
  static uint32_t read_##name(const uint8_t *input, size_t length, uint32_t place, void *record, \
                              struct friscurella_answer *answer) { \
    struct friscurella_##name##_params *params = (struct friscurella_##name##_params *)record; \
    return friscurella_read_##name##_params(input, length, place previous, params, answer); \
  } \
  static uint32_t write_##name(const void *record, uint32_t place, uint8_t *out, size_t length, \
                               struct friscurella_answer *answer) { \
    const struct friscurella_##name##_params *params = \
        (const struct friscurella_##name##_params *)record; \
    return friscurella_write_##name##_params(params, place, out, length, answer); \
  } \
  static const struct part name = {#name, sizeof(struct friscurella_##name##_params), \
                                   sizeof(struct friscurella_##name##_context), read_##name, \
                                   write_##name};
#define COMMA_PREVIOUS , &previous
PART(quantization, )
PART(segmentation, )
PART(loop_filter, COMMA_PREVIOUS)
PART(cdef, )
PART(lr, )

/* Memory for the record of any part. */
union record {
  struct friscurella_quantization_params quantization;
  struct friscurella_segmentation_params segmentation;
  struct friscurella_loop_filter_params loop_filter;
  struct friscurella_cdef_params cdef;
  struct friscurella_lr_params lr;
};

static void check(bool good, const struct part *part, const char *claim, const char *bits,
                  uint32_t place) {
  if (good) return;
  printf("%s at %u, %s: not so of %s\n", part->name, (unsigned)place, claim, bits);
  failures++;
}

/* Puts the bits of a text, which may have spaces, at a place; returns how many they are. */
static uint32_t put(const char *bits, uint8_t *out, uint32_t place) {
  uint32_t end = place;
  for (; *bits != 0; bits++) {
    if (*bits == ' ') continue;
    const uint8_t bit = (uint8_t)(0x80 >> end % 8);
    out[end / 8] = (uint8_t)(*bits == '1' ? out[end / 8] | bit : out[end / 8] & ~bit);
    end++;
  }
  return end - place;
}

/* Whether the part that stands at a place is the record `want`, and ends there. Before the call its
   numbers hold a pattern. */
static bool is_read(const struct part *part, const void *want, const uint8_t *input, size_t length,
                    uint32_t place, uint32_t end) {
  union record record;
  struct friscurella_answer answer;
  memset(&record, PATTERN, sizeof record);
  memset(&answer, PATTERN, sizeof answer);
  memcpy(&record, want, part->context);
  uint32_t number = part->read(input, length, place, &record, &answer);
  bool done = number == FRISCURELLA_DONE && answer.number == FRISCURELLA_DONE;
  bool ends = answer.first == end && answer.second == 0 && answer.third == 0;
  return done && ends && memcmp(&record, want, part->size) == 0;
}

/* The bits are read as the record, which holds its context and all numbers. */
static void reads(const struct part *part, const char *bits, const void *want) {
  static const uint8_t around[] = {0x00, 0xFF, 0x5A};
  struct friscurella_answer answer;
  union record record;
  uint8_t input[ROOM];
  for (size_t i = 0; i < sizeof around; i++)
    for (uint32_t place = 0; place < 16; place++) {
      memset(input, around[i], sizeof input);
      const uint32_t end = place + put(bits, input, place);
      const size_t length = (end + 7) / 8;
      check(is_read(part, want, input, length, place, end), part, "read", bits, place);
      check(is_read(part, want, input, ROOM, place, end), part, "read of more", bits, place);
      if (end != place) {
        memcpy(&record, want, part->size);
        part->read(input, length - 1, place, &record, &answer);
        check(answer.number == FRISCURELLA_ENDS, part, "a byte less ends", bits, place);
      }
      part->write(want, place, input, sizeof input, &answer);
      check(answer.number == FRISCURELLA_DONE, part, "written", bits, place);
      bool again = is_read(part, want, input, sizeof input, place, answer.first);
      check(again, part, "read again", bits, place);
    }
}

static void quantizations(void) {
  static const struct friscurella_quantization_params
      small = {{1, 0}, 100, -1, 0, 0, 0, 0, 0, 0, 0, 0, 0},
      full = {{3, 1}, 255, -64, 1, 63, -3, 4, -5, 1, 15, 3, 4},
      of_u = {{3, 0}, 1, 0, 0, 5, -6, 5, -6, 1, 7, 9, 9},
      same = {{-1, 2}, 1, 0, 0, 5, -6, 5, -6, 1, 7, 9, 8}, /* any flag, any planes but 1 */
      mono = {{1, 1}, 0, 0, 0, 0, 0, 0, 0, 1, 1, 2, 3},
      zero = {{3, 1}, 0, 0, 1, 0, 0, 0, 0, 0, 0, 0, 0};
  reads(&quantization, "01100100 1 1111111 0", &small);
  reads(&quantization,
        "11111111 1 1000000 1 1 0111111 1 1111101 1 0000100 1 1111011 1 1111 0011 0100", &full);
  reads(&quantization, "00000001 0 1 0000101 1 1111010 1 0111 1001", &of_u);
  reads(&quantization, "00000001 0 0 1 0000101 1 1111010 1 0111 1001 1000", &same);
  reads(&quantization, "00000000 0 1 0001 0010 0011", &mono);
  reads(&quantization, "00000000 0 1 0 0 0 0 0", &zero);
  reads(&quantization, "00000000 1 0000000 1 1 0000000 1 0000000 1 0000000 1 0000000 0", &zero);
}

/* Seven or eight segments, in which no feature is enabled. */
#define SEVEN "00000000 00000000 00000000 00000000 00000000 00000000 00000000"
#define EIGHT SEVEN " 00000000"

static void segmentations(void) {
  struct friscurella_segmentation_params want = {{7}, 0, 0, 0, 0, {{0}}, {{0}}}; /* no reference */
  reads(&segmentation, "0", &want);
  want.segmentation_enabled = want.segmentation_update_map = want.segmentation_update_data = 1;
  reads(&segmentation, "1 " EIGHT, &want);

  /* The values -256 and -64 are clipped. */
  static const int32_t enabled[8] = {1, 1, 1, 1, 0, 1, 1, 1};
  static const int32_t data[8] = {-255, -63, 63, 0, 0, 7, 0, 0};
  memcpy(want.feature_enabled[0], enabled, sizeof enabled);
  memcpy(want.feature_data[0], data, sizeof data);
  reads(&segmentation, "1 1 100000000 1 1000000 1 0111111 1 0000000 0 1 111 1 1 " SEVEN, &want);
  memset(want.feature_enabled, 0, sizeof want.feature_enabled);
  memset(want.feature_data, 0, sizeof want.feature_data);
  want.feature_enabled[7][0] = want.feature_enabled[7][4] = want.feature_enabled[7][7] = 1;
  want.feature_data[7][0] = 255;
  want.feature_data[7][4] = -1;
  reads(&segmentation, "1 " SEVEN " 1 011111111 0 0 0 1 1111111 0 0 1", &want);

  struct friscurella_segmentation_params with = {{0}, 0, 0, 0, 0, {{0}}, {{0}}};
  reads(&segmentation, "0", &with);
  with.context.primary_ref_frame = -1; /* any number but 7 is a reference */
  with.segmentation_enabled = 1;
  reads(&segmentation, "1 0 0", &with);
  with.segmentation_update_data = 1;
  reads(&segmentation, "1 0 1 " EIGHT, &with);
  with.segmentation_update_map = 1;
  reads(&segmentation, "1 1 0 1 " EIGHT, &with);
  with.segmentation_temporal_update = 1;
  with.segmentation_update_data = 0;
  reads(&segmentation, "1 1 1 0", &with);
}

static void loop_filters(void) {
  static const struct friscurella_loop_filter_deltas
      old = {{11, -12, 13, -14, 15, -16, 17, -18}, {63, -64}},
      wide = {{INT32_MAX, INT32_MIN, 64, -65, 0, 0, 0, 255}, {INT32_MIN, INT32_MAX}};
  static const struct friscurella_loop_filter_params
      small = {{0, 0, 1}, {1, 2, 0, 0}, 3, 0, 0, {11, -12, 13, -14, 15, -16, 17, -18}, {63, -64}},
      kept = {{0, 0, 3}, {0, 0, 0, 0}, 0, 1, 0, {11, -12, 13, -14, 15, -16, 17, -18}, {63, -64}},
      full = {{0, 0, 0}, {0, 63, 5, 6}, 7, 1, 1, {-64, 63, -1, 1, 2, 3, 4, 5}, {-2, 0}},
      some = {{0, 0, 3}, {1, 0, 0, 9}, 0, 1, 1, {0, -12, 13, -14, 0, -16, 17, 1}, {63, 0}},
      none = {{0, 0, 1}, {0, 0, 0, 0}, 0, 1, 1, {11, -12, 13, -14, 15, -16, 17, -18}, {63, -64}},
      lossless = {{1, 0, 3}, {0, 0, 0, 0}, 0, 0, 0, FRISCURELLA_DEFAULT_REF_DELTAS, {0, 0}},
      intrabc = {{0, -1, 1}, {0, 0, 0, 0}, 0, 0, 0, FRISCURELLA_DEFAULT_REF_DELTAS, {0, 0}},
      far = {{0, 0, 3}, {0, 0, 0, 0}, 0, 0, 0, {INT32_MAX, INT32_MIN, 64, -65, 0, 0, 0, 255},
             {INT32_MIN, INT32_MAX}};
  previous = old;
  reads(&loop_filter, "000001 000010 011 0", &small);
  reads(&loop_filter, "000000 000000 000 1 0", &kept);
  reads(&loop_filter,
        "000000 111111 000101 000110 111 1 1"
        " 1 1000000 1 0111111 1 1111111 1 0000001 1 0000010 1 0000011 1 0000100 1 0000101"
        " 1 1111110 1 0000000",
        &full);
  /* Of a clear flag the previous delta stands; a set flag and zero are 0. */
  reads(&loop_filter,
        "000001 000000 000000 001001 000 1 1"
        " 1 0000000 0 0 0 1 0000000 0 0 1 0000001 0 1 0000000",
        &some);
  reads(&loop_filter, "000000 000000 000 1 1 00000000 00", &none);
  reads(&loop_filter, "", &lossless);
  reads(&loop_filter, "", &intrabc);
  previous = wide;
  reads(&loop_filter, "000000 000000 000 0", &far);
}

static void cdefs(void) {
  static const struct friscurella_cdef_params
      small = {{0, 0, 1, 1}, 0, 3, {1}, {4}, {0}, {0}},
      two = {{0, 0, 1, 3}, 1, 5, {15, 3}, {0, 2}, {2, 4}, {1, 4}},
      mono = {{0, 0, 1, 1}, 2, 4, {1, 2, 3, 4}, {1, 2, 4, 0}, {0}, {0}},
      full = {{0, 0, 9, 2}, 3, 6, {15, 1, 2, 3, 4, 5, 6, 7}, {4, 4, 2, 1, 0, 1, 2, 4},
              {8, 9, 10, 11, 12, 13, 14, 15}, {0, 1, 2, 4, 4, 2, 1, 4}},
      off = {{0, 0, 0, 3}, 0, 3, {0}, {0}, {0}, {0}},
      lossless = {{1, 0, 1, 1}, 0, 3, {0}, {0}, {0}, {0}},
      intrabc = {{0, 1, 1, 3}, 0, 3, {0}, {0}, {0}, {0}};
  reads(&cdef, "00 00 0001 11", &small);
  reads(&cdef, "10 01 1111 00 0010 01 0011 10 0100 11", &two);
  reads(&cdef, "01 10 0001 01 0010 10 0011 11 0100 00", &mono);
  reads(&cdef,
        "11 11 1111 11 1000 00 0001 11 1001 01 0010 10 1010 10 0011 01 1011 11"
        " 0100 00 1100 11 0101 01 1101 10 0110 10 1110 01 0111 11 1111 11",
        &full);
  reads(&cdef, "", &off);
  reads(&cdef, "", &lossless);
  reads(&cdef, "", &intrabc);
}

static void restorations(void) {
  static const struct friscurella_lr_params
      none = {{0, 0, 1, 3, 0, 1, 1}, {0, 0, 0}, 0, 0, 0, 0},
      no_mono = {{0, 0, 1, 1, 1, 1, 1}, {0, 0, 0}, 0, 0, 0, 0},
      mono_0 = {{0, 0, 1, 1, 0, 1, 1}, {2, 0, 0}, 1, 0, 0, 0},
      mono_1 = {{0, 0, 1, 1, 0, 1, 1}, {1, 0, 0}, 1, 0, 1, 0},
      mono_2 = {{0, 0, 1, 1, 0, 1, 1}, {3, 0, 0}, 1, 0, 2, 0},
      full = {{0, 0, 1, 3, 0, 1, 1}, {1, 2, 3}, 1, 1, 1, 1},
      luma = {{0, 0, 1, 3, 0, 1, 1}, {1, 0, 0}, 1, 0, 2, 0},
      yuv_444 = {{0, 0, 1, 3, 0, 0, 0}, {0, 1, 0}, 1, 1, 0, 0},
      yuv_422 = {{0, 0, 1, 3, 0, 1, 0}, {0, 0, 3}, 1, 1, 2, 0},
      large_1 = {{0, 0, 1, 3, 1, 1, 1}, {0, 0, 2}, 1, 1, 1, 1},
      large_2 = {{0, 0, 5, 0, 5, 5, 5}, {0, 0, 2}, 1, 1, 2, 0},
      off = {{0, 0, 0, 3, 0, 1, 1}, {0, 0, 0}, 0, 0, 0, 0},
      lossless = {{1, 0, 1, 3, 0, 1, 1}, {0, 0, 0}, 0, 0, 0, 0},
      intrabc = {{0, 1, 1, 1, 0, 1, 1}, {0, 0, 0}, 0, 0, 0, 0};
  reads(&lr, "00 00 00", &none);
  reads(&lr, "00", &no_mono);
  reads(&lr, "10 0", &mono_0);
  reads(&lr, "01 10", &mono_1);
  reads(&lr, "11 11", &mono_2);
  reads(&lr, "01 10 11 10 1", &full);
  reads(&lr, "01 00 00 11", &luma);
  reads(&lr, "00 01 00 0", &yuv_444);
  reads(&lr, "00 00 11 11", &yuv_422);
  reads(&lr, "00 00 10 0 1", &large_1);
  reads(&lr, "00 00 10 1 0", &large_2);
  reads(&lr, "", &off);
  reads(&lr, "", &lossless);
  reads(&lr, "", &intrabc);
}

/* The last bits of the longest slice, and no bits at the end of a slice. */
static void ends(void) {
  static const struct friscurella_lr_params on = {{0, 0, 1, 1, 0, 0, 0}, {2, 0, 0}, 1, 0, 0, 0};
  static const struct friscurella_lr_params off = {{0, 0, 0, 1, 0, 0, 0}, {0, 0, 0}, 0, 0, 0, 0};
  static uint8_t input[LIMIT];
  const uint32_t last = 8 * LIMIT - put("100", input, 8 * LIMIT - 3);
  check(is_read(&lr, &on, input, LIMIT, last, 8 * LIMIT), &lr, "read", "100", last);
  for (size_t length = 0; length <= LIMIT; length = 2 * length + (length == 0)) {
    const uint32_t end = (uint32_t)(8 * length);
    check(is_read(&lr, &off, input, length, end, end), &lr, "read", "", end);
  }
}

int main(void) {
  quantizations();
  segmentations();
  loop_filters();
  cdefs();
  restorations();
  ends();
  if (failures == 0) printf("reading: every part is read as it stands\n");
  return failures != 0;
}
