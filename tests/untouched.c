/* What is lent to a call is as it was where the call refuses: records and buffers hold a pattern,
   and each number of a refusal is met. The number is returned, and stands in the answer. */
#include <stdio.h>
#include <string.h>

#include "friscurella.h"

enum { PATTERN = 0xA5, ROOM = FRISCURELLA_SLICE_LIMIT + 1 };

static int failures;
static uint8_t buffer[ROOM];

/* Whether all of some memory still holds the pattern. */
static bool intact(const void *memory, size_t size) {
  const uint8_t *bytes = (const uint8_t *)memory;
  for (size_t i = 0; i < size; i++)
    if (bytes[i] != PATTERN) return false;
  return true;
}

/* Whether a call answered `number`, with no more values than it carries, and kept what was lent. */
static void judge(const char *call, uint32_t returned, const struct friscurella_answer *answer,
                  uint32_t number, bool kept) {
  const struct friscurella_answer *a = answer;
  bool told = a->third == 0 || number == FRISCURELLA_UNFIT; /* widths.c has that one */
  bool bare = (a->first == 0 && a->second == 0) || number < FRISCURELLA_ENDS;
  if (returned == number && a->number == number && told && bare && kept) return;
  printf("%s: returned %u, answered %u %u %u %u, where %u is expected\n", call,
         (unsigned)returned, (unsigned)a->number, (unsigned)a->first, (unsigned)a->second,
         (unsigned)a->third, (unsigned)number);
  if (!kept) printf("%s: what was lent has changed\n", call);
  failures++;
}

static void reads(const uint8_t *input, size_t length, uint32_t number) {
  struct friscurella_sequence_header record;
  struct friscurella_answer answer;
  memset(&record, PATTERN, sizeof record);
  memset(&answer, PATTERN, sizeof answer);
  uint32_t returned = friscurella_read_sequence_header(input, length, &record, &answer);
  judge("read_sequence_header", returned, &answer, number, intact(&record, sizeof record));
}

/* Bad bytes of every number that the reader refuses with, around the smallest header:
   0A 04 18 00 00 11. */
static void reader(void) {
  static const uint8_t longer[ROOM] = {0x0A};
  static const uint8_t type[] = {0x12, 0x00}, profile[] = {0x0A, 0x04, 0x78, 0x00, 0x00, 0x11};
  static const uint8_t cut[] = {0x0A, 0x02, 0x18, 0x00};
  static const uint8_t forbidden[] = {0x8A, 0x04, 0x18, 0x00, 0x00, 0x11};
  static const uint8_t size[] = {0x0A, 0x05, 0x18, 0x00, 0x00, 0x11};
  static const uint8_t tail[] = {0x0A, 0x04, 0x18, 0x00, 0x00, 0x10};
  reads(type, sizeof type, FRISCURELLA_INCONSISTENT);
  reads(profile, sizeof profile, FRISCURELLA_INCONSISTENT);
  reads(cut, 0, FRISCURELLA_ENDS);
  reads(cut, sizeof cut, FRISCURELLA_ENDS);
  reads(forbidden, sizeof forbidden, FRISCURELLA_RESERVED);
  reads(size, sizeof size, FRISCURELLA_SIZE);
  reads(tail, sizeof tail, FRISCURELLA_TRAILING);
  reads(longer, sizeof longer, FRISCURELLA_LONG);
}

/* A call of each reader of a part, which has to refuse. The context is given, and the rest of the
   record holds the pattern. */
#define PART_READER(part, previous) \
  static void read_##part(const void *context, const uint8_t *input, size_t length, \
                          uint32_t place, uint32_t number) { \
    struct friscurella_##part##_params record, before; \
    struct friscurella_answer answer; \
    memset(&record, PATTERN, sizeof record); \
    memset(&answer, PATTERN, sizeof answer); \
    memcpy(&record.context, context, sizeof record.context); \
    before = record; \
    uint32_t returned = \
        friscurella_read_##part##_params(input, length, place previous, &record, &answer); \
    bool kept = memcmp(&record, &before, sizeof record) == 0; \
    judge("read_" #part "_params", returned, &answer, number, kept); \
  }
#define COMMA_PREVIOUS , &previous
static const struct friscurella_loop_filter_deltas previous = {{1, 2, 3, 4, 5, 6, 7, 8}, {9, 10}};
PART_READER(quantization, )
PART_READER(segmentation, )
PART_READER(loop_filter, COMMA_PREVIOUS)
PART_READER(cdef, )
PART_READER(lr, )

/* For a reader numbers 4 and 8. Set bits alone make the longest part: it needs so many of them, and
   every count below runs out. Also a place beyond the end, and a slice too long, which comes
   first. */
static void refuses(void (*read)(const void *, const uint8_t *, size_t, uint32_t, uint32_t),
                    const void *context, uint32_t needed) {
  uint8_t ones[49];
  memset(ones, 0xFF, sizeof ones);
  for (uint32_t bits = 0; bits < needed; bits++)
    read(context, ones, sizeof ones, 8 * sizeof ones - bits, FRISCURELLA_ENDS);
  for (uint32_t beyond = 1; beyond != 0; beyond *= 2) {
    read(context, ones, 0, beyond, FRISCURELLA_ENDS);
    read(context, ones, sizeof ones, 8 * sizeof ones + beyond, FRISCURELLA_ENDS);
  }
  read(context, ones, sizeof ones, UINT32_MAX, FRISCURELLA_ENDS);
  read(context, buffer, ROOM, 0, FRISCURELLA_LONG);
  read(context, buffer, ROOM, UINT32_MAX, FRISCURELLA_LONG);
}

static void part_readers(void) {
  static const struct friscurella_quantization_context quantization = {3, 1};
  static const struct friscurella_segmentation_context segmentation = {0};
  static const struct friscurella_loop_filter_context filter = {0, 0, 3}, no_filter = {1, 0, 3};
  static const struct friscurella_cdef_context cdef = {0, 0, 1, 3}, no_cdef = {0, 0, 0, 3};
  static const struct friscurella_lr_context lr = {0, 0, 1, 3, 0, 1, 1};
  static const struct friscurella_lr_context no_lr = {0, 1, 1, 3, 0, 1, 1};
  refuses(read_quantization, &quantization, 62);
  refuses(read_segmentation, &segmentation, 388);
  refuses(read_loop_filter, &filter, 109);
  refuses(read_cdef, &cdef, 100);
  refuses(read_lr, &lr, 9);
  refuses(read_loop_filter, &no_filter, 0); /* nothing is coded: the place alone is refused */
  refuses(read_cdef, &no_cdef, 0);
  refuses(read_lr, &no_lr, 0);
}

/* A call of each writer into the first `length` bytes of the buffer, which has to refuse. */
#define OBU(name, type) \
  static void name(const struct friscurella_##type *record, size_t length, uint32_t number) { \
    struct friscurella_answer answer; \
    memset(&answer, PATTERN, sizeof answer); \
    uint32_t returned = friscurella_write_##name(record, buffer, length, &answer); \
    judge(#name, returned, &answer, number, intact(buffer, sizeof buffer)); \
  }
#define PART(name) \
  static void name(const struct friscurella_##name *record, size_t length, uint32_t number) { \
    struct friscurella_answer answer; \
    memset(&answer, PATTERN, sizeof answer); \
    uint32_t returned = friscurella_write_##name(record, 3, buffer, length, &answer); \
    judge(#name, returned, &answer, number, intact(buffer, sizeof buffer)); \
  }
OBU(sequence_header, sequence_header)
OBU(temporal_delimiter, obu_header)
PART(quantization_params)
PART(segmentation_params)
PART(loop_filter_params)
PART(cdef_params)
PART(lr_params)

/* For each writer numbers 1, 2, 3 and 8: a bad element, an unfit one, no room, a slice too long. */
static void sequences(void) {
  struct friscurella_sequence_header good, bad;
  friscurella_video(1920, 1080, 8, &good);
  bad = good;
  bad.obu_header.obu_type = FRISCURELLA_OBU_TEMPORAL_DELIMITER;
  sequence_header(&bad, 64, FRISCURELLA_INCONSISTENT);
  bad = good;
  bad.operating_points[0].seq_level_idx = 32;
  sequence_header(&bad, 64, FRISCURELLA_UNFIT);
  sequence_header(&good, 4, FRISCURELLA_SHORT);
  sequence_header(&good, ROOM, FRISCURELLA_LONG);
}

static void delimiters(void) {
  struct friscurella_obu_header good, bad;
  memset(&good, 0, sizeof good);
  good.obu_type = FRISCURELLA_OBU_TEMPORAL_DELIMITER;
  good.extension_flag = 1;
  bad = good;
  bad.obu_type = FRISCURELLA_OBU_SEQUENCE_HEADER;
  temporal_delimiter(&bad, 64, FRISCURELLA_INCONSISTENT);
  bad = good;
  bad.temporal_id = 8;
  temporal_delimiter(&bad, 64, FRISCURELLA_UNFIT);
  temporal_delimiter(&good, 1, FRISCURELLA_SHORT);
  temporal_delimiter(&good, ROOM, FRISCURELLA_LONG);
}

static void quantization(void) {
  struct friscurella_quantization_params good, bad;
  memset(&good, 0, sizeof good);
  good.context.planes = 1;
  bad = good;
  bad.delta_q_u_dc = 1;
  quantization_params(&bad, 64, FRISCURELLA_INCONSISTENT);
  bad = good;
  bad.delta_q_y_dc = 64;
  quantization_params(&bad, 64, FRISCURELLA_UNFIT);
  quantization_params(&good, 0, FRISCURELLA_SHORT);
  quantization_params(&good, ROOM, FRISCURELLA_LONG);
}

static void segmentation(void) { /* segment values are clipped: none is unfit */
  struct friscurella_segmentation_params good, bad;
  memset(&good, 0, sizeof good);
  good.context.primary_ref_frame = FRISCURELLA_PRIMARY_REF_NONE;
  good.segmentation_enabled = good.segmentation_update_map = good.segmentation_update_data = 1;
  bad = good;
  bad.segmentation_update_map = 0;
  segmentation_params(&bad, 64, FRISCURELLA_INCONSISTENT);
  segmentation_params(&good, 0, FRISCURELLA_SHORT);
  segmentation_params(&good, ROOM, FRISCURELLA_LONG);
}

static void loop_filter(void) {
  struct friscurella_loop_filter_params good, bad;
  memset(&good, 0, sizeof good);
  good.context.planes = 1;
  bad = good;
  bad.context.coded_lossless = 1; /* the deltas are not the inferred ones */
  loop_filter_params(&bad, 64, FRISCURELLA_INCONSISTENT);
  bad = good;
  bad.loop_filter_sharpness = 8;
  loop_filter_params(&bad, 64, FRISCURELLA_UNFIT);
  loop_filter_params(&good, 0, FRISCURELLA_SHORT);
  loop_filter_params(&good, ROOM, FRISCURELLA_LONG);
}

static void cdef(void) {
  struct friscurella_cdef_params good, bad;
  memset(&good, 0, sizeof good);
  good.context.enable_cdef = good.context.planes = 1;
  good.cdef_damping = 3;
  bad = good;
  bad.cdef_y_sec_strength[0] = 3;
  cdef_params(&bad, 64, FRISCURELLA_INCONSISTENT);
  bad = good;
  bad.cdef_damping = 2;
  cdef_params(&bad, 64, FRISCURELLA_UNFIT);
  cdef_params(&good, 0, FRISCURELLA_SHORT);
  cdef_params(&good, ROOM, FRISCURELLA_LONG);
}

static void restoration(void) {
  struct friscurella_lr_params good, bad;
  memset(&good, 0, sizeof good);
  good.context.enable_restoration = good.context.planes = 1;
  bad = good;
  bad.uses_lr = 1;
  lr_params(&bad, 64, FRISCURELLA_INCONSISTENT);
  bad = good;
  bad.frame_restoration_type[0] = 4;
  lr_params(&bad, 64, FRISCURELLA_UNFIT);
  lr_params(&good, 0, FRISCURELLA_SHORT);
  lr_params(&good, ROOM, FRISCURELLA_LONG);
}

int main(void) {
  memset(buffer, PATTERN, sizeof buffer);
  reader();
  part_readers();
  sequences();
  delimiters();
  quantization();
  segmentation();
  loop_filter();
  cdef();
  restoration();
  if (failures == 0) printf("untouched: every refusal leaves what was lent as it was\n");
  return failures != 0;
}
