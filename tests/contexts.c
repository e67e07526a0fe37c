/* The plane count of a sequence header, and the contexts that are built from it: each number is the
   record's or the frame's, whatever stood there before, and nothing behind it has changed. */
#include <stdio.h>
#include <string.h>

#include "friscurella.h"

enum { PATTERN = 0x5A };

static int failures;

static void check(bool good, const char *claim, uint32_t a, uint32_t b) {
  if (good) return;
  printf("%s: not so of %u, %u\n", claim, (unsigned)a, (unsigned)b);
  failures++;
}

/* The record of a part: its context is filled, and the rest keeps the pattern. */
union record {
  struct friscurella_quantization_params quantization;
  struct friscurella_segmentation_params segmentation;
  struct friscurella_loop_filter_params loop_filter;
  struct friscurella_cdef_params cdef;
  struct friscurella_lr_params lr;
  uint8_t bytes[4 * 133];
};

static union record fresh(void) {
  union record record;
  memset(&record, PATTERN, sizeof record);
  return record;
}

static void begins(const union record *record, const int32_t *numbers, size_t count, uint32_t a,
                   uint32_t b) {
  check(memcmp(record, numbers, 4 * count) == 0, "the context", a, b);
  for (size_t i = 4 * count; i < sizeof record->bytes; i++)
    check(record->bytes[i] == PATTERN, "nothing behind it has changed", a, (uint32_t)i);
}

/* All contexts of a header that holds this number of planes and these six flags, of a frame with
   these two. Any number but 0 sets a flag of the header. */
static void contexts(uint32_t planes, uint32_t flags, bool lossless, bool intrabc) {
  struct friscurella_sequence_header header;
  int32_t f[6];
  for (uint32_t i = 0; i < 6; i++) f[i] = flags >> i & 1;
  memset(&header, PATTERN, sizeof header);
  header.color_config.num_planes = planes;
  header.color_config.separate_uv_delta_q = f[0] ? 7 : 0;
  header.enable_cdef = f[1] ? 0x80000000 : 0;
  header.enable_restoration = f[2] ? 1 : 0;
  header.use_128x128_superblock = f[3] ? 256 : 0;
  header.color_config.subsampling_x = f[4] ? 0xFFFFFFFF : 0;
  header.color_config.subsampling_y = f[5] ? 2 : 0;

  const int32_t count = planes == 1 ? 1 : 3;
  const int32_t quantization[] = {count, f[0]};
  const int32_t loop_filter[] = {lossless, intrabc, count};
  const int32_t cdef[] = {lossless, intrabc, f[1], count};
  const int32_t lr[] = {lossless, intrabc, f[2], count, f[3], f[4], f[5]};
  union record record = fresh();
  friscurella_make_quantization_context(&header, &record.quantization.context);
  begins(&record, quantization, 2, planes, flags);
  record = fresh();
  friscurella_make_loop_filter_context(&header, lossless, intrabc, &record.loop_filter.context);
  begins(&record, loop_filter, 3, planes, flags);
  record = fresh();
  friscurella_make_cdef_context(&header, lossless, intrabc, &record.cdef.context);
  begins(&record, cdef, 4, planes, flags);
  record = fresh();
  friscurella_make_lr_context(&header, lossless, intrabc, &record.lr.context);
  begins(&record, lr, 7, planes, flags);
}

static void segmentation(int32_t primary_ref_frame) {
  union record record = fresh();
  friscurella_make_segmentation_context(primary_ref_frame, &record.segmentation.context);
  begins(&record, &primary_ref_frame, 1, (uint32_t)primary_ref_frame, 0);
}

/* Whether a video with this number of planes is written, and then read back as it was. */
static bool accepted(uint32_t mono_chrome, uint32_t planes) {
  struct friscurella_sequence_header header, back;
  struct friscurella_answer answer;
  uint8_t out[64];
  friscurella_video(1920, 1080, 8, &header);
  header.color_config.mono_chrome = mono_chrome;
  header.color_config.num_planes = planes;
  friscurella_write_sequence_header(&header, out, sizeof out, &answer);
  if (answer.number != FRISCURELLA_DONE) {
    bool named = answer.first == FRISCURELLA_ELEMENT_NUM_PLANES && answer.second == 0;
    check(answer.number == FRISCURELLA_INCONSISTENT && named, "refused", mono_chrome, planes);
    return false;
  }
  friscurella_read_sequence_header(out, answer.first, &back, &answer);
  bool same = answer.number == FRISCURELLA_DONE && memcmp(&header, &back, sizeof header) == 0;
  check(same, "what is read is what was written", mono_chrome, planes);
  return true;
}

int main(void) {
  static const uint32_t counts[] = {0, 1, 2, 3, 4, 255, 0x7FFFFFFF, 0x80000000, 0xFFFFFFFF};
  static const int32_t references[] = {0, 1, 6, 7, 8, -1, INT32_MIN, INT32_MAX};
  for (size_t i = 0; i < sizeof counts / sizeof *counts; i++) {
    check(accepted(0, counts[i]) == (counts[i] == 3), "three planes", 0, counts[i]);
    check(accepted(1, counts[i]) == (counts[i] == 1), "one plane", 1, counts[i]);
    for (uint32_t flags = 0; flags < 64; flags++)
      for (uint32_t frame = 0; frame < 4; frame++)
        contexts(counts[i], flags, frame & 1, frame >> 1);
  }
  for (size_t i = 0; i < sizeof references / sizeof *references; i++) segmentation(references[i]);
  if (failures == 0) printf("contexts: each is the record's\n");
  return failures != 0;
}
