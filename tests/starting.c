/* What a new program calls first: the version agrees, the starter record is accepted for the sizes
   and depths that it is for and refused for others, the default deltas are accepted and no others,
   and a sentence is cut as snprintf cuts. */
#include <stdio.h>
#include <string.h>

#include "friscurella.h"

enum { PATTERN = 0x5A, ROOM = 400 };

static int failures;

static void check(bool good, const char *claim, uint32_t a, uint32_t b, uint32_t c) {
  if (good) return;
  printf("%s: not so of %u, %u, %u\n", claim, (unsigned)a, (unsigned)b, (unsigned)c);
  failures++;
}

/* Whether the starter record is written. */
static bool accepted(uint32_t width, uint32_t height, uint32_t depth) {
  struct friscurella_sequence_header header, back;
  struct friscurella_answer answer;
  uint8_t out[64];
  friscurella_video(width, height, depth, &header);
  friscurella_write_sequence_header(&header, out, sizeof out, &answer);
  if (answer.number != FRISCURELLA_DONE) return false;

  friscurella_read_sequence_header(out, answer.first, &back, &answer);
  bool same = answer.number == FRISCURELLA_DONE && memcmp(&header, &back, sizeof header) == 0;
  check(same, "what is read is what was written", width, height, depth);
  bool wide = back.max_frame_width_minus_1 + 1 == width;
  bool high = back.max_frame_height_minus_1 + 1 == height;
  check(wide && high, "the size is the one asked for", width, height, depth);
  const struct friscurella_color_config *color = &back.color_config;
  bool depths = 8 + 2 * color->high_bitdepth + 2 * color->twelve_bit == depth;
  check(depths, "the depth is the one asked for", width, height, depth);
  bool three = !color->mono_chrome && color->num_planes == 3;
  bool sampled = three && color->subsampling_x && color->subsampling_y;
  check(sampled, "the video is 4:2:0", width, height, depth);
  check(back.operating_points[0].seq_level_idx == 31, "the level is 31", width, height, depth);
  return true;
}

/* Each power of two up to 65536, with its neighbours, where they are in the range. */
static size_t sizes(uint32_t *list) {
  size_t count = 0;
  for (uint32_t power = 1; power <= 65536; power *= 2)
    for (uint32_t size = power - 1; size <= power + 1; size++)
      if (1 <= size && size <= 65536) list[count++] = size;
  return count;
}

static void video(void) {
  static const uint32_t depths[] = {8, 10, 12};
  static const uint32_t no_sizes[] = {0, 65537, 65538, 131072, 0x80000000, 0x80000001, 0xFFFFFFFF};
  static const uint32_t no_depths[] = {0, 1, 7, 9, 11, 13, 14, 16, 264, 0xFFFFFFFF};
  uint32_t list[64];
  size_t count = sizes(list);
  for (size_t i = 0; i < count; i++)
    for (size_t j = 0; j < count; j++)
      for (size_t k = 0; k < sizeof depths / sizeof *depths; k++)
        check(accepted(list[i], list[j], depths[k]), "accepted", list[i], list[j], depths[k]);
  for (size_t i = 0; i < sizeof no_sizes / sizeof *no_sizes; i++) {
    check(!accepted(no_sizes[i], 1, 8), "refused", no_sizes[i], 1, 8);
    check(!accepted(1, no_sizes[i], 10), "refused", 1, no_sizes[i], 10);
  }
  for (size_t k = 0; k < sizeof no_depths / sizeof *no_depths; k++)
    check(!accepted(1920, 1080, no_depths[k]), "refused", 1920, 1080, no_depths[k]);
}

/* Whether these reference deltas are taken where nothing is coded; if not, they are to blame. */
static bool taken(const int32_t *deltas) {
  struct friscurella_loop_filter_params params;
  struct friscurella_answer answer;
  uint8_t out[1] = {PATTERN};
  memset(&params, 0, sizeof params);
  params.context.coded_lossless = 1;
  memcpy(params.loop_filter_ref_deltas, deltas, sizeof params.loop_filter_ref_deltas);
  uint32_t number = friscurella_write_loop_filter_params(&params, 5, out, sizeof out, &answer);
  if (number == FRISCURELLA_DONE) return answer.first == 5 && out[0] == PATTERN;
  bool named = answer.first == FRISCURELLA_ELEMENT_LOOP_FILTER_REF_DELTAS && answer.second == 0;
  bool refused = number == FRISCURELLA_INCONSISTENT && named && out[0] == PATTERN;
  check(refused, "refused under loop_filter_ref_deltas", number, answer.first, answer.second);
  return false;
}

static void defaults(void) {
  static const int32_t standard[8] = FRISCURELLA_DEFAULT_REF_DELTAS;
  int32_t deltas[8];
  check(taken(standard), "the default deltas are taken", 0, 0, 0);
  for (uint32_t i = 0; i < 8; i++) {
    memcpy(deltas, standard, sizeof deltas);
    deltas[i]--;
    check(!taken(deltas), "another delta is refused", i, 0, 0);
  }
  memcpy(deltas, standard, sizeof deltas);
  deltas[4] = standard[5];
  deltas[5] = standard[4];
  check(!taken(deltas), "exchanged deltas are refused", 4, 5, 0);
}

/* Whether `text` holds as much of a sentence as goes into `size` bytes, then the pattern. */
static bool cut(const char *text, const char *whole, size_t length, size_t size) {
  size_t kept = size == 0 ? 0 : length < size ? length : size - 1;
  if (memcmp(text, whole, kept) != 0 || (size != 0 && text[kept] != 0)) return false;
  for (size_t i = size == 0 ? 0 : kept + 1; i < ROOM; i++)
    if (text[i] != PATTERN) return false;
  return true;
}

static void explain(uint32_t number, uint32_t first, uint32_t second, uint32_t third) {
  struct friscurella_answer answer = {number, first, second, third};
  char whole[ROOM], text[ROOM];
  uint32_t length = friscurella_explain(&answer, whole, sizeof whole);
  bool fits = 0 < length && length < ROOM && strlen(whole) == length;
  check(fits, "a sentence", number, first, second);
  for (size_t size = 0; size <= length + 2; size++) {
    memset(text, PATTERN, sizeof text);
    uint32_t told = friscurella_explain(&answer, text, size);
    check(told == length && cut(text, whole, length, size), "cut", number, first, (uint32_t)size);
  }
}

static void sentences(void) {
  for (uint32_t element = 0; element <= FRISCURELLA_ELEMENT_LR_UV_SHIFT + 1; element++) {
    explain(FRISCURELLA_INCONSISTENT, element, 0, 0);
    explain(FRISCURELLA_UNFIT, element, 0xFFFFFFFF, 0xFFFFFFFF);
  }
  static const uint32_t needed[] = {0, 1, 9, 10, 65536, 0xFFFFFFFF};
  for (size_t i = 0; i < sizeof needed / sizeof *needed; i++) {
    explain(FRISCURELLA_SHORT, needed[i], 0, 0);
    explain(FRISCURELLA_DONE, needed[i], 0, 0);
    explain(FRISCURELLA_INCONSISTENT, FRISCURELLA_ELEMENT_SEQ_TIER, needed[i], 0);
    explain(FRISCURELLA_UNFIT, FRISCURELLA_ELEMENT_SEQ_TIER, 3, needed[i]);
  }
  for (uint32_t number = FRISCURELLA_ENDS; number <= FRISCURELLA_LONG + 1; number++)
    explain(number, 0, 0, 0);
  explain(0xFFFFFFFF, 0xFFFFFFFF, 0xFFFFFFFF, 0xFFFFFFFF);
}

int main(void) {
  check(friscurella_version() == FRISCURELLA_VERSION, "the version", friscurella_version(), 0, 0);
  video();
  defaults();
  sentences();
  if (failures == 0) printf("starting: version, starter record, defaults, sentences: as promised\n");
  return failures != 0;
}
