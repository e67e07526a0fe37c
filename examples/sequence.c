/* Writes the sequence header of a 1920 by 1080 video, reads it back, does the same with a part of a
   frame header that goes by it, and shows a refusal. */
#include <stdio.h>

#include "friscurella.h"

static int refused(const struct friscurella_answer *answer) {
  char text[200];
  friscurella_explain(answer, text, sizeof text);
  printf("refused: %s\n", text);
  return 1;
}

int main(void) {
  static struct friscurella_quantization_params quantization; /* all 0 */
  struct friscurella_quantization_params part;
  struct friscurella_sequence_header header, back;
  struct friscurella_answer answer;
  uint8_t buffer[FRISCURELLA_SEQUENCE_HEADER_MAX]; /* enough for any sequence header */
  if (friscurella_version() != FRISCURELLA_VERSION) return 1;

  friscurella_video(1920, 1080, 8, &header);
  header.operating_points[0].seq_level_idx = 8; /* level 4.0 */
  friscurella_write_sequence_header(&header, buffer, sizeof buffer, &answer);
  if (answer.number != FRISCURELLA_DONE) return refused(&answer);
  size_t length = answer.first;
  printf("written:");
  for (size_t i = 0; i < length; i++) printf(" %02X", (unsigned)buffer[i]);

  friscurella_read_sequence_header(buffer, length, &back, &answer);
  if (answer.number != FRISCURELLA_DONE) return refused(&answer);
  printf("\nread: %u by %u\n", (unsigned)back.max_frame_width_minus_1 + 1,
         (unsigned)back.max_frame_height_minus_1 + 1);

  friscurella_make_quantization_context(&back, &quantization.context);
  quantization.base_q_idx = 100;
  friscurella_write_quantization_params(&quantization, 0, buffer, sizeof buffer, &answer);
  if (answer.number != FRISCURELLA_DONE) return refused(&answer);
  printf("quantization of %d planes: %u bits\n", (int)quantization.context.planes,
         (unsigned)answer.first);

  part.context = quantization.context; /* what a part goes by is given */
  friscurella_read_quantization_params(buffer, sizeof buffer, 0, &part, &answer);
  if (answer.number != FRISCURELLA_DONE) return refused(&answer);
  printf("read: base_q_idx %d, and the next part begins at bit %u\n", (int)part.base_q_idx,
         (unsigned)answer.first);

  /* The tier is coded at levels over 7 only. */
  header.operating_points[0].seq_level_idx = 7;
  header.operating_points[0].seq_tier = 1;
  friscurella_write_sequence_header(&header, buffer, sizeof buffer, &answer);
  if (answer.number == FRISCURELLA_DONE) return 1;
  refused(&answer);
  return 0;
}
