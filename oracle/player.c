/* Tells what dav1d's parser says of sequence header OBUs: a line of hex in, 0 or its error out.
   cc oracle/player.c -ldav1d -o target/oracle/player */
#include <dav1d/dav1d.h>
#include <stdint.h>
#include <stdio.h>
#include <string.h>

int main(void) {
  static char line[4096];
  static uint8_t obu[sizeof line / 2];
  while (fgets(line, sizeof line, stdin)) {
    size_t length = strcspn(line, "\n") / 2;
    for (size_t i = 0; i < length; i++) {
      unsigned byte;
      if (sscanf(line + 2 * i, "%2x", &byte) != 1) return 1;
      obu[i] = (uint8_t)byte;
    }
    Dav1dSequenceHeader header;
    printf("%d\n", dav1d_parse_sequence_header(&header, obu, length));
  }
  return 0;
}
