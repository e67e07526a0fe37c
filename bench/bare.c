/* dav1d's own parser of a sequence header with nothing around it: OBU header and size as dav1d_parse_obus reads them, parse_seq_hdr, the test for an overrun.
   (parse_seq_hdr is static: dav1d's file is included, from the source that measure.sh fetches.) */
#include "src/obu.c"

int bare_sequence(void *context, const uint8_t *data, size_t size, Dav1dSequenceHeader *header) {
  Dav1dContext *c = context;
  GetBits gb;
  dav1d_init_get_bits(&gb, data, size);
  dav1d_get_bits(&gb, 1);
  const enum Dav1dObuType type = dav1d_get_bits(&gb, 4);
  const int has_extension = dav1d_get_bits(&gb, 1);
  const int has_length_field = dav1d_get_bits(&gb, 1);
  dav1d_get_bits(&gb, 1);
  if (has_extension) {
    dav1d_get_bits(&gb, 3);
    dav1d_get_bits(&gb, 2);
    dav1d_get_bits(&gb, 3);
  }
  const unsigned length = has_length_field ? dav1d_get_uleb128(&gb) : (unsigned)size - 1 - has_extension;
  if (gb.error) return -1;
  const unsigned first_bit = dav1d_get_bits_pos(&gb);
  if (length > size - (first_bit >> 3) || type != DAV1D_OBU_SEQ_HDR) return -1;
  memset(header, 0, sizeof *header);
  if (parse_seq_hdr(c, &gb, header) < 0) return -1;
  return check_for_overrun(c, &gb, first_bit, length) ? -1 : 0;
}

void *bare_context(void) { return calloc(1, sizeof(Dav1dContext)); }

void dav1d_log(Dav1dContext *const c, const char *const format, ...) { (void)c; (void)format; }
