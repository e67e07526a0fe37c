/* driver SIDE KIND CASE TIMES: one call, TIMES times. SIDE: ours, crate, bare (dav1d's parser alone), dav1d (its exported call), none (the empty loop).
   KIND: seq, quant, seg, lf, cdef, lr (writers), read (of a header or a part), pad (readers). With SHOW set, what the call gives is printed too, so that what is
   measured is also checked. */
#include <dav1d/dav1d.h>
#include <stdint.h>
#include <stdio.h>
#include <stdlib.h>
#include <string.h>

typedef int64_t (*call)(const void *record, uint8_t *out, size_t size);
int ours_pick(const char *kind, unsigned number, const void **record, call *f);
const void *crate_record(uint32_t number);
int64_t crate_seq(const void *, uint8_t *, size_t), crate_quant(const void *, uint8_t *, size_t), crate_seg(const void *, uint8_t *, size_t),
  crate_lf(const void *, uint8_t *, size_t), crate_cdef(const void *, uint8_t *, size_t), crate_lr(const void *, uint8_t *, size_t);
int bare_sequence(void *context, const uint8_t *data, size_t size, Dav1dSequenceHeader *header);
void *bare_context(void);

static uint8_t input[4096];
static size_t input_size;
static void *context;
static Dav1dSequenceHeader header;

static int64_t dav1d_call(const void *r, uint8_t *o, size_t n) { (void)r; (void)o; (void)n; return dav1d_parse_sequence_header(&header, input, input_size); }
static int64_t bare_call(const void *r, uint8_t *o, size_t n) { (void)r; (void)o; (void)n; return bare_sequence(context, input, input_size, &header); }
static int64_t no_call(const void *r, uint8_t *o, size_t n) { (void)r; (void)o; return (int64_t)n; }

static call crate_call(const char *kind) {
  static const struct { const char *kind; call f; } calls[] = {{"seq", crate_seq}, {"quant", crate_quant}, {"seg", crate_seg}, {"lf", crate_lf}, {"cdef", crate_cdef}, {"lr", crate_lr}};
  for (size_t i = 0; i < sizeof calls / sizeof *calls; i++) if (!strcmp(kind, calls[i].kind)) return calls[i].f;
  return NULL;
}

int main(int argc, char **argv) {
  if (argc != 5) return 2;
  const char *side = argv[1], *kind = argv[2];
  const unsigned number = (unsigned)atoi(argv[3]);
  const long times = atol(argv[4]);
  static uint8_t out[4096];
  const void *record = NULL;
  call f = NULL;
  if (!strcmp(side, "none")) f = no_call;
  else if (!strcmp(side, "ours")) ours_pick(kind, number, &record, &f);
  else if (!strcmp(side, "crate")) { record = crate_record(number); f = crate_call(kind); }
  else {
    input_size = (size_t)crate_seq(crate_record(number), input, sizeof input);
    context = bare_context();
    f = !strcmp(side, "dav1d") ? dav1d_call : bare_call;
  }
  if (!f) return 2;
  call volatile g = f;
  int64_t x = g(record, out, sizeof out); /* once in every run: symbols are bound, memory is allocated */
  if (getenv("SHOW")) {
    printf("%lld ", (long long)x);
    if (!strcmp(side, "dav1d") || !strcmp(side, "bare")) printf("%dx%d points %d", header.max_width, header.max_height, header.num_operating_points);
    else for (int64_t i = 0; i < x && i < 400; i++) printf("%02X", out[i]);
    printf("\n");
  }
  for (long i = 0; i < times; i++) x += g(record, out, sizeof out);
  return x == -12345;
}
