/* Prints the loop filter deltas that dav1d holds where none are coded: a line for each picture of an
   IVF file under lossless coding or intra block copy, eight of the references and two of the modes.
   cc tests/streams/deltas.c -ldav1d -o deltas */
#include <dav1d/dav1d.h>
#include <errno.h>
#include <stdint.h>
#include <stdio.h>
#include <string.h>

static void show(const Dav1dFrameHeader *frame) {
  const Dav1dLoopfilterModeRefDeltas *deltas = &frame->loopfilter.mode_ref_deltas;
  if (!frame->all_lossless && !frame->allow_intrabc) return; /* all_lossless is CodedLossless here */
  for (int i = 0; i < 8; i++) printf("%d ", deltas->ref_delta[i]);
  printf("%d %d\n", deltas->mode_delta[0], deltas->mode_delta[1]);
}

/* Shows the pictures that are ready: 0, or an error. */
static int pictures(Dav1dContext *decoder) {
  for (;;) {
    Dav1dPicture picture;
    memset(&picture, 0, sizeof picture);
    int result = dav1d_get_picture(decoder, &picture);
    if (result < 0) return result == DAV1D_ERR(EAGAIN) ? 0 : result;
    show(picture.frame_hdr);
    dav1d_picture_unref(&picture);
  }
}

static int packet(Dav1dContext *decoder, FILE *file, size_t size) {
  Dav1dData data;
  uint8_t *bytes = dav1d_data_create(&data, size);
  if (bytes == NULL || fread(bytes, 1, size, file) != size) return -1;
  while (data.sz > 0) {
    int result = dav1d_send_data(decoder, &data);
    if (result < 0 && result != DAV1D_ERR(EAGAIN)) return result;
    if (pictures(decoder) < 0) return -1;
  }
  return 0;
}

int main(int count, char **words) {
  FILE *file = count == 2 ? fopen(words[1], "rb") : NULL;
  uint8_t head[32];
  Dav1dSettings settings;
  Dav1dContext *decoder;
  dav1d_default_settings(&settings);
  settings.n_threads = 1;
  if (file == NULL || fread(head, 1, 32, file) != 32) return 1;
  if (dav1d_open(&decoder, &settings) < 0) return 1;
  while (fread(head, 1, 12, file) == 12) { /* a packet's size, little-endian, and its time */
    size_t size = head[0] | head[1] << 8 | head[2] << 16 | (size_t)head[3] << 24;
    if (packet(decoder, file, size) < 0) return 1;
  }
  return pictures(decoder) < 0;
}
