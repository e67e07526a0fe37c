// A layered stream by libaom, which aomenc has no options for: layers SPATIAL TEMPORAL IN.y4m OUT.ivf
// cc layers.c -laom. The clip is 8-bit 4:2:0. One IVF packet holds the layers of one picture.
#include <aom/aom_encoder.h>
#include <aom/aomcx.h>
#include <stdio.h>
#include <stdlib.h>
#include <string.h>

enum { PICTURES = 8 };

static void check(aom_codec_err_t answer, const char *step) {
  if (answer != AOM_CODEC_OK) {
    fprintf(stderr, "layers: %s: %s\n", step, aom_codec_err_to_string(answer));
    exit(1);
  }
}

static void put(uint8_t *at, uint32_t value, int bytes) {
  for (int i = 0; i < bytes; i++) at[i] = value >> 8 * i;
}

static void write_header(FILE *out, int width, int height) {
  uint8_t header[32] = "DKIF";
  put(header + 6, 32, 2);
  memcpy(header + 8, "AV01", 4);
  put(header + 12, width, 2);
  put(header + 14, height, 2);
  put(header + 16, 25, 4);
  put(header + 20, 1, 4);
  put(header + 24, PICTURES, 4);
  fwrite(header, 1, sizeof header, out);
}

static void start(aom_codec_ctx_t *codec, int width, int height, int spatial, int temporal) {
  aom_codec_enc_cfg_t cfg;
  check(aom_codec_enc_config_default(aom_codec_av1_cx(), &cfg, AOM_USAGE_REALTIME), "configuration");
  cfg.g_w = width;
  cfg.g_h = height;
  cfg.g_timebase = (aom_rational_t){ 1, 25 };
  cfg.g_lag_in_frames = 0;
  cfg.rc_end_usage = AOM_CBR;
  cfg.rc_target_bitrate = 300;
  check(aom_codec_enc_init(codec, aom_codec_av1_cx(), &cfg, 0), "start");
  check(aom_codec_control(codec, AOME_SET_CPUUSED, 8), "speed");
  check(aom_codec_control(codec, AV1E_SET_AQ_MODE, 3), "cyclic refresh");
  aom_svc_params_t svc = { .number_spatial_layers = spatial, .number_temporal_layers = temporal };
  for (int i = 0; i < AOM_MAX_LAYERS; i++) {
    svc.max_quantizers[i] = 60;
    svc.min_quantizers[i] = 2;
    svc.layer_target_bitrate[i] = 100 * (1 + i % temporal);
  }
  for (int i = 0; i < spatial; i++) {
    svc.scaling_factor_num[i] = 1;
    svc.scaling_factor_den[i] = 1 << (spatial - 1 - i);
  }
  for (int i = 0; i < temporal; i++) svc.framerate_factor[i] = 1 << (temporal - 1 - i);
  check(aom_codec_control(codec, AV1E_SET_SVC_PARAMS, &svc), "layers");
}

// The temporal layer of a picture: 0 1 0 1 .. or 0 2 1 2 ..
static int temporal_layer(int picture, int temporal) {
  if (temporal == 1) return 0;
  if (temporal == 2) return picture % 2;
  return picture % 2 ? 2 : picture % 4 / 2;
}

static size_t encode(aom_codec_ctx_t *codec, aom_image_t *image, int picture, int spatial, int temporal, uint8_t *packet) {
  size_t size = 0;
  for (int s = 0; s < spatial; s++) {
    aom_svc_layer_id_t id = { s, temporal_layer(picture, temporal) };
    check(aom_codec_control(codec, AV1E_SET_SVC_LAYER_ID, &id), "layer");
    check(aom_codec_encode(codec, image, picture, 1, 0), "encode");
    aom_codec_iter_t iter = NULL;
    for (const aom_codec_cx_pkt_t *got; (got = aom_codec_get_cx_data(codec, &iter));) {
      if (got->kind != AOM_CODEC_CX_FRAME_PKT) continue;
      memcpy(packet + size, got->data.frame.buf, got->data.frame.sz);
      size += got->data.frame.sz;
    }
  }
  return size;
}

int main(int argc, char **argv) {
  if (argc != 5) return 2;
  int spatial = atoi(argv[1]), temporal = atoi(argv[2]), width, height;
  FILE *in = fopen(argv[3], "rb"), *out = fopen(argv[4], "wb");
  if (!in || !out || fscanf(in, "YUV4MPEG2 W%d H%d%*[^\n]", &width, &height) != 2) return 2;
  size_t room = (size_t)width * height * 3 / 2;
  uint8_t *pixels = malloc(room), *packet = malloc(16 * room);
  aom_codec_ctx_t codec;
  aom_image_t image;
  start(&codec, width, height, spatial, temporal);
  write_header(out, width, height);
  for (int i = 0; i < PICTURES; i++) {
    if (fscanf(in, " FRAME%*[^\n]") == EOF) return 2;
    fgetc(in);
    if (fread(pixels, 1, room, in) != room) return 2;
    aom_img_wrap(&image, AOM_IMG_FMT_I420, width, height, 1, pixels);
    size_t size = encode(&codec, &image, i, spatial, temporal, packet);
    uint8_t header[12] = { 0 };
    put(header, size, 4);
    put(header + 4, i, 4);
    fwrite(header, 1, sizeof header, out);
    fwrite(packet, 1, size, out);
  }
  return fclose(out) != 0;
}
