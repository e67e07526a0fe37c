/* Counts guest instructions executed, every one, no sampling. qemu plugin API 1 (Debian 12's qemu-user 7.2); the few declarations are written out, so no header is needed.
   Prints "icount TOTAL rep ITERATIONS": a rep movs/stos counts once per iteration (callgrind does the same), and those are also given apart.
   With -plugin icount.so,sym=on: also instructions per symbol of the main program (a Rattle function has its path as its name: sequence::write::sequence_header_obu). */
#include <stdbool.h>
#include <stdint.h>
#include <stdio.h>
#include <stddef.h>
#include <string.h>
typedef uint64_t qemu_plugin_id_t;
struct qemu_plugin_tb; struct qemu_plugin_insn; struct qemu_info_t;
enum qemu_plugin_op { QEMU_PLUGIN_INLINE_ADD_U64 };
size_t qemu_plugin_tb_n_insns(const struct qemu_plugin_tb *);
struct qemu_plugin_insn *qemu_plugin_tb_get_insn(const struct qemu_plugin_tb *, size_t);
const void *qemu_plugin_insn_data(const struct qemu_plugin_insn *);
size_t qemu_plugin_insn_size(const struct qemu_plugin_insn *);
const char *qemu_plugin_insn_symbol(const struct qemu_plugin_insn *);
void qemu_plugin_register_vcpu_tb_trans_cb(qemu_plugin_id_t, void (*)(qemu_plugin_id_t, struct qemu_plugin_tb *));
void qemu_plugin_register_vcpu_insn_exec_inline(struct qemu_plugin_insn *, enum qemu_plugin_op, void *, uint64_t);
void qemu_plugin_register_atexit_cb(qemu_plugin_id_t, void (*)(qemu_plugin_id_t, void *), void *);
#define PUBLIC __attribute__((visibility("default")))
PUBLIC int qemu_plugin_version = 1;
static uint64_t count, reps;
static bool by_symbol;
static struct { char name[96]; uint64_t n; } syms[8192];
static size_t nsyms;
static uint64_t *slot(const char *s) {
  if (!s || !*s) s = "?";
  for (size_t i = 0; i < nsyms; i++) if (!strncmp(syms[i].name, s, 95)) return &syms[i].n;
  if (nsyms == 8192) return &syms[0].n;
  strncpy(syms[nsyms].name, s, 95);
  return &syms[nsyms++].n;
}
static bool is_rep(const uint8_t *p, size_t n) {
  if (n < 2 || (p[0] != 0xF3 && p[0] != 0xF2)) return false;
  uint8_t o = p[n - 1];
  return (n == 2 || (n == 3 && (p[1] & 0xF0) == 0x40)) && ((o >= 0xA4 && o <= 0xA7) || (o >= 0xAA && o <= 0xAF));
}
static void trans(qemu_plugin_id_t id, struct qemu_plugin_tb *tb) {
  (void)id;
  size_t n = qemu_plugin_tb_n_insns(tb);
  for (size_t i = 0; i < n; i++) {
    struct qemu_plugin_insn *in = qemu_plugin_tb_get_insn(tb, i);
    qemu_plugin_register_vcpu_insn_exec_inline(in, QEMU_PLUGIN_INLINE_ADD_U64, &count, 1);
    if (is_rep(qemu_plugin_insn_data(in), qemu_plugin_insn_size(in))) qemu_plugin_register_vcpu_insn_exec_inline(in, QEMU_PLUGIN_INLINE_ADD_U64, &reps, 1);
    if (by_symbol) qemu_plugin_register_vcpu_insn_exec_inline(in, QEMU_PLUGIN_INLINE_ADD_U64, slot(qemu_plugin_insn_symbol(in)), 1);
  }
}
static void out(qemu_plugin_id_t id, void *p) {
  (void)id; (void)p;
  fprintf(stderr, "icount %llu rep %llu\n", (unsigned long long)count, (unsigned long long)reps);
  for (size_t i = 0; i < nsyms; i++) if (syms[i].n) fprintf(stderr, "symbol %llu %s\n", (unsigned long long)syms[i].n, syms[i].name);
}
PUBLIC int qemu_plugin_install(qemu_plugin_id_t id, const struct qemu_info_t *info, int argc, char **argv) {
  (void)info;
  for (int i = 0; i < argc; i++) if (!strcmp(argv[i], "sym=on")) by_symbol = true;
  qemu_plugin_register_vcpu_tb_trans_cb(id, trans);
  qemu_plugin_register_atexit_cb(id, out, NULL);
  return 0;
}
