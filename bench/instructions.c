/* A plugin of the emulator QEMU: writes how many instructions the program executed to the standard error. */
#include <inttypes.h>
#include <stddef.h>
#include <stdio.h>

/* what is used of the emulator's interface, version 1 */
typedef uint64_t plugin_id;
struct qemu_plugin_tb;
enum { ADD = 0 };
int qemu_plugin_version = 1;
void qemu_plugin_register_vcpu_tb_trans_cb(plugin_id, void (*)(plugin_id, struct qemu_plugin_tb *));
void qemu_plugin_register_vcpu_tb_exec_inline(struct qemu_plugin_tb *, int, void *, uint64_t);
void qemu_plugin_register_atexit_cb(plugin_id, void (*)(plugin_id, void *), void *);
size_t qemu_plugin_tb_n_insns(const struct qemu_plugin_tb *);
int qemu_plugin_install(plugin_id, const void *, int, char **);

static uint64_t executed;

static void block(plugin_id id, struct qemu_plugin_tb *code) {
  (void)id;
  qemu_plugin_register_vcpu_tb_exec_inline(code, ADD, &executed, qemu_plugin_tb_n_insns(code));
}

static void ended(plugin_id id, void *nothing) {
  (void)id;
  (void)nothing;
  fprintf(stderr, "%" PRIu64 "\n", executed);
}

int qemu_plugin_install(plugin_id id, const void *info, int words, char **word) {
  (void)info;
  (void)words;
  (void)word;
  qemu_plugin_register_vcpu_tb_trans_cb(id, block);
  qemu_plugin_register_atexit_cb(id, ended, NULL);
  return 0;
}
