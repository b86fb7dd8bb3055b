/* Times of calls: nanoseconds of the thread's processor time a call, the least of several runs. */
#define _POSIX_C_SOURCE 200809L
#include "vmbind.h"
#include <stdio.h>
#include <stdlib.h>
#include <time.h>

#define PAGE VMBIND_PAGE
enum { RUNS = 7, CALLS = 100000, MOST = 4096, STRIDE = 16, MAPPED = 8 };

static struct vmbind_vm vm = VMBIND_INIT;
static struct vmbind_buffer buffer;
static uint64_t seed = 1, sum, addresses[MOST];
static struct vmbind_translation translations[MOST];
static uint64_t mappings;

static uint64_t chance(uint64_t below) {
  seed = seed * UINT64_C(6364136223846793005) + 1442695040888963407u;
  return (seed >> 33) % below;
}

static double now(void) {
  struct timespec t;
  clock_gettime(CLOCK_THREAD_CPUTIME_ID, &t);
  return (double)t.tv_sec * 1e9 + (double)t.tv_nsec;
}

static void ok(vmbind_status status) {
  if (status == VMBIND_OK) return;
  printf("refused: %s\n", vmbind_status_name(status));
  exit(1);
}

static void bind(const struct vmbind_op *ops, size_t count) {
  struct vmbind_request request = { 0, ops, count, NULL, 0, NULL, 0 };
  struct vmbind_outcome outcome;
  ok(vmbind_bind(&vm, &request, &outcome));
}

/* A map of so many pages to as many of the buffer, or an unmap. */
static struct vmbind_op edit(uint64_t first, uint64_t count, int maps) {
  struct vmbind_op map = { VMBIND_MAP, 0, first * PAGE, count * PAGE, buffer, first * PAGE };
  struct vmbind_op unmap = { VMBIND_UNMAP, 0, first * PAGE, count * PAGE, { 0, 0, 0 }, 0 };
  return maps ? map : unmap;
}

/* So many mappings of 8 pages, each 16 pages behind the one before, of which a request has 256; nothing can be taken back. */
static void fill(uint64_t count) {
  struct vmbind_config config = VMBIND_CONFIG_DEFAULT;
  struct vmbind_op ops[256];
  uint64_t n;
  vmbind_destroy(&vm);
  ok(vmbind_create(&vm, &config));
  ok(vmbind_buffer_create(&vm, 1 << 22, &buffer));
  mappings = count;
  for (uint64_t k = 0; k < count;) {
    size_t here = 0;
    for (; here < 256 && k < count; here++, k++) ops[here] = edit(k * STRIDE, MAPPED, 1);
    bind(ops, here);
  }
  ok(vmbind_journal(&vm, &n, &n));
  ok(vmbind_settle(&vm, n, &n));
  for (size_t k = 0; k < MOST; k++) addresses[k] = chance(count) * STRIDE * PAGE + chance(MAPPED * PAGE);
}

static void nothing(int k) { ok(vmbind_timeline_value(&vm, (uint64_t)k % 64, &sum)); }

static void one_place(int k) {
  ok(vmbind_translate(&vm, addresses[0] + (uint64_t)k % 8, &translations[0]));
  sum += translations[0].byte;
}

static void any_place(int k) {
  ok(vmbind_translate(&vm, addresses[k % MOST], &translations[0]));
  sum += translations[0].byte;
}

static void walk_one(int k) {
  ok(vmbind_walk(&vm, addresses[0] + (uint64_t)k % 8, &translations[0]));
  sum += translations[0].byte;
}

static void walk_any(int k) {
  ok(vmbind_walk(&vm, addresses[k % MOST], &translations[0]));
  sum += translations[0].byte;
}

/* What gv_bench takes for a bind: maps and unmaps of 1 to 29 pages anywhere in a list of mappings of 8 pages, half of the pages free. */
enum { TURNS = 96, ROUNDS = 20 };

/* A run binds so many requests of one operation, which are then taken back. */
static void measure_binds(void) {
  double least = 0;
  struct vmbind_op ops[TURNS];
  uint64_t entry;
  for (int round = 0; round < ROUNDS; round++) {
    for (int k = 0; k < TURNS; k++) {
      uint64_t first = chance(mappings * STRIDE), count = 1 + chance(29);
      ops[k] = edit(first, count, chance(2) == 0);
    }
    double start = now();
    for (int k = 0; k < TURNS; k++) bind(&ops[k], 1);
    double took = (now() - start) / TURNS;
    if (round == 0 || took < least) least = took;
    for (int k = 0; k < TURNS; k++) ok(vmbind_rewind(&vm, &entry));
  }
  printf("%-24s %9llu mappings %8.1f ns\n", "bind of one operation", (unsigned long long)mappings, least);
}

static void measure(const char *name, void (*call)(int), int calls) {
  double least = 0;
  for (int run = 0; run < RUNS; run++) {
    double start = now();
    for (int k = 0; k < calls; k++) call(k);
    double took = (now() - start) / calls;
    if (run == 0 || took < least) least = took;
  }
  printf("%-24s %9llu mappings %8.1f ns\n", name, (unsigned long long)mappings, least);
}

typedef vmbind_status many(struct vmbind_vm *, const uint64_t *, size_t, struct vmbind_translation *, size_t);

static void measure_many(const char *name, many *call) {
  double least = 0;
  for (int run = 0; run < RUNS; run++) {
    double start = now();
    for (int k = 0; k < CALLS / MOST; k++) ok(call(&vm, addresses, MOST, translations, MOST));
    double took = (now() - start) / (CALLS / MOST * MOST);
    if (run == 0 || took < least) least = took;
  }
  printf("%-24s %9llu mappings %8.1f ns an address\n", name, (unsigned long long)mappings, least);
}

int main(void) {
  for (uint64_t count = 1000; count <= 100000; count *= 10) {
    fill(count);
    measure("timeline_value", nothing, CALLS);
    measure("translate, one page", one_place, CALLS);
    measure("translate, at random", any_place, CALLS);
    measure_many("translate_many", vmbind_translate_many);
    measure("walk, one page", walk_one, CALLS);
    measure("walk, at random", walk_any, CALLS);
    measure_many("walk_many", vmbind_walk_many);
    measure_binds();
  }
  return vmbind_destroy(&vm) != VMBIND_OK || sum == 1;
}
