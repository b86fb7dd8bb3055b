/* Handles among threads: each its own, one under a lock, one that goes from thread to thread; and the stack that a call needs. */
#define _GNU_SOURCE
#include "check.h"
#include <pthread.h>
#include <sys/mman.h>

#define PAGE VMBIND_PAGE
#define THREADS 8
#define ROUNDS 400

/* Checks are counted in one thread: the others count what is wrong, and answer that. */
static uint64_t wrong_in(struct vmbind_vm *vm, uint64_t base, int rounds) {
  struct vmbind_buffer b;
  struct vmbind_outcome o;
  struct vmbind_translation t;
  uint64_t wrong = 0, n;
  wrong += vmbind_buffer_create(vm, 64, &b) != VMBIND_OK;
  for (int k = 0; k < rounds; k++) {
    uint64_t at = base + (uint64_t)(k % 13) * 3 * PAGE;
    struct vmbind_op ops[2] = { map(at, 3 * PAGE, b, (uint64_t)(k % 7) * PAGE), unmap(at + PAGE, PAGE) };
    struct vmbind_request r = asks(0, ops, 2);
    wrong += vmbind_bind(vm, &r, &o) != VMBIND_OK;
    wrong += vmbind_translate(vm, at + 2 * PAGE + 5, &t) != VMBIND_OK || t.byte != (uint64_t)(k % 7 + 2) * PAGE + 5;
    wrong += vmbind_translate(vm, at + PAGE, &t) != VMBIND_OK || t.kind != VMBIND_NOTHING;
    if (k % 3 == 2) wrong += vmbind_rewind(vm, &n) != VMBIND_OK;
  }
  return wrong;
}

static void *alone(void *wrong) {
  struct vmbind_vm vm = VMBIND_INIT;
  struct vmbind_config config = VMBIND_CONFIG_DEFAULT;
  *(uint64_t *)wrong += vmbind_create(&vm, &config) != VMBIND_OK;
  *(uint64_t *)wrong += wrong_in(&vm, 0, ROUNDS);
  *(uint64_t *)wrong += vmbind_destroy(&vm) != VMBIND_OK;
  return NULL;
}

static struct vmbind_vm shared = VMBIND_INIT;
static pthread_mutex_t lock = PTHREAD_MUTEX_INITIALIZER;

struct place { uint64_t base, wrong; };

static void *under_a_lock(void *argument) {
  struct place *place = argument;
  for (int k = 0; k < ROUNDS; k++) {
    struct vmbind_op op = map_zero(place->base + (uint64_t)(k % 16) * PAGE, PAGE);
    struct vmbind_request r = asks(place->base / (1 << 20) % 16, &op, 1);
    struct vmbind_outcome o;
    struct vmbind_translation t;
    pthread_mutex_lock(&lock);
    place->wrong += vmbind_bind(&shared, &r, &o) != VMBIND_OK || o.number != (uint64_t)k;
    pthread_mutex_unlock(&lock);
    pthread_mutex_lock(&lock);
    place->wrong += vmbind_translate(&shared, op.start + 9, &t) != VMBIND_OK || t.kind != VMBIND_ZEROS;
    pthread_mutex_unlock(&lock);
  }
  return NULL;
}

static void *gives_up(void *vm) {
  vmbind_destroy(vm);
  return NULL;
}

static void start(pthread_t *thread, void *(*what)(void *), void *argument) {
  if (!CHECK(pthread_create(thread, NULL, what, argument) == 0)) exit(1);
}

static void among_threads(void) {
  pthread_t threads[THREADS];
  uint64_t wrong[THREADS] = { 0 }, count, total;
  struct place places[THREADS];
  struct vmbind_config config = VMBIND_CONFIG_DEFAULT;
  for (int k = 0; k < THREADS; k++) start(&threads[k], alone, &wrong[k]);
  for (int k = 0; k < THREADS; k++) {
    pthread_join(threads[k], NULL);
    CHECK(wrong[k] == 0);
  }
  CALL(OK, create, &shared, &config);
  for (int k = 0; k < THREADS; k++) {
    places[k] = (struct place){ (uint64_t)k << 20, 0 };
    start(&threads[k], under_a_lock, &places[k]);
  }
  for (int k = 0; k < THREADS; k++) {
    pthread_join(threads[k], NULL);
    CHECK(places[k].wrong == 0);
  }
  CALL(OK, mappings, &shared, 0, NULL, 0, &count, &total);
  CHECK(total == THREADS * 16);
  start(&threads[0], gives_up, &shared);   /* made in one thread, given up in another */
  pthread_join(threads[0], NULL);
  CHECK(shared.at == NULL);
}

/* A life of a space that reaches deep: tables at all levels, leaves that break, requests of many operations, withdrawals. */
static void *life(void *wrong) {
  struct vmbind_vm vm = VMBIND_INIT;
  struct vmbind_config config = VMBIND_CONFIG_DEFAULT;
  struct vmbind_buffer b;
  struct vmbind_outcome o;
  struct vmbind_op ops[64], all = unmap(0, UINT64_C(1) << 57);
  struct vmbind_access access = { 0, VMBIND_WRITE, 0 };
  struct vmbind_step steps[2];
  struct vmbind_translation t;
  uint64_t n, m, *bad = wrong;
  *bad += vmbind_create(&vm, &config) != VMBIND_OK || vmbind_buffer_create(&vm, UINT64_C(1) << 30, &b) != VMBIND_OK;
  for (uint64_t round = 0; round < 24; round++) {
    for (uint64_t k = 0; k < 64; k++) {
      uint64_t at = k * (UINT64_C(1) << (12 + 9 * (round % 5))) * 3;
      ops[k] = round % 3 == 2 ? unmap(at + PAGE, PAGE) : round % 3 ? map_zero(at, 2 * PAGE) : map(at, UINT64_C(1) << 31, b, 0);
    }
    struct vmbind_request r = asks(0, ops, 64);
    *bad += vmbind_bind(&vm, &r, &o) != VMBIND_OK;
    *bad += vmbind_plan(&vm, &all, steps, 2, &n, &m) != VMBIND_OK;
    *bad += vmbind_translate(&vm, 0, &t) != VMBIND_OK;
  }
  *bad += vmbind_withdraw(&vm, 23, &n) != VMBIND_OK;
  *bad += vmbind_job_begin(&vm, &access, 1, &n) != VMBIND_OK;
  struct vmbind_request r = asks(0, &all, 1);
  *bad += vmbind_bind(&vm, &r, &o) != VMBIND_OK || vmbind_rewind(&vm, &n) != VMBIND_OK || vmbind_bind(&vm, &r, &o) != VMBIND_OK;
  *bad += vmbind_settle(&vm, 20, &n) != VMBIND_OK || vmbind_rewind(&vm, &n) != VMBIND_OK;
  *bad += vmbind_destroy(&vm) != VMBIND_OK;
  return NULL;
}

#ifndef SANITIZED
/* How much of a stack was touched that is 1 MiB. What the header promises is 64 KiB, and this thread's own frames are in it. */
static void stack(void) {
  const size_t size = 1 << 20;
  unsigned char *at = mmap(NULL, size, PROT_READ | PROT_WRITE, MAP_PRIVATE | MAP_ANONYMOUS | MAP_STACK, -1, 0);
  pthread_attr_t attributes;
  pthread_t thread;
  uint64_t wrong = 0;
  size_t free_bytes = 0;
  if (!CHECK(at != MAP_FAILED)) return;
  memset(at, STALE, size);
  pthread_attr_init(&attributes);
  CHECK(pthread_attr_setstack(&attributes, at, size) == 0);
  CHECK(pthread_create(&thread, &attributes, life, &wrong) == 0);
  pthread_join(thread, NULL);
  pthread_attr_destroy(&attributes);
  while (free_bytes < size && at[free_bytes] == STALE) free_bytes++;
  CHECK(wrong == 0);
  CHECK(size - free_bytes <= 64 << 10);
  printf("a life of a space touched %zu KiB of stack\n", (size - free_bytes) >> 10);
  munmap(at, size);
}
#endif

int main(void) {
  uint64_t wrong = 0;
  among_threads();
  life(&wrong);
  CHECK(wrong == 0);
#ifndef SANITIZED
  stack();
#endif
  return ended("threads");
}
