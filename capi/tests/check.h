/* What the C tests share: checks that are counted, requests in one line, and which calls and statuses were met. */
#ifndef CHECK_H
#define CHECK_H
#include "vmbind.h"
#include <stdio.h>
#include <stdlib.h>
#include <string.h>

static int passed, failed;

#define CHECK(x) check(!!(x), __FILE__, __LINE__, #x)

static int check(int holds, const char *file, int line, const char *what) {
  if (holds) { passed++; return 1; }
  failed++;
  printf("%s:%d: %s\n", file, line, what);
  return 0;
}

/* The names of the functions that were called, and the statuses that they answered. */
static const char *called[64];
static size_t called_count;
static char met[256];

#define CALL(wanted, name, ...) call(__FILE__, __LINE__, #name, VMBIND_##wanted, vmbind_##name(__VA_ARGS__))

static inline vmbind_status call(const char *file, int line, const char *name, vmbind_status wanted, vmbind_status got) {
  size_t k = 0;
  while (k < called_count && strcmp(called[k], name)) k++;
  if (k == called_count && k < sizeof called / sizeof *called) called[called_count++] = name;
  if (got < sizeof met) met[got] = 1;
  if (got == wanted) passed++;
  else {
    failed++;
    printf("%s:%d: vmbind_%s answers %s, and %s is wanted\n", file, line, name, vmbind_status_name(got), vmbind_status_name(wanted));
  }
  return got;
}

static int ended(const char *test) {
  printf("%s: %d passed, %d failed\n", test, passed, failed);
  return failed || !passed;
}

static inline int is_zero(const void *at, size_t bytes) {
  const unsigned char *byte = (const unsigned char *)at;
  for (size_t k = 0; k < bytes; k++) if (byte[k]) return 0;
  return 1;
}

/* Bytes that no call writes. */
#define STALE 0xa5
#define SPOIL(it) memset(&(it), STALE, sizeof(it))

static inline int is_stale(const void *at, size_t bytes) {
  const unsigned char *byte = (const unsigned char *)at;
  for (size_t k = 0; k < bytes; k++) if (byte[k] != STALE) return 0;
  return 1;
}

static inline int same_buffer(struct vmbind_buffer a, struct vmbind_buffer b) {
  return a.generation == b.generation && a.index == b.index && a.made == b.made;
}

static inline struct vmbind_op map(uint64_t start, uint64_t size, struct vmbind_buffer buffer, uint64_t offset) {
  struct vmbind_op op = { VMBIND_MAP, 0, start, size, buffer, offset };
  return op;
}

static inline struct vmbind_op map_zero(uint64_t start, uint64_t size) {
  struct vmbind_op op = { VMBIND_MAP_ZERO, 0, start, size, { 0, 0, 0 }, 0 };
  return op;
}

static inline struct vmbind_op unmap(uint64_t start, uint64_t size) {
  struct vmbind_op op = { VMBIND_UNMAP, 0, start, size, { 0, 0, 0 }, 0 };
  return op;
}

static inline struct vmbind_op unmap_all(struct vmbind_buffer buffer) {
  struct vmbind_op op = { VMBIND_UNMAP_ALL, 0, 0, 0, buffer, 0 };
  return op;
}

/* A request of some operations, which waits for nothing and signals nothing. */
static inline struct vmbind_request asks(uint64_t queue, const struct vmbind_op *ops, size_t count) {
  struct vmbind_request request = { queue, ops, count, NULL, 0, NULL, 0 };
  return request;
}

#endif
