/* A software GPU: a kernel whose every access is walked through the page table, over memory that buffers stand for. It adds two
 * rows of numbers that lie page by page in two heaps, meets a hole and a read-only page, and runs again once the request that made
 * them is taken back.
 *
 *     cc -Icapi capi/examples/gpu.c capi/build/libvmbind.a -o gpu && ./gpu
 */
#include "vmbind.h"
#include <stdio.h>
#include <stdlib.h>

enum { PAGES = 64, ROW = PAGES * 4096 / 8 };   /* a row of so many numbers of 8 bytes */

struct gpu {
  struct vmbind_vm vm;
  unsigned char *memory[8];   /* of each buffer, by its index */
  unsigned long long walks, holes, forbidden;
};

static struct vmbind_buffer buffer(struct gpu *gpu, uint64_t pages) {
  struct vmbind_buffer made;
  if (vmbind_buffer_create(&gpu->vm, pages, &made) || !(gpu->memory[made.index] = calloc(pages, VMBIND_PAGE))) exit(1);
  return made;
}

/* The number at an address, or NULL where the access is a fault. */
static uint64_t *access(struct gpu *gpu, uint64_t address, int writes) {
  struct vmbind_translation t;
  gpu->walks++;
  if (vmbind_walk(&gpu->vm, address, &t)) exit(1);
  if (t.kind != VMBIND_BUFFER) return gpu->holes++, NULL;
  if (writes && t.flags & VMBIND_READ_ONLY) return gpu->forbidden++, NULL;
  return (uint64_t *)(gpu->memory[t.buffer.index] + t.byte);
}

/* sum[k] = one[k] + other[k], where nothing faults: how many were written. */
static unsigned add(struct gpu *gpu, uint64_t one, uint64_t other, uint64_t sum) {
  unsigned written = 0;
  for (uint64_t at = 0; at < 8 * ROW; at += 8) {
    const uint64_t *a = access(gpu, one + at, 0), *b = access(gpu, other + at, 0);
    uint64_t *to = access(gpu, sum + at, 1);
    if (a && b && to) *to = *a + *b, written++;
  }
  return written;
}

static uint64_t bind(struct gpu *gpu, const struct vmbind_op *ops, size_t count) {
  struct vmbind_request request = { 0, ops, count, NULL, 0, NULL, 0 };
  struct vmbind_outcome outcome;
  vmbind_status status = vmbind_bind(&gpu->vm, &request, &outcome);
  if (status) printf("operation %u: %s\n", (unsigned)outcome.op, vmbind_status_name(status)), exit(1);
  return outcome.entry;
}

int main(void) {
  static struct gpu gpu;
  struct vmbind_config config = VMBIND_CONFIG_DEFAULT;
  struct vmbind_op ops[3 * PAGES];
  const uint64_t one = UINT64_C(1) << 40, other = UINT64_C(2) << 40, sum = UINT64_C(3) << 40;
  uint64_t entry;
  if (vmbind_create(&gpu.vm, &config)) return 1;
  const struct vmbind_buffer low = buffer(&gpu, 2 * PAGES), high = buffer(&gpu, PAGES);
  /* the rows' pages lie in one heap by turns, and the sum's backwards in another */
  for (uint64_t k = 0; k < PAGES; k++) {
    ops[3 * k] = (struct vmbind_op){ VMBIND_MAP, 0, one + k * VMBIND_PAGE, VMBIND_PAGE, low, 2 * k * VMBIND_PAGE };
    ops[3 * k + 1] = (struct vmbind_op){ VMBIND_MAP, 0, other + k * VMBIND_PAGE, VMBIND_PAGE, low, (2 * k + 1) * VMBIND_PAGE };
    ops[3 * k + 2] = (struct vmbind_op){ VMBIND_MAP, 0, sum + k * VMBIND_PAGE, VMBIND_PAGE, high, (PAGES - 1 - k) * VMBIND_PAGE };
  }
  bind(&gpu, ops, 3 * PAGES);
  for (uint64_t k = 0; k < ROW; k++) *access(&gpu, one + 8 * k, 1) = k, *access(&gpu, other + 8 * k, 1) = 1000 * k;
  const unsigned whole = add(&gpu, one, other, sum);

  const struct vmbind_op spoiled[2] = { { VMBIND_UNMAP, 0, one + 3 * VMBIND_PAGE, VMBIND_PAGE, { 0, 0, 0 }, 0 },
                                        { VMBIND_MAP, VMBIND_READ_ONLY, sum + 9 * VMBIND_PAGE, VMBIND_PAGE, high, 0 } };
  bind(&gpu, spoiled, 2);
  const unsigned less = add(&gpu, one, other, sum);
  if (vmbind_rewind(&gpu.vm, &entry)) return 1;
  const unsigned again = add(&gpu, one, other, sum);

  unsigned wrong = 0;
  for (uint64_t k = 0; k < ROW; k++) wrong += *access(&gpu, sum + 8 * k, 0) != 1001 * k;
  printf("%llu walks, %u, %u and %u sums of %u, %llu accesses of a hole, %llu forbidden, %u wrong\n", gpu.walks, whole, less, again,
         (unsigned)ROW, gpu.holes, gpu.forbidden, wrong);
  if (wrong || whole != ROW || again != ROW || less != ROW - 2 * 512 || gpu.holes != 512 || gpu.forbidden != 512) return 1;
  for (int k = 0; k < 8; k++) free(gpu.memory[k]);
  return vmbind_destroy(&gpu.vm) != VMBIND_OK;
}
