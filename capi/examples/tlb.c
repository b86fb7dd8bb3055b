/* A TLB over a GPU's address space: sets of ways, each of which holds one translation as far as it reaches, up to a reach of so many
 * bytes. It reads a working set of rows and columns, and tells how many look-ups missed.
 *
 *     cc -Icapi capi/examples/tlb.c capi/build/libvmbind.a -o tlb && ./tlb
 */
#include "vmbind.h"
#include <stdio.h>

enum { SETS = 16, WAYS = 4 };

struct entry { uint64_t start, end, byte, used; };
struct tlb { struct entry way[SETS][WAYS]; uint64_t reach, clock, looked, missed; };

/* Whether an address leads to the buffer, and to which byte. */
static int look_up(struct tlb *tlb, struct vmbind_vm *vm, uint64_t address, uint64_t *byte) {
  struct entry *set = tlb->way[address / tlb->reach % SETS], *oldest = set;
  struct vmbind_translation t;
  tlb->looked++;
  for (int k = 0; k < WAYS; k++) {
    if (set[k].start <= address && address < set[k].end) {
      set[k].used = ++tlb->clock;
      *byte = set[k].byte + (address - set[k].start);
      return 1;
    }
    if (set[k].used < oldest->used) oldest = &set[k];
  }
  tlb->missed++;
  if (vmbind_translate(vm, address, &t) != VMBIND_OK || t.kind != VMBIND_BUFFER) return 0;
  /* no further than the block of `reach` bytes that the address is in, at both ends */
  uint64_t end = address - address % tlb->reach + tlb->reach;
  oldest->start = address;
  oldest->end = t.run < end - address ? address + t.run : end;
  oldest->byte = t.byte;
  oldest->used = ++tlb->clock;
  *byte = t.byte;
  return 1;
}

int main(void) {
  struct vmbind_vm vm = VMBIND_INIT;
  struct vmbind_config config = VMBIND_CONFIG_DEFAULT;
  struct vmbind_buffer frame;
  struct vmbind_outcome outcome;
  const uint64_t width = 1 << 16, rows = 256, base = UINT64_C(1) << 40;
  if (vmbind_create(&vm, &config) || vmbind_buffer_create(&vm, rows * width / VMBIND_PAGE, &frame)) return 1;
  struct vmbind_op op = { VMBIND_MAP, 0, base, rows * width, frame, 0 };
  struct vmbind_request request = { 0, &op, 1, NULL, 0, NULL, 0 };
  if (vmbind_bind(&vm, &request, &outcome)) return 1;
  for (uint64_t reach = VMBIND_PAGE; reach <= 1 << 21; reach *= 8) {
    struct tlb tlb = { .reach = reach };
    uint64_t byte, wrong = 0;
    for (uint64_t column = 0; column < width; column += 4096)
      for (uint64_t row = 0; row < rows; row++) {
        uint64_t at = row * width + column;
        if (!look_up(&tlb, &vm, base + at, &byte) || byte != at) wrong++;
      }
    printf("reach %7llu: %llu of %llu missed, %llu wrong\n", (unsigned long long)reach, (unsigned long long)tlb.missed,
           (unsigned long long)tlb.looked, (unsigned long long)wrong);
    if (wrong) return 1;
  }
  return vmbind_destroy(&vm) != VMBIND_OK;
}
