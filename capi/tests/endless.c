/* A run without an end, cut off after many binds: settled and forgotten every 1,000, and trimmed every 7,000, it holds what it still needs,
 * in flat memory. The peak over all is at most 1.1 of that of the first 100,000.
 *   endless BINDS     1,000,000 if left out */
#include "check.h"
#include <sys/resource.h>

#define PAGE VMBIND_PAGE
#define ROUND 1000
#define EARLY 100000
#define QUEUES 16

static long peak(void) {
  struct rusage usage;
  getrusage(RUSAGE_SELF, &usage);
  return usage.ru_maxrss;
}

/* Round `round`: a buffer in the place of the last one, mapped page by page over what lies there. Each hundredth request is refused, or
 * withdrawn, and a job runs over each round. Then all is settled and forgotten. How many binds. */
static uint64_t bind_a_round(struct vmbind_vm *vm, struct vmbind_buffer *buffer, uint64_t round) {
  const struct vmbind_buffer last = *buffer;
  uint64_t told[QUEUES] = { 0 }, n, m, first, next, job = 0;
  struct vmbind_access access = { 0, VMBIND_READ, 0 };
  struct vmbind_outcome outcome;
  CALL(OK, buffer_create, vm, ROUND, buffer);
  for (uint64_t k = 0; k < ROUND; k++) {
    const struct vmbind_op op = map((k * 7 + round) % ROUND * PAGE, PAGE + (k % 100 == 50), *buffer, k * PAGE);
    const struct vmbind_request request = asks(k % QUEUES, &op, 1);
    if (k % 100 == 50) CALL(UNALIGNED, bind, vm, &request, &outcome);
    else CALL(OK, bind, vm, &request, &outcome);
    told[k % QUEUES] = outcome.number + 1;
    if (k % 100 == 99) CALL(OK, withdraw, vm, outcome.entry, &n);
    if (k == 0) {
      access.address = op.start;
      CALL(OK, job_begin, vm, &access, 1, &job);
    }
  }
  CALL(OK, job_end, vm, job);
  CALL(OK, journal, vm, &first, &next);
  CALL(OK, settle, vm, next, &n);
  CHECK(n == next - first && n == ROUND);   /* ten are refused, ten withdrawn */
  for (uint64_t queue = 0; queue < QUEUES; queue++) {
    CALL(OK, forget, vm, queue, told[queue], &n);
    CHECK(n >= ROUND / QUEUES);
    CALL(OK, told, vm, queue, 0, NULL, 0, &n, &m);
    CHECK(m == told[queue]);
  }
  if (last.made) {
    const struct vmbind_op all = unmap_all(last);
    const struct vmbind_request request = asks(0, &all, 1);
    CALL(OK, bind, vm, &request, &outcome);
    CALL(OK, settle, vm, outcome.entry + 1, &n);
    CALL(OK, buffer_destroy, vm, last, &n);
  }
  if (round % 7 == 6) CALL(OK, trim, vm, &n);
  return ROUND;
}

int main(int count, char **arguments) {
  const uint64_t all = count > 1 ? strtoull(arguments[1], NULL, 10) : 1000000;
  struct vmbind_vm vm = VMBIND_INIT;
  const struct vmbind_config config = VMBIND_CONFIG_DEFAULT;
  struct vmbind_buffer buffer = { 0, 0, 0 };
  long early = 0, late;
  CALL(OK, create, &vm, &config);
  for (uint64_t binds = 0; binds < all && !failed; ) {
    binds += bind_a_round(&vm, &buffer, binds / ROUND);
    if (!early && binds >= EARLY) early = peak();
  }
  CALL(OK, destroy, &vm);
  late = peak();
  if (!CHECK(late * 10 <= early * 11)) printf("  a peak of %ld KiB, after %ld\n", late, early);
  printf("%llu binds, at most %ld KiB, %ld of the first 100,000\n", (unsigned long long)all, late, early);
  return ended("endless");
}
