/* Each request for memory refused in turn, in a row of calls: a call that wants memory changes nothing, is made again and then comes
 * to the same; and once all memory is refused, what takes none still works. Nothing is lost, and what is not needed any more is given
 * back by a trim. Linked with --wrap=malloc,--wrap=realloc,--wrap=free. */
#include "check.h"
#include <malloc.h>

#define PAGE VMBIND_PAGE
#define COUNT(list) (sizeof(list) / sizeof *(list))

static long left = -1;   /* so many requests until one is refused; none below 0 */
static int for_good;     /* then all are refused */
static long asked, held;
static size_t bytes;     /* of the blocks that are held */

void *__real_malloc(size_t);
void *__real_realloc(void *, size_t);
void __real_free(void *);

static int refused(void) {
  asked++;
  if (left > 0) left--;
  else if (left == 0) {
    if (!for_good) left = -1;
    return 1;
  }
  return 0;
}

void *__wrap_malloc(size_t size) {
  void *at = refused() ? NULL : __real_malloc(size);
  held += at != NULL;
  bytes += malloc_usable_size(at);
  return at;
}

void *__wrap_realloc(void *old, size_t size) {
  const size_t before = malloc_usable_size(old);
  void *at = refused() ? NULL : __real_realloc(old, size);
  held += at && !old;
  if (at) bytes += malloc_usable_size(at) - before;
  return at;
}

void __wrap_free(void *at) {
  held -= at != NULL;
  bytes -= malloc_usable_size(at);
  __real_free(at);
}

#define BUFFERS 10

/* All that can be seen of an address space. What queues were told stands apart, since a request that is refused for want of
 * memory is told so. */
struct seen {
  struct vmbind_mapping list[64];
  struct vmbind_table_counts tables;
  struct vmbind_entry_info entries[32];
  struct vmbind_op ops[32][8];
  struct vmbind_uses uses[BUFFERS];
  uint64_t mappings, first, next, count[32], timeline[4];
};

static struct vmbind_buffer buffer[BUFFERS];

static void look(struct vmbind_vm *vm, struct seen *s) {
  long before = asked;
  uint64_t count;
  memset(s, 0, sizeof *s);
  CALL(OK, mappings, vm, 0, s->list, 64, &count, &s->mappings);
  CHECK(count == s->mappings);
  CALL(OK, tables, vm, &s->tables);
  CALL(OK, journal, vm, &s->first, &s->next);
  CHECK(s->next - s->first <= 32);
  for (uint64_t k = s->first; k < s->next && k - s->first < 32; k++) {
    CALL(OK, entry, vm, k, &s->entries[k - s->first], s->ops[k - s->first], 8, &s->count[k - s->first]);
    s->entries[k - s->first].number = 0;
  }
  for (int k = 0; k < BUFFERS; k++) vmbind_buffer_uses(vm, buffer[k], &s->uses[k]);
  for (uint64_t k = 0; k < 4; k++) CALL(OK, timeline_value, vm, k, &s->timeline[k]);
  for (uint64_t k = 0; k < s->mappings && k < 64; k++) {
    struct vmbind_translation t;
    CALL(OK, translate, vm, s->list[k].start, &t);
    CHECK(t.kind == s->list[k].kind && t.run == s->list[k].size);
    CALL(OK, base, vm, s->list[k].start, &t);
  }
  CHECK(asked == before);   /* looking takes no memory */
}

enum doing { MAKE, BIND, PUT, SERVE, GIVE_UP, RAISE, REWIND, WITHDRAW, SETTLE, FORGET, TRIM, JOB, END, PLAN, PAST, DESTROY, DOINGS };

/* Which may want memory. */
static const char grows[DOINGS] = { [MAKE] = 1, [BIND] = 1, [PUT] = 1, [SERVE] = 1, [GIVE_UP] = 1, [WITHDRAW] = 1, [JOB] = 1, [PLAN] = 1, [PAST] = 1 };
/* A trim asks for smaller blocks, and does without. */
static const char asks_for_less[DOINGS] = { [TRIM] = 1 };
static char lacked[DOINGS], left_as[5];   /* and what a bind then was told */

struct row { enum doing doing; uint64_t a, b; vmbind_status wanted; };

/* BIND and PUT are of request `a` on queue `b`, which SERVE and GIVE_UP name too. MAKE makes buffer `a` of `b` pages. PAST lists
 * `b` entries of address `a`. FORGET is of queue `b`. TRIM says entry `a`. */
static const struct row rows[] = {
  { TRIM, 0, 0, VMBIND_OK },
  { MAKE, 0, 4096, VMBIND_OK }, { MAKE, 1, 600, VMBIND_OK }, { MAKE, 2, 4, VMBIND_OK }, { MAKE, 3, 4, VMBIND_OK },
  { MAKE, 4, 4, VMBIND_OK }, { MAKE, 5, 4, VMBIND_OK }, { MAKE, 6, 4, VMBIND_OK }, { MAKE, 7, 4, VMBIND_OK },
  { MAKE, 8, 4, VMBIND_OK }, { MAKE, 9, 4, VMBIND_OK },
  { BIND, 0, 0, VMBIND_OK }, { BIND, 1, 0, VMBIND_OK }, { BIND, 2, 0, VMBIND_OK }, { BIND, 3, 0, VMBIND_OK },
  { BIND, 4, 0, VMBIND_OK }, { BIND, 5, 0, VMBIND_OUT_OF_BUFFER }, { TRIM, 0, 0, VMBIND_HELD }, { PLAN, 0x20000000, 0x200000, VMBIND_OK },
  { PAST, 0x1000, 3, VMBIND_OK },
  { JOB, 0x1000, 0x20000000, VMBIND_OK }, { JOB, 0x2000, 0x5000, VMBIND_OK }, { BIND, 6, 0, VMBIND_OK },
  { WITHDRAW, 2, 0, VMBIND_OK }, { WITHDRAW, 0, 0, VMBIND_TOUCHED }, { REWIND, 6, 0, VMBIND_OK },
  { WITHDRAW, 3, 0, VMBIND_OK },
  { PUT, 8, 2, VMBIND_OK }, { GIVE_UP, 0, 2, VMBIND_NOT_READY }, { PUT, 7, 1, VMBIND_OK }, { PUT, 8, 1, VMBIND_OK },
  { PUT, 1, 1, VMBIND_OK }, { PUT, 2, 1, VMBIND_OK }, { PUT, 3, 1, VMBIND_OK }, { PUT, 4, 1, VMBIND_OK },
  { SERVE, 0, 1, VMBIND_NOT_READY }, { RAISE, 1, 5, VMBIND_OK }, { SERVE, 0, 1, VMBIND_OK },
  { GIVE_UP, 0, 1, VMBIND_NOT_READY }, { SERVE, 0, 1, VMBIND_OK }, { SERVE, 0, 1, VMBIND_OK },
  { SERVE, 0, 1, VMBIND_OK }, { SERVE, 0, 1, VMBIND_OK }, { SERVE, 0, 1, VMBIND_IDLE },
  { END, 0, 0, VMBIND_OK }, { END, 0, 0, VMBIND_NO_JOB }, { SETTLE, 7, 0, VMBIND_OK },
  { FORGET, 6, 0, VMBIND_OK }, { FORGET, 1, 1, VMBIND_HELD }, { BIND, 9, 0, VMBIND_OK },
  { DESTROY, 9, 0, VMBIND_OK }, { MAKE, 9, 7, VMBIND_OK }, { REWIND, 12, 0, VMBIND_OK },
  { TRIM, 7, 0, VMBIND_HELD }, { SETTLE, 12, 0, VMBIND_OK }, { TRIM, 0, 0, VMBIND_OK }, { BIND, 1, 0, VMBIND_OK },
  { BIND, 0, 0, VMBIND_OK }, { REWIND, 13, 0, VMBIND_OK }, { TRIM, 12, 0, VMBIND_HELD },
};

static vmbind_status ask(struct vmbind_vm *vm, const struct row *row, struct vmbind_outcome *outcome) {
  static const struct vmbind_point waits[2] = { { 1, 3 }, { 1, 5 } }, never[1] = { { 1, 6 } }, signals[3] = { { 2, 1 }, { 2, 9 }, { 3, 4 } };
  struct vmbind_op ops[8];
  struct vmbind_request r = asks(row->b, ops, 1);
  uint64_t number;
  switch (row->a) {
    case 0:   /* leaves of three levels */
      ops[0] = map(0, 16 * PAGE, buffer[0], 0);
      ops[1] = map(0x20000000, 0x400000, buffer[0], 0x200000);
      ops[2] = map_zero(0x4000000000, 0x40000000);
      r.op_count = 3;
      break;
    case 1:   /* holes, which break leaves and split mappings */
      ops[0] = unmap(0x20001000, PAGE);
      ops[1] = unmap(0x4000001000, PAGE);
      ops[2] = unmap(PAGE, PAGE);
      ops[3] = unmap(3 * PAGE, PAGE);
      ops[4] = unmap(5 * PAGE, PAGE);
      ops[5] = unmap(7 * PAGE, PAGE);
      r.op_count = 6;
      break;
    case 2: ops[0] = map(0, 16 * PAGE, buffer[1], 0x10000); break;      /* over many mappings */
    case 3: ops[0] = map_zero(0x100000000000, 0x3000); break;           /* tables of their own */
    case 4:
      for (int k = 0; k < 8; k++) ops[k] = map(0x8000000 + k * 2 * PAGE, PAGE, buffer[2 + k % 7], 0);
      r.op_count = 8;
      break;
    case 5:   /* refused at the second one, after the first one took memory */
      ops[0] = map_zero(0x1000000000000, 0x200000);
      ops[1] = map(0, 2 * PAGE, buffer[2], 3 * PAGE);
      r.op_count = 2;
      break;
    case 6: ops[0] = unmap_all(buffer[0]); r.signals = signals; r.signal_count = 3; break;
    case 7: ops[0] = map_zero(0x5000, 2 * PAGE); r.waits = waits; r.wait_count = 2; r.signals = signals; r.signal_count = 3; break;
    case 8: ops[0] = map_zero(0, PAGE); r.waits = never; r.wait_count = 1; break;
    default: ops[0] = unmap(0, UINT64_C(1) << 57); break;               /* all tables go */
  }
  if (row->doing == BIND) return vmbind_bind(vm, &r, outcome);
  return vmbind_submit(vm, &r, &number);
}

static vmbind_status once(struct vmbind_vm *vm, const struct row *row, struct vmbind_outcome *outcome) {
  struct vmbind_access accesses[2] = { { row->a, VMBIND_READ, 0 }, { row->b, VMBIND_READ, 0 } };
  struct vmbind_op op = map(row->a, row->b, buffer[0], 0);
  struct vmbind_step steps[4];
  struct vmbind_past_entry past[4];
  uint64_t n, m;
  vmbind_status status;
  memset(outcome, 0, sizeof *outcome);
  switch (row->doing) {
    case MAKE: return vmbind_buffer_create(vm, row->b, &buffer[row->a]);
    case BIND: case PUT: return ask(vm, row, outcome);
    case SERVE: return vmbind_serve(vm, row->b, 0, outcome);
    case GIVE_UP: return vmbind_serve(vm, row->b, VMBIND_GIVE_UP, outcome);
    case RAISE: return vmbind_timeline_raise(vm, row->a, row->b, &n);
    case REWIND: status = vmbind_rewind(vm, &n); CHECK(n == row->a); return status;
    case WITHDRAW: return vmbind_withdraw(vm, row->a, &n);
    case SETTLE: return vmbind_settle(vm, row->a, &n);
    case TRIM: status = vmbind_trim(vm, &n); CHECK(n == row->a); return status;
    case FORGET: return vmbind_forget(vm, row->b, row->a, &n);
    case JOB: return vmbind_job_begin(vm, accesses, 2, &n);
    case END: return vmbind_job_end(vm, row->a);
    case PLAN: return vmbind_plan(vm, &op, steps, 4, &n, &m);
    case PAST:
      status = vmbind_past(vm, row->a, 0, past, 4, &n, &m);
      CHECK(n == m && m == (status ? 0 : row->b));
      return status;
    case DESTROY: return vmbind_buffer_destroy(vm, buffer[row->a], &n);
    default: return VMBIND_BAD_ARGUMENT;
  }
}

/* All that takes no memory, where there is none: back to the oldest entry held, and away. */
static void back_without_memory(struct vmbind_vm *vm) {
  struct seen s;
  uint64_t n, first, next, total;
  long before = asked;
  look(vm, &s);
  CALL(OK, timeline_raise, vm, 0, 7, &n);
  CALL(OK, journal, vm, &first, &next);
  while (next > first) {
    CALL(OK, rewind, vm, &n);
    CHECK(n == --next);
  }
  CALL(OK, settle, vm, first, &n);
  CALL(OK, told, vm, 0, 0, NULL, 0, &n, &total);
  CALL(OK, forget, vm, 0, total, &n);
  vmbind_job_end(vm, 0);
  CHECK(asked == before);
  CALL(OK, trim, vm, &n);   /* what is refused stays as large as it was */
}

/* One run, with the request number `n` refused. How many calls wanted memory. */
static long run(long n, int all, struct seen *last) {
  struct vmbind_vm vm = VMBIND_INIT;
  struct vmbind_config config = VMBIND_CONFIG_DEFAULT;
  struct vmbind_outcome outcome;
  struct seen before, after;
  long lacks = 0, here = failed, asked_before;
  vmbind_status status;
  config.buffers = BUFFERS;   /* limits that are just met, so that a refused call that uses a place up is seen */
  config.items = 12;
  left = n;
  for_good = all;
  held = asked = 0;
  memset(buffer, 0, sizeof buffer);
  status = vmbind_create(&vm, &config);
  if (status == VMBIND_OUT_OF_MEMORY) {
    CHECK(vm.at == NULL && held == 0);
    if (all) return 1;
    lacks++;
    status = vmbind_create(&vm, &config);
  }
  if (!CHECK(status == VMBIND_OK)) return lacks;
  for (size_t k = 0; k < COUNT(rows); k++) {
    const struct row *row = &rows[k];
    look(&vm, &before);
    asked_before = asked;
    status = once(&vm, row, &outcome);
    CHECK(grows[row->doing] || asks_for_less[row->doing] || asked == asked_before);
    if (row->doing == TRIM) {
      look(&vm, &after);
      CHECK(!memcmp(&before, &after, sizeof after));
      lacks += n >= asked_before && n < asked;
    }
    if (status == VMBIND_OUT_OF_MEMORY) {
      lacks++;
      lacked[row->doing] = 1;
      look(&vm, &after);
      CHECK(!memcmp(&before, &after, sizeof after));
      CHECK(row->doing != MAKE || is_zero(&buffer[row->a], sizeof *buffer));
      if (row->doing == BIND || row->doing == SERVE || row->doing == GIVE_UP)
        CHECK(outcome.kind == VMBIND_NOT_PUT || outcome.kind == VMBIND_PENDING || (outcome.kind == VMBIND_REFUSED && outcome.fault == VMBIND_OUT_OF_MEMORY));
      if (row->doing == BIND && outcome.kind < sizeof left_as) left_as[outcome.kind] = 1;
      if (all) {
        back_without_memory(&vm);
        break;
      }
      if (row->doing == BIND && outcome.kind == VMBIND_PENDING) status = vmbind_serve(&vm, row->b, 0, &outcome);
      else if ((row->doing == SERVE || row->doing == GIVE_UP) && outcome.kind == VMBIND_REFUSED) {
        /* it was told so, and is put again at the back: this run ends here */
        break;
      } else status = once(&vm, row, &outcome);
    }
    if (!CHECK(status == row->wanted)) printf("  row %zu answers %s, with request %ld refused\n", k, vmbind_status_name(status), n);
    if (k + 1 == COUNT(rows)) {
      look(&vm, &after);
      if (n < 0) *last = after;
      else CHECK(!memcmp(last, &after, sizeof after));
    }
  }
  asked_before = asked;
  CALL(OK, destroy, &vm);
  CHECK(asked == asked_before && held == 0 && vm.at == NULL);
  if (failed != here) printf("  with request %ld refused%s\n", n, all ? ", and all after it" : "");
  return lacks;
}

/* A page of a leaf of 2 MiB is cut out, so that a table comes, and the leaf is put back, so that it goes. The same in one request,
 * which then wants further tables, with memory refused from number `n` on: it is reverted. Then all is taken back, entry by entry, with
 * all memory refused: tables that went come back. How many operations were carried out before one was refused. */
static uint64_t leaf_without_memory(long n) {
  struct vmbind_vm vm = VMBIND_INIT;
  struct vmbind_config config = VMBIND_CONFIG_DEFAULT;
  struct vmbind_outcome outcome;
  struct vmbind_request r;
  struct seen steps[4], now;
  uint64_t number, done;
  long before;
  vmbind_status status;
  left = -1;
  for_good = 1;
  held = asked = 0;
  memset(buffer, 0, sizeof buffer);
  CALL(OK, create, &vm, &config);
  CALL(OK, buffer_create, &vm, 512, &buffer[0]);
  const struct vmbind_op leaf = map(0x200000, 0x200000, buffer[0], 0), hole = unmap(0x300000, PAGE);
  const struct vmbind_op ops[3] = { leaf, hole, leaf };
  for (int k = 0; k < 3; k++) {
    look(&vm, &steps[k]);
    r = asks(0, &ops[k], 1);
    CALL(OK, bind, &vm, &r, &outcome);
  }
  look(&vm, &steps[3]);
  for (int k = 0; k < 4; k++) CHECK(steps[k].tables.tables[4] == (k == 2));
  const struct vmbind_op more[3] = { hole, leaf, map_zero(0x40000000000000, PAGE) };
  left = n;
  r = asks(0, more, 3);
  status = vmbind_bind(&vm, &r, &outcome);
  CHECK(status == VMBIND_OUT_OF_MEMORY || status == VMBIND_OK);
  done = status == VMBIND_OK ? 3 : outcome.kind == VMBIND_REFUSED ? outcome.op : 0;
  left = 0;
  before = asked;
  if (status == VMBIND_OK) CALL(OK, rewind, &vm, &number);
  for (int k = 3; ; k--) {
    look(&vm, &now);
    CHECK(!memcmp(&now, &steps[k], sizeof now));
    if (k == 0) break;
    CALL(OK, rewind, &vm, &number);
    CHECK(number == (uint64_t)k - 1);
  }
  CALL(OK, buffer_destroy, &vm, buffer[0], &number);
  CHECK(asked == before);
  CALL(OK, destroy, &vm);
  CHECK(held == 0);
  return done;
}

#define REQUESTS 4096
#define RUNNING 1000
/* What as many jobs as there may be, and the requests that a queue takes at first, keep their room for. */
#define KEPT (128 << 10)

/* Much of all that an address space holds: buffers, mappings in tables of their own, entries, outcomes and jobs. */
static void fill(struct vmbind_vm *vm, struct vmbind_buffer *of) {
  struct vmbind_outcome outcome;
  uint64_t n;
  for (int k = 0; k < BUFFERS; k++) CALL(OK, buffer_create, vm, 4, &of[k]);
  for (uint64_t k = 0; k < REQUESTS; k++) {
    const struct vmbind_op ops[2] = { map(k << 22, PAGE, of[k % BUFFERS], k % 4 * PAGE), map_zero((k << 22) + 0x200000, 3 * PAGE) };
    const struct vmbind_request request = asks(k % 16, ops, 2);
    CALL(OK, bind, vm, &request, &outcome);
  }
  for (uint64_t k = 0; k < RUNNING; k++) {
    const struct vmbind_access access = { k << 22, VMBIND_READ, 0 };
    CALL(OK, job_begin, vm, &access, 1, &n);
  }
}

/* It all goes. */
static void empty(struct vmbind_vm *vm, const struct vmbind_buffer *of) {
  const struct vmbind_op all = unmap(0, UINT64_C(1) << 57);
  const struct vmbind_request request = asks(0, &all, 1);
  struct vmbind_outcome outcome;
  uint64_t n, first, next, total;
  CALL(OK, journal, vm, &first, &next);
  for (uint64_t k = 0; k < RUNNING; k++) CALL(OK, job_end, vm, first / REQUESTS * RUNNING + k);
  CALL(OK, bind, vm, &request, &outcome);
  CALL(OK, settle, vm, next + 1, &n);
  for (uint64_t queue = 0; queue < 16; queue++) {
    CALL(OK, told, vm, queue, 0, NULL, 0, &n, &total);
    CALL(OK, forget, vm, queue, total, &n);
  }
  for (int k = 0; k < BUFFERS; k++) CALL(OK, buffer_destroy, vm, of[k], &n);
}

/* A large space that was emptied gives its memory back, but for what a new one holds and KEPT; and once more, where all smaller blocks
 * were refused before. */
static void large_space_is_trimmed(void) {
  struct vmbind_vm vm = VMBIND_INIT;
  const struct vmbind_config config = VMBIND_CONFIG_DEFAULT;
  struct vmbind_buffer of[BUFFERS];
  struct seen before, after;
  uint64_t n;
  left = -1;
  held = asked = 0;
  bytes = 0;
  CALL(OK, create, &vm, &config);
  const size_t anew = bytes;
  for (int turn = 0; turn < 2; turn++) {
    fill(&vm, of);
    CHECK(bytes > 100 * anew);
    empty(&vm, of);
    look(&vm, &before);
    const size_t emptied = bytes;
    left = turn == 0 ? -1 : 0;
    for_good = 1;
    CALL(OK, trim, &vm, &n);
    CHECK(bytes <= emptied);
    left = -1;
    look(&vm, &after);
    CHECK(!memcmp(&before, &after, sizeof after));
    CALL(OK, trim, &vm, &n);
    if (!CHECK(emptied > 4 * bytes && bytes < anew + KEPT)) printf("  of %zu bytes %zu, anew %zu\n", emptied, bytes, anew);
  }
  CALL(OK, destroy, &vm);
  CHECK(held == 0 && bytes == 0);
}

int main(void) {
  struct seen last;
  uint64_t done = 0;
  char reverted[4] = { 0 };
  for (long n = 0; n < 100 && done < 3; n++) reverted[done = leaf_without_memory(n)] = 1;
  CHECK(reverted[0] && reverted[2] && reverted[3]);
  large_space_is_trimmed();
  run(-1, 0, &last);
  long most = asked;
  CHECK(most > 50 && last.next > last.first && last.mappings > 4);
  for (int all = 0; all < 2; all++)
    for (long n = 0; n < most && failed < 20; n++) {
      /* Room is asked for twice as much as there is, and where that is refused for just what is needed: one request more. */
      long lacks = run(n, all, &last);
      if (!CHECK(lacks > 0 || (!all && asked == most + 1))) printf("  request %ld refused, all %d: %ld asked of %ld\n", n, all, asked, most);
    }
  for (int k = 0; k < DOINGS; k++)
    if (!CHECK(lacked[k] == grows[k])) printf("  doing %d\n", k);
  CHECK(left_as[VMBIND_NOT_PUT] && left_as[VMBIND_PENDING] && left_as[VMBIND_REFUSED]);
  printf("%ld requests for memory\n", most);
  return ended("memory");
}
