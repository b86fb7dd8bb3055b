/* Each function called, each status met but the two that are never answered, and bad use, which answers statuses. */
#include "check.h"

#define COUNT(list) (sizeof(list) / sizeof *(list))
#define PAGE VMBIND_PAGE

static struct vmbind_vm made(struct vmbind_config config) {
  struct vmbind_vm vm = VMBIND_INIT;
  CALL(OK, create, &vm, &config);
  return vm;
}

static const struct vmbind_config greatest = VMBIND_CONFIG_DEFAULT;

/* Every call but create on an empty handle: the status, and zeros in all that it may write. */
static void on_empty(struct vmbind_vm *vm) {
  struct vmbind_buffer buffer;
  struct vmbind_uses uses;
  struct vmbind_outcome outcome, outcomes[2];
  struct vmbind_op op = unmap(0, PAGE), ops[2];
  struct vmbind_request request = asks(0, &op, 1);
  struct vmbind_translation translation, translations[2];
  struct vmbind_mapping mappings[2];
  struct vmbind_past_entry past[2];
  struct vmbind_table_counts counts;
  struct vmbind_step steps[2];
  struct vmbind_entry_info info;
  struct vmbind_access access = { 0, VMBIND_READ, 0 };
  struct vmbind_buffer none = { 0, 0, 0 };
  uint64_t a, b, addresses[2] = { 0, 1 };
#define ZERO(it) CHECK(is_zero(&(it), sizeof(it)))
  SPOIL(buffer); CALL(NO_VM, buffer_create, vm, 1, &buffer); ZERO(buffer);
  SPOIL(a); CALL(NO_VM, buffer_destroy, vm, none, &a); ZERO(a);
  SPOIL(uses); CALL(NO_VM, buffer_uses, vm, none, &uses); ZERO(uses);
  SPOIL(outcome); CALL(NO_VM, bind, vm, &request, &outcome); ZERO(outcome);
  SPOIL(a); CALL(NO_VM, submit, vm, &request, &a); ZERO(a);
  SPOIL(outcome); CALL(NO_VM, serve, vm, 0, 0, &outcome); ZERO(outcome);
  SPOIL(outcomes); SPOIL(a); SPOIL(b); CALL(NO_VM, told, vm, 0, 0, outcomes, 2, &a, &b); ZERO(a); ZERO(b);
  CHECK(is_stale(outcomes, sizeof outcomes));
  SPOIL(a); CALL(NO_VM, forget, vm, 0, 0, &a); ZERO(a);
  SPOIL(a); CALL(NO_VM, timeline_raise, vm, 0, 1, &a); ZERO(a);
  SPOIL(a); CALL(NO_VM, timeline_value, vm, 0, &a); ZERO(a);
  SPOIL(a); CALL(NO_VM, rewind, vm, &a); ZERO(a);
  SPOIL(a); CALL(NO_VM, withdraw, vm, 0, &a); ZERO(a);
  SPOIL(a); CALL(NO_VM, settle, vm, 0, &a); ZERO(a);
  SPOIL(a); CALL(NO_VM, trim, vm, &a); ZERO(a);
  SPOIL(a); SPOIL(b); CALL(NO_VM, journal, vm, &a, &b); ZERO(a); ZERO(b);
  SPOIL(info); SPOIL(ops); SPOIL(a); CALL(NO_VM, entry, vm, 0, &info, ops, 2, &a); ZERO(info); ZERO(a);
  CHECK(is_stale(ops, sizeof ops));
  SPOIL(translation); CALL(NO_VM, translate, vm, 0, &translation); ZERO(translation);
  SPOIL(translations); CALL(NO_VM, translate_many, vm, addresses, 2, translations, 1);
  CHECK(is_stale(translations, sizeof translations));
  SPOIL(translation); CALL(NO_VM, walk, vm, 0, &translation); ZERO(translation);
  SPOIL(translations); CALL(NO_VM, walk_many, vm, addresses, 2, translations, 1);
  CHECK(is_stale(translations, sizeof translations));
  SPOIL(mappings); SPOIL(a); SPOIL(b); CALL(NO_VM, mappings, vm, 0, mappings, 2, &a, &b); ZERO(a); ZERO(b);
  CHECK(is_stale(mappings, sizeof mappings));
  SPOIL(past); SPOIL(a); SPOIL(b); CALL(NO_VM, past, vm, 0, 0, past, 2, &a, &b); ZERO(a); ZERO(b);
  CHECK(is_stale(past, sizeof past));
  SPOIL(translation); CALL(NO_VM, base, vm, 0, &translation); ZERO(translation);
  SPOIL(counts); CALL(NO_VM, tables, vm, &counts); ZERO(counts);
  op.kind = 77;
  SPOIL(steps); SPOIL(a); SPOIL(b); CALL(NO_VM, plan, vm, &op, steps, 2, &a, &b); ZERO(a); ZERO(b);
  CHECK(is_stale(steps, sizeof steps));
  SPOIL(outcome); CALL(NO_VM, bind, vm, &request, &outcome); ZERO(outcome);   /* before the bad kind */
  SPOIL(a); CALL(NO_VM, job_begin, vm, &access, 1, &a); ZERO(a);
  CALL(NO_VM, job_end, vm, 0);
  CALL(NO_VM, destroy, vm);
  CHECK(vm->at == NULL);
#undef ZERO
}

static void handles(void) {
  struct vmbind_vm vm = VMBIND_INIT, moved = VMBIND_INIT;
  struct vmbind_config config = greatest;
  struct vmbind_buffer buffer;
  void *at;
  on_empty(&vm);
  CALL(OK, create, &vm, &config);
  CHECK((at = vm.at) != NULL);
  CALL(OK, buffer_create, &vm, 3, &buffer);
  config.queues = 0;
  CALL(NOT_NULL, create, &vm, &config);   /* before the bad config */
  CHECK(vm.at == at);
  moved = vm;                             /* moved as a whole: the old place isn't used any more */
  vm.at = NULL;
  struct vmbind_uses uses;
  CALL(OK, buffer_uses, &moved, buffer, &uses);
  CHECK(uses.pages == 3);
  CALL(OK, destroy, &moved);
  CHECK(moved.at == NULL);
  on_empty(&moved);
  CALL(OK, create, &moved, &greatest);    /* an emptied handle may be used again */
  CALL(NO_BUFFER, buffer_uses, &moved, buffer, &uses);
  CALL(OK, destroy, &moved);
}

/* Fields of a config, by their place, and numbers that they may not have. */
static void configs(void) {
  static const struct { const char *field; size_t at; uint64_t number; vmbind_status wanted; } rows[] = {
#define ROW(field, number, wanted) { #field, offsetof(struct vmbind_config, field), number, VMBIND_##wanted }
    ROW(start, 1, BAD_ARGUMENT), ROW(start, PAGE, BAD_ARGUMENT), ROW(start, UINT64_MAX - PAGE + 1, BAD_ARGUMENT),
    ROW(size, 0, BAD_ARGUMENT), ROW(size, PAGE + 1, BAD_ARGUMENT), ROW(size, (UINT64_C(1) << 57) + PAGE, BAD_ARGUMENT),
    ROW(size, UINT64_MAX - PAGE + 1, BAD_ARGUMENT), ROW(size, PAGE, OK),
    ROW(reserved_start, 5, BAD_ARGUMENT), ROW(reserved_start, UINT64_MAX - PAGE + 1, OK), ROW(reserved_size, 5, BAD_ARGUMENT),
    ROW(reserved_size, UINT64_C(1) << 57, OK), ROW(reserved_size, (UINT64_C(1) << 57) + PAGE, BAD_ARGUMENT),
    ROW(buffers, 0, BAD_ARGUMENT), ROW(buffers, 1, OK), ROW(buffers, 65537, BAD_ARGUMENT), ROW(buffers, UINT64_MAX, BAD_ARGUMENT),
    ROW(mappings, 0, BAD_ARGUMENT), ROW(mappings, 1, OK), ROW(mappings, 1048577, BAD_ARGUMENT),
    ROW(items, 0, BAD_ARGUMENT), ROW(items, 1, OK), ROW(items, 65537, BAD_ARGUMENT),
    ROW(told, 0, BAD_ARGUMENT), ROW(told, 1, OK), ROW(told, 65537, BAD_ARGUMENT),
    ROW(queues, 0, BAD_ARGUMENT), ROW(queues, 1, OK), ROW(queues, 17, BAD_ARGUMENT), ROW(queues, UINT64_C(1) << 32, BAD_ARGUMENT),
    ROW(depth, 0, BAD_ARGUMENT), ROW(depth, 1, OK), ROW(depth, 65537, BAD_ARGUMENT), ROW(depth, UINT64_C(1) << 63, BAD_ARGUMENT),
    ROW(timelines, 0, BAD_ARGUMENT), ROW(timelines, 1, OK), ROW(timelines, 65, BAD_ARGUMENT),
#undef ROW
  };
  for (size_t k = 0; k < COUNT(rows); k++) {
    struct vmbind_config config = greatest;
    struct vmbind_vm vm = VMBIND_INIT;
    memcpy((char *)&config + rows[k].at, &rows[k].number, sizeof rows[k].number);
    vmbind_status status = vmbind_create(&vm, &config);
    if (!CHECK(status == rows[k].wanted && (status == VMBIND_OK) == (vm.at != NULL))) printf("  config.%s row %zu\n", rows[k].field, k);
    if (vm.at) CALL(OK, destroy, &vm);
  }
}

/* Operations in a space of 64 pages, of which pages 32 to 35 are reserved, with a buffer of 8 pages: alone, as the second one of a
 * request, and planned. */
static void operations(void) {
  struct vmbind_config config = greatest;
  config.start = 16 * PAGE;
  config.size = 64 * PAGE;
  config.reserved_start = 32 * PAGE;
  config.reserved_size = 4 * PAGE;
  struct vmbind_vm vm = made(config), other = made(greatest);
  struct vmbind_buffer b, dead, foreign, none = { 0, 0, 0 };
  uint64_t n;
  CALL(OK, buffer_create, &vm, 8, &b);
  CALL(OK, buffer_create, &vm, 1, &dead);
  CALL(OK, buffer_destroy, &vm, dead, &n);
  for (int k = 0; k < 5; k++) CALL(OK, buffer_create, &other, 1, &foreign);   /* an id that this space hasn't given yet */
  struct vmbind_buffer unmade = b, later = b;
  unmade.made = 2;
  later.generation++;
  const struct { struct vmbind_op op; vmbind_status wanted; } rows[] = {
    { map(16 * PAGE, 8 * PAGE, b, 0), VMBIND_OK },
    { map(79 * PAGE, PAGE, b, 7 * PAGE), VMBIND_OK },
    { { VMBIND_MAP, VMBIND_READ_ONLY, 20 * PAGE, PAGE, b, 0 }, VMBIND_OK },
    { { VMBIND_MAP_ZERO, VMBIND_READ_ONLY, 20 * PAGE, PAGE, none, 0 }, VMBIND_OK },
    { { VMBIND_MAP_ZERO, 0, 20 * PAGE, PAGE, dead, 77 }, VMBIND_OK },          /* fields that the kind hasn't aren't looked at */
    { { VMBIND_UNMAP, 0, 20 * PAGE, PAGE, dead, 77 }, VMBIND_OK },
    { { VMBIND_UNMAP_ALL, 0, 77, 0, b, 77 }, VMBIND_OK },
    { unmap(16 * PAGE, PAGE), VMBIND_OK },
    { map(16 * PAGE + 1, PAGE, b, 0), VMBIND_UNALIGNED },
    { map(16 * PAGE, PAGE - 1, b, 0), VMBIND_UNALIGNED },
    { map(16 * PAGE, PAGE, b, 1), VMBIND_UNALIGNED },
    { unmap(UINT64_MAX, UINT64_MAX), VMBIND_UNALIGNED },
    { map_zero(16 * PAGE, 0), VMBIND_EMPTY },
    { map_zero(15 * PAGE, PAGE), VMBIND_OUT_OF_SPACE },
    { map_zero(79 * PAGE, 2 * PAGE), VMBIND_OUT_OF_SPACE },
    { unmap(UINT64_MAX - PAGE + 1, PAGE), VMBIND_OUT_OF_SPACE },
    { unmap(UINT64_MAX - PAGE + 1, UINT64_MAX - PAGE + 1), VMBIND_OUT_OF_SPACE },
    { map_zero(31 * PAGE, 2 * PAGE), VMBIND_RESERVED },
    { unmap(35 * PAGE, PAGE), VMBIND_RESERVED },
    { map(16 * PAGE, PAGE, dead, 0), VMBIND_NO_BUFFER },
    { map(16 * PAGE, PAGE, none, 0), VMBIND_NO_BUFFER },
    { map(16 * PAGE, PAGE, unmade, 0), VMBIND_NO_BUFFER },
    { map(16 * PAGE, PAGE, later, 0), VMBIND_NO_BUFFER },
    { map(16 * PAGE, PAGE, foreign, 0), VMBIND_NO_BUFFER },
    { unmap_all(none), VMBIND_NO_BUFFER },
    { unmap_all(dead), VMBIND_NO_BUFFER },
    { map(16 * PAGE, 9 * PAGE, b, 0), VMBIND_OUT_OF_BUFFER },
    { map(16 * PAGE, PAGE, b, 8 * PAGE), VMBIND_OUT_OF_BUFFER },
    { map(16 * PAGE, PAGE, b, UINT64_MAX - PAGE + 1), VMBIND_OUT_OF_BUFFER },
    { { 0, 0, 16 * PAGE, PAGE, b, 0 }, VMBIND_BAD_ARGUMENT },
    { { 5, 0, 16 * PAGE, PAGE, b, 0 }, VMBIND_BAD_ARGUMENT },
    { { UINT32_MAX, 0, 16 * PAGE, PAGE, b, 0 }, VMBIND_BAD_ARGUMENT },
    { { VMBIND_MAP, 2, 16 * PAGE, PAGE, b, 0 }, VMBIND_BAD_ARGUMENT },
    { { VMBIND_MAP, UINT32_MAX, 16 * PAGE, PAGE, b, 0 }, VMBIND_BAD_ARGUMENT },
    { { VMBIND_MAP_ZERO, 2, 16 * PAGE, PAGE, none, 0 }, VMBIND_BAD_ARGUMENT },
    { { VMBIND_UNMAP, VMBIND_READ_ONLY, 16 * PAGE, PAGE, none, 0 }, VMBIND_BAD_ARGUMENT },
    { { VMBIND_UNMAP_ALL, VMBIND_READ_ONLY, 0, 0, b, 0 }, VMBIND_BAD_ARGUMENT },
  };
  struct vmbind_op first = map(40 * PAGE, 2 * PAGE, b, 0);
  struct vmbind_request request = asks(0, &first, 1);
  struct vmbind_outcome outcome;
  CALL(OK, bind, &vm, &request, &outcome);
  uint64_t number = 1;
  for (size_t k = 0; k < COUNT(rows); k++) {
    struct vmbind_op ops[2] = { map_zero(50 * PAGE, PAGE), rows[k].op };
    struct vmbind_translation at;
    struct vmbind_step steps[4];
    uint64_t count, total;
    int here = failed;
    request = asks(0, ops, 2);
    SPOIL(outcome);
    CHECK(vmbind_bind(&vm, &request, &outcome) == rows[k].wanted);
    CALL(OK, translate, &vm, 50 * PAGE, &at);
    if (rows[k].wanted == VMBIND_OK) {
      CHECK(outcome.kind == VMBIND_ACCEPTED && outcome.number == number && outcome.entry == 1 && outcome.fault == 0);
      CHECK(at.kind == VMBIND_ZEROS);
      CALL(OK, rewind, &vm, &n);
      CHECK(n == 1);
      number++;
    } else {
      struct vmbind_outcome wanted = { VMBIND_REFUSED, rows[k].wanted, number, 0, 1, 0, { 0, 0 }, 0 };
      if (rows[k].wanted == VMBIND_BAD_ARGUMENT) memset(&wanted, 0, sizeof wanted);
      else number++;
      CHECK(!memcmp(&outcome, &wanted, sizeof wanted));
      CHECK(at.kind == VMBIND_NOTHING);   /* not the first operation either */
    }
    SPOIL(steps);
    CHECK(vmbind_plan(&vm, &rows[k].op, steps, 4, &count, &total) == rows[k].wanted);
    CHECK(count <= 4 && count <= total && is_stale(steps + count, (4 - count) * sizeof *steps));
    if (rows[k].wanted != VMBIND_OK) CHECK(count == 0 && total == 0);
    if (failed != here) printf("  operation %zu\n", k);
    met[rows[k].wanted] = 1;
  }
  CALL(OK, destroy, &vm);
  CALL(OK, destroy, &other);
}

/* The picture at the head of the README: the list, the table, the plan, what each address reaches, and back again. */
static void picture(void) {
  struct vmbind_vm vm = made(greatest);
  struct vmbind_buffer b;
  struct vmbind_outcome outcome;
  struct vmbind_translation t;
  struct vmbind_mapping list[4];
  struct vmbind_step steps[4];
  struct vmbind_table_counts counts;
  uint64_t count, total, n;
  CALL(OK, tables, &vm, &counts);
  CHECK(is_zero(&counts, sizeof counts));
  CALL(OK, buffer_create, &vm, 4, &b);
  CHECK(b.made == 1);
  struct vmbind_op op = map(0, 0x4000, b, 0);
  struct vmbind_request request = asks(0, &op, 1);
  CALL(OK, plan, &vm, &op, steps, 4, &count, &total);
  CHECK(count == 1 && total == 1 && steps[0].kind == VMBIND_STEP_MAP && steps[0].keep == 0 && steps[0].mapping.size == 0x4000);
  CHECK(is_zero(&steps[0].prev, sizeof steps[0].prev) && is_zero(&steps[0].next, sizeof steps[0].next));
  CALL(OK, bind, &vm, &request, &outcome);
  op = unmap(0x1000, 0x1000);
  CALL(OK, plan, &vm, &op, steps, 4, &count, &total);
  CHECK(count == 1 && total == 1 && steps[0].kind == VMBIND_STEP_REMAP && steps[0].keep == 0);
  struct vmbind_mapping prev = { VMBIND_BUFFER, 0, 0, 0x1000, b, 0 }, next = { VMBIND_BUFFER, 0, 0x2000, 0x2000, b, 0x2000 };
  struct vmbind_mapping whole = { VMBIND_BUFFER, 0, 0, 0x4000, b, 0 };
  CHECK(!memcmp(&steps[0].mapping, &whole, sizeof whole) && !memcmp(&steps[0].prev, &prev, sizeof prev));
  CHECK(!memcmp(&steps[0].next, &next, sizeof next));
  CALL(OK, bind, &vm, &request, &outcome);
  CHECK(outcome.entry == 1 && outcome.number == 1);
  SPOIL(list);
  CALL(OK, mappings, &vm, 0, list, 4, &count, &total);
  CHECK(count == 2 && total == 2 && !memcmp(&list[0], &prev, sizeof prev) && !memcmp(&list[1], &next, sizeof next));
  CHECK(is_stale(list + 2, 2 * sizeof *list));
  SPOIL(list);
  CALL(OK, mappings, &vm, 1, list, 4, &count, &total);
  CHECK(count == 1 && total == 2 && !memcmp(&list[0], &next, sizeof next) && is_stale(list + 1, 3 * sizeof *list));
  CALL(OK, mappings, &vm, UINT64_MAX, NULL, 0, &count, &total);
  CHECK(count == 0 && total == 2);
  SPOIL(list);
  CALL(OK, mappings, &vm, 2, list, 4, &count, &total);
  CHECK(count == 0 && is_stale(list, sizeof list));
  CALL(OK, tables, &vm, &counts);
  for (int k = 0; k < 5; k++) CHECK(counts.tables[k] == 1);
  /* the same pages again: what may stay is kept */
  op = map(0, 0x4000, b, 0);
  CALL(OK, plan, &vm, &op, steps, 2, &count, &total);
  CHECK(count == 2 && total == 3 && steps[0].kind == VMBIND_STEP_UNMAP && steps[0].keep == 1 && steps[1].keep == 1);
  struct { uint64_t address; uint32_t kind; uint64_t run, byte; } rows[] = {
    { 0, VMBIND_BUFFER, 0x1000, 0 }, { 0xabc, VMBIND_BUFFER, 0x544, 0xabc }, { 0xfff, VMBIND_BUFFER, 1, 0xfff },
    { 0x1000, VMBIND_NOTHING, 0x1000, 0 }, { 0x1fff, VMBIND_NOTHING, 1, 0 }, { 0x2abc, VMBIND_BUFFER, 0x1544, 0x2abc },
    { 0x3fff, VMBIND_BUFFER, 1, 0x3fff }, { 0x4000, VMBIND_NOTHING, (UINT64_C(1) << 57) - 0x4000, 0 },
    { (UINT64_C(1) << 57) - 1, VMBIND_NOTHING, 1, 0 }, { UINT64_C(1) << 57, VMBIND_NOTHING, 0, 0 }, { UINT64_MAX, VMBIND_NOTHING, 0, 0 },
  };
  uint64_t addresses[COUNT(rows)];
  struct vmbind_translation many[COUNT(rows) + 1];
  for (size_t k = 0; k < COUNT(rows); k++) addresses[k] = rows[k].address;
  SPOIL(many);
  CALL(OK, translate_many, &vm, addresses, COUNT(rows), many, COUNT(rows));
  CHECK(is_stale(many + COUNT(rows), sizeof *many));
  for (size_t k = 0; k < COUNT(rows); k++) {
    struct vmbind_translation wanted = { rows[k].kind, 0, rows[k].run, { 0, 0, 0 }, rows[k].byte };
    if (wanted.kind == VMBIND_BUFFER) wanted.buffer = b;
    SPOIL(t);
    CALL(OK, translate, &vm, rows[k].address, &t);
    if (!CHECK(!memcmp(&t, &wanted, sizeof t)) || !CHECK(!memcmp(&t, &many[k], sizeof t))) printf("  address %zu\n", k);
    wanted.run = 0;
    SPOIL(t);
    CALL(OK, walk, &vm, rows[k].address, &t);
    if (!CHECK(!memcmp(&t, &wanted, sizeof t))) printf("  walk of address %zu\n", k);
  }
  SPOIL(many);
  CALL(OK, walk_many, &vm, addresses, COUNT(rows), many, COUNT(rows));
  CHECK(is_stale(many + COUNT(rows), sizeof *many));
  for (size_t k = 0; k < COUNT(rows); k++) CHECK(many[k].kind == rows[k].kind && many[k].byte == rows[k].byte && many[k].run == 0);
  SPOIL(many);
  CALL(BAD_ARGUMENT, translate_many, &vm, addresses, 3, many, 2);
  CHECK(is_stale(many, sizeof many));
  CALL(OK, translate_many, &vm, NULL, 0, NULL, 0);
  CALL(BAD_ARGUMENT, walk_many, &vm, addresses, 3, many, 2);
  CHECK(is_stale(many, sizeof many));
  CALL(OK, walk_many, &vm, NULL, 0, NULL, 0);
  CALL(OK, rewind, &vm, &n);
  CHECK(n == 1);
  CALL(OK, mappings, &vm, 0, list, 4, &count, &total);
  CHECK(count == 1 && total == 1 && !memcmp(&list[0], &whole, sizeof whole));
  /* zeros, read-only */
  struct vmbind_op sparse = { VMBIND_MAP_ZERO, VMBIND_READ_ONLY, 0x8000, 0x2000, { 0, 0, 0 }, 0 };
  request = asks(15, &sparse, 1);
  CALL(OK, bind, &vm, &request, &outcome);
  struct vmbind_translation zeros = { VMBIND_ZEROS, VMBIND_READ_ONLY, 0x1fff, { 0, 0, 0 }, 0 };
  CALL(OK, translate, &vm, 0x8001, &t);
  CHECK(!memcmp(&t, &zeros, sizeof t));
  zeros.run = 0;
  CALL(OK, walk, &vm, 0x8001, &t);
  CHECK(!memcmp(&t, &zeros, sizeof t));
  CALL(OK, mappings, &vm, 1, list, 1, &count, &total);
  CHECK(count == 1 && list[0].kind == VMBIND_ZEROS && list[0].flags == VMBIND_READ_ONLY && list[0].offset == 0 && list[0].buffer.made == 0);
  CALL(OK, destroy, &vm);
}

static void queues(void) {
  struct vmbind_config config = greatest;
  config.queues = 3;
  config.depth = 2;
  config.told = 6;
  config.timelines = 4;
  struct vmbind_vm vm = made(config);
  struct vmbind_outcome o, list[8];
  struct vmbind_op op = map_zero(0, PAGE), bad = map_zero(1, PAGE);
  struct vmbind_point five = { 3, 5 }, one = { 0, 1 }, past = { 4, 0 };
  uint64_t n, count, total;
  const struct vmbind_request wrong[] = {
    { 3, &op, 1, NULL, 0, NULL, 0 }, { UINT64_MAX, &op, 1, NULL, 0, NULL, 0 }, { 0, &op, 1, &past, 1, NULL, 0 },
    { 0, &op, 1, NULL, 0, &past, 1 },
  };
  for (size_t k = 0; k < COUNT(wrong); k++) {
    SPOIL(o); SPOIL(n);
    CALL(BAD_ARGUMENT, bind, &vm, &wrong[k], &o);
    CALL(BAD_ARGUMENT, submit, &vm, &wrong[k], &n);
    CHECK(is_zero(&o, sizeof o) && n == 0);
  }
  CALL(BAD_ARGUMENT, serve, &vm, 3, 0, &o);
  CALL(BAD_ARGUMENT, serve, &vm, 0, 2, &o);
  CHECK(o.kind == VMBIND_NOT_PUT);
  CALL(BAD_ARGUMENT, told, &vm, 3, 0, list, 8, &count, &total);
  CALL(BAD_ARGUMENT, told, &vm, 16, 0, list, 8, &count, &total);
  CALL(BAD_ARGUMENT, timeline_raise, &vm, 4, 1, &n);
  CALL(BAD_ARGUMENT, timeline_value, &vm, UINT64_MAX, &n);
  SPOIL(o);
  CALL(IDLE, serve, &vm, 0, 0, &o);
  CHECK(is_zero(&o, sizeof o));
  CALL(IDLE, serve, &vm, 0, VMBIND_GIVE_UP, &o);
  /* a request that waits stays; the next one stays behind it */
  struct vmbind_request waits = { 1, &op, 1, &five, 1, &one, 1 }, plain = asks(1, &bad, 1), empty = asks(1, NULL, 0);
  SPOIL(o);
  CALL(NOT_READY, bind, &vm, &waits, &o);
  struct vmbind_outcome pending = { VMBIND_PENDING, 0, 0, 0, 0, 0, { 3, 5 }, 0 };
  CHECK(!memcmp(&o, &pending, sizeof o));
  CALL(OK, timeline_raise, &vm, 3, 4, &n);
  CHECK(n == 4);
  CALL(NOT_READY, bind, &vm, &plain, &o);
  CHECK(o.kind == VMBIND_PENDING && o.number == 1 && o.point.timeline == 3 && o.point.value == 5 && o.have == 4);
  CALL(OK, submit, &vm, &empty, &n);
  CHECK(n == 2);
  SPOIL(n);
  CALL(QUEUE_FULL, submit, &vm, &empty, &n);
  CHECK(n == 0);
  SPOIL(o);
  CALL(QUEUE_FULL, bind, &vm, &empty, &o);
  CHECK(is_zero(&o, sizeof o));
  CALL(NOT_READY, serve, &vm, 1, 0, &o);
  CHECK(o.kind == VMBIND_PENDING && o.number == 0);
  CALL(OK, told, &vm, 1, 0, list, 8, &count, &total);
  CHECK(count == 0 && total == 0);
  CALL(OK, timeline_raise, &vm, 3, 2, &n);
  CHECK(n == 4);
  CALL(OK, timeline_raise, &vm, 3, 9, &n);
  CALL(OK, timeline_value, &vm, 3, &n);
  CHECK(n == 9);
  CALL(OK, serve, &vm, 1, 0, &o);
  CHECK(o.kind == VMBIND_ACCEPTED && o.number == 0 && o.entry == 0);
  CALL(OK, timeline_value, &vm, 0, &n);
  CHECK(n == 1);   /* signalled */
  /* a bind puts before it serves, so two that wait leave no place; it serves what was put before it, whatever that comes to */
  CALL(QUEUE_FULL, bind, &vm, &empty, &o);
  CALL(UNALIGNED, serve, &vm, 1, 0, &o);
  CHECK(o.kind == VMBIND_REFUSED && o.number == 1);
  CALL(OK, bind, &vm, &empty, &o);
  CHECK(o.kind == VMBIND_ACCEPTED && o.number == 3 && o.entry == 2);
  SPOIL(list);
  CALL(OK, told, &vm, 1, 0, list, 8, &count, &total);
  struct vmbind_outcome refused = { VMBIND_REFUSED, VMBIND_UNALIGNED, 1, 0, 0, 0, { 0, 0 }, 0 };
  CHECK(count == 4 && total == 4 && !memcmp(&list[1], &refused, sizeof refused) && list[2].entry == 1 && list[3].number == 3);
  CHECK(is_stale(list + 4, 4 * sizeof *list));
  SPOIL(list);
  CALL(OK, told, &vm, 1, 3, list, 1, &count, &total);
  CHECK(count == 1 && total == 4 && list[0].number == 3 && is_stale(list + 1, 7 * sizeof *list));
  CALL(OK, told, &vm, 1, UINT64_MAX, list, 8, &count, &total);
  CHECK(count == 0 && total == 4);
  /* given up, and told so; its signals are not raised */
  struct vmbind_point high = { 3, 10 }, two = { 0, 2 };
  struct vmbind_request never = { 1, &op, 1, &high, 1, &two, 1 };
  CALL(NOT_READY, bind, &vm, &never, &o);
  CALL(NOT_READY, serve, &vm, 1, VMBIND_GIVE_UP, &o);
  struct vmbind_outcome up = { VMBIND_GIVEN_UP, 0, 4, 0, 0, 0, { 3, 10 }, 9 };
  CHECK(!memcmp(&o, &up, sizeof o));
  CALL(OK, told, &vm, 1, 4, list, 8, &count, &total);
  CHECK(count == 1 && !memcmp(&list[0], &up, sizeof up));
  CALL(OK, timeline_value, &vm, 0, &n);
  CHECK(n == 1);
  CALL(OK, bind, &vm, &empty, &o);
  CALL(QUEUE_SPENT, bind, &vm, &empty, &o);
  CHECK(is_zero(&o, sizeof o));
  CALL(QUEUE_SPENT, submit, &vm, &empty, &n);
  /* give-up of one that waits for nothing carries it out */
  struct vmbind_request other = asks(2, &op, 1);
  CALL(OK, submit, &vm, &other, &n);
  CALL(OK, serve, &vm, 2, VMBIND_GIVE_UP, &o);
  CHECK(o.kind == VMBIND_ACCEPTED);
  /* a request of 257 operations is refused whole */
  struct vmbind_op ops[257];
  for (size_t k = 0; k < COUNT(ops); k++) ops[k] = unmap(0, PAGE);
  other = asks(0, ops, 257);
  CALL(TOO_MANY_OPS, bind, &vm, &other, &o);
  CHECK(o.kind == VMBIND_REFUSED && o.op == 0 && o.fault == VMBIND_TOO_MANY_OPS);
  other.op_count = 256;
  CALL(OK, bind, &vm, &other, &o);
  /* counts that no array has: there is no memory for them, and nothing is read */
  struct vmbind_request huge[] = { { 0, &op, SIZE_MAX / 2 + 1, NULL, 0, NULL, 0 }, { 0, &op, 1, &five, SIZE_MAX / 2 + 1, NULL, 0 },
                                   { 0, &op, 1, NULL, 0, &five, SIZE_MAX / 2 + 1 } };
  for (size_t k = 0; k < COUNT(huge); k++) {
    SPOIL(o);
    CALL(OUT_OF_MEMORY, bind, &vm, &huge[k], &o);
    CHECK(is_zero(&o, sizeof o));
    CALL(OUT_OF_MEMORY, submit, &vm, &huge[k], &n);
  }
  CALL(OK, told, &vm, 0, 0, NULL, 0, &count, &total);
  CHECK(count == 0 && total == 2);
  CALL(OK, destroy, &vm);
}

/* What is left of a queue's outcomes: `count` of them, from number `first` on. */
static void still_told(struct vmbind_vm *vm, uint64_t queue, uint64_t first, uint64_t count) {
  struct vmbind_outcome list[8];
  uint64_t written, total;
  SPOIL(list);
  CALL(OK, told, vm, queue, 0, list, 8, &written, &total);
  CHECK(written == count && total == first + count && is_stale(list + count, (8 - count) * sizeof *list));
  for (uint64_t k = 0; k < count; k++) CHECK(list[k].number == first + k);
}

/* A queue that holds three outcomes and requests that wait. */
static void forgetting(void) {
  struct vmbind_config config = greatest;
  config.queues = 2;
  config.told = 3;
  struct vmbind_vm vm = made(config);
  struct vmbind_outcome o, list[8];
  struct vmbind_op op = map_zero(0, PAGE), bad = map_zero(1, PAGE);
  struct vmbind_point five = { 3, 5 };
  struct vmbind_request good = asks(1, &op, 1), refused = asks(1, &bad, 1), waits = { 1, &op, 1, &five, 1, NULL, 0 }, other = asks(0, &op, 1);
  uint64_t n, count, total, first, next;
  SPOIL(n);
  CALL(OK, forget, &vm, 1, 0, &n);
  CHECK(n == 0);
  const struct { uint64_t queue, to; } none[] = { { 1, 1 }, { 1, UINT64_MAX }, { 2, 1 }, { 16, 0 }, { UINT64_MAX, 0 } };
  for (size_t k = 0; k < COUNT(none); k++) {
    SPOIL(n);
    CALL(NO_OUTCOME, forget, &vm, none[k].queue, none[k].to, &n);
    CHECK(n == 0);
  }
  CALL(OK, bind, &vm, &good, &o);
  CALL(UNALIGNED, bind, &vm, &refused, &o);
  CALL(OK, bind, &vm, &good, &o);
  CALL(OK, bind, &vm, &other, &o);
  CHECK(o.entry == 2);
  CALL(QUEUE_SPENT, bind, &vm, &good, &o);
  /* outcomes of entries that are held stay */
  SPOIL(n);
  CALL(HELD, forget, &vm, 1, 3, &n);
  CHECK(n == 0);
  CALL(OK, settle, &vm, 1, &n);
  CALL(HELD, forget, &vm, 1, 3, &n);
  CHECK(n == 1);
  CALL(NO_OUTCOME, forget, &vm, 1, 4, &n);   /* before VMBIND_HELD */
  CHECK(n == 0);
  still_told(&vm, 1, 0, 3);
  CALL(OK, forget, &vm, 1, 2, &n);           /* the one that is settled, and the one that was refused */
  CHECK(n == 2);
  still_told(&vm, 1, 2, 1);
  CALL(OK, forget, &vm, 1, 2, &n);
  CHECK(n == 0);
  CALL(NO_OUTCOME, forget, &vm, 1, 1, &n);
  CALL(NO_OUTCOME, forget, &vm, 1, 0, &n);
  CALL(OK, journal, &vm, &first, &next);
  CHECK(first == 1 && next == 3);
  /* there is room for two, of which one waits; numbers go on */
  CALL(OK, bind, &vm, &good, &o);
  CHECK(o.kind == VMBIND_ACCEPTED && o.number == 3 && o.entry == 3);
  CALL(NOT_READY, bind, &vm, &waits, &o);
  CHECK(o.number == 4);
  CALL(QUEUE_SPENT, bind, &vm, &good, &o);
  CALL(QUEUE_SPENT, submit, &vm, &good, &n);
  CALL(NO_OUTCOME, forget, &vm, 1, 5, &n);   /* the one that waits was told nothing */
  CALL(NOT_READY, serve, &vm, 1, VMBIND_GIVE_UP, &o);
  CHECK(o.kind == VMBIND_GIVEN_UP && o.number == 4);
  CALL(QUEUE_SPENT, bind, &vm, &good, &o);
  still_told(&vm, 1, 2, 3);
  SPOIL(list);
  CALL(OK, told, &vm, 1, 1, list, 1, &count, &total);   /* from one that is forgotten */
  CHECK(count == 1 && total == 5 && list[0].number == 2 && list[0].entry == 1 && is_stale(list + 1, 7 * sizeof *list));
  SPOIL(list);
  CALL(OK, told, &vm, 1, 3, list, 8, &count, &total);
  CHECK(count == 2 && total == 5 && list[0].number == 3 && list[1].kind == VMBIND_GIVEN_UP && is_stale(list + 2, 6 * sizeof *list));
  CALL(OK, told, &vm, 1, UINT64_MAX, list, 8, &count, &total);
  CHECK(count == 0 && total == 5);
  /* what was taken back is held no more, and stays told until it is forgotten */
  CALL(OK, rewind, &vm, &n);
  still_told(&vm, 1, 2, 3);
  CALL(HELD, forget, &vm, 1, 5, &n);
  CHECK(n == 1);
  CALL(OK, settle, &vm, 2, &n);
  CALL(OK, forget, &vm, 1, 5, &n);
  CHECK(n == 3);
  still_told(&vm, 1, 5, 0);
  still_told(&vm, 0, 0, 1);
  CALL(HELD, forget, &vm, 0, 1, &n);
  CHECK(n == 2);
  CALL(OK, bind, &vm, &good, &o);
  CHECK(o.number == 5 && o.entry == 3);
  still_told(&vm, 1, 5, 1);
  CALL(OK, mappings, &vm, 0, NULL, 0, &count, &total);
  CHECK(total == 1);
  CALL(OK, destroy, &vm);
}

/* Room is given back once no entry is held, and nothing else is seen of it. */
static void trimming(void) {
  struct vmbind_vm vm = made(greatest);
  struct vmbind_buffer buffer;
  struct vmbind_outcome o;
  struct vmbind_translation t;
  uint64_t n;
  SPOIL(n);
  CALL(OK, trim, &vm, &n);
  CHECK(n == 0);
  CALL(OK, buffer_create, &vm, 4, &buffer);
  const struct vmbind_op all = map(0, 4 * PAGE, buffer, 0), one = unmap(PAGE, PAGE);
  struct vmbind_request request = asks(0, &all, 1);
  for (int k = 0; k < 3; k++) CALL(OK, bind, &vm, &request, &o);
  SPOIL(n);
  CALL(HELD, trim, &vm, &n);
  CHECK(n == 0);
  CALL(OK, settle, &vm, 2, &n);
  SPOIL(n);
  CALL(HELD, trim, &vm, &n);
  CHECK(n == 2);
  CALL(OK, settle, &vm, 3, &n);
  SPOIL(n);
  CALL(OK, trim, &vm, &n);
  CHECK(n == 0);
  still_told(&vm, 0, 0, 3);
  request = asks(1, &one, 1);
  CALL(OK, bind, &vm, &request, &o);
  CHECK(o.number == 0 && o.entry == 3);
  CALL(OK, translate, &vm, PAGE, &t);
  CHECK(t.kind == VMBIND_NOTHING);
  CALL(HELD, trim, &vm, &n);
  CHECK(n == 3);
  CALL(OK, rewind, &vm, &n);
  CALL(OK, trim, &vm, &n);
  CALL(OK, walk, &vm, PAGE, &t);
  CHECK(t.kind == VMBIND_BUFFER && same_buffer(t.buffer, buffer) && t.byte == PAGE);
  CALL(OK, translate, &vm, PAGE, &t);
  CHECK(t.kind == VMBIND_BUFFER && same_buffer(t.buffer, buffer) && t.byte == PAGE && t.run == 3 * PAGE);
  CALL(OK, destroy, &vm);
}

static void going_back(void) {
  struct vmbind_config config = greatest;
  config.items = 5;
  config.mappings = 3;
  struct vmbind_vm vm = made(config);
  struct vmbind_buffer a, b;
  struct vmbind_outcome o;
  struct vmbind_uses uses;
  struct vmbind_entry_info info;
  struct vmbind_op list[4];
  uint64_t n, count, first, next;
  SPOIL(n);
  CALL(NO_ENTRY, rewind, &vm, &n);
  CHECK(n == 0);
  CALL(NO_ENTRY, withdraw, &vm, 0, &n);
  CALL(NO_ENTRY, settle, &vm, 1, &n);
  CALL(OK, settle, &vm, 0, &n);
  CHECK(n == 0);
  CALL(NO_ENTRY, entry, &vm, 0, &info, list, 4, &count);
  CALL(OK, buffer_create, &vm, 9, &a);
  CALL(OK, buffer_create, &vm, 2, &b);
  struct vmbind_op one = map(0, 9 * PAGE, a, 0), two[2] = { map(3 * PAGE, 2 * PAGE, b, 0), unmap(20 * PAGE, PAGE) };
  two[0].flags = VMBIND_READ_ONLY;
  struct vmbind_request request = asks(0, &one, 1);
  CALL(OK, bind, &vm, &request, &o);
  request = asks(7, two, 2);
  CALL(OK, bind, &vm, &request, &o);
  CALL(OK, journal, &vm, &first, &next);
  CHECK(first == 0 && next == 2);
  SPOIL(list);
  CALL(OK, entry, &vm, 1, &info, list, 4, &count);
  CHECK(info.kind == VMBIND_ENTRY_BIND && info.withdrawn == 0 && info.queue == 7 && info.number == 0 && info.ops == 2 && info.of == 0);
  CHECK(count == 2 && !memcmp(list, two, sizeof two) && is_stale(list + 2, 2 * sizeof *list));
  SPOIL(list);
  CALL(OK, entry, &vm, 1, &info, list, 1, &count);
  CHECK(count == 1 && info.ops == 2 && !memcmp(list, two, sizeof *two) && is_stale(list + 1, 3 * sizeof *list));
  CALL(OK, entry, &vm, 1, &info, NULL, 0, &count);
  CHECK(count == 0);
  CALL(NO_ENTRY, entry, &vm, 2, &info, list, 4, &count);
  CHECK(is_zero(&info, sizeof info) && count == 0);
  CALL(NO_ENTRY, entry, &vm, UINT64_MAX, &info, list, 4, &count);
  CALL(OK, buffer_uses, &vm, a, &uses);
  CHECK(uses.pages == 9 && uses.mapped == 2 && uses.kept == 1);
  CALL(MAPPED, buffer_destroy, &vm, a, &n);
  CHECK(n == 2);
  CALL(TOUCHED, withdraw, &vm, 0, &n);
  CHECK(n == 1);
  struct vmbind_op four[2] = { map_zero(30 * PAGE, PAGE), map_zero(40 * PAGE, PAGE) };
  request = asks(0, four, 2);
  CALL(TOO_MANY_MAPPINGS, bind, &vm, &request, &o);
  CHECK(o.op == 0);
  CALL(OK, withdraw, &vm, 1, &n);
  CHECK(n == 2);
  CALL(OK, entry, &vm, 2, &info, list, 4, &count);
  CHECK(info.kind == VMBIND_ENTRY_WITHDRAWAL && info.of == 1 && info.ops == 0 && info.queue == 0 && info.withdrawn == 0 && count == 0);
  CALL(OK, entry, &vm, 1, &info, list, 4, &count);
  CHECK(info.kind == VMBIND_ENTRY_BIND && info.withdrawn == 1);
  CALL(WITHDRAWN, withdraw, &vm, 1, &n);
  CALL(NOT_A_BIND, withdraw, &vm, 2, &n);
  CALL(NO_ENTRY, withdraw, &vm, 3, &n);
  CHECK(n == 0);
  CALL(CROSSED, settle, &vm, 2, &n);
  CHECK(n == 2);
  CALL(NO_ENTRY, settle, &vm, 4, &n);
  CHECK(n == 0);
  CALL(NO_ENTRY, settle, &vm, UINT64_MAX, &n);
  struct vmbind_op all[2] = { unmap_all(a), unmap_all(b) };
  request = asks(0, all, 2);
  CALL(OK, bind, &vm, &request, &o);
  CHECK(o.entry == 3);
  CALL(OK, entry, &vm, 3, &info, list, 4, &count);
  CHECK(count == 2 && !memcmp(list, all, sizeof all));
  CALL(OK, buffer_uses, &vm, b, &uses);
  CHECK(uses.mapped == 0 && uses.kept == 1);
  CALL(KEPT, buffer_destroy, &vm, b, &n);
  CHECK(n == 1);
  struct vmbind_op odd = { VMBIND_UNMAP, 0, 0, PAGE, b, 77 }, even = unmap(0, PAGE);   /* a buffer and an offset to no purpose */
  request = asks(0, &odd, 1);
  CALL(OK, bind, &vm, &request, &o);
  CALL(OK, entry, &vm, 4, &info, list, 4, &count);
  CHECK(count == 1 && !memcmp(list, &even, sizeof even));
  request = asks(0, NULL, 0);
  CALL(JOURNAL_FULL, bind, &vm, &request, &o);
  CHECK(o.kind == VMBIND_REFUSED && o.op == 0);
  CALL(JOURNAL_FULL, withdraw, &vm, 4, &n);
  CALL(OK, settle, &vm, 3, &n);
  CHECK(n == 3);
  CALL(OK, journal, &vm, &first, &next);
  CHECK(first == 3 && next == 5);
  CALL(NO_ENTRY, entry, &vm, 0, &info, list, 4, &count);
  CALL(NO_ENTRY, settle, &vm, 2, &n);
  CALL(OK, settle, &vm, 5, &n);
  CHECK(n == 2);
  SPOIL(n);
  CALL(OK, buffer_destroy, &vm, b, &n);
  CHECK(n == 0);
  CALL(NO_BUFFER, buffer_destroy, &vm, b, &n);
  CALL(NO_BUFFER, buffer_uses, &vm, b, &uses);
  CHECK(is_zero(&uses, sizeof uses));
  CALL(OK, destroy, &vm);
}

static void buffers_and_jobs(void) {
  struct vmbind_config config = greatest;
  config.buffers = 2;
  struct vmbind_vm vm = made(config);
  struct vmbind_buffer a, b, c;
  struct vmbind_outcome o;
  uint64_t n, job;
  SPOIL(a);
  CALL(BAD_SIZE, buffer_create, &vm, 0, &a);
  CHECK(is_zero(&a, sizeof a));
  CALL(BAD_SIZE, buffer_create, &vm, (UINT64_C(1) << 36) + 1, &a);
  CALL(BAD_SIZE, buffer_create, &vm, UINT64_MAX, &a);
  CALL(OK, buffer_create, &vm, UINT64_C(1) << 36, &a);
  CALL(OK, buffer_create, &vm, 2, &b);
  CHECK(!same_buffer(a, b));
  CALL(TOO_MANY_BUFFERS, buffer_create, &vm, 1, &c);
  CALL(BAD_SIZE, buffer_create, &vm, 0, &c);
  struct vmbind_op ops[3] = { map(0, PAGE, a, 0), map(PAGE, PAGE, b, 0), map_zero(2 * PAGE, PAGE) };
  ops[1].flags = VMBIND_READ_ONLY;
  struct vmbind_request request = asks(0, ops, 3);
  CALL(OK, bind, &vm, &request, &o);
  struct vmbind_access good[3] = { { 5, VMBIND_WRITE, 0 }, { PAGE, VMBIND_READ, 77 }, { 2 * PAGE, VMBIND_WRITE, 0 } };
  CALL(OK, job_begin, &vm, good, 3, &job);
  CHECK(job == 0);
  const struct { struct vmbind_access access; vmbind_status wanted; uint64_t number; } rows[] = {
    { { 3 * PAGE, VMBIND_READ, 0 }, VMBIND_UNMAPPED, 1 }, { { UINT64_MAX, VMBIND_WRITE, 0 }, VMBIND_UNMAPPED, 1 },
    { { PAGE, VMBIND_WRITE, 0 }, VMBIND_WRITE_TO_READ_ONLY, 1 }, { { 0, VMBIND_READ, 0 }, VMBIND_CONFLICT, 0 },
    { { PAGE, 2, 0 }, VMBIND_BAD_ARGUMENT, 0 }, { { PAGE, UINT32_MAX, 0 }, VMBIND_BAD_ARGUMENT, 0 },
  };
  for (size_t k = 0; k < COUNT(rows); k++) {
    struct vmbind_access two[2] = { { PAGE, VMBIND_READ, 0 }, rows[k].access };
    SPOIL(n);
    if (!CHECK(vmbind_job_begin(&vm, two, 2, &n) == rows[k].wanted && n == rows[k].number)) printf("  job %zu\n", k);
    met[rows[k].wanted] = 1;
  }
  CALL(OK, rewind, &vm, &n);
  CALL(IN_USE, buffer_destroy, &vm, a, &n);
  CHECK(n == 1);
  CALL(NO_JOB, job_end, &vm, 1);
  CALL(OK, job_end, &vm, 0);
  CALL(NO_JOB, job_end, &vm, 0);
  CALL(NO_JOB, job_end, &vm, UINT64_MAX);
  CALL(OK, buffer_destroy, &vm, a, &n);
  CALL(OK, buffer_create, &vm, 1, &c);   /* the place of a destroyed buffer, and another id */
  CHECK(!same_buffer(a, c));
  CALL(NO_BUFFER, buffer_destroy, &vm, a, &n);
  CALL(OK, job_begin, &vm, NULL, 0, &job);
  CHECK(job == 1);
  struct vmbind_access many[257];
  for (size_t k = 0; k < COUNT(many); k++) many[k] = good[0];
  CALL(TOO_MANY_ACCESSES, job_begin, &vm, many, 257, &n);
  CHECK(n == 0);
  CALL(UNMAPPED, job_begin, &vm, many, 256, &n);
  for (int k = 1; k < 1024; k++) CHECK(vmbind_job_begin(&vm, NULL, 0, &job) == VMBIND_OK);
  CALL(TOO_MANY_JOBS, job_begin, &vm, NULL, 0, &n);
  vmbind_status status = vmbind_job_begin(&vm, many, SIZE_MAX / 2 + 1, &n);
  CHECK(status == VMBIND_OUT_OF_MEMORY || status == VMBIND_TOO_MANY_ACCESSES);
  CALL(OK, destroy, &vm);
}

static void names(void) {
  const char *unknown = vmbind_status_name(5);
  CHECK(!strcmp(unknown, "Unknown") && !strcmp(vmbind_status_name(UINT32_MAX), "Unknown"));
  for (vmbind_status a = 0; a < 256; a++) {
    const char *name = vmbind_status_name(a);
    if (met[a]) CHECK(strcmp(name, unknown));
    for (vmbind_status b = 0; b < a; b++) if (strcmp(name, unknown)) CHECK(strcmp(name, vmbind_status_name(b)));
    if (strcmp(name, unknown) && a != VMBIND_OUT_OF_TURN && a != VMBIND_QUEUE_GONE && !CHECK(met[a])) printf("  %s is not met\n", name);
  }
  CHECK(VMBIND_VERSION == VMBIND_VERSION_MAJOR * 10000 + VMBIND_VERSION_MINOR * 100 + VMBIND_VERSION_PATCH);
}

/* What entries say of an address, and what lies under them. */
static void asking_the_past(void) {
  struct vmbind_vm vm = made(greatest);
  struct vmbind_buffer b;
  struct vmbind_outcome o;
  struct vmbind_translation t;
  struct vmbind_past_entry past[4];
  uint64_t n, count, total;
  CALL(OK, buffer_create, &vm, 4, &b);
  struct vmbind_op all = map(0, 4 * PAGE, b, 0), rows[3] = { all, unmap(PAGE, PAGE), map_zero(PAGE, PAGE) };
  rows[2].flags = VMBIND_READ_ONLY;
  CALL(OK, past, &vm, 0, 0, NULL, 0, &count, &total);
  CHECK(count == 0 && total == 0);
  for (int k = 0; k < 3; k++) {
    struct vmbind_request request = asks(0, &rows[k], 1);
    CALL(OK, bind, &vm, &request, &o);
  }
  CALL(OK, withdraw, &vm, 2, &n);
  const struct vmbind_past_entry wanted[3] = {
    { 2, 1, 0, { VMBIND_ZEROS, VMBIND_READ_ONLY, 0, { 0, 0, 0 }, 0 } },
    { 1, 0, 0, { VMBIND_NOTHING, 0, 0, { 0, 0, 0 }, 0 } },
    { 0, 0, 0, { VMBIND_BUFFER, 0, 0, b, 0x1abc } },
  };
  SPOIL(past);
  CALL(OK, past, &vm, 0x1abc, 0, past, 4, &count, &total);
  CHECK(count == 3 && total == 3 && !memcmp(past, wanted, sizeof wanted) && is_stale(past + 3, sizeof *past));
  SPOIL(past);
  CALL(OK, past, &vm, 0x1abc, 1, past, 1, &count, &total);
  CHECK(count == 1 && total == 3 && !memcmp(past, wanted + 1, sizeof *past) && is_stale(past + 1, 3 * sizeof *past));
  CALL(OK, past, &vm, 0x1abc, 2, past, 4, &count, &total);
  CHECK(count == 1 && total == 3 && past[0].entry == 0);
  CALL(OK, past, &vm, 0x1abc, 3, past, 4, &count, &total);
  CHECK(count == 0 && total == 3);
  CALL(OK, past, &vm, 0x1abc, UINT64_MAX, NULL, 0, &count, &total);
  CHECK(count == 0 && total == 3);
  CALL(OK, past, &vm, 0x2000, 0, past, 4, &count, &total);
  CHECK(count == 1 && total == 1 && past[0].entry == 0 && past[0].place.byte == 0x2000);
  CALL(OK, past, &vm, UINT64_C(1) << 57, 0, past, 4, &count, &total);
  CHECK(count == 0 && total == 0);
  SPOIL(t);
  CALL(OK, base, &vm, 0x1abc, &t);
  CHECK(is_zero(&t, sizeof t));
  CALL(OK, settle, &vm, 1, &n);
  CALL(OK, base, &vm, 0x1abc, &t);
  CHECK(!memcmp(&t, &wanted[2].place, sizeof t));
  CALL(OK, past, &vm, 0x1abc, 0, past, 4, &count, &total);
  CHECK(count == 2 && total == 2 && !memcmp(past, wanted, 2 * sizeof *past));
  CALL(OK, base, &vm, UINT64_MAX, &t);
  CHECK(is_zero(&t, sizeof t));
  CALL(OK, destroy, &vm);
}

int main(void) {
  handles();
  configs();
  operations();
  picture();
  queues();
  forgetting();
  trimming();
  going_back();
  asking_the_past();
  buffers_and_jobs();
  names();
  /* FUNCTIONS: how many the header declares */
  if (!CHECK(called_count == FUNCTIONS)) printf("  %zu functions of %d were called\n", called_count, FUNCTIONS);
  return ended("calls");
}
