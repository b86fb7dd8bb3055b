/* What the caller of these functions must ensure:
 *
 *   - A handle is zero (VMBIND_INIT) or as the last call left it. It may be moved, if the old place is not used any more. It is
 *     not copied.
 *   - A pointer is aligned for its type and not NULL. An array has the number of elements that its count says; an array of no
 *     element may be NULL. Memory that a call reads is initialized; memory that it only writes need not be.
 *   - No two parameters of a call overlap. No other thread touches what a call was given until the call returns.
 *   - One call at a time uses a handle, from any thread, under the caller's own lock. This holds for calls that only read, too.
 *   - A call has 64 KiB of stack.
 *   - No call is made from a signal handler, nor in the child of a fork of a process with threads.
 *   - malloc, realloc and free are of one allocator, which aligns as C requires.
 *
 * Every number, address, size, id, kind and flag may have any value: a call checks it and answers a status.
 */
#ifndef VMBIND_H
#define VMBIND_H

#include <stddef.h>
#include <stdint.h>

#ifdef __cplusplus
extern "C" {
#endif

/* vmbind: a GPU's address space, proved. It records which buffer each page reaches, applies requests that map and unmap pages,
 * as VM_BIND does, and undoes them. One handle is one address space: its list of mappings, the page table that always agrees
 * with the list, its buffers, its journal of accepted requests, its queues, its timelines and its running jobs.
 *
 *     struct vmbind_vm vm = VMBIND_INIT;
 *     struct vmbind_config config = VMBIND_CONFIG_DEFAULT;
 *     if (vmbind_create(&vm, &config) != VMBIND_OK) return 1;
 *     ..
 *     vmbind_destroy(&vm);
 *
 * Addresses, sizes and offsets are in bytes. Pages have 4,096 bytes, and addresses 57 bits. Entries of the journal, requests of
 * a queue, jobs, operations and accesses have numbers that count from 0.
 *
 * Every call:
 *   - It answers a status. If that isn't VMBIND_OK, the address space, its buffers, its journal and its jobs are as before the
 *     call, except for what vmbind_bind and vmbind_serve say of queues.
 *   - On an empty handle it answers VMBIND_NO_VM, whatever the other arguments are; only vmbind_create makes an address space
 *     there. On another handle a bad argument is answered before any fault but out of memory.
 *   - It writes each number and structure that it may write, also if it is refused: zeros if there is nothing to report. Of an
 *     array it writes only the elements that it counts; the others stay as they were.
 *   - It answers VMBIND_OUT_OF_MEMORY if malloc refused memory. All is as before, and the call may be made again. For
 *     vmbind_bind and vmbind_serve the outcome says whether the request stays on its queue. Of the calls that only look,
 *     only vmbind_plan and vmbind_past take memory.
 *   - It calls nothing back, starts no thread, takes no lock, never aborts, and writes to no stream or file. It takes memory by
 *     malloc and frees it by free. Two handles share nothing, so calls on them may run at the same time.
 */
#define VMBIND_VERSION_MAJOR 0
#define VMBIND_VERSION_MINOR 1
#define VMBIND_VERSION_PATCH 0
#define VMBIND_VERSION (VMBIND_VERSION_MAJOR * 10000 + VMBIND_VERSION_MINOR * 100 + VMBIND_VERSION_PATCH)

/* Bytes of a page. */
#define VMBIND_PAGE UINT64_C(4096)

/* A handle. `at` is NULL exactly if there is no address space. The caller may read `at`, and never writes it. */
struct vmbind_vm { void *at; };
#define VMBIND_INIT { NULL }

/* -- Statuses -------------------------------------------------------------------------------------------------------------- */

/* What a call answers: 0, the number of a fault of the script language, or a number from 64 on. No call answers a number that has
 * no name here. In these comments `number` is what the fault reports in addition: see each call. */
typedef uint32_t vmbind_status;

enum {
  VMBIND_OK = 0,

  VMBIND_UNALIGNED = 1,          /* the address, the size or the offset is no multiple of 4,096 */
  VMBIND_EMPTY = 2,              /* the size is 0 */
  VMBIND_OUT_OF_SPACE = 3,       /* a page is outside the address space */
  VMBIND_RESERVED = 4,           /* a page is in the reserved region */
  VMBIND_NO_BUFFER = 6,          /* no buffer has this id, or the buffer was destroyed */
  VMBIND_OUT_OF_BUFFER = 7,      /* the offset plus the size is past the buffer's end */
  VMBIND_BAD_SIZE = 8,           /* a buffer of no page, or of over 2^36 pages */
  VMBIND_TOO_MANY_BUFFERS = 9,   /* the limit of live buffers is reached, or 2^64 - 1 buffers were made: then no more can be */
  VMBIND_MAPPED = 10,            /* `number` mappings of the buffer are in the list */
  VMBIND_KEPT = 11,              /* `number` mappings of the buffer are kept to undo entries: vmbind_settle or vmbind_rewind drops
                                  * them */
  VMBIND_IN_USE = 12,            /* `number` running jobs use the buffer */
  VMBIND_CONFLICT = 13,          /* job `number` uses the buffer, and one of the two jobs writes it */
  VMBIND_TOO_MANY_MAPPINGS = 14, /* the list would pass its limit, or over 2^62 mappings would be kept */
  VMBIND_TOO_MANY_OPS = 15,      /* a request of over 256 operations */
  VMBIND_JOURNAL_FULL = 16,      /* the journal holds the limit of entries: vmbind_settle or vmbind_rewind makes room. Or the next
                                  * number would be 2^63: only vmbind_rewind makes room */
  VMBIND_NO_ENTRY = 17,          /* the journal holds no such entry: not yet, or not any more */
  VMBIND_NOT_A_BIND = 18,        /* the entry is a withdrawal */
  VMBIND_WITHDRAWN = 19,         /* the entry is withdrawn already */
  VMBIND_TOUCHED = 20,           /* the live later entry `number` covers one of its pages */
  VMBIND_CROSSED = 21,           /* the later entry `number` withdraws one that would be settled */
  VMBIND_OUT_OF_TURN = 22,       /* no call here answers this: it is a fault of the Rattle library */
  VMBIND_QUEUE_SPENT = 23,       /* the queue has the limit `told` of outcomes and waiting requests: vmbind_forget makes room. Or it
                                  * had 2^63 outcomes: it never takes a request again */
  VMBIND_UNMAPPED = 24,          /* access `number` is of a page without a mapping */
  VMBIND_WRITE_TO_READ_ONLY = 25,/* access `number` writes a page that is read-only */
  VMBIND_QUEUE_FULL = 26,        /* each of the queue's `depth` places has a request: vmbind_serve makes room */
  VMBIND_TOO_MANY_JOBS = 29,     /* 1,024 jobs run, or 2^64 - 1 jobs were begun: then no more can be */
  VMBIND_TOO_MANY_ACCESSES = 30, /* a job of over 256 accesses */
  VMBIND_NO_JOB = 31,            /* no such job runs */
  VMBIND_QUEUE_GONE = 32,        /* no call here answers this, as OUT_OF_TURN */
  VMBIND_OUT_OF_MEMORY = 33,     /* malloc refused memory */
  VMBIND_NO_OUTCOME = 34,        /* the number is neither an outcome's that is not forgotten nor the next one */
  VMBIND_HELD = 35,              /* entry `number` is still in the journal. It has an outcome that would be forgotten, or its undo
                                  * may need memory that would be freed: vmbind_settle or vmbind_rewind first */

  VMBIND_BAD_ARGUMENT = 64,      /* no such kind, flag, queue or timeline; counts that must be equal and aren't; limits or bounds of
                                  * no address space */
  VMBIND_NO_VM = 65,             /* the handle is empty */
  VMBIND_NOT_NULL = 66,          /* the handle has an address space already */
  VMBIND_IDLE = 67,              /* no request waits on the queue */
  VMBIND_NOT_READY = 68          /* a point that the request waits for isn't reached */
};

/* -- An address space ------------------------------------------------------------------------------------------------------ */

/* Each limit is from 1 to the number in its comment. The address space has `size` bytes from `start` on. The reserved region of
 * `reserved_size` bytes is like the region that DRM GPUVM keeps for the kernel; with size 0 there is none. These four are multiples
 * of 4,096. The space isn't empty and ends at 2^57 or below. The reserved region is in the space, unless it is empty. */
struct vmbind_config {
  uint64_t start, size, reserved_start, reserved_size;
  uint64_t buffers;    /* live buffers: 65,536 */
  uint64_t mappings;   /* mappings in the list: 1,048,576 */
  uint64_t items;      /* entries that the journal holds, withdrawals too: 65,536 */
  uint64_t told;       /* outcomes of a queue that are not forgotten, and requests that wait on it, together: 65,536 */
  uint64_t queues;     /* queues, numbered from 0: 16 */
  uint64_t depth;      /* places of a queue for requests, besides the one that was served and still waits: 65,536 */
  uint64_t timelines;  /* timelines, numbered from 0: 64 */
};

/* All bytes below 2^57, nothing reserved, the greatest limits. Limits take no memory: only what exists does. */
#define VMBIND_CONFIG_DEFAULT { 0, UINT64_C(1) << 57, 0, 0, 65536, 1048576, 65536, 65536, 16, 65536, 64 }

/* Makes an address space without mappings and buffers, with every timeline at 0.
 *   VMBIND_NOT_NULL       the handle has an address space, which stays
 *   VMBIND_BAD_ARGUMENT   a number of `config` is out of its range; the handle stays empty
 *   VMBIND_OUT_OF_MEMORY  the handle stays empty */
vmbind_status vmbind_create(struct vmbind_vm *vm, const struct vmbind_config *config);

/* Frees the address space with all that is in it, and leaves the handle empty. It takes no memory.
 *   VMBIND_NO_VM          the handle was empty */
vmbind_status vmbind_destroy(struct vmbind_vm *vm);

/* -- Buffers --------------------------------------------------------------------------------------------------------------- */

/* A buffer's id, by value. `made` is 1 in an id that a call wrote. An id with another `made`, so an id of zeros, is of no buffer.
 * No other buffer of its address space ever has the same id. In another address space the same id may be another buffer's. */
struct vmbind_buffer { uint64_t generation; uint32_t index, made; };

/* Makes a buffer of `pages` pages and writes its id, or zeros if it is refused.
 *   VMBIND_BAD_SIZE, then VMBIND_TOO_MANY_BUFFERS, then VMBIND_OUT_OF_MEMORY */
vmbind_status vmbind_buffer_create(struct vmbind_vm *vm, uint64_t pages, struct vmbind_buffer *buffer);

/* Destroys a buffer that is in no mapping of the list, in no mapping that is kept to undo an entry, and in no running job. A request
 * that waits doesn't hold its buffers: if one was destroyed, the request is refused once it is served. It takes no memory.
 *   VMBIND_NO_BUFFER, then VMBIND_MAPPED, VMBIND_KEPT or VMBIND_IN_USE, with how many in *number; else *number is 0 */
vmbind_status vmbind_buffer_destroy(struct vmbind_vm *vm, struct vmbind_buffer buffer, uint64_t *number);

/* A buffer's pages, how many mappings of it are in the list, and how many are kept to undo entries. */
struct vmbind_uses { uint64_t pages, mapped, kept; };

/* Writes what a buffer has.
 *   VMBIND_NO_BUFFER */
vmbind_status vmbind_buffer_uses(struct vmbind_vm *vm, struct vmbind_buffer buffer, struct vmbind_uses *uses);

/* -- Requests -------------------------------------------------------------------------------------------------------------- */

/* The kinds of operations, and which fields each has. Other fields are not read, except flags: a flag that a kind doesn't take is a
 * bad argument.
 *   VMBIND_MAP        start, size, buffer, offset, flags   maps a buffer's bytes from `offset` on
 *   VMBIND_MAP_ZERO   start, size, flags                   maps zeros, as a sparse binding without a buffer
 *   VMBIND_UNMAP      start, size                          cuts the range out of all mappings; that there is none is no fault
 *   VMBIND_UNMAP_ALL  buffer                               unmaps every mapping of the buffer */
enum { VMBIND_MAP = 1, VMBIND_MAP_ZERO = 2, VMBIND_UNMAP = 3, VMBIND_UNMAP_ALL = 4 };

/* Flags of a mapping. */
enum { VMBIND_READ_ONLY = 1 };

struct vmbind_op {
  uint32_t kind, flags;
  uint64_t start, size;
  struct vmbind_buffer buffer;
  uint64_t offset;
};

/* A number on a timeline, as a point of a timeline sync object. */
struct vmbind_point { uint64_t timeline, value; };

/* A bind call: operations, the points that it waits for before it starts, and the points that it signals once it is accepted. It is
 * applied whole or not at all, each operation to the result of those before it. Each list keeps its order. */
struct vmbind_request {
  uint64_t queue;
  const struct vmbind_op *ops;
  size_t op_count;
  const struct vmbind_point *waits;
  size_t wait_count;
  const struct vmbind_point *signals;
  size_t signal_count;
};

enum { VMBIND_NOT_PUT = 0, VMBIND_ACCEPTED = 1, VMBIND_REFUSED = 2, VMBIND_GIVEN_UP = 3, VMBIND_PENDING = 4 };

/* What became of a request. Fields that a kind doesn't list are 0.
 *   kind             fields                       what it is
 *   VMBIND_NOT_PUT                                no outcome: the request isn't on its queue, or the queue has no request
 *   VMBIND_ACCEPTED  number, entry                it is this entry of the journal, and its signals are raised
 *   VMBIND_REFUSED   number, op, fault, carried   operation `op` has this fault, which reports the number `carried` (0: none);
 *                                                 addresses, buffers and journal are as before, and no signal is raised.
 *                                                 VMBIND_TOO_MANY_OPS, VMBIND_JOURNAL_FULL and out of memory for the entry
 *                                                 itself are of the whole request: `op` is 0
 *   VMBIND_GIVEN_UP  number, point, have          it was given up, since its timeline was at `have`, below this point. No signal
 *                                                 is raised
 *   VMBIND_PENDING   number, point, have          it stays on its queue. If the status is VMBIND_NOT_READY, this point is the
 *                                                 first not reached, of the request that is next on the queue: itself or one
 *                                                 before it. If the status is VMBIND_OUT_OF_MEMORY, point and have are 0
 * `number` is the request's number on its queue. */
struct vmbind_outcome {
  uint32_t kind, fault;
  uint64_t number, entry, op, carried;
  struct vmbind_point point;
  uint64_t have;
};

/* Puts a request on its queue and serves the queue up to it. Requests put before it are served first and keep their outcomes,
 * whatever this call answers; vmbind_told lists them. No request is served after one that waits.
 *   VMBIND_OK             ACCEPTED
 *   a fault               REFUSED; the queue keeps this outcome. VMBIND_OUT_OF_MEMORY is one of these faults: memory was refused
 *                         inside the request
 *   VMBIND_NOT_READY      PENDING; it, or one before it, waits. vmbind_serve goes on once the point is reached
 *   VMBIND_OUT_OF_MEMORY  PENDING: it is on the queue, and vmbind_serve goes on. NOT_PUT: it isn't on the queue
 *   VMBIND_QUEUE_SPENT, VMBIND_QUEUE_FULL   NOT_PUT, and nothing is served to make room
 *   VMBIND_BAD_ARGUMENT   NOT_PUT; no such kind, flag, queue or timeline */
vmbind_status vmbind_bind(struct vmbind_vm *vm, const struct vmbind_request *request, struct vmbind_outcome *outcome);

/* Puts a request on its queue, writes its number there, and serves nothing.
 *   VMBIND_BAD_ARGUMENT, VMBIND_QUEUE_SPENT, then VMBIND_QUEUE_FULL, then VMBIND_OUT_OF_MEMORY: it isn't put, and *number is 0 */
vmbind_status vmbind_submit(struct vmbind_vm *vm, const struct vmbind_request *request, uint64_t *number);

/* The flag of vmbind_serve. */
enum { VMBIND_GIVE_UP = 1 };

/* Serves one request, the next on a queue. `flags` is 0, or VMBIND_GIVE_UP: then a request that waits is given up.
 *   VMBIND_OK             ACCEPTED
 *   a fault               REFUSED
 *   VMBIND_NOT_READY      PENDING without VMBIND_GIVE_UP, GIVEN_UP with it
 *   VMBIND_OUT_OF_MEMORY  REFUSED as in vmbind_bind; PENDING: it is still next, and may be served again
 *   VMBIND_IDLE           NOT_PUT; no request is on the queue
 *   VMBIND_BAD_ARGUMENT   NOT_PUT; no such queue or flag */
vmbind_status vmbind_serve(struct vmbind_vm *vm, uint64_t queue, uint32_t flags, struct vmbind_outcome *outcome);

/* Lists the outcomes of a queue's requests in the order of their numbers: at most `room`, from number `from` on. If outcome `from` is
 * forgotten, they begin with the first that isn't. *count is how many were written. *total is how many there were, forgotten ones
 * too: the number of the next request. Kinds are ACCEPTED, REFUSED and GIVEN_UP.
 *   VMBIND_BAD_ARGUMENT   no such queue */
vmbind_status vmbind_told(struct vmbind_vm *vm, uint64_t queue, uint64_t from, struct vmbind_outcome *list, size_t room,
                          uint64_t *count, uint64_t *total);

/* Drops the outcomes of a queue whose numbers are below `to`, so that the queue takes more requests. Numbers go on. It takes no memory.
 * *number is how many were dropped; for VMBIND_HELD the least entry that is held and has a number below `to` on the queue; else 0.
 *   VMBIND_NO_OUTCOME     `to` is below the first outcome that isn't forgotten, or above the number of the next, or `queue` is 16 or
 *                         more; on a queue below 16 that the address space doesn't have, the next number is 0. Then VMBIND_HELD */
vmbind_status vmbind_forget(struct vmbind_vm *vm, uint64_t queue, uint64_t to, uint64_t *number);

/* -- Timelines ------------------------------------------------------------------------------------------------------------- */

/* Raises a timeline to `value`, if it is lower, and writes its number after that. It serves no queue, and takes no memory.
 *   VMBIND_BAD_ARGUMENT   no such timeline */
vmbind_status vmbind_timeline_raise(struct vmbind_vm *vm, uint64_t timeline, uint64_t value, uint64_t *now);

/* Writes a timeline's number.
 *   VMBIND_BAD_ARGUMENT   no such timeline */
vmbind_status vmbind_timeline_value(struct vmbind_vm *vm, uint64_t timeline, uint64_t *value);

/* -- Undoing --------------------------------------------------------------------------------------------------------------- */

/* Undoes the newest entry, a request or a withdrawal, and writes its number, which the next entry has again. List, page table and
 * uses of buffers are as before it, ends of mappings too. Timelines, jobs and outcomes stay. It takes no memory.
 *   VMBIND_NO_ENTRY       the journal holds none; *entry is 0 */
vmbind_status vmbind_rewind(struct vmbind_vm *vm, uint64_t *entry);

/* Undoes an older request: the pages that it covers hold what they held before it. The withdrawal is an entry of its own.
 * *number is that entry's; for VMBIND_TOUCHED the least live later entry that covers one of its pages; else 0.
 *   VMBIND_NO_ENTRY, VMBIND_NOT_A_BIND, VMBIND_WITHDRAWN, VMBIND_TOUCHED, VMBIND_JOURNAL_FULL, VMBIND_TOO_MANY_MAPPINGS,
 *   VMBIND_OUT_OF_MEMORY */
vmbind_status vmbind_withdraw(struct vmbind_vm *vm, uint64_t entry, uint64_t *number);

/* Makes the entries below `to` permanent: they leave the journal, with what was kept to undo them. It takes no memory. *number is how
 * many left; for VMBIND_CROSSED the least later entry that withdraws one of them; else 0.
 *   VMBIND_NO_ENTRY       `to` is below the oldest entry held, or above the number of the next one; then VMBIND_CROSSED */
vmbind_status vmbind_settle(struct vmbind_vm *vm, uint64_t to, uint64_t *number);

/* Frees memory that nothing needs: list, page table, buffers, journal, jobs and outcomes keep room for what they hold now. Nothing
 * else changes, and nothing else that a call answers. It never answers VMBIND_OUT_OF_MEMORY: if malloc or realloc refuses a smaller
 * block, the larger one stays. *number is 0; for VMBIND_HELD the least entry that is held.
 *   VMBIND_HELD           an entry is held, and its undo may need the memory */
vmbind_status vmbind_trim(struct vmbind_vm *vm, uint64_t *number);

/* Writes which entries the journal holds: those from *first on, below *next. */
vmbind_status vmbind_journal(struct vmbind_vm *vm, uint64_t *first, uint64_t *next);

enum { VMBIND_ENTRY_BIND = 1, VMBIND_ENTRY_WITHDRAWAL = 2 };

/* An entry of the journal.
 *   VMBIND_ENTRY_BIND        queue, number (on it), ops (how many it has), withdrawn (1 if it is, else 0)
 *   VMBIND_ENTRY_WITHDRAWAL  of (the entry that it withdraws)
 * Fields of the other kind are 0. */
struct vmbind_entry_info {
  uint32_t kind, withdrawn;
  uint64_t queue, number, ops, of;
};

/* Writes an entry that is held, and its first operations as they were asked for, at most `room`. Fields that an operation's kind
 * doesn't have are 0. *count is how many operations were written.
 *   VMBIND_NO_ENTRY */
vmbind_status vmbind_entry(struct vmbind_vm *vm, uint64_t entry, struct vmbind_entry_info *info, struct vmbind_op *list,
                           size_t room, uint64_t *count);

/* -- Looking --------------------------------------------------------------------------------------------------------------- */

/* What an address or a mapping reaches: nothing, a buffer, or zeros. */
enum { VMBIND_NOTHING = 0, VMBIND_BUFFER = 1, VMBIND_ZEROS = 2 };

/* What an address reaches. The list of mappings and the page table always say the same of it.
 *   VMBIND_NOTHING  run                         its page has no mapping
 *   VMBIND_BUFFER   flags, run, buffer, byte    this byte of the buffer
 *   VMBIND_ZEROS    flags, run                  a zero
 * Fields that a kind doesn't list are 0. `run` is how many bytes from the address on are in the same mapping: for k below `run`,
 * address + k reaches byte + k of the same buffer (or a zero) with the same flags. Without a mapping, `run` is how many bytes there
 * are to the next mapping, or to 2^57 if there is none. From 2^57 on it is 0. */
struct vmbind_translation {
  uint32_t kind, flags;
  uint64_t run;
  struct vmbind_buffer buffer;
  uint64_t byte;
};

/* Writes what an address reaches, by one search in the list. Any address may be asked for; one without a mapping is no fault. */
vmbind_status vmbind_translate(struct vmbind_vm *vm, uint64_t address, struct vmbind_translation *translation);

/* The same for each of an array of addresses, in one call.
 *   VMBIND_BAD_ARGUMENT   the counts differ; nothing is written */
vmbind_status vmbind_translate_many(struct vmbind_vm *vm, const uint64_t *addresses, size_t address_count,
                                    struct vmbind_translation *translations, size_t translation_count);

/* Writes what an address reaches, by the page table, in at most five steps: faster, but `run` is 0. */
vmbind_status vmbind_walk(struct vmbind_vm *vm, uint64_t address, struct vmbind_translation *translation);

/* The same for each of an array of addresses, in one call.
 *   VMBIND_BAD_ARGUMENT   the counts differ; nothing is written */
vmbind_status vmbind_walk_many(struct vmbind_vm *vm, const uint64_t *addresses, size_t address_count,
                               struct vmbind_translation *translations, size_t translation_count);

/* A mapping (drm_gpuva in DRM GPUVM). For VMBIND_ZEROS buffer and offset are 0. The kind VMBIND_NOTHING is no mapping: all is 0. */
struct vmbind_mapping {
  uint32_t kind, flags;
  uint64_t start, size;
  struct vmbind_buffer buffer;
  uint64_t offset;
};

/* Lists the mappings in ascending order: at most `room`, from the one with the number `from` on. *count is how many were written, and
 * *total how many there are. */
vmbind_status vmbind_mappings(struct vmbind_vm *vm, uint64_t from, struct vmbind_mapping *list, size_t room, uint64_t *count,
                              uint64_t *total);

/* What an entry that is held did to an address, by the last of its operations that covers the page. `withdrawn` is 1 if a later entry
 * withdraws it, else 0. `place` is what the address reached by that operation: `run` is 0, and an unmap has the kind VMBIND_NOTHING.
 * `reserved` is 0. */
struct vmbind_past_entry {
  uint64_t entry;
  uint32_t withdrawn, reserved;
  struct vmbind_translation place;
};

/* Lists what the entries that are held did to an address, in bytes: those with an operation that covers its page, the newest first.
 * At most `room` are written, from the one with the number `from` on, which counts these alone. *count is how many were written, and
 * *total how many there are. Nothing is undone. Each call reads all entries that are held.
 *   VMBIND_OUT_OF_MEMORY  only if there are some */
vmbind_status vmbind_past(struct vmbind_vm *vm, uint64_t address, uint64_t from, struct vmbind_past_entry *list, size_t room,
                          uint64_t *count, uint64_t *total);

/* Writes what an address would reach if all entries that are held were undone. `run` is 0. */
vmbind_status vmbind_base(struct vmbind_vm *vm, uint64_t address, struct vmbind_translation *translation);

/* How many tables the page table has: tables[0] at the top level 4, down to tables[4] at level 0. */
struct vmbind_table_counts { uint64_t tables[5]; };

/* Writes these numbers. */
vmbind_status vmbind_tables(struct vmbind_vm *vm, struct vmbind_table_counts *counts);

enum { VMBIND_STEP_UNMAP = 1, VMBIND_STEP_REMAP = 2, VMBIND_STEP_MAP = 3 };

/* A step of an operation, as DRM GPUVM's drm_gpuva_op.
 *   VMBIND_STEP_UNMAP  mapping, keep               the mapping is removed
 *   VMBIND_STEP_REMAP  mapping, prev, next, keep   the mapping is replaced by its rests before and after the operation's range
 *   VMBIND_STEP_MAP    mapping                     the operation's own mapping is added
 * `keep` is 1 if the operation maps the same pages of the same buffer again with equal flags, so that page table entries may
 * stay; else 0. A rest that doesn't exist, and a field of another kind, has the kind VMBIND_NOTHING. */
struct vmbind_step {
  uint32_t kind, keep;
  struct vmbind_mapping mapping, prev, next;
};

/* Lists the steps that an operation would take now, in ascending order: the first ones, at most `room`. Nothing changes, and limits
 * are not checked. *count is how many were written, and *total how many there are.
 *   VMBIND_BAD_ARGUMENT, then the operation's fault (VMBIND_UNALIGNED, VMBIND_EMPTY, VMBIND_OUT_OF_SPACE, VMBIND_RESERVED,
 *   VMBIND_NO_BUFFER, VMBIND_OUT_OF_BUFFER), then VMBIND_OUT_OF_MEMORY */
vmbind_status vmbind_plan(struct vmbind_vm *vm, const struct vmbind_op *op, struct vmbind_step *list, size_t room,
                          uint64_t *count, uint64_t *total);

/* -- Jobs ------------------------------------------------------------------------------------------------------------------ */

enum { VMBIND_READ = 0, VMBIND_WRITE = 1 };

/* What a job does at an address: `usage` is VMBIND_READ or VMBIND_WRITE. `reserved` is not read. */
struct vmbind_access { uint64_t address; uint32_t usage, reserved; };

/* Begins a job, which holds the buffers that its accesses reach until it ends: they can't be destroyed, and no other job may write
 * what it uses or use what it writes. *number is the job's; for VMBIND_UNMAPPED and VMBIND_WRITE_TO_READ_ONLY the access's; for
 * VMBIND_CONFLICT the other job's; else 0.
 *   VMBIND_BAD_ARGUMENT, VMBIND_TOO_MANY_ACCESSES, VMBIND_TOO_MANY_JOBS, then of each access in turn VMBIND_UNMAPPED,
 *   VMBIND_WRITE_TO_READ_ONLY, VMBIND_CONFLICT; VMBIND_OUT_OF_MEMORY. After any of them nothing is held. */
vmbind_status vmbind_job_begin(struct vmbind_vm *vm, const struct vmbind_access *accesses, size_t access_count, uint64_t *number);

/* Ends a job. It takes no memory.
 *   VMBIND_NO_JOB         no such job runs */
vmbind_status vmbind_job_end(struct vmbind_vm *vm, uint64_t job);

/* -- Names ----------------------------------------------------------------------------------------------------------------- */

/* A status's name; a fault has its name in scripts. Any other number has "Unknown". */
static inline const char *vmbind_status_name(vmbind_status status) {
  switch (status) {
    case VMBIND_OK: return "Ok";
    case VMBIND_UNALIGNED: return "Unaligned";
    case VMBIND_EMPTY: return "Empty";
    case VMBIND_OUT_OF_SPACE: return "OutOfSpace";
    case VMBIND_RESERVED: return "Reserved";
    case VMBIND_NO_BUFFER: return "NoBuffer";
    case VMBIND_OUT_OF_BUFFER: return "OutOfBuffer";
    case VMBIND_BAD_SIZE: return "BadSize";
    case VMBIND_TOO_MANY_BUFFERS: return "TooManyBuffers";
    case VMBIND_MAPPED: return "Mapped";
    case VMBIND_KEPT: return "Kept";
    case VMBIND_IN_USE: return "InUse";
    case VMBIND_CONFLICT: return "Conflict";
    case VMBIND_TOO_MANY_MAPPINGS: return "TooManyMappings";
    case VMBIND_TOO_MANY_OPS: return "TooManyOps";
    case VMBIND_JOURNAL_FULL: return "JournalFull";
    case VMBIND_NO_ENTRY: return "NoEntry";
    case VMBIND_NOT_A_BIND: return "NotABind";
    case VMBIND_WITHDRAWN: return "Withdrawn";
    case VMBIND_TOUCHED: return "Touched";
    case VMBIND_CROSSED: return "Crossed";
    case VMBIND_OUT_OF_TURN: return "OutOfTurn";
    case VMBIND_QUEUE_SPENT: return "QueueSpent";
    case VMBIND_UNMAPPED: return "Unmapped";
    case VMBIND_WRITE_TO_READ_ONLY: return "WriteToReadOnly";
    case VMBIND_QUEUE_FULL: return "QueueFull";
    case VMBIND_TOO_MANY_JOBS: return "TooManyJobs";
    case VMBIND_TOO_MANY_ACCESSES: return "TooManyAccesses";
    case VMBIND_NO_JOB: return "NoJob";
    case VMBIND_QUEUE_GONE: return "QueueGone";
    case VMBIND_OUT_OF_MEMORY: return "OutOfMemory";
    case VMBIND_NO_OUTCOME: return "NoOutcome";
    case VMBIND_HELD: return "Held";
    case VMBIND_BAD_ARGUMENT: return "BadArgument";
    case VMBIND_NO_VM: return "NoVm";
    case VMBIND_NOT_NULL: return "NotNull";
    case VMBIND_IDLE: return "Idle";
    case VMBIND_NOT_READY: return "NotReady";
    default: return "Unknown";
  }
}

#ifdef __cplusplus
}
#endif

#endif
