"""vmbind: a GPU's address space, proved. One Vm is one address space; capi/vmbind.h says what each call does.

    import vmbind
    with vmbind.Vm() as vm:
        b = vm.buffer(4)                                  # four pages of 4,096 bytes
        entry = vm.bind(vmbind.Map(0, 0x4000, b))
        place = vm.translate(0x2abc)                      # place.buffer == b, place.byte == 0x2abc, place.run == 0x1544
        vm.rewind()

A call that is refused raises Refused. Calls hold the interpreter's lock, so threads may share a Vm.
The library is the file in VMBIND_LIBRARY; without it, libvmbind.so beside this file, in build/ there, or where `make install` puts
it; else the loader finds it.
"""
import ctypes as c
import os
from typing import Any, Dict, Iterable, Iterator, List, NamedTuple, Optional, Sequence, Tuple, Type, Union

# The version of the header that this module follows.
__version__ = "0.1.0"

OK, BAD_ARGUMENT, NO_VM, NOT_NULL, IDLE, NOT_READY = 0, 64, 65, 66, 67, 68
NAMES = {
    0: "Ok", 1: "Unaligned", 2: "Empty", 3: "OutOfSpace", 4: "Reserved", 6: "NoBuffer", 7: "OutOfBuffer", 8: "BadSize",
    9: "TooManyBuffers", 10: "Mapped", 11: "Kept", 12: "InUse", 13: "Conflict", 14: "TooManyMappings", 15: "TooManyOps",
    16: "JournalFull", 17: "NoEntry", 18: "NotABind", 19: "Withdrawn", 20: "Touched", 21: "Crossed", 22: "OutOfTurn",
    23: "QueueSpent", 24: "Unmapped", 25: "WriteToReadOnly", 26: "QueueFull", 29: "TooManyJobs", 30: "TooManyAccesses",
    31: "NoJob", 32: "QueueGone", 33: "OutOfMemory", 34: "NoOutcome", 35: "Held", 64: "BadArgument", 65: "NoVm", 66: "NotNull", 67: "Idle",
    68: "NotReady",
}
# Kinds of outcomes, of places and mappings, of entries and of steps, as in the header.
NOT_PUT, ACCEPTED, REFUSED, GIVEN_UP, PENDING = range(5)
NOTHING, BUFFER, ZEROS = range(3)
BIND, WITHDRAWAL = 1, 2
STEP_UNMAP, STEP_REMAP, STEP_MAP = 1, 2, 3
END = 1 << 57

_u32, _u64, _size, _address_of = c.c_uint32, c.c_uint64, c.c_size_t, c.addressof
_MOST = (1 << 64) - 1


def _number(it: int) -> int:
    """A number of 64 bits. ctypes would cut a greater one off without an error."""
    if not 0 <= it < 1 << 64:
        raise ValueError(f"not a number of 64 bits: {it}")
    return it


class _Value(c.Structure):
    """A structure that compares and prints by its fields."""

    def _fields_of(self) -> Tuple[Any, ...]:
        return tuple(getattr(self, name) for name, *_ in self._fields_)

    def __eq__(self, other: object) -> bool:
        return isinstance(other, _Value) and type(self) is type(other) and bytes(self) == bytes(other)

    def __hash__(self) -> int:
        return hash(bytes(self))

    def __repr__(self) -> str:
        return f"{type(self).__name__}({', '.join(f'{n}={getattr(self, n)!r}' for n, *_ in self._fields_)})"


class _Handle(c.Structure):
    _fields_ = [("at", c.c_void_p)]


class _Config(c.Structure):
    _fields_ = [(name, _u64) for name in (
        "start size reserved_start reserved_size buffers mappings items told queues depth timelines").split()]


class Buffer(_Value):
    """A buffer's id."""
    generation: int
    index: int
    made: int
    _fields_ = [("generation", _u64), ("index", _u32), ("made", _u32)]


class Op(_Value):
    """An operation: see Map, MapZero, Unmap and UnmapAll."""
    kind: int
    flags: int
    start: int
    size: int
    buffer: Buffer
    offset: int
    _fields_ = [("kind", _u32), ("flags", _u32), ("start", _u64), ("size", _u64), ("buffer", Buffer), ("offset", _u64)]


class Point(_Value):
    """A number on a timeline."""
    timeline: int
    value: int
    _fields_ = [("timeline", _u64), ("value", _u64)]


# A request's points: each a Point, or a pair of a timeline and a value.
Points = Iterable[Union[Point, Tuple[int, int]]]


class _Request(c.Structure):
    lists: Any
    _fields_ = [("queue", _u64), ("ops", c.c_void_p), ("op_count", _size), ("waits", c.c_void_p), ("wait_count", _size),
                ("signals", c.c_void_p), ("signal_count", _size)]


class Outcome(_Value):
    """What became of a request."""
    kind: int
    fault: int
    number: int
    entry: int
    op: int
    carried: int
    point: Point
    have: int
    _fields_ = [("kind", _u32), ("fault", _u32), ("number", _u64), ("entry", _u64), ("op", _u64), ("carried", _u64),
                ("point", Point), ("have", _u64)]


class _Backed(_Value):
    """A structure with a kind and flags. It is false if its kind is NOTHING."""
    kind: int
    flags: int

    def __bool__(self) -> bool:
        return self.kind != NOTHING

    @property
    def read_only(self) -> bool:
        return self.flags == 1


class Translation(_Backed):
    """What an address reaches. It is true if something is mapped."""
    run: int
    buffer: Buffer
    byte: int
    _fields_ = [("kind", _u32), ("flags", _u32), ("run", _u64), ("buffer", Buffer), ("byte", _u64)]


class Mapping(_Backed):
    """A mapping of the list. It is false if there is none."""
    start: int
    size: int
    buffer: Buffer
    offset: int
    _fields_ = [("kind", _u32), ("flags", _u32), ("start", _u64), ("size", _u64), ("buffer", Buffer), ("offset", _u64)]


class Step(_Value):
    """A step of an operation's plan."""
    kind: int
    keep: int
    mapping: Mapping
    prev: Mapping
    next: Mapping
    _fields_ = [("kind", _u32), ("keep", _u32), ("mapping", Mapping), ("prev", Mapping), ("next", Mapping)]


class PastEntry(_Value):
    """What an entry did to an address: its number, whether a later entry withdraws it, and what the address reached by it."""
    entry: int
    withdrawn: int
    reserved: int
    place: Translation
    _fields_ = [("entry", _u64), ("withdrawn", _u32), ("reserved", _u32), ("place", Translation)]


class Uses(_Value):
    """A buffer's pages, how many mappings of it are in the list, and how many are kept to undo entries."""
    pages: int
    mapped: int
    kept: int
    _fields_ = [("pages", _u64), ("mapped", _u64), ("kept", _u64)]


class _Access(c.Structure):
    _fields_ = [("address", _u64), ("usage", _u32), ("reserved", _u32)]


class _Counts(c.Structure):
    _fields_ = [("tables", _u64 * 5)]


class _Info(c.Structure):
    _fields_ = [("kind", _u32), ("withdrawn", _u32), ("queue", _u64), ("number", _u64), ("ops", _u64), ("of", _u64)]


class Entry(NamedTuple):
    """An entry of the journal. `ops` are a request's operations. A withdrawal has None there, and `of` is the entry that it withdraws."""
    entry: int
    queue: Optional[int]
    number: Optional[int]
    withdrawn: bool
    ops: Optional[List["Op"]]
    of: Optional[int]


class Refused(Exception):
    """A call was refused. Each fault below is a class of its own. `fault` is its status, `name` the name of that status, `op` the
    operation of a request that has the fault (None if there is none), `n` the number that the fault reports (0: none), `outcome` the
    request's outcome."""
    fault: int
    name: str
    op: Optional[int]
    n: int
    outcome: Optional[Outcome]

    def __new__(cls, fault: object = None, *_: object, **__: object) -> "Refused":
        return super().__new__(_KINDS.get(fault, cls) if cls is Refused else cls)

    def __init__(self, fault: int, op: Optional[int] = None, n: int = 0, outcome: Optional[Outcome] = None) -> None:
        self.fault, self.op, self.n, self.outcome = fault, op, n, outcome
        self.name = NAMES.get(fault, "Unknown")
        super().__init__(self.name + (f" {n}" if n else "") + ("" if op is None else f" at operation {op}"))

    def __reduce__(self) -> Tuple[Any, ...]:
        return type(self), (self.fault, self.op, self.n, self.outcome)


class NotReady(Refused):
    """A request stays on its queue or was given up (outcome.kind): `point` isn't reached, its timeline is at `have`."""
    point: Point
    have: int
    outcome: Outcome

    def __init__(self, outcome: Outcome) -> None:
        super().__init__(NOT_READY, outcome=outcome)
        self.point, self.have = outcome.point, outcome.have

    def __reduce__(self) -> Tuple[Any, ...]:
        return NotReady, (self.outcome,)


# The faults, by the names of their statuses.
class Unaligned(Refused): """The address, the size or the offset is no multiple of 4,096."""
class Empty(Refused): """The size is 0."""
class OutOfSpace(Refused): """A page is outside the address space."""
class Reserved(Refused): """A page is in the reserved region."""
class NoBuffer(Refused): """No buffer has this id, or the buffer was destroyed."""
class OutOfBuffer(Refused): """The offset plus the size is past the buffer's end."""
class BadSize(Refused): """A buffer of no page, or of over 2^36 pages."""
class TooManyBuffers(Refused): """The limit of live buffers is reached, or 2^64 - 1 buffers were made."""
class Mapped(Refused): """`n` mappings of the buffer are in the list."""
class Kept(Refused): """`n` mappings of the buffer are kept to undo entries."""
class InUse(Refused): """`n` running jobs use the buffer."""
class Conflict(Refused): """Job `n` uses the buffer, and one of the two jobs writes it."""
class TooManyMappings(Refused): """The list would pass its limit, or over 2^62 mappings would be kept."""
class TooManyOps(Refused): """A request of over 256 operations."""
class JournalFull(Refused): """The journal holds the limit of entries, or the next number would be 2^63."""
class NoEntry(Refused): """The journal holds no such entry."""
class NotABind(Refused): """The entry is a withdrawal."""
class Withdrawn(Refused): """The entry is withdrawn already."""
class Touched(Refused): """The live later entry `n` covers one of its pages."""
class Crossed(Refused): """The later entry `n` withdraws one that would be settled."""
class OutOfTurn(Refused): """Never raised here: a fault of the Rattle library."""
class QueueSpent(Refused): """The queue has the limit of outcomes and waiting requests, or had 2^63 outcomes."""
class Unmapped(Refused): """Access `n` is of a page without a mapping."""
class WriteToReadOnly(Refused): """Access `n` writes a page that is read-only."""
class QueueFull(Refused): """Each place of the queue has a request."""
class TooManyJobs(Refused): """1,024 jobs run, or 2^64 - 1 jobs were begun."""
class TooManyAccesses(Refused): """A job of over 256 accesses."""
class NoJob(Refused): """No such job runs."""
class QueueGone(Refused): """Never raised here, as OutOfTurn."""
class OutOfMemory(Refused): """Out of memory. `outcome` says whether a request stays on its queue; else nothing changed."""
class NoOutcome(Refused): """The number is neither an outcome's that is not forgotten nor the next one."""
class Held(Refused): """Entry `n` is still in the journal: its outcome would be forgotten, or its undo may need memory that would be freed."""
class BadArgument(Refused): """No such kind, flag, queue or timeline, or limits or bounds of no address space."""
class NoVm(Refused): """The Vm was closed."""
class NotNull(Refused): """Never raised here: a fault of a handle in C."""
class Idle(Refused): """No request waits on the queue."""

_KINDS: Dict[object, Type[Refused]] = {number: globals()[name] for number, name in NAMES.items() if number not in (OK, NOT_READY)}


def _load() -> c.CDLL:
    here = os.path.dirname(os.path.abspath(__file__))
    named = os.environ.get("VMBIND_LIBRARY")
    if named:
        return c.PyDLL(named)
    for path in (here, os.path.join(here, "build"), os.path.join(here, "..", "..", "lib")):
        path = os.path.join(path, "libvmbind.so")
        if os.path.exists(path):
            return c.PyDLL(path)
    return c.PyDLL("libvmbind.so.0")


_library = _load()
_to = c.POINTER


def _declare(name: str, *types: Any) -> Any:
    call = getattr(_library, "vmbind_" + name)
    call.argtypes, call.restype = (_to(_Handle), *types), _u32
    return call


_create = _declare("create", _to(_Config))
_destroy = _declare("destroy")
_buffer_create = _declare("buffer_create", _u64, _to(Buffer))
_buffer_destroy = _declare("buffer_destroy", Buffer, _to(_u64))
_buffer_uses = _declare("buffer_uses", Buffer, _to(Uses))
_bind = _declare("bind", _to(_Request), _to(Outcome))
_submit = _declare("submit", _to(_Request), _to(_u64))
_serve = _declare("serve", _u64, _u32, _to(Outcome))
_told = _declare("told", _u64, _u64, c.c_void_p, _size, _to(_u64), _to(_u64))
_forget = _declare("forget", _u64, _u64, _to(_u64))
_timeline_raise = _declare("timeline_raise", _u64, _u64, _to(_u64))
_timeline_value = _declare("timeline_value", _u64, _to(_u64))
_rewind = _declare("rewind", _to(_u64))
_withdraw = _declare("withdraw", _u64, _to(_u64))
_settle = _declare("settle", _u64, _to(_u64))
_trim = _declare("trim", _to(_u64))
_journal = _declare("journal", _to(_u64), _to(_u64))
_entry = _declare("entry", _u64, _to(_Info), c.c_void_p, _size, _to(_u64))
_translate = _declare("translate", _u64, c.c_void_p)
_translate.argtypes = c.c_void_p, _u64, c.c_void_p   # bare addresses: a third of the time
_translate_many = _declare("translate_many", c.c_void_p, _size, c.c_void_p, _size)
_walk = _declare("walk", _u64, c.c_void_p)
_walk.argtypes = _translate.argtypes
_walk_many = _declare("walk_many", c.c_void_p, _size, c.c_void_p, _size)
_past = _declare("past", _u64, _u64, c.c_void_p, _size, _to(_u64), _to(_u64))
_base = _declare("base", _u64, c.c_void_p)
_base.argtypes = _translate.argtypes
_mappings = _declare("mappings", _u64, c.c_void_p, _size, _to(_u64), _to(_u64))
_tables = _declare("tables", _to(_Counts))
_plan = _declare("plan", _to(Op), c.c_void_p, _size, _to(_u64), _to(_u64))
_job_begin = _declare("job_begin", c.c_void_p, _size, _to(_u64))
_job_end = _declare("job_end", _u64)

_NO_BUFFER, _EMPTY = Buffer(), (None, 0)


def Map(start: int, size: int, buffer: Buffer, offset: int = 0, read_only: bool = False) -> Op:
    """Maps a buffer's bytes from `offset` on."""
    return Op(1, int(read_only), _number(start), _number(size), buffer, _number(offset))


def MapZero(start: int, size: int, read_only: bool = False) -> Op:
    """Maps zeros."""
    return Op(2, int(read_only), _number(start), _number(size), _NO_BUFFER, 0)


def Unmap(start: int, size: int) -> Op:
    """Cuts the range out of all mappings."""
    return Op(3, 0, _number(start), _number(size), _NO_BUFFER, 0)


def UnmapAll(buffer: Buffer) -> Op:
    """Unmaps every mapping of a buffer."""
    return Op(4, 0, 0, 0, buffer, 0)


def _array(kind: Any, items: Sequence[Any]) -> Tuple[Any, int]:
    return ((kind * len(items))(*items), len(items)) if items else _EMPTY


def _points(points: Points) -> Tuple[Any, int]:
    """Points, or pairs of a timeline and a value, as an array."""
    return _array(Point, [it if isinstance(it, Point) else Point(_number(it[0]), _number(it[1])) for it in points])


def _numbers(items: Any) -> Tuple[Any, int]:
    """An array of 64-bit numbers: the items themselves, if they are in a buffer that may be written, else a copy."""
    try:
        view = memoryview(items)
    except TypeError:
        items = [_number(it) for it in items]
        return (_u64 * len(items))(*items), len(items)
    if view.itemsize != 8 or view.format.lstrip("@=<") not in ("Q", "L") or not view.c_contiguous:
        raise TypeError("a buffer of unsigned 64-bit numbers is wanted")
    count, view = view.nbytes // 8, view.cast("B")
    return ((_u64 * count).from_buffer_copy(view) if view.readonly else (_u64 * count).from_buffer(view)), count


class Vm:
    """An address space. Sizes are in bytes; the limits are those of struct vmbind_config."""

    def __init__(self, *, start: int = 0, size: int = END, reserved: Tuple[int, int] = (0, 0), buffers: int = 65536,
                 mappings: int = 1 << 20, items: int = 65536, told: int = 65536, queues: int = 16, depth: int = 65536,
                 timelines: int = 64) -> None:
        self._vm = _Handle()
        self._at = _address_of(self._vm)
        numbers = (start, size, *reserved, buffers, mappings, items, told, queues, depth, timelines)
        self._check(_create(self._vm, _Config(*map(_number, numbers))))

    def close(self) -> None:
        """Frees the address space. A second time it does nothing. Other calls are refused then, as NoVm."""
        _destroy(self._vm)

    def __del__(self) -> None:
        if hasattr(self, "_vm"):
            _destroy(self._vm)

    def __enter__(self) -> "Vm":
        return self

    def __exit__(self, *_: object) -> None:
        self.close()

    @staticmethod
    def _check(status: int, n: int = 0) -> None:
        if status:
            raise Refused(status, n=n)

    def _counted(self, call: Any, *arguments: Any) -> int:
        number = _u64()
        status = call(self._vm, *arguments, number)
        if status:
            raise Refused(status, n=number.value)
        return number.value

    def _listed(self, kind: Any, call: Any, *arguments: Any, start: int = 0) -> List[Any]:
        """All of a list from one number on, as one call finds it: the first that has room for it. Another thread may change the list
        between two calls."""
        count, total, room = _u64(), _u64(), 0
        while True:
            found = (kind * room)()
            self._check(call(self._vm, *arguments, found, room, count, total))
            if total.value - start <= room:
                listed: List[Any] = found[:count.value]
                return listed
            room = total.value - start

    # Buffers

    def buffer(self, pages: int) -> Buffer:
        """Makes a buffer of `pages` pages. Answers its id."""
        made = Buffer()
        self._check(_buffer_create(self._vm, _number(pages), made))
        return made

    def destroy(self, buffer: Buffer) -> None:
        number = _u64()
        self._check(_buffer_destroy(self._vm, buffer, number), number.value)

    def uses(self, buffer: Buffer) -> Uses:
        uses = Uses()
        self._check(_buffer_uses(self._vm, buffer, uses))
        return uses

    # Requests

    @staticmethod
    def _request(ops: Sequence[Op], waits: Points, signals: Points, queue: int) -> _Request:
        lists = _array(Op, ops), _points(waits), _points(signals)
        places = (it for array, count in lists for it in (array and _address_of(array), count))
        asked = _Request(_number(queue), *places)
        asked.lists = lists   # they must live as long as the request
        return asked

    @staticmethod
    def _told_of(status: int, outcome: Outcome) -> Outcome:
        if status == NOT_READY:
            raise NotReady(outcome)
        if status:
            raise Refused(status, outcome.op if outcome.kind == REFUSED else None, outcome.carried, outcome)
        return outcome

    def bind(self, *ops: Op, waits: Points = (), signals: Points = (), queue: int = 0) -> int:
        """Puts a request and serves its queue up to it. Answers the entry's number; NotReady if it waits and stays on its queue."""
        outcome = Outcome()
        return self._told_of(_bind(self._vm, self._request(ops, waits, signals, queue), outcome), outcome).entry

    def submit(self, *ops: Op, waits: Points = (), signals: Points = (), queue: int = 0) -> int:
        """Puts a request and serves nothing. Answers its number on the queue."""
        return self._counted(_submit, self._request(ops, waits, signals, queue))

    def serve(self, queue: int = 0, give_up: bool = False) -> Outcome:
        """Serves one request. Answers its Outcome; NotReady if it waits, Idle if there is none."""
        outcome = Outcome()
        return self._told_of(_serve(self._vm, _number(queue), int(give_up), outcome), outcome)

    def told(self, queue: int = 0, start: int = 0) -> List[Outcome]:
        """The Outcomes of a queue's requests that aren't forgotten, from number `start` on."""
        first, count, total = Outcome(), _u64(), _u64()
        self._check(_told(self._vm, _number(queue), _number(start), _address_of(first), 1, count, total))
        if not count.value:
            return []
        return self._listed(Outcome, _told, queue, first.number, start=first.number)

    def forget(self, queue: int, to: int) -> int:
        """Drops the outcomes of a queue whose numbers are below `to`. Answers how many."""
        return self._counted(_forget, _number(queue), _number(to))

    # Timelines

    def raise_to(self, timeline: int, value: int) -> int:
        """Raises a timeline to `value`, if it is lower. Answers its number after that."""
        return self._counted(_timeline_raise, _number(timeline), _number(value))

    def value(self, timeline: int) -> int:
        return self._counted(_timeline_value, _number(timeline))

    # Undoing

    def rewind(self) -> int:
        """Undoes the newest entry. Answers its number."""
        return self._counted(_rewind)

    def withdraw(self, entry: int) -> int:
        """Undoes an older request. Answers the number of the withdrawal, which is an entry."""
        return self._counted(_withdraw, _number(entry))

    def settle(self, to: int) -> int:
        """Makes the entries below `to` permanent. Answers how many."""
        return self._counted(_settle, _number(to))

    def settle_all(self) -> int:
        """Settles all entries and forgets all outcomes until now, which an endless run has to do. Answers how many entries were settled.
        Another thread may settle, rewind or forget between two calls."""
        queues: List[int] = []   # the next number on each
        count, total = _u64(), _u64()
        while _told(self._vm, len(queues), 0, None, 0, count, total) == OK:
            queues.append(total.value)
        while True:
            try:
                settled = self.settle(self.journal().stop)
                break
            except (NoEntry, Crossed):
                pass   # the journal changed in between
        for queue, to in enumerate(queues):
            try:
                self.forget(queue, to)
            except NoOutcome:
                pass   # more are forgotten already
        return settled

    def trim(self) -> None:
        """Frees memory that nothing needs, once no entry is held."""
        self._counted(_trim)

    def journal(self) -> range:
        """The range of the entries that are held."""
        first, after = _u64(), _u64()
        self._check(_journal(self._vm, first, after))
        return range(first.value, after.value)

    def entry(self, number: int) -> Entry:
        """An Entry that is held. Another thread may put another one in its place between two calls."""
        info, count, room = _Info(), _u64(), 0
        while True:
            ops = (Op * room)()
            self._check(_entry(self._vm, _number(number), info, ops, room, count))
            if info.kind == WITHDRAWAL:
                return Entry(number, None, None, False, None, info.of)
            if info.ops <= room:
                return Entry(number, info.queue, info.number, bool(info.withdrawn), ops[:count.value], None)
            room = info.ops

    def entries(self) -> Iterator[Entry]:
        """The entries that are held, the oldest first, each read when it is asked for."""
        return (self.entry(number) for number in self.journal())

    # Looking

    def translate(self, address: int) -> Translation:
        """The Translation of an address in bytes, by one search in the list."""
        return self._looked(_translate, address)

    def walk(self, address: int) -> Translation:
        """The same by the page table: faster, but its run is 0."""
        return self._looked(_walk, address)

    def translate_many(self, addresses: Any, out: Any = None) -> Any:
        """The Translations of many addresses, as an array. `addresses` is any row of numbers; a buffer of unsigned 64-bit
        numbers (array.array("Q"), numpy.uint64) is read without a copy. `out` may be an earlier answer of the same length, which
        is written again."""
        return self._looked_all(_translate_many, addresses, out)

    def walk_many(self, addresses: Any, out: Any = None) -> Any:
        """The same by the page table, as walk is to translate."""
        return self._looked_all(_walk_many, addresses, out)

    def _looked(self, look: Any, address: int) -> Translation:
        place = Translation()
        if not 0 <= address <= _MOST:
            _number(address)
        status = look(self._at, address, _address_of(place))
        if status:
            raise Refused(status)
        return place

    def _looked_all(self, look_all: Any, addresses: Any, out: Any) -> Any:
        numbers, count = _numbers(addresses)
        if out is None:
            out = (Translation * count)()
        elif not isinstance(out, c.Array) or out._type_ is not Translation:
            raise TypeError("an array of Translations is wanted")
        self._check(look_all(self._vm, numbers, count, out, len(out)))
        return out

    def mappings(self) -> Iterator[Mapping]:
        """The mappings, ascending, as they are now."""
        return iter(self._listed(Mapping, _mappings, 0))

    def past(self, address: int) -> List[PastEntry]:
        """What the entries that are held did to an address in bytes: a PastEntry for each that covers its page, the newest first.
        Nothing is undone."""
        return self._listed(PastEntry, _past, _number(address), 0)

    def base(self, address: int) -> Translation:
        """What an address would reach if all entries that are held were undone. Its run is 0."""
        return self._looked(_base, address)

    def tables(self) -> Tuple[int, ...]:
        """How many tables there are at the levels 4, 3, 2, 1 and 0."""
        counts = _Counts()
        self._check(_tables(self._vm, counts))
        return tuple(counts.tables)

    def plan(self, op: Op) -> List[Step]:
        """The Steps that an operation would take now."""
        return self._listed(Step, _plan, op)

    # Jobs

    def job(self, reads: Iterable[int] = (), writes: Iterable[int] = (),
            accesses: Optional[Iterable[Tuple[int, bool]]] = None) -> int:
        """Begins a job that reads and writes these addresses. If their order counts, `accesses` has pairs instead: an address, and
        whether it is written. Answers the job's number."""
        if accesses is None:
            accesses = [(it, False) for it in reads] + [(it, True) for it in writes]
        return self._counted(_job_begin, *_array(_Access, [_Access(_number(at), int(writes), 0) for at, writes in accesses]))

    def end(self, job: int) -> None:
        self._check(_job_end(self._vm, _number(job)))
