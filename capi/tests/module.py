#!/usr/bin/env python3
"""The Python module: what it makes of statuses, numbers, lists and buffers."""
import array
import ctypes
import gc
import inspect
import os
import pickle
import re
import sys
import threading
import typing

sys.path.insert(0, os.path.join(os.path.dirname(os.path.abspath(__file__)), ".."))
import vmbind as v  # noqa: E402

passed = failed = 0


def check(holds, what):
    global passed, failed
    if holds:
        passed += 1
    else:
        failed += 1
        print(f"line {sys._getframe(1).f_lineno}: {what}")


def raised(kind, call, *arguments, **named):
    """What a call raises of a kind; None where it raises nothing."""
    try:
        call(*arguments, **named)
    except kind as it:
        return it
    return None


def header():
    """Numbers, names and structures are those of vmbind.h."""
    with open(os.path.join(os.path.dirname(v.__file__), "vmbind.h"), encoding="ascii") as file:
        text = re.sub(r"/\*.*?\*/", "", file.read(), flags=re.S)
    numbers = {name: int(it) for name, it in re.findall(r"\bVMBIND_(\w+) = (\d+)", text)}
    names = {numbers[it]: name for it, name in re.findall(r'case VMBIND_(\w+): return "(\w+)";', text)}
    check(names == v.NAMES, "names of statuses")
    version = re.findall(r"^#define VMBIND_VERSION_(?:MAJOR|MINOR|PATCH) (\d+)$", text, re.M)
    check(v.__version__ == ".".join(version), "the version")
    for name in "OK BAD_ARGUMENT NO_VM NOT_NULL IDLE NOT_READY NOT_PUT ACCEPTED REFUSED GIVEN_UP PENDING NOTHING BUFFER ZEROS".split():
        check(numbers[name] == getattr(v, name), name)
    for name in "STEP_UNMAP STEP_REMAP STEP_MAP".split():
        check(numbers[name] == getattr(v, name), name)
    check((numbers["ENTRY_BIND"], numbers["ENTRY_WITHDRAWAL"]) == (v.BIND, v.WITHDRAWAL), "kinds of entries")
    ours = dict(vm=v._Handle, config=v._Config, buffer=v.Buffer, uses=v.Uses, op=v.Op, point=v.Point, request=v._Request,
                outcome=v.Outcome, entry_info=v._Info, translation=v.Translation, mapping=v.Mapping, table_counts=v._Counts,
                step=v.Step, access=v._Access, past_entry=v.PastEntry)
    sizes = {"uint64_t": 8, "size_t": 8, "uint32_t": 4}
    structs = dict(re.findall(r"^struct vmbind_(\w+) \{(.*?)\};", text, re.S | re.M))
    check(set(structs) == set(ours), "structures")
    for name, fields in structs.items():
        wanted = []
        for kind, declared in re.findall(r"(?:const )?(?:struct )?(\w+) ([^;]+);", fields):
            for it in declared.split(","):
                pointer, field, count = re.match(r"\s*(\*?)(\w+)(?:\[(\d+)\])?", it).groups()
                one = 8 if pointer else sizes.get(kind) or ctypes.sizeof(ours[kind.removeprefix("vmbind_")])
                wanted.append((field, one * int(count or 1)))
        check([(field, ctypes.sizeof(kind)) for field, kind in ours[name]._fields_] == wanted, f"struct {name}: {wanted}")


def living():
    with v.Vm() as vm:
        b = vm.buffer(4)
        check(vm.bind(v.Map(0, 0x4000, b)) == 0, "the first entry")
        check(vm.translate(0x2abc).byte == 0x2abc and vm.translate(0x2abc).buffer == b and vm.translate(0x2abc).run == 0x1544, "a place")
    check(raised(v.Refused, vm.translate, 0).fault == v.NO_VM, "after its end")
    vm.close()
    check(raised(v.Refused, v.Vm, queues=17).name == "BadArgument", "a bad limit")
    check(raised(ValueError, v.Vm, queues=-1), "a negative limit")
    for _ in range(50):
        v.Vm().buffer(3)   # given up by the collector
    gc.collect()


def kinds():
    """Each fault is a class of its own, and each public call tells its types."""
    for number, name in v.NAMES.items():
        if number not in (v.OK, v.NOT_READY):
            check(type(v.Refused(number)) is getattr(v, name) and issubclass(getattr(v, name), v.Refused), name)
    check(type(v.Refused(777)) is v.Refused and v.Refused(777).name == "Unknown", "a number that has no name")
    vm = v.Vm(buffers=1)
    b = vm.buffer(2)
    check(raised(v.TooManyBuffers, vm.buffer, 1) and raised(v.NoBuffer, vm.uses, v.Buffer()), "by their names")
    check(raised(v.OutOfBuffer, vm.bind, v.Map(0, 0x3000, b)).outcome.op == 0 and raised(v.Idle, vm.serve), "of requests")
    calls = [v.Map, v.MapZero, v.Unmap, v.UnmapAll] + [it for name, it in vars(v.Vm).items() if inspect.isfunction(it)]
    for call in calls:
        named = set(inspect.signature(call).parameters) - {"self"} | {"return"}
        check(named == set(typing.get_type_hints(call)), f"types of {call.__name__}")
    for kind in (v.Buffer, v.Op, v.Point, v.Outcome, v.Translation, v.Mapping, v.Step, v.PastEntry, v.Uses):
        check({name for name, *_ in kind._fields_} <= set(typing.get_type_hints(kind)), f"types of {kind.__name__}")


def refusals():
    vm = v.Vm(reserved=(0x8000, 0x1000), items=9)
    b = vm.buffer(4)
    it = raised(v.Refused, vm.bind, v.Unmap(0, 0x1000), v.Map(0, 0x5000, b))
    check((it.fault, it.name, it.op, it.n) == (7, "OutOfBuffer", 1, 0) and it.outcome.kind == v.REFUSED, "of a request")
    check(str(it) == "OutOfBuffer at operation 1", str(it))
    check(raised(v.Refused, vm.bind, v.MapZero(0x8000, 0x1000)).name == "Reserved", "reserved")
    again = pickle.loads(pickle.dumps(it))
    check(type(again) is type(it) and str(again) == str(it) and vars(again) == vars(it), "pickled")
    vm.bind(v.Map(0, 0x4000, b), queue=2)
    it = raised(v.Refused, vm.destroy, b)
    check((it.name, it.n, it.op, str(it)) == ("Mapped", 1, None, "Mapped 1"), "with a number")
    check(raised(v.Refused, vm.bind, queue=16).fault == v.BAD_ARGUMENT, "no such queue")
    check(raised(v.Refused, vm.bind, v.Op(9, 0, 0, 0, b, 0)).fault == v.BAD_ARGUMENT, "no such kind")
    check(raised(v.Refused, vm.serve).fault == v.IDLE, "idle")
    check(raised(v.Refused, vm.raise_to, 64, 1).fault == v.BAD_ARGUMENT, "no such timeline")
    for call in (lambda n: vm.translate(n), lambda n: v.Map(n, 0, b), lambda n: v.Unmap(0, n), lambda n: vm.translate_many([n]),
                 lambda n: vm.raise_to(0, n), lambda n: vm.settle(n), lambda n: vm.bind(waits=[(0, n)])):
        check(raised(ValueError, call, -1) and raised(ValueError, call, 1 << 64), "not a number of 64 bits")
    check(raised(TypeError, vm.translate, "0"), "a text for an address")
    check(raised(v.Refused, vm.uses, v.Buffer()).name == "NoBuffer", "an id of zeros")


def waiting():
    vm = v.Vm(timelines=3)
    it = raised(v.NotReady, vm.bind, v.MapZero(0, 0x1000), waits=[(1, 4), v.Point(2, 1)], signals=[(0, 6)])
    check(it.point == v.Point(1, 4) and it.have == 0 and it.outcome.kind == v.PENDING and isinstance(it, v.Refused), "pending")
    again = pickle.loads(pickle.dumps(it))
    check(type(again) is v.NotReady and vars(again) == vars(it) and again.point == v.Point(1, 4), "pickled")
    check(vm.submit(v.MapZero(0x1000, 0x1000)) == 1 and vm.raise_to(1, 9) == 9, "put behind it")
    it = raised(v.NotReady, vm.serve, give_up=True)
    check(it.point == v.Point(2, 1) and it.outcome.kind == v.GIVEN_UP, "given up at the second point")
    check(vm.serve().entry == 0 and vm.value(0) == 0, "the next one")
    check([it.kind for it in vm.told()] == [v.GIVEN_UP, v.ACCEPTED] and [it.number for it in vm.told(start=1)] == [1], "told")
    check(vm.told(start=7) == [] and vm.told(1) == [], "told nothing")
    vm.bind(signals=[(0, 6)])
    check(vm.value(0) == 6, "signalled")


def forgetting():
    vm = v.Vm(queues=3, told=2)
    vm.bind(v.MapZero(0, 0x1000), queue=1)
    check(raised(v.Unaligned, vm.bind, v.Unmap(1, 1), queue=1) and vm.bind(queue=2) == 1, "told")
    check(raised(v.QueueSpent, vm.bind, queue=1) and raised(v.NoOutcome, vm.forget, 1, 3).n == 0, "spent")
    it = raised(v.Held, vm.forget, 2, 1)
    check((it.n, it.name, str(it), it.outcome) == (1, "Held", "Held 1", None), "held")
    check(vm.settle(1) == 1 and vm.forget(1, 1) == 1 and [it.number for it in vm.told(1)] == [1], "the rest")
    check(vm.bind(v.MapZero(0x1000, 0x1000), queue=1) == 2 and [it.number for it in vm.told(1)] == [1, 2], "room again")
    check([it.number for it in vm.told(1, start=2)] == [2] and vm.told(1, start=3) == [] == vm.told(1, start=9), "from one on")
    check(vm.settle_all() == 2 and not vm.journal() and vm.journal().stop == 3, "all entries")
    check([vm.told(queue) for queue in range(3)] == [[], [], []] and len(list(vm.mappings())) == 2, "all outcomes")
    check(vm.settle_all() == 0 and vm.submit(queue=1) == 3 and vm.settle_all() == 0 and vm.serve(1).number == 3, "one that waits stays")
    check([(it.number, it.entry) for it in vm.told(1)] == [(3, 3)], "its outcome")
    check(raised(v.BadArgument, vm.told, 3) and raised(ValueError, vm.forget, 0, -1) and raised(ValueError, vm.forget, 1 << 64, 0), "bad")
    vm.close()
    check(raised(v.NoVm, vm.settle_all) and raised(v.NoVm, vm.forget, 0, 0), "closed")


def trimming():
    vm = v.Vm()
    b = vm.buffer(2)
    check(vm.trim() is None and vm.bind(v.Map(0, 0x2000, b)) == 0, "nothing held")
    it = raised(v.Held, vm.trim)
    check((it.n, str(it)) == (0, "Held") and vm.settle(1) == 1 and vm.trim() is None, "held until it settles")
    check(vm.translate(0x1abc).byte == 0x1abc and vm.bind(v.Unmap(0, 0x1000)) == 1 and raised(v.Held, vm.trim).n == 1, "the next one")
    check(vm.rewind() == 1 and vm.trim() is None and vm.translate(0).buffer == b and [it.number for it in vm.told()] == [0, 1], "back")
    vm.close()
    check(raised(v.NoVm, vm.trim), "closed")


def settling_beside_others():
    """What another thread may do between two calls of settle_all: take the newest entry back, withdraw one, settle and forget more."""
    class Busy(v.Vm):
        def journal(self):
            held = super().journal()
            if others:
                others.pop(0)()
            return held

    def more():
        vm.bind()
        check(vm.settle(4) == 4 and vm.forget(0, 4) == 4, "settled and forgotten meanwhile")

    vm = Busy()
    others = []
    for _ in range(3):
        vm.bind(v.MapZero(0, 0x1000))
    others += [vm.rewind, lambda: vm.withdraw(1), more]
    check(vm.settle_all() == 0 and not others, "beside others")
    check(not vm.journal() and vm.journal().stop == 4 and vm.told() == [] and vm.bind() == 4 and vm.told()[0].number == 4, "all is settled")


def lists():
    vm = v.Vm()
    b = vm.buffer(600)
    ops = [v.Map(0x3000 * k, 0x1000, b, 0x1000 * k, read_only=k % 2 == 1) for k in range(200)]
    vm.bind(*ops)
    vm.bind(v.Map(0x1000, 0x1000, b))
    mappings = list(vm.mappings())
    check(len(mappings) == 201 and [it.start for it in mappings] == sorted(it.start for it in mappings), "in order")
    check(mappings[2].read_only and mappings[2].buffer == b and mappings[2].offset == 0x1000, "a mapping")
    check(vm.uses(b).mapped == 201 and vm.uses(b).pages == 600, "uses")
    check(vm.tables() == (1, 1, 1, 1, 2), f"tables {vm.tables()}")
    check(vm.entry(0).ops == ops and vm.entry(0).queue == 0 and not vm.entry(0).withdrawn, "an entry")
    vm.withdraw(1)
    check([(it.entry, it.withdrawn, it.of) for it in vm.entries()] == [(0, False, None), (1, True, None), (2, False, 1)], "entries")
    check(vm.rewind() == 2 and vm.rewind() == 1 and vm.journal() == range(0, 1) and vm.settle(1) == 1 and not vm.journal(), "back")
    steps = vm.plan(v.MapZero(0x800 * 2, 0x1000 * 6))
    check([it.kind for it in steps] == [v.STEP_UNMAP, v.STEP_UNMAP, v.STEP_MAP] and not steps[0].prev and steps[0].mapping, "a plan")
    check(vm.plan(v.UnmapAll(b))[199].mapping == list(vm.mappings())[199], "a plan of all")
    check(len({b, vm.buffer(1), b}) == 2, "ids in a set")


def past():
    vm = v.Vm()
    b = vm.buffer(40)
    check(vm.past(0) == [] and not vm.base(0), "nothing yet")
    for k in range(40):
        vm.bind(v.Map(0, 0x1000, b, 0x1000 * k, read_only=k % 2 == 1))
    vm.bind(v.Unmap(0, 0x1000))
    vm.withdraw(40)
    told = vm.past(0x234)
    check([it.entry for it in told] == list(range(40, -1, -1)), "the newest first")
    check([it.withdrawn for it in told] == [1] + [0] * 40 and not told[0].place, "withdrawn")
    check(all(it.place.byte == 0x1000 * it.entry + 0x234 and it.place.read_only == (it.entry % 2 == 1) for it in told[1:]), "places")
    check(vm.past(0x1000) == [] and vm.past((1 << 64) - 1) == [], "of other pages")
    check(vm.settle(30) == 30 and len(vm.past(0)) == 11 and vm.base(0x234).byte == 0x1000 * 29 + 0x234, "under them")
    check(raised(ValueError, vm.past, -1) and raised(ValueError, vm.base, 1 << 64), "not an address")


def many():
    vm = v.Vm()
    b = vm.buffer(16)
    vm.bind(v.Map(0x1000, 0x10000, b))
    numbers = [0, 0x1000, 0x5432, 0x11000, v.END, (1 << 64) - 1]
    wanted = [vm.translate(it) for it in numbers]
    rows = array.array("Q", numbers)
    for given in (numbers, tuple(numbers), iter(numbers), rows, memoryview(rows), memoryview(rows.tobytes()).cast("Q")):
        check(list(vm.translate_many(given)) == wanted, f"many of {type(given)}")
    by_table = [(it.kind, it.flags, it.buffer, it.byte, 0) for it in wanted]
    for walked in ([vm.walk(it) for it in numbers], vm.walk_many(rows)):
        check([(it.kind, it.flags, it.buffer, it.byte, it.run) for it in walked] == by_table, "the page table says the same")
    out = vm.translate_many(rows)
    vm.rewind()
    check(vm.translate_many(rows, out) is out and not any(out), "written again")
    check(raised(v.Refused, vm.translate_many, rows[:3], out).fault == v.BAD_ARGUMENT, "counts that differ")
    check(raised(TypeError, vm.translate_many, array.array("I", [1])), "numbers of 32 bits")
    check(raised(TypeError, vm.translate_many, memoryview(rows)[::2]), "with gaps")
    check(raised(TypeError, vm.translate_many, rows, bytearray(999)), "another thing to write to")
    check(len(vm.translate_many([])) == 0, "none")
    rows.append(5)   # nothing holds the array any more


def jobs():
    vm = v.Vm()
    b, c = vm.buffer(1), vm.buffer(1)
    vm.bind(v.Map(0, 0x1000, b), v.Map(0x1000, 0x1000, c, read_only=True))
    job = vm.job(writes=[0], reads=[0x1000])
    check(raised(v.Refused, vm.job, reads=[0]).name == "Conflict", "in use")
    it = raised(v.Refused, vm.job, accesses=[(0x1000, False), (0x1004, True)])
    check(it.name == "WriteToReadOnly" and it.n == 1, "the second access")
    vm.rewind()
    it = raised(v.Refused, vm.destroy, b)
    check(it.name == "InUse" and it.n == 1, "held")
    vm.end(job)
    vm.destroy(b)
    check(raised(v.Refused, vm.end, job).name == "NoJob", "ended")


def threads():
    vm = v.Vm()
    wrong = []

    def work(base):
        for k in range(300):
            vm.bind(v.MapZero(base + k % 8 * 0x1000, 0x1000), queue=base >> 20)
            if not vm.translate(base + k % 8 * 0x1000):
                wrong.append(k)

    workers = [threading.Thread(target=work, args=(k << 20,)) for k in range(4)]
    for it in workers:
        it.start()
    for it in workers:
        it.join()
    check(not wrong and len(list(vm.mappings())) == 32 and len(vm.journal()) == 1200, "threads on one address space")


for test in (header, living, kinds, refusals, waiting, forgetting, trimming, settling_beside_others, lists, past, many, jobs, threads):
    test()
print(f"module.py: {passed} passed, {failed} failed")
sys.exit(1 if failed or not passed else 0)
