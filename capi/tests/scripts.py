#!/usr/bin/env python3
"""Scripts run by calls of the library, beside what the program writes for them.

    scripts.py examples SCRIPT..           each script's replies are those of the file beside it that ends in .replies
    scripts.py random SEED COUNT WORD..    scripts by chance; `WORD.. < script` writes the replies that are wanted

Requests go out by bind, or by submit and serve; where an address leads, how far, and the list of mappings have to agree.
"""
import array
import os
import random
import subprocess
import sys

sys.path.insert(0, os.path.join(os.path.dirname(os.path.abspath(__file__)), ".."))
import vmbind  # noqa: E402

PAGE = 4096


class Session:
    """A script so far: a Vm, and the names of buffers and timelines."""

    def __init__(self, chance=None):
        self.settings, self.vm, self.chance = {}, None, chance
        self.buffers, self.timelines, self.declared = {}, [], {}

    def line(self, text):
        """The replies to a line."""
        if not text or text.startswith("#"):
            return []
        word, _, rest = text.partition(" ")
        if word in ("space", "limits"):
            return getattr(self, "do_" + word)(*map(number, rest.split()))
        if self.vm is None:
            self.vm = vmbind.Vm(**self.settings)
        try:
            return getattr(self, "do_" + word)(*([rest] if word in ("bind", "plan", "job") else rest.split()))
        except vmbind.Refused as it:
            return ["refused " + fault(it.fault, it.n)]

    def do_space(self, start, size, reserved_start, reserved_size):
        self.settings.update(start=start, size=size, reserved=(reserved_start, reserved_size))
        return ["ok"]

    def do_limits(self, buffers, mappings, items):
        self.settings.update(buffers=buffers, mappings=mappings, items=items)
        return ["ok"]

    def do_buffer(self, name, pages):
        made = self.vm.buffer(number(pages))
        self.declared[name] = made
        self.buffers[made] = name
        return ["ok"]

    def do_destroy(self, name):
        self.vm.destroy(self.declared[name])
        return ["ok"]

    def do_uses(self, name):
        uses = self.vm.uses(self.declared[name])
        return [f"uses {uses.mapped} kept {uses.kept}"]

    def do_timeline(self, name):
        self.timelines.append(name)
        return ["ok"]

    def do_raise(self, name, value):
        return [f"{name} {self.vm.raise_to(self.timelines.index(name), number(value))}"]

    def do_value(self, name):
        return [f"{name} {self.vm.value(self.timelines.index(name))}"]

    def op(self, words):
        read_only = words[-1] == "ro"
        if words[0] == "map":
            return vmbind.Map(number(words[1]), number(words[2]), self.declared[words[3]], number(words[4]), read_only)
        if words[0] == "zero":
            return vmbind.MapZero(number(words[1]), number(words[2]), read_only)
        if words[0] == "unmap":
            return vmbind.Unmap(number(words[1]), number(words[2]))
        return vmbind.UnmapAll(self.declared[words[1]])

    def do_bind(self, clauses):
        ops, waits, signals, queue = [], [], [], 0
        for clause in clauses.split(" ; ") if clauses else []:
            words = clause.split()
            if words[0] == "queue":
                queue = int(words[1])
            elif words[0] in ("wait", "signal"):
                (waits if words[0] == "wait" else signals).append((self.timelines.index(words[1]), number(words[2])))
            else:
                ops.append(self.op(words))
        asked = dict(waits=waits, signals=signals, queue=queue)
        try:
            if self.chance and self.chance.random() < 0.3:
                self.vm.submit(*ops, **asked)
                entry = self.vm.serve(queue).entry
            else:
                entry = self.vm.bind(*ops, **asked)
        except vmbind.NotReady as it:
            if it.outcome.kind != vmbind.PENDING:
                raise AssertionError(f"a request that waits is told {it.outcome}") from it
            try:
                self.vm.serve(queue, give_up=True)
            except vmbind.NotReady as up:
                return [self.outcome(up.outcome)]
        except vmbind.Refused as it:
            if it.op is None:
                raise
            return [self.outcome(it.outcome)]
        return [f"accepted {entry}"]

    def outcome(self, it):
        if it.kind == vmbind.ACCEPTED:
            return f"accepted {it.entry}"
        if it.kind == vmbind.REFUSED:
            return f"refused {it.op} {fault(it.fault, it.carried)}"
        return f"notready {self.timelines[it.point.timeline]} {it.point.value} have {it.have}"

    def place(self, it, byte):
        flags = "ro" if it.read_only else "rw"
        return f"{self.buffers[it.buffer]} {byte:016x} {flags}" if it.kind == vmbind.BUFFER else f"zero {flags}"

    def mapping(self, it):
        if not it:
            return "none"
        return f"{it.start:016x} {it.start + it.size:016x} {self.place(it, it.offset)}"

    def do_plan(self, text):
        lines = []
        for step in self.vm.plan(self.op(text.split())):
            keep = " keep" if step.keep else ""
            if step.kind == vmbind.STEP_REMAP:
                lines.append(f"remap {self.mapping(step.mapping)} prev {self.mapping(step.prev)} next {self.mapping(step.next)}{keep}")
            else:
                lines.append(f"{'unmap' if step.kind == vmbind.STEP_UNMAP else 'map'} {self.mapping(step.mapping)}{keep}")
        return lines or ["empty"]

    def do_map(self):
        return [self.mapping(it) for it in self.vm.mappings()] or ["empty"]

    def look(self, address):
        """Where an address leads, once that agrees with the list."""
        found, mappings = self.vm.translate(address), list(self.vm.mappings())
        wanted = vmbind.Translation()
        here = [it for it in mappings if it.start <= address < it.start + it.size]
        if here:
            wanted.kind, wanted.flags, wanted.run = here[0].kind, here[0].flags, here[0].start + here[0].size - address
            wanted.buffer = here[0].buffer
            wanted.byte = here[0].offset + address - here[0].start if here[0].kind == vmbind.BUFFER else 0
        elif address < vmbind.END:
            wanted.run = min([it.start for it in mappings if it.start > address] + [vmbind.END]) - address
        if found != wanted:
            raise AssertionError(f"address {address:#x} leads to {found}, and by the list to {wanted}")
        walked = self.vm.walk(address)
        walked.run = wanted.run
        if walked != wanted:
            raise AssertionError(f"address {address:#x} leads to {walked} by the page table, and by the list to {wanted}")
        return found

    def do_at(self, address):
        found = self.look(number(address))
        return [self.place(found, found.byte) if found else "none"]

    def do_tables(self):
        return [" ".join(map(str, self.vm.tables()))]

    def do_rewind(self):
        return [f"rewound {self.vm.rewind()}"]

    def do_withdraw(self, entry):
        return [f"withdrawn {number(entry)} as {self.vm.withdraw(number(entry))}"]

    def do_settle(self, to):
        return [f"settled {self.vm.settle(number(to))}"]

    def do_journal(self):
        return [f"{it.entry} withdrawal of {it.of}" if it.ops is None else
                f"{it.entry} bind {it.queue} {it.number} {'withdrawn' if it.withdrawn else 'live'}"
                for it in self.vm.entries()] or ["empty"]

    def do_told(self, queue):
        told = self.vm.told(number(queue))
        if [it.number for it in told] != list(range(len(told))):
            raise AssertionError("a queue's outcomes are out of order")
        return [f"{it.number} {self.outcome(it)}" for it in told] or ["empty"]

    def do_job(self, text):
        accesses = [(number(it.split()[1]), it.startswith("write")) for it in text.split(" ; ")]
        found = [self.look(address) for address, _ in accesses]
        job = self.vm.job(accesses=accesses)
        return [f"job {job}"] + [self.place(it, it.byte) for it in found]

    def do_end(self, job):
        self.vm.end(number(job))
        return [f"ended {number(job)}"]

    def agree(self):
        """Many addresses in one call lead where each leads alone."""
        addresses = array.array("Q", [page * PAGE + 5 for page in range(24)] + [vmbind.END - 1, vmbind.END, (1 << 64) - 1])
        for address, found in zip(addresses, self.vm.translate_many(addresses)):
            if found != self.look(address):
                raise AssertionError(f"address {address:#x} leads to {found} among many")
            self.remember(address)

    def remember(self, address):
        """An address leads where the newest live entry says that says something of it, and else where what lies under all does."""
        said = [it.place for it in self.vm.past(address) if not it.withdrawn] + [self.vm.base(address)]
        if self.vm.walk(address) != said[0]:
            raise AssertionError(f"address {address:#x} leads to {self.vm.walk(address)}, and by the entries to {said[0]}")


def number(text):
    return int(text, 0)


# The faults whose number is written, also where it is 0.
CARRY = {10, 11, 12, 13, 20, 21, 22, 24, 25}


def fault(status, n):
    return vmbind.NAMES[status] + (f" {n}" if status in CARRY else "")


def difference(name, lines, got, wanted):
    """Tells the first reply that differs, with the lines before it."""
    for k, (one, two) in enumerate(zip(got + ["(no more)"], wanted + ["(no more)"])):
        if one != two:
            print(f"{name}: reply {k + 1} is '{one}', and '{two}' is wanted\n" + "\n".join(lines), file=sys.stderr)
            return
    print(f"{name}: {len(got)} replies, and {len(wanted)} are wanted", file=sys.stderr)


def examples(scripts):
    ran = failed = 0
    for script in scripts:
        with open(script, encoding="ascii") as file:
            lines = file.read().splitlines()
        with open(script[:-4] + ".replies", encoding="ascii") as file:
            wanted = file.read().splitlines()
        session = Session()
        got = [reply for line in lines for reply in session.line(line)]
        ran += 1
        if got != wanted:
            failed += 1
            difference(script, lines, got, wanted)
    return ran, failed


class Author:
    """Lines by chance, in a space that is small enough for them to meet."""

    def __init__(self, chance):
        self.chance = chance
        self.wide = chance.random() < 0.3

    def page(self):
        at = self.chance.randrange(24) * PAGE
        if self.wide:
            at += self.chance.choice((0, 0, 512, 1 << 18, 1 << 27)) * PAGE
        return at

    def range(self):
        odd = self.chance.random()
        start, size = self.page(), self.chance.randint(1, 8) * PAGE
        if odd < 0.02:
            start += 8
        elif odd < 0.04:
            size = 0
        elif odd < 0.06:
            start = self.chance.choice((vmbind.END, vmbind.END - PAGE, (1 << 64) - PAGE))
        elif odd < 0.12 and self.wide:
            size = self.chance.choice((512, 1024, 1 << 18)) * PAGE
        return f"{start:#x} {size:#x}"

    def name(self, session):
        return self.chance.choice(list(session.declared))

    def operation(self, session, all_too=True):
        kind = self.chance.random()
        flags = " ro" if self.chance.random() < 0.3 else ""
        if kind < 0.5 and session.declared:
            return f"map {self.range()} {self.name(session)} {self.chance.randint(0, 4) * PAGE:#x}{flags}"
        if kind < 0.65:
            return f"zero {self.range()}{flags}"
        if kind < 0.72 and all_too and session.declared:
            return f"unmapall {self.name(session)}"
        return f"unmap {self.range()}"

    def bind(self, session):
        clauses = [self.operation(session) for _ in range(self.chance.choice((0, 1, 1, 1, 2, 2, 3, 6)))]
        for word in ("wait", "signal"):
            if session.timelines and self.chance.random() < 0.2:
                clauses.append(f"{word} {self.chance.choice(session.timelines)} {self.chance.randint(0, 20)}")
        if self.chance.random() < 0.4:
            clauses.append(f"queue {self.chance.randrange(16)}")
        self.chance.shuffle(clauses)
        return "bind " + " ; ".join(clauses) if clauses else "bind"

    def entry(self, session):
        held = session.vm.journal() if session.vm else range(0)
        return self.chance.randint(max(held.start - 1, 0), held.stop + 1)

    def next(self, session, k):
        pick = self.chance.random()
        if pick < 0.06 or k < 3:
            size = self.chance.choice((0, 1 << 37)) if self.chance.random() < 0.1 else self.chance.randint(1, 20)
            if self.wide and self.chance.random() < 0.3:
                size = self.chance.choice((1 << 18, 1 << 20))
            return f"buffer b{k} {size}"
        if pick < 0.08 and len(session.timelines) < 8:
            return f"timeline t{k}"
        if pick < 0.45:
            return self.bind(session)
        if session.declared and pick < 0.50:
            return f"{self.chance.choice(('uses', 'uses', 'destroy'))} {self.name(session)}"
        if session.timelines and pick < 0.54:
            name = self.chance.choice(session.timelines)
            return f"raise {name} {self.chance.randint(0, 20)}" if self.chance.random() < 0.7 else f"value {name}"
        if pick < 0.62:
            return "plan " + self.operation(session, all_too=False)
        if pick < 0.70:
            return f"at {self.page() + self.chance.randrange(PAGE):#x}"
        if pick < 0.74:
            return "rewind"
        if pick < 0.83:
            return f"withdraw {self.entry(session)}"
        if pick < 0.85:
            return f"settle {self.entry(session)}"
        if pick < 0.90:
            return "job " + " ; ".join(f"{self.chance.choice(('read', 'write'))} {self.page() + 4:#x}"
                                       for _ in range(self.chance.randint(1, 3)))
        if pick < 0.92:
            return f"end {self.chance.randrange(6)}"
        return self.chance.choice(("map", "tables", "journal", f"told {self.chance.randrange(4)}"))


def one_by_chance(seed, words):
    chance = random.Random(seed)
    session, author = Session(chance), Author(chance)
    lines, got = [], []

    def run(line):
        lines.append(line)
        got.extend(session.line(line))

    if chance.random() < 0.3:
        run("space 0x0 0x20000000000 0x10000 0x3000")
    if chance.random() < 0.5:
        run(f"limits {chance.randint(2, 6)} {chance.randint(4, 20)} {chance.randint(3, 40)}")
    for k in range(chance.randint(40, 300)):
        run(author.next(session, k))
        if chance.random() < 0.05 and session.vm:
            session.agree()
    script = "".join(line + "\n" for line in lines)
    ran = subprocess.run(words, input=script, stdout=subprocess.PIPE, encoding="ascii", check=True)
    wanted = ran.stdout.splitlines()
    if got != wanted:
        difference(f"seed {seed}", lines, got, wanted)
        return len(got), 1
    return len(got), 0


def by_chance(seed, count, words):
    replies = failed = 0
    for k in range(count):
        more, wrong = one_by_chance(seed + k, words)
        replies, failed = replies + more, failed + wrong
    print(f"{replies} replies", file=sys.stderr)
    return count, failed


def main():
    if sys.argv[1] == "examples":
        ran, failed = examples(sys.argv[2:])
    else:
        ran, failed = by_chance(int(sys.argv[2]), int(sys.argv[3]), sys.argv[4:])
    print(f"scripts.py {sys.argv[1]}: {ran - failed} passed, {failed} failed")
    sys.exit(1 if failed or not ran else 0)


main()
