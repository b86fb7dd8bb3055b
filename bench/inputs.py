"""Inputs beside those of bench/workloads.txt: dialogues for `vmbind serve`, RADV logs, and pairs of lists. Each function gives lines."""
import random

REGION = 512  # pages of a table of pages, and of a region in the journal's columns
LEAF = 1 << 18  # pages of a leaf of 1 GiB
SLOT = 16  # pages from one of many mappings to the next
OLDEST = 64  # entries that withdrawals take
QUEUE_LIMIT = 65536  # outcomes that a queue tells
PAGE, TILE, SPARSE_RANGE = 4096, 65536, 4096
MEMORY, SPARSE = 0x800001000000, 0x400000000000


def mapped(page, count, at=0, name="b"):
    return f"map 0x{page << 12:x} {count << 12} {name} {at << 12}"


def unmapped(page, count):
    return f"unmap 0x{page << 12:x} {count << 12}"


class Dialogue:
    """Lines so far, with the numbers that later lines need: requests, the oldest entry held, the next entry, jobs."""

    def __init__(self, seed=1):
        self.lines, self.random = [], random.Random(seed)
        self.requests = self.first = self.next = self.jobs = 0

    def buffer(self, name, pages=1 << 36):
        self.lines.append(f"buffer {name} {pages}")

    def bind(self, *operations, most=50_000):
        """One request, on the next queue once one is spent. Settles if more than `most` entries are held."""
        queue = self.requests // QUEUE_LIMIT
        self.lines.append(" ; ".join([f"bind queue {queue} ; {operations[0]}" if queue else f"bind {operations[0]}", *operations[1:]]))
        self.requests += 1
        self.next += 1
        if self.next - self.first > most:
            self.settle()

    def bind_all(self, operations):
        """As few requests as these operations take."""
        operations = list(operations)
        for k in range(0, len(operations), 256):
            self.bind(*operations[k : k + 256])

    def rewind(self):
        self.lines.append("rewind")
        self.next -= 1

    def settle(self, to=None):
        self.first = self.next if to is None else to
        self.lines.append(f"settle {self.first}")

    def job(self, accesses):
        self.lines.append("job " + " ; ".join(accesses))
        self.jobs += 1
        return self.jobs - 1


def whole_buffers(others, per, mode="new", rounds=160):
    """Buffers of `per` mappings unmapped whole among `others` mappings of another buffer. Modes: `new` buffers, `same` one, `cut` with the
    middle page of each mapping unmapped before, `back` with the unmap undone and made again."""
    d = Dialogue()
    d.buffer("b")
    d.bind_all(mapped(slot * SLOT, 2, slot * SLOT) for slot in range(others))
    d.settle()
    if mode == "same":
        d.buffer("f", 1 << 20)
    for number in range(rounds if per else 0):
        name = "f" if mode == "same" else f"f{number}"
        if mode != "same":
            d.buffer(name, 1 << 20)
        pages = [slot * SLOT + 8 for slot in d.random.sample(range(others), per)]
        for k, page in enumerate(pages):
            d.bind(mapped(page, 3, 3 * k, name))
        if mode == "cut":
            for page in pages:
                d.bind(unmapped(page + 1, 1))
        d.bind(f"unmapall {name}")
        if mode == "back":
            d.rewind()
            d.bind(f"unmapall {name}")
    return d.lines


def withdrawals(entries, where, ops=1, own=1, refused=False, rounds=1000):
    """The oldest entries withdrawn, each undone, under later ones that touch none of them. The later ones are in `one` region with them, in
    regions equal `mod128`, `scattered`, or in an area of so many regions around them; `wide`: the oldest cover 128 regions each. `refused`:
    the newest entries touch the oldest."""
    d = Dialogue()
    d.buffer("b")
    middle, width = 1 << 13, 1
    kept = [[middle * REGION + 224 + k + n * REGION for n in range(own)] for k in range(OLDEST)]
    if where == "wide":
        kept, width = [[(middle + 256 * k) * REGION] for k in range(OLDEST)], 128 * REGION
    for pages in kept:
        d.bind(*(mapped(page, width, page) for page in pages))

    def page(side):
        sign = 1 if side else -1
        near = 288 * side + d.random.randrange(224)
        if where == "one":
            return middle * REGION + near
        if isinstance(where, int):
            return (middle + sign * d.random.randrange(where // 2)) * REGION + near
        if where == "mod128":
            region = middle + sign * 128 * (1 + d.random.randrange(60))
        else:
            above = middle + (256 * OLDEST if where == "wide" else own)
            region = d.random.randrange(1, 4096) + (above if side else 0)
        return region * REGION + d.random.randrange(REGION)

    for entry in range(entries):
        sides = [entry % 2] if ops == 1 else [k % 2 for k in range(ops)]
        d.bind(*(mapped(page(side), 1, entry) for side in sides))
    if refused:
        for pages in kept:
            d.bind(mapped(pages[0], 1))
    for number in range(rounds):
        d.lines.append(f"withdraw {number % OLDEST}")
        if not refused:
            d.lines.append("rewind")
    return d.lines


def tables(standing, swing, how="rewind", edits=15_000):
    """Tables of pages that come and leave where `standing` stay: `swing` come one by one and leave by `rewind` or `unmap`, or all at once by
    a request and its undo (`wide`), or by an unmap of all, settled at once (`unwide`)."""
    d = Dialogue()
    d.buffer("b")
    d.bind_all(mapped(region * REGION, 1, region) for region in range(standing))
    d.settle()
    further = [(standing + k) * REGION for k in range(swing)]
    for _cycle in range(max(1, edits // swing)):
        before = d.next
        if how in ("wide", "unwide"):
            d.bind_all(mapped(page, 1) for page in further)
        else:
            for page in further:
                d.bind(mapped(page, 1))
        if how == "unmap":
            for page in further:
                d.bind(unmapped(page, 1))
            d.settle()
        elif how == "unwide":
            d.bind(unmapped(further[0], swing * REGION))
            d.settle()
        else:
            while d.next > before:
                d.rewind()
    return d.lines


def holes(leaves, rounds=4_000, held=100):
    """Holes of a page in leaves of 1 GiB: of four one is undone, and one leaf is mapped anew."""
    d = Dialogue()
    d.buffer("b")
    d.bind_all(mapped(leaf * LEAF, LEAF, leaf * LEAF) for leaf in range(leaves))
    for _round in range(rounds):
        page = d.random.randrange(leaves * LEAF)
        d.bind(unmapped(page, 1))
        kind = d.random.randrange(4)
        if kind == 0:
            d.rewind()
        elif kind == 1:
            first = page // LEAF * LEAF
            d.bind(mapped(first, LEAF, first))
        if d.next - d.first > 2 * held:
            d.settle(d.next - held)
    return d.lines


def jobs(order, accesses=1, running=1_000, cycles=6):
    """Jobs that read one buffer begin, and end in this order; with `refused` they run on, and jobs that would write are refused."""
    d = Dialogue()
    d.buffer("b", REGION)
    d.bind(mapped(0, REGION))

    def begin(usage):
        return d.job([f"{usage} 0x{d.random.randrange(REGION) << 12:x}" for _ in range(accesses)])

    for cycle in range(cycles):
        begun = [begin("write" if order == "refused" and cycle else "read") for _ in range(running)]
        if order == "random":
            d.random.shuffle(begun)
        if order != "refused":
            d.lines += [f"end {job}" for job in begun]
    return d.lines


def appended(mappings, edits=0, walks=0, block=256):
    """Mappings of a page, each after the last, `block` of them a request; then edits anywhere, then look-ups."""
    d = Dialogue()
    d.buffer("b")
    for first in range(0, mappings, block):
        d.bind(*(mapped(2 * k, 1) for k in range(first, min(first + block, mappings))))
    d.settle()
    for _edit in range(edits):
        page = 2 * d.random.randrange(mappings - 4)
        d.bind(mapped(page, 3) if d.random.randrange(2) else unmapped(page, 3))
    return d.lines + [f"at 0x{d.random.randrange(2 * mappings) << 12:x}" for _walk in range(walks)]


def far(mappings, pattern, kind, edits=15_000):
    """Edits of one list, each `far` from the last, `near` it, at both `ends` in turn, or `below` the first mapping: a mapping replaced, or a
    `hole` in one, or a page added (`add`), which are undone."""
    d = Dialogue()
    d.buffer("b")
    first, step, place = 1 << 20, int(mappings * 0.618) | 1, 0
    d.bind_all(mapped(first + 4 * k, 2, 4 * k) for k in range(mappings))
    d.settle()
    for edit in range(edits):
        turn = edit // 2 % mappings
        place = {"far": (place + step) % mappings, "near": edit % mappings, "ends": mappings - 1 - turn if edit % 2 else turn, "below": 0}[pattern]
        page = 4 * (edit % 1_000) if pattern == "below" else first + 4 * place
        if kind == "replace":
            d.bind(mapped(page, 2, edit))
        else:
            d.bind(unmapped(page + 1, 1) if kind == "hole" else mapped(page + 2, 1, edit))
            d.rewind()
    return d.lines


def pasts(entries, asked, area=256):
    """What each entry says of addresses, most of which few entries cover."""
    d = Dialogue()
    d.buffer("b")
    for entry in range(entries):
        d.bind(mapped(d.random.randrange(area * REGION), 1, entry))
    return d.lines + [f"past 0x{d.random.randrange(2 * area * REGION) << 12:x}" for _ in range(asked)]


def live_buffers(buffers, edits):
    """A mapping of each of many live buffers in turn, chosen at random, over the one before it there."""
    d = Dialogue()
    for number in range(buffers):
        d.buffer(f"f{number}", 8)
    for edit in range(edits):
        d.bind(mapped(4 * d.random.randrange(buffers), 2, edit % 4, f"f{d.random.randrange(buffers)}"))
    return d.lines


def radv(slots, pages, packed=False, tiles=4, steps=10_000):
    """A RADV log: memory of at most so many pages in slots, far apart or `packed`, freed and made again, with tiles bound to it."""
    r, lines, clock = random.Random(1), [], 81_204_331_023_963
    sizes = [r.choice([r.randrange(16) + 1, pages, (r.randrange(max(1, pages // 16)) + 1) * 16]) for _ in range(slots)]
    firsts, at = [], MEMORY
    for size in sizes:
        firsts.append(at)
        at += (size if packed else 2 * pages) * PAGE

    def line(start, length, what):
        nonlocal clock
        clock += r.randrange(9_000)
        lines.append(f"timestamp={clock}, VA={start:016x}-{start + length:016x}, {what}")

    for part in range(slots * tiles // SPARSE_RANGE + 1):
        line(SPARSE + part * SPARSE_RANGE * TILE, SPARSE_RANGE * TILE, "destroyed=0, is_virtual=1")
    for slot in range(slots):
        line(firsts[slot], sizes[slot] * PAGE, "destroyed=0, is_virtual=0")
    for _step in range(steps):
        slot = r.randrange(slots)
        tile = SPARSE + slot * tiles * TILE
        if r.randrange(100) < 55:
            to = firsts[slot] + r.randrange(sizes[slot] // 16) * TILE if sizes[slot] >= 16 else 0
            line(tile + r.randrange(tiles) * TILE, TILE, f"mapped_to={to:016x}")
        else:
            line(tile, tiles * TILE, f"mapped_to={0:016x}")
            line(firsts[slot], sizes[slot] * PAGE, "destroyed=1, is_virtual=0")
            line(firsts[slot], sizes[slot] * PAGE, "destroyed=0, is_virtual=0")
    return lines


def lists(kind, count=20_000):
    """Two lists of which one mapping in 64 differs: both as `map` writes them, with `zeros`, with long `names`, or the second as the kernel's
    `gpuvas`, in order (`dump`) or not (`shuffled`)."""
    r, rows, at = random.Random(1), [], 16
    for number in range(count):
        first, pages = at + r.randrange(3) * r.randrange(64), r.randrange(32) + 2
        rows.append((first, pages, None if kind == "zeros" and number % 2 else r.randrange(300), r.randrange(4_096)))
        at = first + pages
    others = [(first, pages, (buffer or 0) + 1, page) if r.randrange(64) == 0 else (first, pages, buffer, page) for first, pages, buffer, page in rows]

    def as_map(first, pages, buffer, page):
        name = f"buffer_{buffer:09d}" if kind == "names" else f"b{buffer}"
        place = "zero" if buffer is None else f"{name} {page << 12:016x}"
        return f"{first << 12:016x} {first + pages << 12:016x} {place} rw"

    def as_row(first, pages, buffer, page):
        known = 0 if buffer is None else 0xFFFF9D4A80000000 + buffer * 0x400
        return " | ".join(["    ", *(f"0x{number:016x}" for number in (first << 12, pages << 12, first + pages << 12, known, page << 12))])

    if kind == "shuffled":
        r.shuffle(others)
    if kind not in ("dump", "shuffled"):
        return [as_map(*row) for row in rows], [as_map(*row) for row in others]
    head = "DRM GPU VA space (composed) [0x0000000000000000;0x0001000000000000]"
    return [as_map(*row) for row in rows], [head, *(as_row(*row) for row in others)]
