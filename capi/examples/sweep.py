#!/usr/bin/env python3
"""A sweep over sizes of mappings: how many mappings and tables a buffer of 64 MiB takes when it is mapped in pieces, and how many of
the tables a hole in each piece adds. Each step is taken back before the next.

    VMBIND_LIBRARY=capi/build/libvmbind.so PYTHONPATH=capi python3 capi/examples/sweep.py
"""
import array

import vmbind

SIZE, BASE = 64 << 20, 1 << 32


def requests(ops):
    """In requests of at most 256 operations."""
    return (ops[k:k + 256] for k in range(0, len(ops), 256))


with vmbind.Vm() as vm:
    buffer = vm.buffer(SIZE // 4096)
    print("    piece  mappings  tables  with holes")
    for piece in (1 << 16, 1 << 18, 1 << 21, 1 << 24, 1 << 26):
        starts = range(0, SIZE, piece)
        for ops in requests([vmbind.Map(BASE + at, piece, buffer, at) for at in starts]):
            vm.bind(*ops)
        mappings, tables = vm.uses(buffer).mapped, sum(vm.tables())
        # every piece leads where it should, in one call
        addresses = array.array("Q", (BASE + at + piece // 2 for at in starts))
        for at, place in zip(starts, vm.translate_many(addresses)):
            assert place.buffer == buffer and place.byte == at + piece // 2 and place.run == piece // 2
        for ops in requests([vmbind.Unmap(BASE + at, 4096) for at in starts]):
            vm.bind(*ops)
        print(f"{piece:9} {mappings:9} {tables:7} {sum(vm.tables()):11}")
        while vm.journal():
            vm.rewind()
    assert not list(vm.mappings())
