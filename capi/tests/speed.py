#!/usr/bin/env python3
"""Times of calls from Python: microseconds of processor time a call, the least of several runs."""
import array
import os
import sys
import time
import timeit

sys.path.insert(0, os.path.join(os.path.dirname(os.path.abspath(__file__)), ".."))
import vmbind  # noqa: E402

vm = vmbind.Vm()
buffer = vm.buffer(1 << 20)
for first in range(0, 1000, 250):
    vm.bind(*(vmbind.Map(k * 0x2000, 0x1000, buffer, k * 0x1000) for k in range(first, first + 250)))
op = vmbind.Map(0x1000, 0x5000, buffer, 0x3000)
rows = array.array("Q", (k % 1000 * 0x2000 + 5 for k in range(10000)))
out = vm.translate_many(rows)


def there_and_back():
    vm.bind(op)
    vm.rewind()


def measure(name, call, calls, each=1):
    least = min(timeit.repeat(call, number=calls, repeat=7, timer=time.process_time))
    print(f"{name:24} {least / calls / each * 1e6:8.3f} us")


measure("value", lambda: vm.value(3), 20000)
measure("translate", lambda: vm.translate(0x2abc), 20000)
measure("walk", lambda: vm.walk(0x2abc), 20000)
measure("translate_many, each", lambda: vm.translate_many(rows, out), 20, len(rows))
measure("bind and rewind", there_and_back, 2000)
