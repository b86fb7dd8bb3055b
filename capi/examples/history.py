#!/usr/bin/env python3
"""What an address was: an allocator gives memory out and takes it back, by one request each, and one of its requests maps the wrong
buffer over another's pages. The entries tell which one it was, and it alone is withdrawn.

    VMBIND_LIBRARY=capi/build/libvmbind.so PYTHONPATH=capi python3 capi/examples/history.py
"""
import random

import vmbind

PAGE, BASE, PAGES = 4096, 1 << 32, 256
chance = random.Random(1)

with vmbind.Vm() as vm:
    names, live = {}, {}
    for number in range(60):
        if live and chance.random() < 0.4:
            first = chance.choice(sorted(live))
            vm.bind(vmbind.Unmap(BASE + first * PAGE, live.pop(first) * PAGE))
            continue
        count = chance.randint(1, 12)
        taken = {first + k for first in live for k in range(live[first])}
        free = [at for at in range(PAGES - count) if not taken & set(range(at, at + count))]
        first, buffer = chance.choice(free), vm.buffer(count)
        names[buffer], live[first] = f"b{number}", count
        vm.bind(vmbind.Map(BASE + first * PAGE, count * PAGE, buffer))

    def where(place):
        return f"{names[place.buffer]} at {place.byte:#x}" if place else "nothing"

    # the mistake, and what it hides
    victim = max(live, key=live.get)
    address = BASE + victim * PAGE + 0x123
    before = vm.translate(address)
    wrong = vm.buffer(1)
    names[wrong] = "the wrong one"
    mistake = vm.bind(vmbind.Map(BASE + victim * PAGE, PAGE, wrong))
    vm.bind(vmbind.MapZero(BASE + (PAGES + 1) * PAGE, PAGE))   # and work goes on

    print(f"{address:#x} leads to {where(vm.walk(address))}, and before that:")
    said = vm.past(address)
    for it in said:
        print(f"  entry {it.entry}: {where(it.place)}")
    print(f"  under them: {where(vm.base(address))}")
    assert said[0].entry == mistake and said[0].place.buffer == wrong and said[1].place.buffer == before.buffer

    print(f"withdrawn as entry {vm.withdraw(mistake)}: {where(vm.walk(address))}")
    assert vm.walk(address).buffer == before.buffer and vm.past(address)[0].withdrawn

    # what settles is what lies under all
    vm.settle(vm.journal().stop)
    assert vm.past(address) == [] and vm.base(address) == vm.walk(address)
    try:
        vm.withdraw(mistake)
    except vmbind.NoEntry as it:
        print(f"settled, and so {it}")
