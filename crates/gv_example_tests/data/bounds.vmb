# An address space of 16 pages, of which four from 0x8000 on are reserved for the kernel.
space 0x0 0x10000 0x8000 0x4000

# Each refusal has a name. The first fault in this order counts: not aligned, empty, out of the space, reserved.
bind zero 0x800 0x0
bind zero 0x20000 0x0
bind zero 0xb000 0x6000
bind zero 0x7000 0x2000

# Up to the region, and from its end on, there is room.
bind zero 0x7000 0x1000
bind zero 0xc000 0x4000

# An operation stays inside its buffer.
buffer b 2
bind map 0x0 0x2000 b 0x1000
bind map 0x0 0x1000 b 0x1000 ro
map
