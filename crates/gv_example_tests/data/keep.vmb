# A step is kept where the operation maps the same pages of the same buffer again, with equal flags: a driver may
# then leave the page table entries alone.
buffer b 8
bind map 0x0 0x4000 b 0x0
plan map 0x0 0x4000 b 0x0

# The inner pages alone: the mapping is remapped to its rests, and kept.
plan map 0x1000 0x1000 b 0x1000

# Other flags, and other pages of the buffer, are not kept.
plan map 0x0 0x4000 b 0x0 ro
plan map 0x0 0x4000 b 0x1000

# Neither is a mapping without a buffer.
bind zero 0x8000 0x1000
plan zero 0x8000 0x1000
