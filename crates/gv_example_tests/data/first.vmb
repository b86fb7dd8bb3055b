# A buffer of four pages, mapped at address 0.
buffer b 4
bind map 0x0 0x4000 b 0x0

# What would unmapping the second page do? Nothing is changed yet.
plan unmap 0x1000 0x1000

# Now unmap it: the mapping is split, and the rest behind the hole moves on in the buffer.
bind unmap 0x1000 0x1000
map

# What two addresses reach.
at 0x2abc
at 0x1000
