# Six cases of the kernel's tests of VM_BIND (IGT, xe_vm), named as there. Each has addresses of its own.

# partial-unbinds: what was bound at once is unbound piece by piece.
buffer a 6
bind map 0x0 0x6000 a 0x0
bind unmap 0x1000 0x1000
bind unmap 0x4000 0x1000
map
bind unmap 0x0 0x6000
map

# unbind-all-2-vmas: one operation unbinds a buffer from both its addresses.
buffer b 2
bind map 0x10000 0x2000 b 0x0 ; map 0x14000 0x2000 b 0x0
uses b
bind unmapall b
map
uses b

# shared-pte-page: two buffers share a table of the lowest level, which stays until both are unbound.
buffer c 1
buffer d 1
bind map 0x20000 0x1000 c 0x0
bind map 0x21000 0x1000 d 0x0
tables
bind unmap 0x20000 0x1000
tables
at 0x21000
bind unmap 0x21000 0x1000
tables

# bind-array-conflict: operations of one request are carried out in order, also where they overlap.
buffer e 2
bind map 0x30000 0x2000 e 0x0 ; unmap 0x30000 0x1000 ; map 0x30000 0x1000 e 0x1000 ; unmap 0x31000 0x1000
map
bind unmapall e

# munmap-style-unbind-either-side-partial: an unmap takes the end of one mapping and the front of the next.
buffer f 4
buffer g 4
bind map 0x40000 0x4000 f 0x0 ; map 0x44000 0x4000 g 0x0
plan unmap 0x42000 0x4000
bind unmap 0x42000 0x4000
map
rewind

# mmap-style-bind-either-side-partial: a map takes their place.
buffer h 4
plan map 0x42000 0x4000 h 0x0
bind map 0x42000 0x4000 h 0x0
map
