# Three neighbours of buffer a, and a map of buffer b over all but their outer pages. The outer two are remapped
# to their rests, the middle one is unmapped, and the map comes last.
buffer a 6
buffer b 4
bind map 0x0 0x2000 a 0x0
bind map 0x2000 0x2000 a 0x2000
bind map 0x4000 0x2000 a 0x4000
plan map 0x1000 0x4000 b 0x0
bind map 0x1000 0x4000 b 0x0
map
