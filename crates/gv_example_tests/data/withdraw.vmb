# Three requests: a over all, then b over a part of it, then c over another.
buffer a 9
buffer b 2
buffer c 1
bind map 0x0 0x9000 a 0x0
bind map 0x3000 0x2000 b 0x0
bind map 0x6000 0x1000 c 0x0
map

# The request before the newest one is withdrawn: its pages hold what they held before, as a mapping of their own.
withdraw 1
map
at 0x4000
journal

# The first one can't be: the newest one lies over it, and is live.
withdraw 0

# A withdrawal is an entry too, and is taken back while it is the newest.
rewind
map
journal
