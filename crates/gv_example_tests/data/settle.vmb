# Two maps of a buffer, and one request that unmaps all of it.
buffer a 4
bind map 0x0 0x1000 a 0x0
bind map 0x1000 0x1000 a 0x1000
bind unmapall a
map
uses a

# The entries below 2 are settled: they can't be taken back any more, and what they kept is given up.
settle 2
journal
withdraw 0
uses a

# What they did still lies below: with the last request withdrawn, their mappings are there again.
withdraw 2
map

# The withdrawal names an entry that would go, so these two go together or not at all.
settle 3
settle 4
journal
destroy a
