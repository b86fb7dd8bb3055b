# Three buffers, of four, two and one pages.
buffer frame 4
buffer depth 2
buffer spare 1

# How many mappings of a buffer are in the list, and how many undo values keep.
bind map 0x0 0x4000 frame 0x0
bind map 0x8000 0x2000 depth 0x0
uses frame
uses depth

# A map over a page of the middle leaves two rests. The undo value keeps the one mapping that was there.
bind map 0x1000 0x1000 depth 0x1000 ro
uses frame
uses depth
map

# What a mapping names stays, in the list and in undo values.
destroy frame
bind unmap 0x0 0x4000
uses frame
destroy frame
uses depth

# A buffer that nothing names goes. Its name stays declared, and stays that of the buffer that is gone.
destroy spare
destroy spare
uses spare

# A bind is refused at an operation, counted from 0; it has one. A plan is refused as a bind would be, without a number.
bind map 0x10000 0x1000 spare 0x0
plan map 0x10000 0x1000 spare 0x0
bind map 0x10000 0x2000 depth 0x1000

# A buffer has at least a page, and at most 2^36. A name that is refused isn't declared.
buffer large 0
buffer large 68719476737
buffer large 0x1000000000
