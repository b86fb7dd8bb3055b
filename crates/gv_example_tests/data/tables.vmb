# 512 pages at a multiple of 512: one mapping covers a whole slot of the second level of tables, which is a leaf.
buffer b 512
bind map 0x0 0x200000 b 0x0
tables

# A hole breaks the leaf: a table of single pages takes its place.
bind unmap 0x1000 0x1000
tables
at 0x2abc

# Two mappings stand in the list, and the undo value of the unmap keeps the one before it.
uses b
destroy b

# A buffer that nothing names can go.
buffer c 1
destroy c
uses c
