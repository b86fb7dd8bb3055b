# A request of several operations is applied whole or not at all, and is one entry of the journal.
buffer b 4
bind map 0x0 0x4000 b 0x0
bind unmap 0x0 0x1000 ; zero 0x1000 0x2000 ro ; unmap 0x2000 0x2000
map
uses b

# The second operation of this one is past the buffer's end: nothing of it is applied.
bind unmap 0x1000 0x1000 ; map 0x8000 0x2000 b 0x3000
journal

# The newest entry is taken back, with its boundaries, and then the one before.
rewind
map
uses b
rewind
map
rewind

# A number that was taken back is given out again; a request's number on its queue is not.
bind map 0x0 0x1000 b 0x0
journal
