# Before the queues are opened.
buffer a 8
timeline ready
timeline done
raise ready 1

# Each request goes to its queue. That of queue 1 waits for a signal of queue 0, whichever is served first.
bind queue 1 ; wait done 2 ; unmap 0x1000 0x1000
bind queue 0 ; wait ready 1 ; map 0x0 0x4000 a 0x0 ; signal done 2

# A refused request pays nothing.
bind queue 0 ; map 0x10000 0x4000 a 0x5000 ; signal done 9

# When all queues have ended.
map
at 0x2000
value done
told 0
told 1
uses a
journal
