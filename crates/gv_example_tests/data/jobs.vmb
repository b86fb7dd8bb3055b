# Zeros at page 0, then a page of b that is read-only, then one that may be written.
buffer b 2
bind zero 0x0 0x1000 ; map 0x1000 0x1000 b 0x0 ro ; map 0x2000 0x1000 b 0x1000

# A job is refused as a whole: its second access, counted from 0, writes a page that is read-only.
job read 0x2000 ; write 0x1000

# A job of two accesses, with the place that each one reaches. Zeros need no reservation.
job read 0x0 ; write 0x2004

# While it writes the buffer no other job may use that.
job read 0x1000
job read 0x0

# The buffer is held as long as the job runs, whatever becomes of its mappings.
rewind
destroy b
end 0
end 0
destroy b
