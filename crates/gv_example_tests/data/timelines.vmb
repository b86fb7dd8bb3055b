# A timeline is a number that only rises.
timeline t
raise t 1

# A request that waits for a number which is not reached is given up.
bind zero 0x0 0x1000 ; wait t 3
raise t 5
raise t 3

# Now it is reached; the signals are paid in order once the request is accepted.
bind zero 0x0 0x1000 ; wait t 3 ; signal t 7 ; signal t 4
value t

# A refused request pays nothing, and taking one back lowers nothing.
bind zero 0x0 0x0 ; signal t 9
rewind
value t

# Each queue numbers its own requests, and tells what they came to.
bind queue 3 ; zero 0x4000 0x1000
told 0
told 3
told 15
