# Two hosts share a device, and never talk to each other. Host 0 makes an image and writes to it, and
# dies in the middle of its second write. Host 1 takes the image over once the lease has run out.
world 1 1 16 2 2

# Host 0 claims the image's lease at 1,000 ms, for 10,000 ms. It waits 601 ms, reads that the claim
# stands, and is attached.
start 0 attach 0
run 0
tick 601
run 0
start 0 create 0 8 disk
run 0

# A write that is acknowledged: from here on it is there for whoever attaches the image.
start 0 write 0 0 all:aa
run 0

# The second write. Its data has landed, and of the descriptor that commits it all sectors but the
# first, in which all its bytes lie. Then host 0 dies.
start 0 write 0 1 all:bb
upto 0 jcommit
issue 0
land 0 0 4
land 0 0 1
land 0 0 7
land 0 0 2
land 0 0 6
land 0 0 3
land 0 0 5
crash 0

# Host 1 wants the image. The lease is claimed up to 11,000 ms, so it may be that host 0 lives.
start 1 attach 0
run 1

# At 11,101 ms no clock can tell that the lease is held: clocks are 50 ms off at the most. Host 1 claims
# it, waits, and finds one write.
tick 9500
start 1 attach 0
run 1
tick 601
run 1

# The missing sector would commit the dead host's write behind host 1's back. It comes too late: a write
# may land up to 50 ms after the end of its lease. So this changes nothing.
land 0 0 0
start 1 read 0 0
run 1
start 1 read 0 1
run 1

# Host 1 writes into the same slot of the journal, and the late sector still changes nothing.
start 1 write 0 1 all:cc
run 1
land 0 0 0
start 1 read 0 1
run 1

# Host 0 is back, and has to wait in its turn. Host 1 gives the image up.
start 0 attach 0
run 0
start 1 detach 0
run 1
start 0 attach 0
run 0
tick 601
run 0
start 0 read 0 0
run 0
start 0 read 0 1
run 0

# Without an attach of its own host 1 reads nothing any more.
start 1 read 0 1
run 1
