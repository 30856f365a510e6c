# A crash after the first sector of a write's descriptor has landed: the descriptor lies in that
# sector, so the write is there.
world 1 1 16 2 1
start 0 attach 0
run 0
tick 601
run 0
start 0 create 0 8 -
run 0
start 0 write 0 0 all:aa
run 0

# The second write, up to where its descriptor is issued, of which one sector lands.
start 0 write 0 0 all:bb
upto 0 jcommit
issue 0
land 0 0 0
crash 0

# The next boot tries at once, and finds the lease of the one before.
start 0 attach 0
run 0

# Once that has expired, the attach reports two writes, and the read gives the second.
tick 9500
start 0 attach 0
run 0
tick 601
run 0
start 0 read 0 0
run 0
start 0 read 0 1
run 0
