# A crash after the data of a write has landed, before its descriptor is issued: the write is lost.
world 1 1 16 2 1
start 0 attach 0
run 0
tick 601
run 0
start 0 create 0 8 -
run 0
start 0 write 0 0 all:aa
run 0

# The second write, up to where its descriptor would be issued.
start 0 write 0 0 all:bb
upto 0 jcommit
crash 0

# The lease that the crash left behind was claimed at 1,000 ms, for 10,000 ms. At 11,101 ms it is
# expired, whatever the clocks said.
tick 9500
start 0 attach 0
run 0
tick 601
run 0

# The attach reports one write, and the read gives it.
start 0 read 0 0
run 0
start 0 read 0 1
run 0
