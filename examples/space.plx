# Two hosts take free blocks of one pool: two extents of 16 blocks, the first of which is the map.
world 1 2 16 2 2

# Host 0 asks for three fresh blocks. It claims the lease of extent 0, waits 601 ms, and sets three bits
# of its map.
start 0 reserve 3
run 0
tick 601
run 0

# Host 1 asks for twenty. Extent 0 is busy, so it goes on to extent 1, and takes all 15 blocks there. That
# is too few, and it names the extent that was busy. What it took stays in its hand.
start 1 reserve 20
run 1
tick 601
run 1
start 1 reserve 15
run 1

# It gives its blocks back, and the lease of extent 1.
start 1 retire
run 1

# Host 0 dies. Its three blocks stay allocated, and are in nobody's hand.
crash 0
