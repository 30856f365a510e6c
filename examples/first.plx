world 1 1 16 2 1
start 0 attach 0
run 0
tick 601
run 0
start 0 create 0 8 a
run 0
start 0 write 0 3 all:5a
run 0
start 0 read 0 3
run 0
start 0 read 0 4
run 0
