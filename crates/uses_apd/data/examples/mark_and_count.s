# Counts in map 1, and gives the mark in word 0 of map 0.
lddw r4, value 1 0
mov r5, 1
atomic_add [r4+0], r5
lddw r4, value 0 0
ldxdw r0, [r4+0]
and r0, 255
lsh r0, 8
or r0, 2
exit
