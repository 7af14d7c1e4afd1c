# Grants windows of at most 8 frames, and none for TID 7.
ldxb r1, [r3+10]
mov r0, 8
jne r1, 7, +1
mov r0, 0
exit
