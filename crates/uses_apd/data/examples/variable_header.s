# R0 is a byte behind a header of variable length: bytes 24 and 25 of a frame, then as many as the low three bits of byte 24 say.
mov r4, r1
add r4, 26
mov r0, 0
jgt r4, r2, +7          # shorter than 26 bytes
ldxb r5, [r1+24]
and r5, 7
add r4, r5              # no more than 7 bytes further
mov r6, r4
add r6, 1
jgt r6, r2, +1          # the byte isn't there
ldxb r0, [r4+0]         # so it is
exit
