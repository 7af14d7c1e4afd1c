# Data that begins with an x is dropped; all else gets mark 5. QoS data has 26 bytes before its body.
mov r3, r1
add r3, 27
mov r0, 0
jgt r3, r2, +4
ldxb r4, [r1+26]
mov r0, 0x502
jne r4, 0x78, +1
mov r0, 1
exit
