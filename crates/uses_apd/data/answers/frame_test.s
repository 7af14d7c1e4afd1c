mov r3, r1
add r3, 26
mov r0, 0
jgt r3, r2, +1
ldxb r0, [r1+24]
exit
