# Admits who listens to at least every tenth beacon. Others are refused with status 37.
ldxh r1, [r3+14]
mov r0, 0
jle r1, 10, +1
mov r0, 37
exit
