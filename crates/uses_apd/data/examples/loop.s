# A loop of 64 turns: 3 instructions each, 2 before it and 1 behind it.
mov r0, 0
mov r1, 64
add r0, 1
sub r1, 1
jne r1, 0, -3
exit
