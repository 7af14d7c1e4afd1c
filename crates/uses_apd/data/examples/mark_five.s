# A data policy: let the frame pass with mark 5.
mov r0, 2        # pass, and the mark is in bits 8 to 15
mov r1, 5
lsh r1, 8
or r0, r1
exit
