mov r0, 1
exti
