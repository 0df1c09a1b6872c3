; The greatest common divisor of 48 and 36, in R12 and at 200.
 mov #48, r12
 mov #36, r13
loop: cmp r13, r12
 jeq done
 jl less
 sub r13, r12
 jmp loop
less: sub r12, r13
 jmp loop
done: mov r12, &0x200
end: jmp end
