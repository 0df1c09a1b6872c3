@ The greatest common divisor of 48 and 36, in r0 and at fc.
 .syntax unified
 .arch armv6s-m
 .thumb
 movs r0,#48
 movs r1,#36
loop: cmp r0,r1
 beq done
 blo less
 subs r0,r0,r1
 b loop
less: subs r1,r1,r0
 b loop
done: movs r2,#0x80
 str r0,[r2,#0x7c]
end: b end
