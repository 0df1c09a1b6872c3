; The greatest common divisor of 48 and 36, in r16 and at 100 in the data memory.
        ldi r16, 48
        ldi r17, 36
loop:   cp r16, r17
        breq done
        brcs less
        sub r16, r17
        rjmp loop
less:   sub r17, r16
        rjmp loop
done:   sts 0x100, r16
end:    rjmp end
