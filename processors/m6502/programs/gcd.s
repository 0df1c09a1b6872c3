; The greatest common divisor of 48 and 36, in A and at 100.
        lda #48
        sta $10
        lda #36
        sta $11
loop:   lda $10
        cmp $11
        beq done
        bcc less
        sbc $11
        sta $10
        jmp loop
less:   lda $11
        sec
        sbc $10
        sta $11
        jmp loop
done:   sta $100
end:    jmp end
