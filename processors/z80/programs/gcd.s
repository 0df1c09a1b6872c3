; The greatest common divisor of 48 and 36, in a and at 100.
        ld a,48
        ld b,36
loop:   cp b
        jr z,done
        jr c,less
        sub b
        jr loop
less:   ld c,a
        ld a,b
        sub c
        ld b,a
        ld a,c
        jr loop
done:   ld (256),a
end:    jr end
