; The greatest common divisor of 48 and 36, in A and at 30 in the internal memory.
        MOV A,#48
        MOV R0,#36
loop:   MOV 0x30,R0
        CJNE A,0x30,apart
        MOV 0x30,A
end:    SJMP end
apart:  JC less
        CLR C
        SUBB A,R0
        SJMP loop
less:   XCH A,R0
        CLR C
        SUBB A,R0
        XCH A,R0
        SJMP loop
