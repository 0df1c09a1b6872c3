# The greatest common divisor of 48 and 36, in v0 and at 100, with filled slots: for mips32_pairs.slaspec.
 .set noreorder
 li $v0,48
 li $v1,36
loop: beq $v0,$v1,done
 nop
 slt $t0,$v0,$v1
 bne $t0,$zero,less
 nop
 b loop
 subu $v0,$v0,$v1
less: b loop
 subu $v1,$v1,$v0
done: sw $v0,0x100($zero)
end: b end
 nop
