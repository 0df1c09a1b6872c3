# The greatest common divisor of 48 and 36, in x10 and at 100.
 li x10,48
 li x11,36
loop: beq x10,x11,done
 blt x10,x11,less
 sub x10,x10,x11
 j loop
less: sub x11,x11,x10
 j loop
done: sw x10,0x100(x0)
end: j end
