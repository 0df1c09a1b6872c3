; The greatest common divisor of 48 and 36, in AX and at 100; then a division by 0, which is interrupt 0: its vector leads to `end`.
 bits 16
 org 0x400
 cpu 186
 mov ax,48
 mov bx,36
 mov sp,0x200
again: cmp ax,bx
 je done
 jb less
 sub ax,bx
 jmp again
less: sub bx,ax
 jmp again
done: mov [0x100],ax
 mov word [0],end
 xor cx,cx
 div cx
end: jmp end
