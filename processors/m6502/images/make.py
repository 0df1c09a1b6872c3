"""The images that a script makes: `codes`, each operation code four times with random operands, in slots of four bytes filled up with
`nop`; `random`, 3,000 bytes; and `decimal` for runs, differences of decimal numbers, whose results and carries are kept from 0x8000 on.
`flags` and `text` are made of programs/ (expected/make.py)."""
import random


def differences():
    """Numbers of two digits, their difference with the carry, and the carry behind it."""
    rng = random.Random(66)
    for _ in range(1500):
        a, b, carry = rng.randrange(100), rng.randrange(100), rng.randrange(2)
        rest = a - b - (1 - carry)
        yield a, b, carry, rest % 100, rest >= 0


def decimal():
    digits = lambda n: n // 10 << 4 | n % 10
    code, at = b"\xf8", 0x8000                                          # sed
    for a, b, carry, _, _ in differences():
        code += bytes([0x38 if carry else 0x18, 0xa9, digits(a), 0xe9, digits(b), 0x8d, at & 255, at >> 8])    # sec; lda; sbc; sta
        code += bytes([0xa9, 0, 0x2a, 0x8d, at + 1 & 255, at + 1 >> 8])                                         # lda #0; rol a; sta
        at += 2
    return code


def images():
    rng = random.Random(65)
    codes = b"".join(bytes([op, rng.randrange(256), rng.randrange(256), 0xea]) for op in range(256) for _ in range(4))
    return {"codes": codes, "random": bytes(rng.randrange(256) for _ in range(3000)), "decimal": decimal()}
