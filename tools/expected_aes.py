# The expected answers of the hash, computed apart from the crate: AES-ECB of the `cryptography` package, and the product of GF(2^64).
from cryptography.hazmat.primitives.ciphers import Cipher, algorithms, modes

M = (1 << 64) | 0x1b

def times(a, b):
    p = 0
    i = 0
    while b >> i:
        if b >> i & 1:
            p ^= a << i
        i += 1
    for k in range(p.bit_length() - 1, 63, -1):
        if p >> k & 1:
            p ^= M << (k - 64)
    return p

def aes(key, block):
    e = Cipher(algorithms.AES(key), modes.ECB()).encryptor()
    return e.update(block) + e.finalize()

def answer(material, left, right, tweak):
    key, u1, u2 = material[:16], int.from_bytes(material[16:24], 'little'), int.from_bytes(material[24:], 'little')
    y = left ^ times(u1, tweak)
    z = right ^ times(u2, tweak)
    c = aes(key, y.to_bytes(8, 'little') + z.to_bytes(8, 'little'))
    d = times(y, 2).to_bytes(8, 'little') + times(z, 2).to_bytes(8, 'little')
    r = bytes(a ^ b for a, b in zip(c, d))
    return int.from_bytes(r[:8], 'little'), r[8] & 1, r[8] >> 1 & 1

assert aes(bytes.fromhex('2b7e151628aed2a6abf7158809cf4f3c'), bytes.fromhex('3243f6a8885a308d313198a2e0370734')).hex() == '3925841d02dc09fbdc118597196a0b32'
assert aes(bytes(range(16)), bytes.fromhex('00112233445566778899aabbccddeeff')).hex() == '69c4e0d86a7b0430d8cdb78070b4c55a'

# the material of the program's queries: the key of appendix B, then the bytes f0, f1, .. ff
material = bytes.fromhex('2b7e151628aed2a6abf7158809cf4f3c') + bytes(range(0xf0, 0x100))

queries = [
    (0, 0, 0),
    (0, 0, 1),
    (0x0123456789abcdef, 0xfedcba9876543210, 2),
    (0x0123456789abcdef, 0xfedcba9876543210, 0x80000000),
    (0xffffffffffffffff, 0xffffffffffffffff, 0xffffffff),
    (0x8000000000000000, 0x8000000000000001, 0x00010203),
    (0x243f6a8885a308d3, 0x13198a2e03707344, 0xdeadbeef),
    (1, 0x4000000000000000, 0x7fffffff),
]
for left, right, tweak in queries:
    word, low, high = answer(material, left, right, tweak)
    b = lambda v: 'true' if v else 'false'
    print(f'Query {{ label: (0x{left:016x}, 0x{right:016x}), tweak: 0x{tweak:08x}, answer: (0x{word:016x}, ({b(low)}, {b(high)})) }},')
