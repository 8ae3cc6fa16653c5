"""What the vectors program must find: RFC 8439's published vectors, checked against the package `cryptography`, and
queries of the label hash, computed with it. Prints the constants of the program vectors."""
import struct
from cryptography.hazmat.primitives.ciphers import Cipher, algorithms


def block(key, counter, nonce):
    """One ChaCha20 block: the key stream of 64 zero bytes."""
    cipher = Cipher(algorithms.ChaCha20(bytes(key), struct.pack("<L", counter) + bytes(nonce)), mode=None)
    return cipher.encryptor().update(bytes(64))


def quarter_round(a, b, c, d):
    def roll(x, n):
        return ((x << n) | (x >> (32 - n))) & 0xFFFFFFFF

    for n, m in ((16, 12), (8, 7)):
        a = (a + b) & 0xFFFFFFFF
        d = roll(d ^ a, n)
        c = (c + d) & 0xFFFFFFFF
        b = roll(b ^ c, m)
    return a, b, c, d


# RFC 8439, 2.1.1
assert quarter_round(0x11111111, 0x01020304, 0x9B8D6F43, 0x01234567) == (0xEA2A92F4, 0xCB1CF8CE, 0x4581472E, 0x5881C4BB)

# RFC 8439, 2.2.1
BEFORE = [int(x, 16) for x in """879531e0 c5ecf37d 516461b1 c9a62f8a 44c20ef3 3390af7f d9fc690b 2a5f714c
53372767 b00a5631 974c541a 359e9963 5c971061 3d631689 2098d9d6 91dbd320""".split()]
AFTER = [int(x, 16) for x in """879531e0 c5ecf37d bdb886dc c9a62f8a 44c20ef3 3390af7f d9fc690b cfacafd2
e46bea80 b00a5631 974c541a 359e9963 5c971061 ccc07c79 2098d9d6 91dbd320""".split()]
found = list(BEFORE)
found[2], found[7], found[8], found[13] = quarter_round(found[2], found[7], found[8], found[13])
assert found == AFTER

ZERO = bytes(32)
# name, key, counter, nonce, the published block
BLOCKS = [
    ("2.3.2", bytes(range(32)), 1, bytes.fromhex("000000090000004a00000000"), """
     10f1e7e4d13b5915500fdd1fa32071c4c7d1f4c733c068030422aa9ac3d46c4e
     d2826446079faa0914c2d705d98b02a2b5129cd1de164eb9cbd083e8a2503c4e"""),
    ("A.1 #1", ZERO, 0, bytes(12), """
     76b8e0ada0f13d90405d6ae55386bd28bdd219b8a08ded1aa836efcc8b770dc7
     da41597c5157488d7724e03fb8d84a376a43b8f41518a11cc387b669b2ee6586"""),
    ("A.1 #2", ZERO, 1, bytes(12), """
     9f07e7be5551387a98ba977c732d080dcb0f29a048e3656912c6533e32ee7aed
     29b721769ce64e43d57133b074d839d531ed1f28510afb45ace10a1f4b794d6f"""),
    ("A.1 #3", bytes(31) + b"\x01", 1, bytes(12), """
     3aeb5224ecf849929b9d828db1ced4dd832025e8018b8160b82284f3c949aa5a
     8eca00bbb4a73bdad192b5c42f73f2fd4e273644c8b36125a64addeb006c13a0"""),
    ("A.1 #4", b"\x00\xff" + bytes(30), 2, bytes(12), """
     72d54dfbf12ec44b362692df94137f328fea8da73990265ec1bbbea1ae9af0ca
     13b25aa26cb4a648cb9b9d1be65b2c0924a66c54d545ec1b7374f4872e99f096"""),
    ("A.1 #5", ZERO, 0, bytes(11) + b"\x02", """
     c2c64d378cd536374ae204b9ef933fcd1a8b2288b3dfa49672ab765b54ee27c7
     8a970e0e955c14f3a88e741b97c286f75f8fc299e8148362fa198a39531bed6d"""),
]
for name, key, counter, nonce, published in BLOCKS:
    assert block(key, counter, nonce) == bytes.fromhex("".join(published.split())), name


def answer(material, left, right, tweak):
    """The label hash: its word, and the control pair, low bit first."""
    b = block(material[:16] + struct.pack("<QQ", left, right), tweak, material[16:])
    return struct.unpack("<Q", b[:8])[0], b[8] & 1 == 1, b[8] >> 1 & 1 == 1


COUNTING = bytes(range(28))
HIGH = bytes(255 - i for i in range(28))
# name, key material, left, right, tweak
QUERIES = [
    ("zero", bytes(28), 0, 0, 0),
    ("counting", COUNTING, 0x0123456789ABCDEF, 0xFEDCBA9876543210, 1),
    ("halves exchanged", COUNTING, 0xFEDCBA9876543210, 0x0123456789ABCDEF, 1),
    ("another tweak", COUNTING, 0x0123456789ABCDEF, 0xFEDCBA9876543210, 2),
    ("largest", HIGH, 2**64 - 1, 2**64 - 1, 2**32 - 1),
    ("low halves", HIGH, 0x00000000FFFFFFFF, 0x0000000080000000, 0x80000000),
    ("high halves", HIGH, 0xFFFFFFFF00000000, 0x8000000000000000, 7),
]
# each control pair occurs
assert len({answer(m, l, r, t)[1:] for _, m, l, r, t in QUERIES}) == 4


def text(bs):
    """A byte string, 16 bytes to a line."""
    lines = ["".join(f"\\x{b:02x}" for b in bs[i:i + 16]) for i in range(0, len(bs), 16)]
    return 'b"' + "\\\n            ".join(lines) + '"'


def boolean(b):
    return "true" if b else "false"


if __name__ == "__main__":
    for name, key, counter, nonce, _ in BLOCKS:
        print(f"    BlockVector {{\n        name: \"{name}\",\n        key: {text(key)},\n        counter: {counter},\n"
              f"        nonce: {text(nonce)},\n        expected: {text(block(key, counter, nonce))},\n    }},")
    for name, m, l, r, t in QUERIES:
        w, low, high = answer(m, l, r, t)
        print(f"    Query {{\n        name: \"{name}\",\n        key: {text(m)},\n        label: (0x{l:016x}, 0x{r:016x}),\n"
              f"        tweak: 0x{t:x},\n        expected: (0x{w:016x}, ({boolean(low)}, {boolean(high)})),\n    }},")
