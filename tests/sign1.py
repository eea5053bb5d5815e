"""COSE_Sign1 byte strings from an encoder that shares nothing with the library.

The bytes are those of the encoder below; where cbor2 is there, it is asserted to give the same. Prints whether
it is, then a line for each claim: algorithm, register index, register value, signature and the byte string,
the last three in hexadecimal.
"""
import random

try:
    import cbor2
except ImportError:
    cbor2 = None

SIGNATURE_LENGTHS = {-7: 64, -35: 96, -36: 132}
WIDTHS = [(1 << 8, 24, 1), (1 << 16, 25, 2), (1 << 32, 26, 4), (1 << 64, 27, 8)]


def head(major, number):
    if number < 24:
        return bytes([major << 5 | number])
    _, low, width = next(row for row in WIDTHS if number < row[0])
    return bytes([major << 5 | low]) + number.to_bytes(width, "big")


def encode(item):
    if isinstance(item, int):
        return head(0, item) if item >= 0 else head(1, -1 - item)
    if isinstance(item, bytes):
        return head(2, len(item)) + item
    if isinstance(item, str):
        return head(3, len(item)) + item.encode()
    if isinstance(item, list):
        return head(4, len(item)) + b"".join(map(encode, item))
    pairs = (encode(key) + encode(value) for key, value in item.items())
    return head(5, len(item)) + b"".join(pairs)


def dumps(item):
    encoded = encode(item)
    if cbor2 is not None:
        assert cbor2.dumps(item) == encoded
    return encoded


def sign1(algorithm, index, value, signature):
    payload = {"register_index": index, "register_value": list(value)}
    return dumps([dumps({1: algorithm}), {}, dumps(payload), signature])


def claims():
    chance = random.Random(9)
    ends = [n for bits in (8, 16, 32, 63) for n in ((1 << bits) - 1, 1 << bits)]
    indices = [0, 1, 2, 8, 23, 24, (1 << 64) - 1] + ends
    values = [bytes([n]) * 48 for n in (0, 23, 24, 255)]
    for algorithm, length in SIGNATURE_LENGTHS.items():
        for index in indices:
            for value in values + [chance.randbytes(48) for _ in range(4)]:
                yield algorithm, index, value, chance.randbytes(length)


print("encoder: the script's own,", "equal to cbor2" if cbor2 else "without cbor2")
for algorithm, index, value, signature in claims():
    encoded = sign1(algorithm, index, value, signature)
    print(algorithm, index, value.hex(), signature.hex(), encoded.hex())
