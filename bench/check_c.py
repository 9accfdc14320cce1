#!/usr/bin/env python3
"""Holds a shared library of bench/ascon.c to the reference, tools/ascon_ref.py.

    python3 bench/check_c.py LIBRARY
"""

import ctypes
import pathlib
import sys

sys.path.insert(0, str(pathlib.Path(__file__).resolve().parent.parent / "tools"))
import ascon_ref as ascon  # noqa: E402

LENGTHS = (*range(50), 1023, 1024, 1025)


def pattern(length, salt):
    return bytes((7 * i + 3 * length + salt) % 256 for i in range(length))


def buffer(octets):
    return (ctypes.c_uint8 * len(octets)).from_buffer_copy(octets)


def c_size(octets):
    return ctypes.c_size_t(len(octets))


def check(library):
    library.c_ascon_open.restype = ctypes.c_bool
    cases = 0
    for data_length in (*range(34), 100):
        for text_length in LENGTHS:
            key, nonce = pattern(16, cases), pattern(16, cases + 1)
            data, text = pattern(data_length, 2), pattern(text_length, 3)
            blob = ascon.seal(key, nonce, data, text)

            held, tag = buffer(text), buffer(bytes(16))
            library.c_ascon_seal(key, nonce, data, c_size(data), held, c_size(text), tag)
            assert bytes(held) + bytes(tag) == blob, ("seal", data_length, text_length)

            opened = library.c_ascon_open(key, nonce, data, c_size(data), held, c_size(text), tag)
            assert opened and bytes(held) == text, ("open", data_length, text_length)

            wrong = bytearray(blob)
            wrong[cases * 5 % len(wrong)] ^= 1 << cases % 8
            held, tag = buffer(bytes(wrong[:-16])), buffer(bytes(wrong[-16:]))
            opened = library.c_ascon_open(key, nonce, data, c_size(data), held, c_size(text), tag)
            assert not opened and bytes(held) == bytes(text_length), ("refuse", data_length, text_length)
            cases += 1
    for length in LENGTHS:
        key, text, out = pattern(16, length), pattern(length, 4), buffer(bytes(16))
        library.c_ascon_mark(key, text, c_size(text), out)
        assert bytes(out) == ascon.cxof128(b"box mark", key + text, 16), ("mark", length)
        cases += 1
    state = [0, 1, 2, 3, ascon.MASK]
    held = (ctypes.c_uint64 * 5)(*state)
    for _ in range(100):
        library.c_ascon_p12(held)
        ascon.permute(state, 12)
        assert list(held) == state, "p12"
        cases += 1
    return cases


def main(words):
    if len(words) != 1:
        print("usage: check_c.py LIBRARY", file=sys.stderr)
        return 2
    try:
        cases = check(ctypes.CDLL(str(pathlib.Path(words[0]).resolve())))
    except AssertionError as said:
        print(f"check_c: the C code and the reference disagree: {said}", file=sys.stderr)
        return 1
    print(f"check_c: the C code and the reference agree in {cases} cases")
    return 0


if __name__ == "__main__":
    sys.exit(main(sys.argv[1:]))
