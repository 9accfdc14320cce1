#!/usr/bin/env python3
"""Ascon of NIST SP 800-232 in plain Python: AEAD128, Hash256, CXOF128.

It shares no code with the Rattle crates, so that an error would have to be made twice to go
unseen. It is neither fast nor constant-time: it is for tests, and not for secrets.

Run as a program it does what the program `ascon` does: it reads lines on standard input and
answers each with one line.

    seal KEY NONCE DATA TEXT     the ciphertext, then the tag of 16 bytes
    open KEY NONCE DATA BLOB     the text, or `refused`
    hash TEXT                    the 32 bytes of Ascon-Hash256
    xof STRING TEXT LENGTH       LENGTH bytes of Ascon-CXOF128, customized by STRING
"""

import sys

# ---- the permutation

MASK = 0xFFFFFFFFFFFFFFFF

ROUND_CONSTANTS = (0xF0, 0xE1, 0xD2, 0xC3, 0xB4, 0xA5, 0x96, 0x87, 0x78, 0x69, 0x5A, 0x4B)

# The linear layer: each word is xored with itself rotated right by these two amounts.
ROTATIONS = ((19, 28), (61, 39), (1, 6), (10, 17), (7, 41))


def rotate_right(word, amount):
    return (word >> amount | word << (64 - amount)) & MASK


def permute(state, rounds):
    """p[rounds]: the last `rounds` of the twelve rounds, in place."""
    for constant in ROUND_CONSTANTS[12 - rounds:]:
        x0, x1, x2, x3, x4 = state
        x2 ^= constant
        # the S-box, on the 64 columns at once
        x0 ^= x4
        x4 ^= x3
        x2 ^= x1
        x = (x0, x1, x2, x3, x4)
        x0, x1, x2, x3, x4 = (x[i] ^ (~x[(i + 1) % 5] & MASK & x[(i + 2) % 5]) for i in range(5))
        x1 ^= x0
        x0 ^= x4
        x3 ^= x2
        x2 ^= MASK
        # the linear layer
        x = (x0, x1, x2, x3, x4)
        for i, (a, b) in enumerate(ROTATIONS):
            state[i] = x[i] ^ rotate_right(x[i], a) ^ rotate_right(x[i], b)


# ---- bytes and words


def word_of(octets):
    return int.from_bytes(octets, "little")


def octets_of(word):
    return word.to_bytes(8, "little")


def padded_blocks(octets, rate):
    """The blocks of `rate` bytes of the padded string. A string that fills its last block gets a
    block of padding alone, so there is always at least one block."""
    octets += b"\x01"
    octets += bytes(-len(octets) % rate)
    return [octets[i:i + rate] for i in range(0, len(octets), rate)]


# ---- Ascon-AEAD128

AEAD_IV = 0x00001000808C0001
AEAD_RATE = 16
KEY_SIZE = 16
NONCE_SIZE = 16
TAG_SIZE = 16


def aead_start(key, nonce, data):
    """The state once the key, the nonce and the associated data are absorbed."""
    assert len(key) == KEY_SIZE and len(nonce) == NONCE_SIZE
    k0, k1 = word_of(key[:8]), word_of(key[8:])
    state = [AEAD_IV, k0, k1, word_of(nonce[:8]), word_of(nonce[8:])]
    permute(state, 12)
    state[3] ^= k0
    state[4] ^= k1
    if data:
        for block in padded_blocks(data, AEAD_RATE):
            state[0] ^= word_of(block[:8])
            state[1] ^= word_of(block[8:])
            permute(state, 8)
    state[4] ^= 1 << 63  # separates the associated data from the text
    return state


def aead_tag(state, key):
    k0, k1 = word_of(key[:8]), word_of(key[8:])
    state[2] ^= k0
    state[3] ^= k1
    permute(state, 12)
    return octets_of(state[3] ^ k0) + octets_of(state[4] ^ k1)


def seal(key, nonce, data, text):
    """The ciphertext, as long as the text, followed by the tag."""
    state = aead_start(key, nonce, data)
    out = bytearray()
    blocks = padded_blocks(text, AEAD_RATE)
    for i, block in enumerate(blocks):
        state[0] ^= word_of(block[:8])
        state[1] ^= word_of(block[8:])
        out += octets_of(state[0]) + octets_of(state[1])
        if i + 1 < len(blocks):
            permute(state, 8)
    return bytes(out[:len(text)]) + aead_tag(state, key)


def open_blob(key, nonce, data, blob):
    """The text, or None where the blob is refused."""
    if len(blob) < TAG_SIZE:
        return None
    cipher, tag = blob[:-TAG_SIZE], blob[-TAG_SIZE:]
    state = aead_start(key, nonce, data)
    text = bytearray()
    full = len(cipher) // AEAD_RATE * AEAD_RATE
    for i in range(0, full, AEAD_RATE):
        c0, c1 = word_of(cipher[i:i + 8]), word_of(cipher[i + 8:i + 16])
        text += octets_of(state[0] ^ c0) + octets_of(state[1] ^ c1)
        state[0], state[1] = c0, c1
        permute(state, 8)
    # In the last block only the bytes of the ciphertext replace the state; the padding is xored.
    rest = cipher[full:]
    stream = octets_of(state[0]) + octets_of(state[1])
    text += bytes(a ^ b for a, b in zip(rest, stream))
    after = bytearray(rest + stream[len(rest):])
    after[len(rest)] ^= 0x01
    state[0], state[1] = word_of(after[:8]), word_of(after[8:])
    return bytes(text) if aead_tag(state, key) == tag else None


# ---- Ascon-Hash256 and Ascon-CXOF128

HASH_IV = 0x0000080100CC0002
CXOF_IV = 0x0000080000CC0004
HASH_RATE = 8
HASH_SIZE = 32
MAX_STRING = 256


def absorb(state, octets):
    for block in padded_blocks(octets, HASH_RATE):
        state[0] ^= word_of(block)
        permute(state, 12)


def squeeze(state, size):
    out = bytearray()
    while len(out) < size:
        if out:
            permute(state, 12)
        out += octets_of(state[0])
    return bytes(out[:size])


def hash256(text):
    state = [HASH_IV, 0, 0, 0, 0]
    permute(state, 12)
    absorb(state, text)
    return squeeze(state, HASH_SIZE)


def cxof128(string, text, size):
    """`size` bytes of output, with the customization string `string`."""
    assert len(string) <= MAX_STRING
    state = [CXOF_IV, 0, 0, 0, 0]
    permute(state, 12)
    state[0] ^= 8 * len(string)
    permute(state, 12)
    absorb(state, string)
    absorb(state, text)
    return squeeze(state, size)


# ---- the program

MAX_LENGTH = 65536
LENGTH_DIGITS = 5
HEX_DIGITS = frozenset(b"0123456789abcdefABCDEF")
ARGUMENTS = {b"seal": 4, b"open": 4, b"hash": 1, b"xof": 3}


class Unreadable(Exception):
    """A line that cannot be read; its text is the reason that is printed."""


def read_hex(argument):
    if argument == b"-":
        return b""
    # bytes.fromhex passes over spaces, so each sign is looked at here
    if not argument or len(argument) % 2 or not HEX_DIGITS.issuperset(argument):
        raise Unreadable("not hexadecimal")
    return bytes.fromhex(argument.decode("ascii"))


def read_length(argument):
    # bytes.isdigit is true of the ASCII digits alone, and false of the empty string
    if argument.isdigit() and len(argument) <= LENGTH_DIGITS and int(argument) <= MAX_LENGTH:
        return int(argument)
    raise Unreadable("the length is a number from 0 to 65536")


def result_of(line):
    """The bytes that a line asks for, or None where a blob is refused."""
    command, *arguments = line.split(b" ")
    if command not in ARGUMENTS:
        raise Unreadable("unknown command")
    if len(arguments) != ARGUMENTS[command]:
        raise Unreadable("wrong number of arguments")
    if command == b"hash":
        return hash256(read_hex(arguments[0]))
    if command == b"xof":
        string, text = read_hex(arguments[0]), read_hex(arguments[1])
        if len(string) > MAX_STRING:
            raise Unreadable("the string takes at most 256 bytes")
        return cxof128(string, text, read_length(arguments[2]))
    key, nonce, data, text = map(read_hex, arguments)
    if len(key) != KEY_SIZE or len(nonce) != NONCE_SIZE:
        raise Unreadable("key and nonce take 16 bytes")
    return (seal if command == b"seal" else open_blob)(key, nonce, data, text)


def answer(line):
    """The answer to one line; neither has a newline."""
    try:
        result = result_of(line)
    except Unreadable as reason:
        return b"error: " + str(reason).encode("ascii")
    if result is None:
        return b"refused"
    return result.hex().encode("ascii") or b"-"


def lines_of(octets):
    """The lines of an input. A newline ends a line: after the last one there is no further line."""
    lines = octets.split(b"\n")
    return lines[:-1] if lines[-1] == b"" else lines


def run(octets):
    """All that the program writes on this input."""
    return b"".join(answer(line) + b"\n" for line in lines_of(octets))


def main():
    for line in sys.stdin.buffer:
        sys.stdout.buffer.write(answer(line.removesuffix(b"\n")) + b"\n")
    sys.stdout.buffer.flush()


if __name__ == "__main__":
    main()
