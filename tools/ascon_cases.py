#!/usr/bin/env python3
"""The run that the program ascon_cli is held to: crates/ascon_cli/stdin and stdout.

    python3 tools/ascon_cases.py            writes both files
    python3 tools/ascon_cases.py --check    compares them with what it would write; 1 if they differ

The answers are those of tools/ascon_ref.py. The standard's vectors come first, and their answers
stand here literally, so that the run does not rest on the reference alone.
"""

import pathlib
import sys

import ascon_ref as ascon

CRATE = pathlib.Path(__file__).resolve().parent.parent / "crates" / "ascon_cli"

VECTORS = (
    (
        b"seal 000102030405060708090a0b0c0d0e0f 101112131415161718191a1b1c1d1e1f - -",
        b"4f9c278211bec9316bf68f46ee8b2ec6",
    ),
    (b"hash -", b"0b3be5850f2f6b98caf29f8fdea89b64a1fa70aa249b8f839bd53baa304d92b2"),
    (b"xof - - 32", b"4f50159ef70bb3dad8807e034eaebd44c4fa2cbbc8cf1f05511ab66cdcc52990"),
)

# Data and text each run over two blocks of 16 bytes, with every length between.
AEAD_LENGTHS = range(33)
MESSAGE_LENGTHS = (*range(41), 63, 64, 65, 1023, 1024)
STRING_LENGTHS = (0, 1, 7, 8, 9, 15, 16, 17, 255, 256)
OUTPUT_LENGTHS = (0, 1, 7, 8, 9, 15, 16, 32, 33, 64)


def pattern(length, salt):
    """Bytes that differ from place to place, from length to length and from use to use."""
    return bytes((7 * i + 3 * length + salt) % 256 for i in range(length))


def argument(octets):
    return octets.hex().encode("ascii") or b"-"


def line(command, *arguments):
    words = [a if isinstance(a, bytes) else str(a).encode("ascii") for a in arguments]
    return b" ".join([command, *words])


def aead_line(command, parts):
    return line(command, *map(argument, parts))


def flipped(parts, index):
    """The parts (key, nonce, data, blob) with one bit changed. The index says which: it goes round
    the key, the nonce, the data, the ciphertext and the tag, and through their bits. Where the data
    or the ciphertext is empty, a bit of the tag."""
    key, nonce, data, blob = parts
    cipher = len(blob) - ascon.TAG_SIZE
    places = [(0, 0, len(key)), (1, 0, len(nonce)), (2, 0, len(data)), (3, 0, cipher), (3, cipher, ascon.TAG_SIZE)]
    part, first, size = places[index % 5]
    if size == 0:
        part, first, size = places[4]
    bit = 8 * first + index * 13 % (8 * size)
    changed = bytearray(parts[part])
    changed[bit // 8] ^= 1 << bit % 8
    return [bytes(changed) if i == part else old for i, old in enumerate(parts)]


def aead_cases():
    index = 0
    for data_length in AEAD_LENGTHS:
        for text_length in AEAD_LENGTHS:
            key, nonce = pattern(16, index), pattern(16, 5 * index + 1)
            data, text = pattern(data_length, 101), pattern(text_length, 202)
            blob = ascon.seal(key, nonce, data, text)
            yield aead_line(b"seal", [key, nonce, data, text]), argument(blob)
            yield aead_line(b"open", [key, nonce, data, blob]), argument(text)
            yield aead_line(b"open", flipped([key, nonce, data, blob], index)), b"refused"
            index += 1


def hash_lines():
    for length in MESSAGE_LENGTHS:
        yield line(b"hash", argument(pattern(length, 0)))


def xof_lines():
    # every message length, with strings and outputs going round
    for i, length in enumerate(MESSAGE_LENGTHS):
        string, size = STRING_LENGTHS[i % len(STRING_LENGTHS)], OUTPUT_LENGTHS[(3 * i + 2) % len(OUTPUT_LENGTHS)]
        yield line(b"xof", argument(pattern(string, 17)), argument(pattern(length, 0)), size)
    # every string length with every output length
    for i, string in enumerate(STRING_LENGTHS):
        for j, size in enumerate(OUTPUT_LENGTHS):
            text = pattern((i + 3 * j) % 20, 50)
            yield line(b"xof", argument(pattern(string, 18)), argument(text), size)
    yield line(b"xof", argument(b"longest"), argument(b"output"), ascon.MAX_LENGTH)


def edge_lines():
    """Lines at the edge of the format, and past it."""
    key, nonce = argument(pattern(16, 1)), argument(pattern(16, 2))
    blob = argument(ascon.seal(pattern(16, 1), pattern(16, 2), b"", b"\xab"))

    # unknown command
    yield from (b"", b" ", b"-", b"wrap - -", b"Hash -", b"HASH -", b"hash\t-", b" hash -", b"hash\r", b"hashes -", b"has -")
    yield from (b"\xff\xfe", b"\xc3\xa9 -", b"\x00", b"s\xc3\xa9al")
    # wrong number of arguments
    yield from (b"hash", b"hash - -", b"hash  -", b"hash - ", b"xof", b"xof - -", b"xof - - 1 1", b"xof - - 1 ", b"xof - 1")
    yield from (b"seal", b"open", line(b"seal", key, nonce, b"-"), line(b"open", key, nonce, b"-", blob, b"-"))
    yield line(b"seal", b"", key, nonce, b"-", b"-")
    # not hexadecimal
    for wrong in (b"", b"0", b"abc", b"0g", b"g0", b"--", b"-0", b"0-", b"0x00", b"00\r", b"-\r", b"\xc3\xa9", b"0\x00", b"00\t"):
        yield line(b"hash", wrong)
    # the signs beside the digits, and beside the letters
    yield from (b"hash /0", b"hash :0", b"hash @0", b"hash G0", b"hash `0")
    for place in range(4):
        words = [key, nonce, b"-", blob]
        words[place] = words[place][:-1] + b"z"
        yield line(b"seal", *words)
        yield line(b"open", *words)
        words[place] = b""
        yield line(b"open", *words)
    yield from (b"xof 0 - 1", b"xof - 0 1", b"xof -- - 1", b"xof - -- 1", b"xof  - 1", b"xof -  1")
    # key and nonce
    for wrong in (b"-", b"00", key[:-2], key + b"00"):
        yield from (line(b"seal", wrong, nonce, b"-", b"-"), line(b"seal", key, wrong, b"-", b"-"))
        yield from (line(b"open", wrong, nonce, b"-", blob), line(b"open", key, wrong, b"-", blob))
    # the string
    yield from (line(b"xof", b"5a" * 257, b"-", 1), line(b"xof", b"5a" * 256, b"-", 1), line(b"xof", b"5a" * 257, b"-", b"x"))
    # the length
    for length in (b"65537", b"99999", b"100000", b"4294967296", b"18446744073709551616", b"000000", b"065536"):
        yield line(b"xof", b"-", b"-", length)
    for length in (b"-1", b"+1", b"-", b"", b"1a", b"a", b"1\r", b"\xb9", b"0x1", b"1.0", b"/", b":", b"1:"):
        yield line(b"xof", b"-", b"-", length)
    # which error comes first
    yield from (b"hush 0 0 0", b"hash 0 0", b"seal 00 00 - 0", b"open 00 00 0 -", b"xof 0 - x", line(b"xof", b"5a" * 257, b"0", b"x"))
    # blobs too short to open
    for length in (0, 1, 15, 16):
        yield line(b"open", key, nonce, b"-", argument(bytes(length)))
    # digits, small and capital, and leading zeros of a length
    yield from (b"hash abcdef0123456789", b"hash ABCDEF0123456789", b"hash aBcDeF", b"xof AbC0 dEf0 4", b"xof abc0 def0 4")
    yield from (line(b"open", key.upper(), nonce.upper(), b"-", blob.upper()), line(b"open", key, nonce, b"-", blob))
    yield from (b"xof - - 00000", b"xof - - 00001", b"xof - - 00032", b"xof - - 0")
    # the last line, which the file ends without a newline: another line before it shows that the program went on
    yield b"hash 00"
    yield b"xof 6c617374 6c696e65 8"


def contents():
    """What stdin and stdout are to hold."""
    cases = [*VECTORS, *aead_cases()]
    cases += [(text, ascon.answer(text)) for lines in (hash_lines(), xof_lines(), edge_lines()) for text in lines]
    stdin = b"\n".join(text for text, _ in cases)
    stdout = b"".join(expected + b"\n" for _, expected in cases)
    # This holds the vectors, each round trip and each refusal to the reference.
    assert ascon.run(stdin) == stdout, "the reference disagrees with an expected answer"
    return {"stdin": stdin, "stdout": stdout}


def difference(name, expected):
    """What is wrong with a stored file, or None."""
    path = CRATE / name
    advice = "run python3 tools/ascon_cases.py, and see why"
    if not path.is_file():
        return f"crates/ascon_cli/{name} is missing: {advice}"
    stored = path.read_bytes()
    if stored == expected:
        return None
    pairs = enumerate(zip(stored.split(b"\n"), expected.split(b"\n")), 1)
    at = next((number for number, (a, b) in pairs if a != b), None)
    where = f"from line {at}" if at else "in its length"
    return f"crates/ascon_cli/{name} differs {where} from what is generated: {advice}"


def main(words):
    if words not in ([], ["--check"]):
        print("usage: ascon_cases.py [--check]", file=sys.stderr)
        return 2
    files = contents()
    if words:
        wrong = [said for said in (difference(*item) for item in files.items()) if said]
        if wrong:
            print(f"ascon_cases: {wrong[0]}", file=sys.stderr)
            return 1
        return 0
    CRATE.mkdir(parents=True, exist_ok=True)
    for name, octets in files.items():
        (CRATE / name).write_bytes(octets)
    return 0


if __name__ == "__main__":
    sys.exit(main(sys.argv[1:]))
