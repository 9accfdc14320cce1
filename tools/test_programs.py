#!/usr/bin/env python3
"""Holds the built program ascon_cli to the reference, on inputs that its stored run does not have.

    python3 tools/test_programs.py [PROGRAM]     PROGRAM: crates/ascon_cli/out/ascon_cli if not given

It needs the program, so it is a script and no unittest: where unittest looks for tests, it finds
none here. The random lines come from a fixed seed.
"""

import functools
import pathlib
import random
import subprocess
import sys
import tempfile

import ascon_ref as ascon

ROOT = pathlib.Path(__file__).resolve().parent.parent
PROGRAM = ROOT / "crates" / "ascon_cli" / "out" / "ascon_cli"
TIMEOUT = 120  # seconds for a run that takes far less than one
SEED = 232

LENGTHS = (0, 1, 2, 7, 8, 9, 15, 16, 17, 24, 31, 32, 33, 47, 48, 100, 255, 256, 257)

# the same lines are run in several ways
reference = functools.cache(ascon.answer)


class Disagreement(Exception):
    pass


# ---- random lines


def argument(rng, octets):
    digits = octets.hex()
    if rng.random() < 0.2:
        digits = "".join(rng.choice((d, d.upper())) for d in digits)
    return digits.encode("ascii") or b"-"


def some_octets(rng):
    return rng.randbytes(rng.choice((*LENGTHS, rng.randrange(300))))


def whole_line(rng):
    """A line that can be read, but for an xof whose string or length is sometimes too great."""
    command = rng.choice((b"seal", b"open", b"open", b"hash", b"xof"))
    if command == b"hash":
        words = [argument(rng, some_octets(rng))]
    elif command == b"xof":
        length = str(rng.choice((*LENGTHS, rng.randrange(2000), 65537, rng.randrange(200_000)))).zfill(rng.choice((1, 1, 1, 5)))
        words = [argument(rng, some_octets(rng)), argument(rng, some_octets(rng)), length.encode("ascii")]
    else:
        parts = [rng.randbytes(16), rng.randbytes(16), some_octets(rng), some_octets(rng)]
        if command == b"open":
            parts[3] = ascon.seal(*parts)
            if rng.random() < 0.5:
                damage_part(rng, parts)
        words = [argument(rng, part) for part in parts]
    return b" ".join([command, *words])


def damage_part(rng, parts):
    """Changes key, nonce, data or blob, which stay readable; the blob may become too short."""
    place = rng.choice([i for i, part in enumerate(parts) if part])
    part = bytearray(parts[place])
    if place >= 2 and rng.random() < 0.3:
        del part[rng.randrange(len(part)):]
    else:
        bit = rng.randrange(8 * len(part))
        part[bit // 8] ^= 1 << bit % 8
    parts[place] = bytes(part)


def damaged_line(rng):
    """A line with one or two changes to its bytes. It may still be one that can be read."""
    line = bytearray(whole_line(rng))
    for _ in range(rng.choice((1, 1, 2))):
        at = rng.randrange(len(line) + 1)
        kind = rng.randrange(6)
        if kind == 0:
            del line[at:]
        elif kind == 1:
            del line[at:at + 1]
        elif kind == 2:
            line[at:at] = rng.choice((b" ", b"-", b"\r", b"\t", b"\0", b"0", b"g", b"G", b"\x80", b"\xff", "é".encode()))
        elif kind == 3:
            line += rng.choice((b" ", b"\r", b" -", b"0", b"00", b"9"))
        elif kind == 4:
            words = line.split(b" ")
            place = rng.randrange(len(words))
            words[place] = rng.choice((b"", b"-", b"00", b"0", bytes(words[place]) * 2))
            line = bytearray(b" ".join(words))
        else:
            line[at:at + 1] = bytes([rng.choice([b for b in range(256) if b != 10])])
    return bytes(line)


# ---- runs


def short(octets):
    return repr(octets if len(octets) <= 160 else octets[:120] + b"..." + octets[-30:])[1:]


def compare(name, octets, done):
    """Holds a finished run on the input `octets` to the reference; gives the number of its lines."""
    lines = ascon.lines_of(octets)
    if done.returncode != 0:
        raise Disagreement(f"{name}: status {done.returncode}, standard error {short(done.stderr)}")
    expected = b"".join(reference(line) + b"\n" for line in lines)
    if done.stdout == expected:
        return len(lines)
    wrote = done.stdout.split(b"\n")
    for number, (line, right) in enumerate(zip(lines, expected.split(b"\n"))):
        got = wrote[number] if number < len(wrote) else b"(nothing)"
        if got != right:
            raise Disagreement(
                f"{name}: line {number + 1}\n  line      {short(line)}\n  reference {short(right)}\n  program   {short(got)}"
            )
    raise Disagreement(f"{name}: each answer is right, and then comes too much or no newline: {short(done.stdout[-40:])}")


def by_pipe(program, octets):
    return subprocess.run([program], input=octets, capture_output=True, timeout=TIMEOUT)


def by_file(program, octets):
    with tempfile.TemporaryFile() as file:
        file.write(octets)
        file.seek(0)
        return subprocess.run([program], stdin=file, capture_output=True, timeout=TIMEOUT)


def in_pieces(program, octets, rng):
    """The input in small writes, so that reads end within lines. What the program writes goes to a
    file, so that it never waits for this script."""
    with tempfile.TemporaryFile() as out, tempfile.TemporaryFile() as err:
        with subprocess.Popen([program], stdin=subprocess.PIPE, stdout=out, stderr=err, bufsize=0) as running:
            try:
                at = 0
                while at < len(octets):
                    size = rng.randrange(1, 200)
                    running.stdin.write(octets[at:at + size])
                    at += size
                running.stdin.close()
                running.wait(TIMEOUT)
            except BaseException:
                running.kill()
                raise
        out.seek(0)
        err.seek(0)
        return subprocess.CompletedProcess([program], running.returncode, out.read(), err.read())


def long_lines(rng):
    """Lines far longer than any buffer, with short ones between that show that the program goes on."""
    key, nonce, text = rng.randbytes(16), rng.randbytes(16), rng.randbytes(200_000)
    blob = ascon.seal(key, nonce, b"", text)
    front = b" ".join((key.hex().encode(), nonce.hex().encode(), b"-"))
    return [
        b"seal " + front + b" " + text.hex().encode(),
        b"hash -",
        b"open " + front + b" " + blob.hex().encode(),
        b"open " + front + b" " + blob[:-1].hex().encode() + b"%02x" % (blob[-1] ^ 1),
        b"hash " + text.hex().encode()[1:],
        b"hash " + b"00" * 100_000 + b"\r",
        b"x" * 400_000,
        b"hash" + b" " * 400_000,
        b"xof - " + text[:50_000].hex().encode() + b" 65536",
        b"xof - - " + b"1" * 400_000,
        b"hash 00",
    ]


def check(program):
    rng = random.Random(SEED)
    cases = 0
    lines = [whole_line(rng) if rng.random() < 0.5 else damaged_line(rng) for _ in range(400)]
    lines.insert(200, b"")
    block = b"\n".join(lines)

    done = by_pipe(program, b"")
    if done.returncode != 0 or done.stdout:
        raise Disagreement(f"empty input: status {done.returncode}, output {short(done.stdout)}")
    cases += 1
    cases += compare("one newline", b"\n", by_pipe(program, b"\n"))
    cases += compare("random lines", block + b"\n", by_pipe(program, block + b"\n"))
    cases += compare("random lines, no last newline", block, by_pipe(program, block))
    cases += compare("random lines, from a file", block, by_file(program, block))
    cases += compare("random lines, in pieces", block, in_pieces(program, block, rng))
    for line in lines[:20]:
        cases += compare("one line", line, by_pipe(program, line))
    octets = b"\n".join(long_lines(rng))
    cases += compare("long lines", octets + b"\n", by_pipe(program, octets + b"\n"))
    cases += compare("a long last line", octets.split(b"\n")[0], by_pipe(program, octets.split(b"\n")[0]))
    return cases


def main(words):
    if len(words) > 1:
        print("usage: test_programs.py [PROGRAM]", file=sys.stderr)
        return 2
    program = pathlib.Path(words[0] if words else PROGRAM).resolve()
    if not program.is_file():
        print(f"programs: {program} is not there: bin/ascon builds it", file=sys.stderr)
        return 1
    try:
        cases = check(str(program))
    except Disagreement as said:
        print(f"programs: {said}", file=sys.stderr)
        return 1
    except (subprocess.TimeoutExpired, OSError) as said:
        print(f"programs: {program.name} did not run to its end: {said}", file=sys.stderr)
        return 1
    print(f"programs: {cases} cases agree")
    return 0


if __name__ == "__main__":
    sys.exit(main(sys.argv[1:]))
