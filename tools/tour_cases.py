#!/usr/bin/env python3
"""The run that the program tour prints, made by the second implementation in box_ref.py.

    python3 tools/tour_cases.py            writes crates/tour/stdout
    python3 tools/tour_cases.py --check    compares it with what it would write; 1 if they differ
"""

import pathlib
import sys

from box_ref import BASE, MARKER, SEALER, WRAPPER, Box, PlainCipher, Refused

STORED = pathlib.Path(__file__).resolve().parent.parent / "crates" / "tour" / "stdout"

ROLES = {WRAPPER: "wrapper", SEALER: "sealer", MARKER: "marker", BASE: "base"}

CAUSES = {
    2: "no key lies there",
    3: "no place is empty",
    4: "the key has another role",
    5: "a key stays",
    6: "the blob doesn't open",
    7: "all stamps or keys are used up",
}


class Tour:
    """Boxes over the plain cipher, and the lines of the run."""

    def __init__(self):
        self.lines = []
        self.cipher = PlainCipher()
        self.boxes = {}

    def case(self, title):
        """A new case, with new boxes 0 and 1."""
        if self.lines:
            self.lines.append("")
        self.lines.append(title)
        self.boxes = {number: Box(self.cipher, number) for number in (0, 1)}

    def send(self, number, words, command):
        """Runs a command and prints it with its answer; gives the value answered, if any."""
        try:
            kind, value = command(self.boxes[number])
        except Refused as refusal:
            kind, value, answer = None, None, f"refused by {refusal.number}: {CAUSES[refusal.number]}"
        else:
            shown = value.hex() if isinstance(value, bytes) else str(value)
            answer = kind if value is None else f"{kind} {shown}"
        self.lines.append(f"{number}: {words}")
        self.lines.append(f"   {answer}")
        return value

    def make(self, number, role, stays):
        words = f"make {ROLES[role]}" + (" stays" if stays else "")
        return self.send(number, words, lambda box: ("place", box.make(role, stays)))

    def load(self, number, role, key):
        return self.send(number, f"load {ROLES[role]} {key.hex()}", lambda box: ("place", box.load(role, key)))

    def show(self, number, place):
        return self.send(number, f"show {place}", lambda box: ("key", box.show(place)))

    def wrap(self, number, place, under):
        return self.send(number, f"wrap {place} under {under}", lambda box: ("blob", box.wrap(place, under)))

    def unwrap(self, number, under, blob):
        return self.send(number, f"unwrap {blob.hex()} under {under}", lambda box: ("place", box.unwrap(under, blob)))

    def seal(self, number, place, text):
        return self.send(number, f"seal {place} hex {text.hex()}", lambda box: ("blob", box.seal(place, text)))

    def open(self, number, place, blob):
        return self.send(number, f"open {place} {blob.hex()}", lambda box: ("text", box.open(place, blob)))

    def mark(self, number, place, text):
        return self.send(number, f"mark {place} hex {text.hex()}", lambda box: ("mark", box.mark(place, text)))

    def derive(self, number, base, label, role):
        words = f"derive {base} label {label} as {ROLES[role]}"
        return self.send(number, words, lambda box: ("place", box.derive(base, label, role)))

    def forget(self, number, place):
        return self.send(number, f"forget {place}", lambda box: ("done", box.forget(place)))


def run():
    """All cases, as lines."""
    tour = Tour()
    text = bytes(range(1, 17))
    other = bytes(range(17, 33))

    tour.case("A key that stays, wrapped and unwrapped")
    tour.make(0, WRAPPER, True)
    tour.make(0, SEALER, True)
    blob = tour.wrap(0, 1, 0)
    tour.unwrap(0, 0, blob)

    tour.case("A key that stays, under a loaded wrapper")
    tour.make(0, SEALER, True)
    tour.load(0, WRAPPER, text)
    tour.wrap(0, 0, 1)

    tour.case("A key that stays, under a wrapper that was shown")
    tour.make(0, SEALER, False)
    key = tour.show(0, 0)
    tour.load(0, WRAPPER, key)
    tour.make(0, SEALER, True)
    tour.wrap(0, 2, 1)

    tour.case("Blobs made outside any box")
    tour.load(0, WRAPPER, text)
    tour.unwrap(0, 0, tour.cipher.wrap(text, (9, 9), SEALER, True, other))
    tour.unwrap(0, 0, tour.cipher.wrap(text, (9, 9), SEALER, False, other))

    tour.case("A text, sealed and opened")
    tour.make(0, SEALER, True)
    blob = tour.seal(0, 0, b"ab")
    tour.open(0, 0, blob)
    tour.open(1, 0, blob)
    tour.make(1, SEALER, True)
    tour.open(1, 0, blob)

    tour.case("Keys derived from a base")
    tour.make(0, BASE, False)
    tour.derive(0, 0, 5, SEALER)
    tour.derive(0, 0, 5, SEALER)
    tour.derive(0, 0, 5, MARKER)
    tour.show(0, 1)
    tour.show(0, 2)
    tour.show(0, 3)

    tour.case("A full box")
    for _ in range(64):
        tour.make(0, SEALER, False)
    tour.forget(0, 9)
    tour.make(0, SEALER, False)
    tour.show(0, 9)

    tour.case("Another role")
    tour.make(0, SEALER, True)
    tour.mark(0, 0, b"ab")
    tour.make(0, MARKER, True)
    tour.mark(0, 1, b"ab")

    tour.case("A wrapper under itself")
    tour.make(0, WRAPPER, True)
    blob = tour.wrap(0, 0, 0)
    tour.unwrap(0, 0, blob)

    tour.case("A key that stays is not shown")
    tour.make(0, SEALER, True)
    tour.show(0, 0)

    tour.case("From one box to another, under the house key")
    tour.make(0, SEALER, True)
    blob = tour.wrap(0, 0, 63)
    tour.unwrap(1, 63, blob)
    sealed = tour.seal(0, 0, b"ab")
    tour.open(1, 0, sealed)
    return tour.lines


def main(arguments):
    if arguments not in ([], ["--check"]):
        print("usage: tour_cases.py [--check]", file=sys.stderr)
        return 1
    made = "".join(line + "\n" for line in run())
    try:
        if not arguments:
            STORED.write_text(made, encoding="ascii")
            return 0
        same = STORED.read_text(encoding="ascii") == made
    except (OSError, ValueError) as error:
        print(f"tour_cases: {error}", file=sys.stderr)
        return 1
    if not same:
        print("tour_cases: crates/tour/stdout is not what it would write", file=sys.stderr)
        return 1
    return 0


if __name__ == "__main__":
    sys.exit(main(sys.argv[1:]))
