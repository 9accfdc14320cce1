"""A second implementation of the box, written from docs/MACHINE.md and independent of crates/.

A box runs over any suite of ciphers: an object with the methods of PlainCipher.
"""

PLACES = 64
LIMIT = 1 << 48

WRAPPER, SEALER, MARKER, BASE = 1, 2, 3, 4


class Refused(Exception):
    """A command was refused; `number` says why."""

    def __init__(self, number):
        super().__init__(f"refused by {number}")
        self.number = number


class Slot:
    """A key with its role and whether it stays."""

    def __init__(self, key, role, stays):
        self.key = key
        self.role = role
        self.stays = stays


class Box:
    """A box: each method is a command, and raises Refused with the box as it was."""

    def __init__(self, cipher, number):
        self.cipher = cipher
        self.number = number
        self.drawn = 0
        self.count = 0
        self.places = [None] * PLACES
        self.places[63] = Slot(cipher.house(), WRAPPER, True)

    def _slot(self, place, role=None):
        if place >= PLACES or self.places[place] is None:
            raise Refused(2)
        slot = self.places[place]
        if role is not None and slot.role != role:
            raise Refused(4)
        return slot

    def _room(self):
        for place, slot in enumerate(self.places):
            if slot is None:
                return place
        raise Refused(3)

    def _stamp(self):
        if self.count >= LIMIT:
            raise Refused(7)
        stamp = (self.number, self.count)
        self.count += 1
        return stamp

    def make(self, role, stays):
        place = self._room()
        if self.drawn >= LIMIT:
            raise Refused(7)
        self.places[place] = Slot(self.cipher.draw(self.number, self.drawn), role, stays)
        self.drawn += 1
        return place

    def load(self, role, key):
        place = self._room()
        self.places[place] = Slot(key, role, False)
        return place

    def show(self, place):
        slot = self._slot(place)
        if slot.stays:
            raise Refused(5)
        return slot.key

    def wrap(self, place, under):
        slot = self._slot(place)
        wrapper = self._slot(under, WRAPPER)
        if slot.stays and not wrapper.stays:
            raise Refused(5)
        return self.cipher.wrap(wrapper.key, self._stamp(), slot.role, slot.stays, slot.key)

    def unwrap(self, under, blob):
        wrapper = self._slot(under, WRAPPER)
        found = self.cipher.unwrap(wrapper.key, blob)
        if found is None:
            raise Refused(6)
        role, stays, key = found
        if stays and not wrapper.stays:
            raise Refused(5)
        place = self._room()
        self.places[place] = Slot(key, role, stays)
        return place

    def seal(self, place, text):
        slot = self._slot(place, SEALER)
        return self.cipher.seal(slot.key, self._stamp(), text)

    def open(self, place, blob):
        text = self.cipher.unseal(self._slot(place, SEALER).key, blob)
        if text is None:
            raise Refused(6)
        return text

    def mark(self, place, text):
        return self.cipher.mark(self._slot(place, MARKER).key, text)

    def derive(self, base, label, role):
        slot = self._slot(base, BASE)
        place = self._room()
        self.places[place] = Slot(self.cipher.derive(slot.key, label, role), role, slot.stays)
        return place

    def forget(self, place):
        self._slot(place)
        self.places[place] = None


class PlainCipher:
    """No secrecy, exact bookkeeping: a blob carries its key in the place of a tag."""

    TEXT = 1024

    def house(self):
        return b"H" * 16

    def draw(self, number, n):
        return n.to_bytes(8, "little") + number.to_bytes(4, "little") + b"DDDD"

    @staticmethod
    def _stamp(stamp):
        number, count = stamp
        return number.to_bytes(4, "little") + count.to_bytes(8, "little")

    def seal(self, key, stamp, text):
        return self._stamp(stamp) + text + key

    def unseal(self, key, blob):
        if not 28 <= len(blob) <= 28 + self.TEXT or blob[-16:] != key:
            return None
        return blob[12:-16]

    def wrap(self, under, stamp, role, stays, key):
        return self._stamp(stamp) + bytes([role, int(stays)]) + key + under

    def unwrap(self, under, blob):
        if len(blob) != 46 or blob[30:] != under or not 1 <= blob[12] <= 4 or blob[13] > 1:
            return None
        return blob[12], blob[13] == 1, blob[14:30]

    def mark(self, key, text):
        return (key[:8] + text[:8]).ljust(16, b"\0")

    def derive(self, key, label, role):
        return bytes([role, label]) + key[:14]
