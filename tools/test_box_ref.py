"""The rules of docs/MACHINE.md, tried on the second implementation of the box."""

import unittest

from box_ref import BASE, LIMIT, MARKER, SEALER, WRAPPER, Box, PlainCipher, Refused

KEY = bytes(range(1, 17))
OTHER = bytes(range(17, 33))


class BoxTest(unittest.TestCase):
    def setUp(self):
        self.cipher = PlainCipher()
        self.box = Box(self.cipher, 0)

    def refuses(self, number, command, *arguments):
        before = self.content()
        with self.assertRaises(Refused) as caught:
            command(*arguments)
        self.assertEqual(caught.exception.number, number)
        self.assertEqual(self.content(), before)

    def content(self):
        slots = [slot and (slot.key, slot.role, slot.stays) for slot in self.box.places]
        return self.box.drawn, self.box.count, slots

    def slot(self, place):
        slot = self.box.places[place]
        return slot.key, slot.role, slot.stays

    def test_new_box(self):
        self.assertEqual(self.slot(63), (self.cipher.house(), WRAPPER, True))
        self.assertEqual([place for place in range(63) if self.box.places[place]], [])

    def test_wrap_and_unwrap(self):
        self.assertEqual(self.box.make(WRAPPER, True), 0)
        self.assertEqual(self.box.make(SEALER, True), 1)
        self.assertEqual(self.box.unwrap(0, self.box.wrap(1, 0)), 2)
        self.assertEqual(self.slot(2), self.slot(1))

    def test_order_of_refusals_in_wrap(self):
        self.box.make(SEALER, True)
        self.box.load(WRAPPER, KEY)
        self.box.count = LIMIT
        self.refuses(2, self.box.wrap, 64, 63)
        self.refuses(2, self.box.wrap, 0, 64)
        self.refuses(4, self.box.wrap, 0, 0)
        self.refuses(5, self.box.wrap, 0, 1)
        self.refuses(7, self.box.wrap, 0, 63)
        self.box.count = LIMIT - 1
        self.box.wrap(0, 63)
        self.assertEqual(self.box.count, LIMIT)

    def test_order_of_refusals_in_unwrap(self):
        self.box.load(WRAPPER, KEY)
        self.box.make(SEALER, False)
        while None in self.box.places:
            self.box.make(SEALER, True)
        stays = self.cipher.wrap(KEY, (9, 9), SEALER, True, OTHER)
        leaves = self.cipher.wrap(KEY, (9, 9), SEALER, False, OTHER)
        self.refuses(2, self.box.unwrap, 64, leaves)
        self.refuses(4, self.box.unwrap, 1, leaves)
        self.refuses(6, self.box.unwrap, 0, leaves[:-1])
        self.refuses(6, self.box.unwrap, 63, leaves)
        self.refuses(5, self.box.unwrap, 0, stays)
        self.refuses(3, self.box.unwrap, 0, leaves)
        self.box.forget(5)
        self.assertEqual(self.box.unwrap(0, leaves), 5)
        self.assertEqual(self.slot(5), (OTHER, SEALER, False))

    def test_seal_and_open(self):
        self.box.make(SEALER, True)
        blob = self.box.seal(0, b"text")
        self.assertEqual(self.box.open(0, blob), b"text")
        self.box.make(SEALER, True)
        self.refuses(6, self.box.open, 1, blob)
        self.refuses(4, self.box.open, 63, blob)
        self.refuses(4, self.box.seal, 63, b"text")
        self.box.count = LIMIT
        self.refuses(7, self.box.seal, 0, b"text")

    def test_full_box(self):
        self.assertEqual([self.box.make(SEALER, False) for _ in range(63)], list(range(63)))
        self.box.drawn = LIMIT
        self.refuses(3, self.box.make, SEALER, False)
        self.refuses(3, self.box.load, SEALER, KEY)
        self.box.forget(9)
        self.refuses(7, self.box.make, SEALER, False)
        self.box.drawn = LIMIT - 1
        self.assertEqual(self.box.make(SEALER, False), 9)

    def test_derive(self):
        self.box.make(BASE, True)
        self.box.derive(0, 5, SEALER)
        self.box.derive(0, 5, SEALER)
        self.box.derive(0, 5, MARKER)
        self.assertEqual(self.slot(1), self.slot(2))
        self.assertNotEqual(self.box.places[1].key, self.box.places[3].key)
        self.assertEqual(self.slot(3)[1:], (MARKER, True))
        self.refuses(4, self.box.derive, 1, 5, SEALER)

    def test_show_mark_forget(self):
        self.box.make(MARKER, True)
        self.refuses(5, self.box.show, 0)
        self.assertEqual(len(self.box.mark(0, b"text")), 16)
        self.refuses(4, self.box.mark, 63, b"text")
        self.box.forget(0)
        self.refuses(2, self.box.show, 0)
        self.refuses(2, self.box.forget, 0)
        self.box.load(MARKER, KEY)
        self.assertEqual(self.box.show(0), KEY)


if __name__ == "__main__":
    unittest.main()
