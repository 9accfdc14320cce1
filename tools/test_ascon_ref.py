"""Tests of the reference implementation: python3 -m unittest discover -s tools -p 'test_*.py'"""

import pathlib
import subprocess
import sys
import unittest

import ascon_ref as ascon

ROOT = pathlib.Path(__file__).resolve().parent.parent
KEY = bytes(range(16))
NONCE = bytes(range(16, 32))
LENGTHS = (0, 1, 7, 8, 9, 15, 16, 17, 31, 32, 33, 64)


def flipped(octets, bit):
    out = bytearray(octets)
    out[bit // 8] ^= 1 << bit % 8
    return bytes(out)


class Vectors(unittest.TestCase):
    """For each algorithm the standard's vector of empty inputs."""

    def test_aead128(self):
        self.assertEqual(ascon.seal(KEY, NONCE, b"", b"").hex(), "4f9c278211bec9316bf68f46ee8b2ec6")

    def test_hash256(self):
        self.assertEqual(
            ascon.hash256(b"").hex(), "0b3be5850f2f6b98caf29f8fdea89b64a1fa70aa249b8f839bd53baa304d92b2"
        )

    def test_cxof128(self):
        self.assertEqual(
            ascon.cxof128(b"", b"", 32).hex(), "4f50159ef70bb3dad8807e034eaebd44c4fa2cbbc8cf1f05511ab66cdcc52990"
        )


class BoxValues(unittest.TestCase):
    """Values that the format of the box fixes, for the keys 00..0f and 10..1f and box number 1. They
    show what empty inputs leave out: text, associated data, a message, a string with its length."""

    NUMBER_AND_COUNT = bytes([1]) + bytes(11)

    def test_seal(self):
        self.assertEqual(
            ascon.seal(KEY, self.NUMBER_AND_COUNT + b"SEAL", b"", b"ab").hex(),
            "7445" + "4a6e83662b093c22e7d507b52bf4db11",
        )

    def test_wrap(self):
        self.assertEqual(
            ascon.seal(KEY, self.NUMBER_AND_COUNT + b"WRAP", bytes([2, 1]), NONCE).hex(),
            "52b9928ac0cd08277c0ffecfe6dc6969" + "56b107cadf638c624f27544c096714d3",
        )

    def test_mark(self):
        self.assertEqual(ascon.cxof128(b"box mark", KEY + b"ab", 16).hex(), "0159f8d82c4f96a9b7d34f00b51c7429")

    def test_derive(self):
        self.assertEqual(
            ascon.cxof128(b"box key", KEY + bytes([5, 2]), 16).hex(), "d373aca3712fec9fa354b6aacdf3a4cf"
        )


class Permutation(unittest.TestCase):
    def test_p8_is_the_end_of_p12(self):
        # p[12] is its first four rounds and then p[8]
        whole = [1, 2, 3, 4, 5]
        ascon.permute(whole, 12)
        parts = [1, 2, 3, 4, 5]
        constants = ascon.ROUND_CONSTANTS
        try:
            ascon.ROUND_CONSTANTS = (0,) * 8 + constants[:4]
            ascon.permute(parts, 4)
        finally:
            ascon.ROUND_CONSTANTS = constants
        ascon.permute(parts, 8)
        self.assertEqual(parts, whole)

    def test_words_keep_64_bits(self):
        state = [ascon.MASK] * 5
        ascon.permute(state, 12)
        self.assertTrue(all(0 <= word <= ascon.MASK for word in state))


class Aead(unittest.TestCase):
    def test_round_trips(self):
        for data_length in LENGTHS:
            for text_length in LENGTHS:
                with self.subTest(data=data_length, text=text_length):
                    data, text = bytes(range(data_length)), bytes(range(100, 100 + text_length))
                    blob = ascon.seal(KEY, NONCE, data, text)
                    self.assertEqual(len(blob), text_length + 16)
                    self.assertEqual(ascon.open_blob(KEY, NONCE, data, blob), text)

    def test_every_flipped_bit_is_refused(self):
        parts = [KEY, NONCE, bytes(17), ascon.seal(KEY, NONCE, bytes(17), bytes(19))]
        self.assertIsNotNone(ascon.open_blob(*parts))
        for i, part in enumerate(parts):
            for bit in range(8 * len(part)):
                damaged = parts[:i] + [flipped(part, bit)] + parts[i + 1:]
                self.assertIsNone(ascon.open_blob(*damaged), (i, bit))

    def test_cut_and_extended_blobs_are_refused(self):
        blob = ascon.seal(KEY, NONCE, b"", bytes(20))
        for length in range(len(blob)):
            self.assertIsNone(ascon.open_blob(KEY, NONCE, b"", blob[:length]), length)
        self.assertIsNone(ascon.open_blob(KEY, NONCE, b"", blob + b"\x00"))

    def test_padding_is_no_data(self):
        # Strings that differ in their padding alone have different tags.
        tags = {ascon.seal(KEY, NONCE, data, b"") for data in (b"", b"\x01", b"\x01\x00", b"\x00", bytes(16))}
        self.assertEqual(len(tags), 5)

    def test_data_is_not_text(self):
        self.assertNotEqual(
            ascon.seal(KEY, NONCE, bytes(16), b"")[-16:], ascon.seal(KEY, NONCE, b"", bytes(16))[-16:]
        )


class HashAndXof(unittest.TestCase):
    def test_lengths(self):
        for length in LENGTHS:
            self.assertEqual(len(ascon.hash256(bytes(length))), 32)
            self.assertEqual(len(ascon.cxof128(b"", b"", length)), length)

    def test_shorter_output_is_a_prefix(self):
        whole = ascon.cxof128(b"name", b"message", 100)
        for length in range(101):
            self.assertEqual(ascon.cxof128(b"name", b"message", length), whole[:length])

    def test_inputs_have_different_outputs(self):
        inputs = [bytes(n) for n in range(20)] + [b"\x01", b"\x01\x00"]
        self.assertEqual(len({ascon.hash256(text) for text in inputs}), len(inputs))
        pairs = [(string, text) for string in inputs for text in inputs]
        self.assertEqual(len({ascon.cxof128(string, text, 16) for string, text in pairs}), len(pairs))


class Program(unittest.TestCase):
    K, N = KEY.hex(), NONCE.hex()

    def answers(self, line, expected):
        if isinstance(line, str):
            line = line.encode("latin-1")
        self.assertEqual(ascon.answer(line), expected.encode("ascii"), line)

    def test_results(self):
        blob = ascon.seal(KEY, NONCE, b"\xab", b"text").hex()
        self.answers(f"seal {self.K} {self.N} ab {b'text'.hex()}", blob)
        self.answers(f"open {self.K} {self.N} ab {blob}", b"text".hex())
        self.answers(f"open {self.K} {self.N} AB {blob.upper()}", b"text".hex())
        self.answers(f"open {self.K} {self.N} ac {blob}", "refused")
        self.answers(f"open {self.K} {self.N} - {ascon.seal(KEY, NONCE, b'', b'').hex()}", "-")
        self.answers(f"open {self.K} {self.N} - -", "refused")
        self.answers(f"open {self.K} {self.N} - {'00' * 15}", "refused")
        self.answers("hash aB", ascon.hash256(b"\xab").hex())
        self.answers("xof 01 02 3", ascon.cxof128(b"\x01", b"\x02", 3).hex())
        self.answers("xof - - 0", "-")
        self.answers("xof - - 00000", "-")
        self.answers("xof - - 00001", ascon.cxof128(b"", b"", 1).hex())
        self.answers(f"xof {'00' * 256} - 1", ascon.cxof128(bytes(256), b"", 1).hex())

    def test_unknown_command(self):
        for line in ("", " ", "-", "Hash -", "HASH -", "hash\t-", " hash -", "hash\r", "sealed", "\xff", "\0"):
            self.answers(line, "error: unknown command")

    def test_wrong_number_of_arguments(self):
        lines = ["hash", "hash - -", "hash - ", "hash  -", "xof - -", "xof - - 1 ", "xof  - - 1", "seal", "open"]
        lines += [f"seal {self.K} {self.N} -", f"open {self.K} {self.N} - - -", f"seal  {self.K} {self.N} - -"]
        for line in lines:
            self.answers(line, "error: wrong number of arguments")

    def test_not_hexadecimal(self):
        for argument in ("", "0", "000", "0g", "--", "0-", "-\r", "00\r", "0x00", "+1", "\xff\xff", "0\x00", "é0", "00\t"):
            self.answers(f"hash {argument}", "error: not hexadecimal")
            self.answers(f"xof {argument} - 1", "error: not hexadecimal")
            self.answers(f"xof - {argument} 1", "error: not hexadecimal")
            for place in range(4):
                arguments = [self.K, self.N, "-", "00" * 16]
                arguments[place] = argument
                for command in ("seal", "open"):
                    self.answers(f"{command} {' '.join(arguments)}", "error: not hexadecimal")

    def test_key_and_nonce(self):
        for wrong in ("-", "00", "00" * 15, "00" * 17, "00" * 32):
            for command in ("seal", "open"):
                self.answers(f"{command} {wrong} {self.N} - -", "error: key and nonce take 16 bytes")
                self.answers(f"{command} {self.K} {wrong} - -", "error: key and nonce take 16 bytes")

    def test_string(self):
        self.answers(f"xof {'00' * 257} - 1", "error: the string takes at most 256 bytes")

    def test_length(self):
        self.assertEqual(len(ascon.answer(b"xof - - 65536")), 2 * 65536)
        for length in ("", "-", "-1", "+1", "65537", "99999", "000001", "065536", "100000", "1a", "1\r", "0x1", "1.0", "\xb2"):
            self.answers(f"xof - - {length}", "error: the length is a number from 0 to 65536")

    def test_order_of_errors(self):
        self.answers("hush 0 0 0", "error: unknown command")
        self.answers("hash 0 0", "error: wrong number of arguments")
        self.answers("seal 00 00 - 0", "error: not hexadecimal")
        self.answers(f"xof {'00' * 257} 0 x", "error: not hexadecimal")
        self.answers(f"xof {'00' * 257} - x", "error: the string takes at most 256 bytes")

    def test_lines(self):
        unknown = b"error: unknown command\n"
        self.assertEqual(ascon.run(b""), b"")
        self.assertEqual(ascon.run(b"\n"), unknown)
        self.assertEqual(ascon.run(b"\n\n"), unknown * 2)
        self.assertEqual(ascon.run(b"a\nb"), unknown * 2)
        self.assertEqual(ascon.run(b"xof - - 0"), b"-\n")
        self.assertEqual(ascon.run(b"xof - - 0\n"), b"-\n")

    def test_as_a_program(self):
        # main reads by itself, so it is held to run
        lines = [b"hash -", b"", b"\xff\r\x0b\x0c\x85", b"xof - - 0", b"hash 00\r", b"hash 00"]
        for octets in (b"", b"\n", b"\n".join(lines), b"\n".join(lines) + b"\n"):
            done = subprocess.run([sys.executable, ascon.__file__], input=octets, capture_output=True, check=True)
            self.assertEqual(done.stdout, ascon.run(octets))

    def test_example(self):
        examples = ROOT / "examples"
        self.assertEqual(
            ascon.run((examples / "ascon.txt").read_bytes()), (examples / "ascon.expected").read_bytes()
        )


if __name__ == "__main__":
    unittest.main()
