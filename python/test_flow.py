"""The tests of flow.py.  Expected bytes and numbers are those of documents 01 and 02 and of README.md's worked example."""

import pickle
import unittest

import flow

SKIP = bytes.fromhex("0a00 0100 0100 00 00 0100  0a00 0300 00000000 0000  0400 3000")
SKIP_HARDENED = bytes.fromhex("0a00 0100 0100 01 00 0100  0a00 0300 00000000 0000  0400 3000")
SKIP_SHEET = bytes.fromhex("0e00 8000 0100 0100 00000000 0000")

# if x = 0 then skip else skip, x secret
BRANCH = bytes.fromhex(
    "0a00 0100 0100 01 00 0600  0a00 0300 01000000 0000"
    "0600 1100 0000  0800 1000 00000000  0800 2100 0000 0100  0400 3000  0400 3000  0a00 3300 0200 0300 0400"
)

# A skip with so many variables, all public: of version 1, and of version 2, in which the mask has 8 bytes.
def version_1(variables: int) -> bytes:
    return bytes.fromhex(f"0a00 0100 0100 {variables:02x} 00 0100  0a00 0300 00000000 0000  0400 3000")


def version_2(variables: int) -> bytes:
    return bytes.fromhex(f"0a00 0100 0200 {variables:02x} 00 0100  0e00 0300 0000000000000000 0000  0400 3000")


# Two skips, and the first is a child of no node: its record begins behind the header and the labels.
ORPHAN = bytes.fromhex("0a00 0100 0100 00 00 0200  0a00 0300 00000000 0000  0400 3000  0400 3000")


def nodes(table: bytes) -> int:
    return int.from_bytes(table[8:10], "little")


class Harden(unittest.TestCase):
    def test_example_of_document_01(self):
        self.assertEqual(flow.harden(SKIP), SKIP_HARDENED)

    def test_secret_condition(self):
        hardened = flow.harden(BRANCH)
        self.assertEqual((len(BRANCH), nodes(BRANCH)), (60, 6))
        self.assertEqual((len(hardened), nodes(hardened)), (274, 34))

    def test_version(self):
        self.assertEqual(flow.harden(version_1(31)), version_1(32))
        self.assertEqual(flow.harden(version_1(32)), version_2(33))
        self.assertEqual(flow.harden(version_2(0)), version_2(1))
        self.assertEqual(flow.harden(version_2(63)), version_2(64))

    def test_no_variable_left(self):
        self.assert_refused(version_2(64), 9, 0)

    def test_beyond_the_version(self):
        self.assert_refused(version_1(33), 3, 0)
        self.assert_refused(version_2(65), 3, 0)

    def test_every_result_is_a_new_one(self):
        first = flow.harden(SKIP)
        flow.harden(BRANCH)
        self.assertEqual(first, SKIP_HARDENED)

    def test_memory_too_short_is_doubled(self):
        usual, flow._FIRST_ROOM = flow._FIRST_ROOM, 1
        try:
            self.assertEqual(flow.harden(SKIP), SKIP_HARDENED)
        finally:
            flow._FIRST_ROOM = usual

    def test_no_bytes(self):
        self.assert_refused(b"", 1, 0)

    def test_place_of_a_refusal(self):
        self.assert_refused(ORPHAN, 6, 20)

    def test_bytes_after_the_last_node(self):
        self.assert_refused(SKIP + b"\0", 7, 24)

    def test_not_bytes(self):
        for table in ("0a00", None, 24, bytearray(SKIP)):
            with self.assertRaises(TypeError):
                flow.harden(table)

    def assert_refused(self, table: bytes, number: int, place: int):
        with self.assertRaises(flow.Refused) as caught:
            flow.harden(table)
        self.assertEqual((caught.exception.number, caught.exception.place), (number, place))


class Sheet(unittest.TestCase):
    def test_skip(self):
        self.assertEqual(flow.sheet(SKIP), SKIP_SHEET)

    def test_version_is_the_table_s(self):
        self.assertEqual(flow.sheet(version_1(32)), SKIP_SHEET)
        self.assertEqual(flow.sheet(version_2(5)), bytes.fromhex("1200 8000 0200 0100 0000000000000000 0000"))

    def test_refused(self):
        with self.assertRaises(flow.Refused):
            flow.sheet(ORPHAN)


class Refusal(unittest.TestCase):
    def test_words(self):
        self.assertEqual(str(flow.Refused(6, 724)), "refused by 6 at byte 724")
        self.assertEqual(str(flow.Refused(8, 0)), "refused by 8")

    def test_is_a_value_error(self):
        self.assertIsInstance(flow.Refused(6, 724), ValueError)

    def test_crosses_processes(self):
        refused = pickle.loads(pickle.dumps(flow.Refused(6, 724)))
        self.assertEqual((refused.number, refused.place), (6, 724))


if __name__ == "__main__":
    unittest.main()
