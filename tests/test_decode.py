"""What `decode` tells of messages: of each type, with other objects, and of bytes that are none.

The bytes of objects follow RFC 2205, 2961, 3209, 3471, 3473, 3477 and 4872. A checksum of 0 says that none was made
(RFC 2205, section 3.1.1).
"""

import unittest

from ason_tools.program import DONE

from .support import ason_told

NO_MESSAGE = "not a message\n"

PATH, PATH_ERROR, PATH_TEAR = 1, 3, 5

ACK = bytes.fromhex("110dd5cb01000014 000c180100000001 00000005")

# LSP 1.1.2 towards node 3: number 5, sent by node 1 over link 2.
TEAR = bytes.fromhex(
    "1105c63f01000048 000c170101000001 00000005 0010010700000003 0000000100000001"
    "0018030300000001 00000000 0003000c0000000100000002 000c0b07 0000000100000002"
)

# The backup 1.1.2 of LSP 1, switched, towards node 3: number 7, acknowledging 5 and 6, sent by node 1 over link 2.
BACKUP_OBJECTS = [
    "000c170101000001 00000007",
    "000c180100000001 00000005",
    "000c180100000001 00000006",
    "0010010700000003 0000000100000001",
    "0018030300000001 000000000003000c 0000000100000002",
    "00080501 00007530",
    "00101401 040c000000000002 00000003",
    "00081304 08960000",
    "000c2502 4002000000000000",
    "00102401 00000002 00000002 00000003",
    "000cc701 00010001 00000001",
    "001c2601 040c000000000001 00000001 040c000000000002 00000004",
    "000c0b07 00000001 00000002",
    "00240c02 00000007010000067f00000500000000000000000000000000000000 00000000",
    "00082302 00000004",
]

# LSP 1.1.2 with label 3: number 8, sent by node 2 over link 3.
RESV_MESSAGE = bytes.fromhex(
    "1102a76e01000084 000c170101000001 00000008 0010010700000003 0000000100000001"
    "0018030300000002 00000000 0003000c0000000200000003 00080501 00007530 00080801 0000000a"
    "00240902 00000007050000067f00000500000000000000000000000000000000 00000000"
    "000c0a07 0000000100000002 00081002 00000003"
)

# LSP 1.1.2 with code 24/11, removed, made at node 2: number 9.
PATH_ERR = bytes.fromhex(
    "1103bf430100003c 000c170101000001 00000009 0010010700000003 0000000100000001"
    "000c0603 000000020418000b 000c0b07 0000000100000002"
)

# LSP 1.1.2 with code 25/0x8001, of link 9 into node 2: number 10.
NOTIFY = bytes.fromhex(
    "1115430701000048 000c170101000001 0000000a 00180603 0000000200198001 0003000c0000000200000009"
    "0010010700000003 0000000100000001 000c0b07 0000000100000002"
)


def message(kind: int, objects: list[str]) -> bytes:
    """A message of this type with these objects and no checksum."""
    body = b"".join(bytes.fromhex(one) for one in objects)
    return bytes([0x11, kind, 0, 0, 1, 0]) + (8 + len(body)).to_bytes(2, "big") + body


def an_object(kind: str, body: bytes) -> str:
    """An object of this class and type, both in hexadecimal."""
    return (4 + len(body)).to_bytes(2, "big").hex() + kind + body.hex()


def exchanged(objects: list[str], kind: str, new: str) -> list[str]:
    """The objects with another one in the place of that of this class and type."""
    return [new if one[4:8] == kind else one for one in objects]


def told(data: bytes) -> str:
    ended = ason_told("decode", given=data.hex())
    assert ended.status == DONE
    return ended.out


BACKUP_TOLD = """\
Path id 7 acks 5,6 lsp 1.1.2 egress 3
 23/1 12 read
 24/1 12 read
 24/1 12 read
 1/7 16 read
 3/3 24 read
 5/1 8 carried
 20/1 16 read
 19/4 8 read
 37/2 12 read
 36/1 16 read
 199/1 12 read
 38/1 28 read
 11/7 12 read
 12/2 36 carried
 35/2 8 read
"""

TOLD = {
    ACK: "Ack id - acks 5 lsp - egress -\n 24/1 12 read\n",
    TEAR: """\
PathTear id 5 acks - lsp 1.1.2 egress 3
 23/1 12 read
 1/7 16 read
 3/3 24 read
 11/7 12 read
""",
    message(PATH, BACKUP_OBJECTS): BACKUP_TOLD,
    RESV_MESSAGE: """\
Resv id 8 acks - lsp 1.1.2 egress 3
 23/1 12 read
 1/7 16 read
 3/3 24 read
 5/1 8 carried
 8/1 8 carried
 9/2 36 carried
 10/7 12 read
 16/2 8 read
""",
    PATH_ERR: """\
PathErr id 9 acks - lsp 1.1.2 egress 3
 23/1 12 read
 1/7 16 read
 6/3 12 read
 11/7 12 read
""",
    NOTIFY: """\
Notify id 10 acks - lsp 1.1.2 egress 3
 23/1 12 read
 6/3 24 read
 1/7 16 read
 11/7 12 read
""",
}

# Bodies of LABEL_SETs, one of each action and of each form of a range; and bodies that are none: another action, a range
# without an end, one without both, one with three numbers, and a list without a number.
LABEL_SETS = [
    "00000002 00000002 00000003",
    "00000002 00000000 00000051 01000005 00000005",
    "01000002 00000050 0000004f",
    "02000002 00000001 00000004",
    "02000002 00000000 00000004",
    "02000002 0000004d 00000000",
    "02000002 00000046 00010000",
    "03000002 00000002 00000004",
]
NO_LABEL_SETS = [
    "04000002 00000002 00000003",
    "02000002 00000002",
    "03000002",
    "02000002 00000002 00000003 00000004",
    "00000002",
]

# Bodies of PROTECTION, and whether they are of a backup's Path. In the last two all bits that aren't read are set.
PROTECTIONS = [
    ("c002000000000000", True),
    ("4002000000000000", True),
    ("0002000000000000", False),
    ("0000000000000000", False),
    ("7fc2ffff09090909", True),
    ("3fc0ffff09090909", False),
]
NO_PROTECTIONS = ["8002000000000000", "4000000000000000", "0001000000000000", "00020000"]

# RSVP_HOP's TLVs behind address and handle: one of another type and odd length with its padding, and an IF_INDEX.
OTHER_TLV, IF_INDEX = "0007000501080808", "0003000c0000000400000002"


class DecodeTest(unittest.TestCase):
    """Messages, and what is none."""

    def test_each_type(self) -> None:
        for data, text in TOLD.items():
            with self.subTest(text=text.split()[0]):
                self.assertEqual(told(data), text)

    def test_checksums(self) -> None:
        whole = message(PATH, BACKUP_OBJECTS)
        summed = whole[:2] + bytes.fromhex("b9b7") + whole[4:]
        self.assertEqual(told(summed), BACKUP_TOLD)
        for data in (ACK, TEAR, RESV_MESSAGE, PATH_ERR, NOTIFY, summed):
            with self.subTest(data=data[:2].hex()):
                self.assertEqual(told(data[:2] + bytes(2) + data[4:]), told(data))
                self.assertEqual(told(data[:3] + bytes([data[3] ^ 7]) + data[4:]), NO_MESSAGE)
                self.assertEqual(told(data[:-1]), NO_MESSAGE)

    def test_an_object_past_the_end(self) -> None:
        objects = [TEAR[8:60].hex(), "00100b070000000100000002"]
        self.assertEqual(told(message(PATH_TEAR, objects)), NO_MESSAGE)

    def test_a_session_at_the_end(self) -> None:
        lines = TOLD[TEAR].splitlines(keepends=True)
        self.assertEqual(told(TEAR[:20] + TEAR[36:] + TEAR[20:36]), "".join(lines[:2] + lines[3:] + lines[2:3]))

    def test_a_session_that_comes_twice(self) -> None:
        self.assertEqual(told(message(PATH_TEAR, [TEAR[8:].hex(), TEAR[20:36].hex()])), NO_MESSAGE)

    def test_hops_with_other_tlvs(self) -> None:
        front = bytes.fromhex("00000001 09090909")
        others = [TEAR[8:36].hex(), TEAR[60:].hex()]
        for tlvs, is_one in ((OTHER_TLV + IF_INDEX, True), (OTHER_TLV, False), (OTHER_TLV + IF_INDEX[:-8], False)):
            hop = an_object("0303", front + bytes.fromhex(tlvs))
            with self.subTest(tlvs=tlvs):
                self.assertEqual(told(message(PATH_TEAR, [others[0], hop, others[1]])) != NO_MESSAGE, is_one)

    def test_label_sets(self) -> None:
        for body in (*LABEL_SETS, *NO_LABEL_SETS):
            objects = exchanged(BACKUP_OBJECTS, "2401", an_object("2401", bytes.fromhex(body)))
            with self.subTest(body=body):
                self.assertEqual(told(message(PATH, objects)) != NO_MESSAGE, body in LABEL_SETS)

    # ASSOCIATION and PRIMARY_PATH_ROUTE are read in a backup's Path alone.
    def test_protections(self) -> None:
        for body, is_backup in PROTECTIONS:
            objects = exchanged(BACKUP_OBJECTS, "2502", an_object("2502", bytes.fromhex(body)))
            fate = "read" if is_backup else "carried"
            lines = told(message(PATH, objects)).splitlines()
            with self.subTest(body=body):
                self.assertIn(f" 199/1 12 {fate}", lines)
                self.assertIn(f" 38/1 28 {fate}", lines)
        for body in NO_PROTECTIONS:
            objects = exchanged(BACKUP_OBJECTS, "2502", an_object("2502", bytes.fromhex(body)))
            with self.subTest(body=body):
                self.assertEqual(told(message(PATH, objects)), NO_MESSAGE)

    def test_errors_of_either_type(self) -> None:
        for kind in ("0601", "0603"):
            objects = [PATH_ERR[8:36].hex(), f"000c{kind} 0000000204180006", PATH_ERR[48:].hex()]
            with self.subTest(kind=kind):
                self.assertIn(f" 6/{kind[3]} 12 read\n", told(message(PATH_ERROR, objects)))


if __name__ == "__main__":
    unittest.main()
