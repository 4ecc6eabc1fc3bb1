"""The messages of docs/peers.md: their bytes are laid out as the page says, and `decode` says of them what the page says."""

import re
import unittest

from .support import EXAMPLES, TOP, ason_told
from .test_index import sections

PAGE = (TOP / "docs/peers.md").read_text()
UNREAD = "What of other encoders isn't read"
TYPES = {"Path": 1, "Resv": 2, "PathErr": 3, "PathTear": 5, "Ack": 13, "Notify": 21}
"""The types of messages (RFC 2205, section 3.1.1; RFC 2961, section 4.4; RFC 3473, section 4.3)."""


def rows(text: str, columns: int) -> list[list[str]]:
    """The rows of the tables with so many columns, without their heads."""
    found = [[cell.strip() for cell in line.strip("|").split(" | ")] for line in text.splitlines() if line.startswith("| ")]
    return [row for row in found if len(row) == columns and any("`" in cell for cell in row)]


def data_of(cell: str) -> bytes:
    return bytes.fromhex(cell.strip("` "))


def messages() -> dict[str, list[list[str]]]:
    """The rows of each message's table, by the headings."""
    found = {name: rows(text, 5) for name, text in sections(PAGE, "##").items() if name != UNREAD}
    return {name: table for name, table in found.items() if table}


def told(data: bytes) -> str:
    return ason_told("decode", given=data.hex()).out


class MessageTest(unittest.TestCase):
    """The messages that are read."""

    def test_each_type_is_there(self) -> None:
        self.assertEqual({name.split()[0] for name in messages()}, set(TYPES))

    def test_the_header_has_the_type_and_the_length(self) -> None:
        for name, table in messages().items():
            head, size = data_of(table[0][0]), sum(len(data_of(row[0])) for row in table)
            with self.subTest(name=name):
                self.assertEqual((len(head), head[0] >> 4, head[1], int.from_bytes(head[6:], "big")), (8, 1, TYPES[name.split()[0]], size))

    def test_each_object_has_its_length_its_class_and_its_type(self) -> None:
        for name, table in messages().items():
            for row in table[1:]:
                data = data_of(row[0])
                with self.subTest(name=name, row=row[1]):
                    self.assertEqual(int.from_bytes(data[:2], "big"), len(data))
                    self.assertEqual(row[1].split()[-1], f"{data[2]}/{data[3]}")
                    self.assertRegex(row[2], r"^RFC \d+, (section|appendix) ")

    def test_decode_reads_what_the_page_says(self) -> None:
        for name, table in messages().items():
            whole = b"".join(data_of(row[0]) for row in table)
            head, *objects = told(whole).splitlines()
            with self.subTest(name=name):
                self.assertEqual(head.split()[0], name.split()[0])
                self.assertEqual(objects, [f" {row[1].split()[-1]} {len(data_of(row[0]))} {row[4]}" for row in table[1:]])

    def test_the_example_has_these_messages(self) -> None:
        lines = (EXAMPLES / "peers.hex").read_text().splitlines()
        tables = messages().values()
        self.assertEqual([bytes.fromhex(line) for line in lines], [b"".join(data_of(row[0]) for row in table) for table in tables])

    def test_what_is_read_must_be_there_or_may_be_absent(self) -> None:
        may_be_absent = {"23/1", "20/1", "36/1", "37/2", "35/2", "5/1", "12/2", "8/1", "9/2"}
        for name, table in messages().items():
            if name == "Path of a backup":
                continue
            for place, row in enumerate(table[1:], 1):
                objects = b"".join(data_of(it[0]) for it in table[1:place] + table[place + 1 :])
                head = data_of(table[0][0])[:6] + (8 + len(objects)).to_bytes(2, "big")
                with self.subTest(name=name, row=row[1]):
                    self.assertEqual(told(head + objects) != "not a message\n", row[1].split()[-1] in may_be_absent)


class UnreadTest(unittest.TestCase):
    """What isn't read."""

    def variant(self, name: str, new: bytes, place: str) -> bytes:
        """The message of this name with the object in the place of that of this class, or behind all."""
        head, *old = messages()[name]
        kept = [new if row[1].split()[-1] == place else data_of(row[0]) for row in old]
        self.assertEqual(kept.count(new), place != "-")
        body = b"".join(kept + ([new] if place == "-" else []))
        return data_of(head[0])[:6] + (8 + len(body)).to_bytes(2, "big") + body

    def test_each_object(self) -> None:
        table = rows(sections(PAGE, "##")[UNREAD], 5)
        self.assertGreater(len(table), 25)
        for what, name, cell, place, fate in table:
            data = data_of(cell)
            with self.subTest(what=what):
                self.assertEqual(int.from_bytes(data[:2], "big"), len(data))
                text = told(self.variant(name, data, place))
                wanted = "not a message\n" if fate == "not a message" else f"\n {data[2]}/{data[3]} {len(data)} {fate}\n"
                self.assertIn(wanted, text)

    def test_each_whole_message(self) -> None:
        table = rows(sections(PAGE, "##")[UNREAD], 2)
        self.assertEqual(len(table), 6)
        for what, cell in table:
            data = data_of(cell)
            with self.subTest(what=what):
                self.assertEqual(int.from_bytes(data[6:8], "big"), len(data))
                self.assertNotIn(data[1], TYPES.values())
                self.assertEqual(told(data), "not a message\n")


if __name__ == "__main__":
    unittest.main()
