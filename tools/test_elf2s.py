#!/usr/bin/env python3
"""Tests of elf2s on small ELF files that are built here, byte by byte."""

import os
import struct
import subprocess
import sys
import tempfile
import unittest

sys.dont_write_bytecode = True
sys.path.insert(0, os.path.dirname(os.path.abspath(__file__)))

import elf2s  # noqa: E402 (found by the line above)

SCRIPT = os.path.join(os.path.dirname(os.path.abspath(__file__)), "elf2s.py")
READ_EXECUTE, READ_WRITE = 5, 6
LOAD = 1
FUNCTION, OBJECT = 2, 1

# x5 from 10 down to 0, then ECALL.
COUNTDOWN = (0x00A00293, 0xFFF28293, 0xFE029EE3, 0x00000073)


def words(*numbers):
    """The bytes of the words, least byte first."""
    return struct.pack(f"<{len(numbers)}I", *numbers)


def segment(address, content, rights=READ_EXECUTE, more=0, kind=LOAD):
    """A segment for `elf`, with `more` zero bytes after its content."""
    return (address, content, rights, more, kind)


def symbols_of(functions):
    """The bytes of a symbol table and of its names."""
    table, names = bytes(24), b"\0"
    for name, address, kind in functions:
        table += struct.pack("<IBBHQQ", len(names), kind, 0, 1, address, 0)
        names += name.encode() + b"\0"
    return table, names


def elf(segments, functions=(), entry=0x10000, kind=2, machine=243, flags=0, identity=b"\2\1\1"):
    """An ELF file with one executable section for each executable segment."""
    start = 64 + 56 * len(segments)
    body, headers, sections = b"", b"", [bytes(64)]
    for address, content, rights, more, segment_kind in segments:
        offset = start + len(body)
        headers += struct.pack("<IIQQQQQQ", segment_kind, rights, offset, address, address,
                               len(content), len(content) + more, 4096)
        if rights & 1:
            sections.append(struct.pack("<IIQQQQIIQQ", 0, 1, 6, address, offset,
                                        len(content), 0, 0, 4, 0))
        body += content
    table, names = symbols_of(functions)
    link = len(sections) + 1
    sections.append(struct.pack("<IIQQQQIIQQ", 0, 2, 0, 0, start + len(body), len(table),
                                link, 0, 8, 24))
    body += table
    sections.append(struct.pack("<IIQQQQIIQQ", 0, 3, 0, 0, start + len(body), len(names),
                                0, 0, 1, 0))
    body += names
    header = struct.pack("<16sHHIQQQIHHHHHH", b"\x7fELF" + identity, kind, machine, 1, entry,
                         64, start + len(body), flags, 64, 56, len(segments), 64,
                         len(sections), 0)
    return header + headers + body + b"".join(sections)


def stripped(image):
    """The file without its section headers."""
    return image[:40] + bytes(8) + image[48:60] + bytes(4) + image[64:]


def text_of(image, titles=()):
    """The assembler text's lines."""
    return elf2s.assembler_text(elf2s.read_program(image), list(titles)).splitlines()


class Conversion(unittest.TestCase):
    """What the text of an accepted file is."""

    def test_text_alone(self):
        self.assertEqual(
            text_of(elf([segment(0x10000, words(*COUNTDOWN))])),
            [".word 0x00A00293", ".word 0xFFF28293", ".word 0xFE029EE3", ".word 0x00000073"])

    def test_titles_and_functions(self):
        functions = [("_start", 0x10000, FUNCTION), ("table", 0x10004, OBJECT),
                     ("f" * 41, 0x10008, FUNCTION), ("not a name", 0x1000C, FUNCTION)]
        image = elf([segment(0x10000, words(*COUNTDOWN))], functions)
        self.assertEqual(
            text_of(image, ["Counts down.", "Ends."]),
            ["# Counts down.", "# Ends.", "# _start", ".word 0x00A00293",
             ".word 0xFFF28293", ".word 0xFE029EE3", ".word 0x00000073"])

    def test_gaps_are_zero(self):
        image = elf([segment(0x10008, words(0x73)), segment(0x10000, words(0x13)),
                     segment(0x100008, b"\x01", READ_WRITE)])
        self.assertEqual(
            text_of(image),
            [".word 0x00000013", ".word 0x00000000", ".word 0x00000073",
             ".data", ".zero 8", ".byte 0x01"])

    def test_last_word_is_filled_up(self):
        image = elf([segment(0x10000, words(0x73)), segment(0x10004, b"\x13", rights=4)])
        self.assertEqual(text_of(image), [".word 0x00000073", ".word 0x00000013"])

    def test_data(self):
        content = struct.pack("<QQQ", 0x1122334455667788, 0, 0) + b"\x00\x80\xff"
        image = elf([segment(0x10000, words(0x73)), segment(0x100000, content, READ_WRITE)])
        self.assertEqual(
            text_of(image),
            [".word 0x00000073", ".data", ".dword 0x1122334455667788", ".zero 16",
             ".byte 0x00", ".byte 0x80", ".byte 0xFF"])

    def test_zero_fill(self):
        image = elf([segment(0x10000, words(0x73)),
                     segment(0x100000, b"\x07", READ_WRITE, more=4090)])
        self.assertEqual(
            text_of(image),
            [".word 0x00000073", ".data", ".dword 0x0000000000000007", ".zero 4083"])

    def test_empty_segments_are_nothing(self):
        image = elf([segment(0x10000, words(0x73)), segment(0, b"", READ_WRITE)])
        self.assertEqual(text_of(image), [".word 0x00000073"])

    def test_full_areas(self):
        image = elf([segment(0x10000, words(0x13), more=64 * 4096 - 4),
                     segment(0x100000, b"", READ_WRITE, more=256 * 4096)])
        lines = text_of(image)
        self.assertEqual(len(lines), 65536 + 2)
        self.assertEqual(lines[-2:], [".data", ".zero 1048576"])


class Refusals(unittest.TestCase):
    """Which files are refused, and why."""

    def refused(self, image, reason):
        with self.assertRaises(elf2s.Refusal) as caught:
            elf2s.read_program(image)
        self.assertEqual(str(caught.exception), reason)

    def test_other_files(self):
        good = [segment(0x10000, words(0x73))]
        other = "not a 64-bit little-endian RISC-V file"
        self.refused(b"", "not an ELF file")
        self.refused(b"nop\necall\n", "not an ELF file")
        self.refused(elf(good, identity=b"\1\1\1"), other)
        self.refused(elf(good, identity=b"\2\2\1"), other)
        self.refused(elf(good, machine=62), other)
        self.refused(elf(good, kind=1), "not a statically linked program")
        self.refused(elf(good, kind=3), "not a statically linked program")
        self.refused(elf(good + [segment(0, b"", kind=2)]), "not a statically linked program")
        self.refused(elf(good + [segment(0, b"", kind=3)]), "not a statically linked program")

    def test_cut_off(self):
        image = elf([segment(0x10000, words(0x73))], [("_start", 0x10000, FUNCTION)])
        for length in range(4, len(image)):
            with self.assertRaises(elf2s.Refusal):
                elf2s.read_program(image[:length])

    def test_entry(self):
        self.refused(elf([segment(0x10000, words(0x13, 0x73))], entry=0x10004),
                     "entry 0x10004 is not 0x10000")
        self.refused(elf([segment(0x100000, b"\0", READ_WRITE)]), "no text")

    def test_areas(self):
        text = segment(0x10000, words(0x73))
        outside = "is outside the text and data areas"
        self.refused(elf([segment(0xF000, words(0x73))]), f"segment at 0xf000 {outside}")
        self.refused(elf([text, segment(0x50000, b"\0")]), f"segment at 0x50000 {outside}")
        self.refused(elf([text, segment(0xFFFF8, bytes(16), READ_WRITE)]),
                     f"segment at 0xffff8 {outside}")
        self.refused(elf([text, segment(0x200000, b"\0", READ_WRITE)]),
                     f"segment at 0x200000 {outside}")

    def test_pages(self):
        self.refused(elf([segment(0x10000, words(0x73), more=64 * 4096 - 3)]),
                     "segment at 0x10000: text over 64 pages")
        self.refused(elf([segment(0x10000, words(0x73)),
                          segment(0x100000, b"", READ_WRITE, more=256 * 4096 + 1)]),
                     "segment at 0x100000: data over 256 pages")

    def test_rights(self):
        self.refused(elf([segment(0x10000, words(0x73), rights=7)]),
                     "segment at 0x10000: writable, but text pages are not")
        self.refused(elf([segment(0x10000, words(0x73)), segment(0x100000, words(0x73))]),
                     "segment at 0x100000: executable, but data pages are not")

    def test_overlap(self):
        self.refused(elf([segment(0x10000, words(0x13, 0x73)), segment(0x10004, words(0x73))]),
                     "segment at 0x10004 overlaps the one before it")
        self.refused(elf([segment(0x10000, words(0x13, 0x73), more=-4)]),
                     "segment at 0x10000 is malformed")

    def test_words(self):
        multiply = elf([segment(0x10000, words(0x13, 0x02B50533, 0x73))])
        reason = "word 0x02b50533 at 0x10004 is no instruction of plain RV64I"
        self.refused(multiply, reason)
        self.refused(stripped(multiply), reason)
        self.refused(elf([segment(0x10000, words(0x73))], flags=1),
                     "made with compressed instructions; make it for -march=rv64i")
        self.refused(elf([segment(0x10000, words(0x45014501))]),
                     "word 0x45014501 at 0x10000 is no instruction of plain RV64I")


class Instructions(unittest.TestCase):
    """Which words plain RV64I has."""

    def test_instructions(self):
        for word in COUNTDOWN + (
                0x00008067,  # ret
                0x800002B7,  # lui x5, 0x80000
                0x0FF0000F,  # fence
                0x0330000F,  # fence rw, rw
                0x00100073,  # ebreak
                0x02051513,  # slli a0, a0, 32
                0x43F55513,  # srai a0, a0, 63
                0x41F5551B,  # sraiw a0, a0, 31
                0x40B5053B,  # subw a0, a0, a1
                0x00056503,  # lwu a0, 0(a0)
                0x00B53023):  # sd a1, 0(a0)
            self.assertTrue(elf2s.is_instruction(word), hex(word))

    def test_others(self):
        for word in (
                0x00000000,  # the zero word
                0xFFFFFFFF,
                0x02B50533,  # mul a0, a0, a1
                0x02B5053B,  # mulw a0, a0, a1
                0x0000100F,  # fence.i
                0xC0001073,  # unimp, a CSR write
                0x30200073,  # mret
                0x0205151B,  # slliw a0, a0, 32
                0x40051513,  # slli with bit 30
                0x40B51533,  # sll with bit 30
                0x00057503,  # load, funct3 111
                0x00B54023,  # store, funct3 100
                0x00B52063,  # branch, funct3 010
                0x00009067,  # jalr, funct3 001
                0x10052507,  # a floating-point load
                0x1005252F,  # lr.w
                0x00004501):  # c.li, and two bytes of zero
            self.assertFalse(elf2s.is_instruction(word), hex(word))


class Command(unittest.TestCase):
    """The command's output, standard error and status."""

    def run_on(self, content, *options):
        with tempfile.TemporaryDirectory() as folder:
            path = os.path.join(folder, "program")
            if content is not None:
                with open(path, "wb") as target:
                    target.write(content)
            done = subprocess.run([sys.executable, SCRIPT, path, *options],
                                  stdout=subprocess.PIPE, stderr=subprocess.PIPE, check=False)
            return done.returncode, done.stdout, done.stderr.replace(path.encode(), b"FILE")

    def test_done(self):
        image = elf([segment(0x10000, words(0x73))])
        self.assertEqual(self.run_on(image, "--title", "Stops."),
                         (0, b"# Stops.\n.word 0x00000073\n", b""))

    def test_refused(self):
        self.assertEqual(self.run_on(b"text"), (1, b"", b"refused FILE: not an ELF file\n"))
        self.assertEqual(self.run_on(None),
                         (1, b"", b"refused FILE: No such file or directory\n"))

    def test_wrong_words(self):
        status, output, _ = self.run_on(b"", "--title", "two\nlines")
        self.assertEqual((status, output), (2, b""))


if __name__ == "__main__":
    unittest.main()
