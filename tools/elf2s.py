#!/usr/bin/env python3
"""Turns a statically linked RV64I program (ELF) into assembler text.

The text goes to standard output: one `.word` line for each word from 0x10000
on, then the data from 0x100000 on as `.dword`, `.byte` and `.zero` lines. It
assembles to the program's memory, byte for byte. What can't be run as plain
RV64I is refused with one line on standard error and status 1.

The file must be linked for the simulator: entry and text at 0x10000, data at
0x100000 (see examples/compiled/link.ld). Zero words fill the gaps in text; a
zero word is an illegal instruction, as it is in the rest of a last page.
"""

import argparse
import os
import re
import struct
import sys
from typing import Dict, Iterator, List, NamedTuple, Optional, Tuple

PAGE = 4096
TEXT_START = 0x10000
TEXT_PAGES = 64
DATA_START = 0x100000
DATA_PAGES = 256
TEXT_LIMIT = TEXT_START + TEXT_PAGES * PAGE
DATA_LIMIT = DATA_START + DATA_PAGES * PAGE

# Numbers of the ELF-64 object file format and the RISC-V ELF psABI.
ELF_MAGIC = b"\x7fELF"
CLASS_64, LITTLE_ENDIAN = 2, 1
TYPE_EXECUTABLE = 2
MACHINE_RISCV = 243
FLAG_COMPRESSED = 0x0001
SEGMENT_LOAD, SEGMENT_DYNAMIC, SEGMENT_INTERPRETER = 1, 2, 3
RIGHT_EXECUTE, RIGHT_WRITE = 1, 2
SECTION_SYMBOLS, SECTION_NO_BITS = 2, 8
SECTION_EXECUTABLE = 0x4
SYMBOL_FUNCTION = 2
SECTION_UNDEFINED = 0

FILE_HEADER = struct.Struct("<16sHHIQQQIHHHHHH")
SEGMENT_HEADER = struct.Struct("<IIQQQQQQ")
SECTION_HEADER = struct.Struct("<IIQQQQIIQQ")
SYMBOL = struct.Struct("<IBBHQQ")

# A name that stands in a comment: printable, and short enough for a line.
COMMENT_NAME = re.compile(rb"[A-Za-z0-9_.$]{1,40}")


class Refusal(Exception):
    """The file can't be converted; the message is the line to print."""


class Header(NamedTuple):
    """What is used of the file header."""

    kind: int
    machine: int
    entry: int
    segment_offset: int
    section_offset: int
    flags: int
    segment_size: int
    segment_count: int
    section_size: int
    section_count: int


class Segment(NamedTuple):
    """A program header: where its bytes come from and where they go."""

    kind: int
    rights: int
    offset: int
    address: int
    file_size: int
    memory_size: int

    @property
    def end(self) -> int:
        """The address after the segment's last byte."""
        return self.address + self.memory_size


class Section(NamedTuple):
    """What is used of a section header."""

    kind: int
    flags: int
    address: int
    offset: int
    size: int
    link: int


class Program(NamedTuple):
    """A program's memory and the names of its functions by address."""

    text: bytes
    data: bytes
    functions: Dict[int, str]


def part(image: bytes, offset: int, size: int) -> bytes:
    """The `size` bytes of the file from `offset`, refused where there are fewer."""
    if offset + size > len(image):
        raise Refusal("the file is cut off")
    return image[offset:offset + size]


def read_header(image: bytes) -> Header:
    """The file header, refused unless it is one of an ELF64 RISC-V program."""
    if image[:4] != ELF_MAGIC:
        raise Refusal("not an ELF file")
    (identity, kind, machine, _, entry, segments, sections, flags, _, segment_size,
     segment_count, section_size, section_count, _) = FILE_HEADER.unpack(
         part(image, 0, FILE_HEADER.size))
    if (identity[4], identity[5], machine) != (CLASS_64, LITTLE_ENDIAN, MACHINE_RISCV):
        raise Refusal("not a 64-bit little-endian RISC-V file")
    return Header(kind, machine, entry, segments, sections, flags,
                  segment_size, segment_count, section_size, section_count)


def check_header(header: Header) -> None:
    """Refuses what isn't a whole program that starts at the start of text."""
    if header.kind != TYPE_EXECUTABLE:
        raise Refusal("not a statically linked program")
    if header.flags & FLAG_COMPRESSED:
        raise Refusal("made with compressed instructions; make it for -march=rv64i")
    if header.entry != TEXT_START:
        raise Refusal(f"entry 0x{header.entry:x} is not 0x{TEXT_START:x}")


def read_table(image: bytes, form: struct.Struct, offset: int, size: int,
               count: int) -> List[tuple]:
    """`count` records of a header table whose records are `size` bytes apart."""
    if count and size < form.size:
        raise Refusal("a header table is malformed")
    return [form.unpack(part(image, offset + place * size, form.size)) for place in range(count)]


def read_segments(image: bytes, header: Header) -> List[Segment]:
    """The program headers, in the order of the file."""
    records = read_table(image, SEGMENT_HEADER, header.segment_offset,
                         header.segment_size, header.segment_count)
    return [Segment(kind, rights, offset, address, file_size, memory_size)
            for kind, rights, offset, address, _, file_size, memory_size, _ in records]


def read_sections(image: bytes, header: Header) -> List[Section]:
    """The section headers; a stripped file may have none."""
    records = read_table(image, SECTION_HEADER, header.section_offset,
                         header.section_size, header.section_count)
    return [Section(kind, flags, address, offset, size, link)
            for _, kind, flags, address, offset, size, link, _, _, _ in records]


def check_segments(segments: List[Segment]) -> None:
    """Refuses dynamic programs and what the two areas can't hold."""
    for segment in segments:
        if segment.kind in (SEGMENT_DYNAMIC, SEGMENT_INTERPRETER):
            raise Refusal("not a statically linked program")
    previous_end = 0
    for segment in loaded(segments):
        check_area(segment)
        if segment.address < previous_end:
            raise Refusal(f"segment at 0x{segment.address:x} overlaps the one before it")
        if segment.file_size > segment.memory_size:
            raise Refusal(f"segment at 0x{segment.address:x} is malformed")
        previous_end = segment.end


def check_area(segment: Segment) -> None:
    """Refuses a segment that is in neither area, too long, or asks for other rights."""
    place = f"segment at 0x{segment.address:x}"
    if TEXT_START <= segment.address < TEXT_LIMIT:
        if segment.end > TEXT_LIMIT:
            raise Refusal(f"{place}: text over {TEXT_PAGES} pages")
        if segment.rights & RIGHT_WRITE:
            raise Refusal(f"{place}: writable, but text pages are not")
    elif DATA_START <= segment.address < DATA_LIMIT:
        if segment.end > DATA_LIMIT:
            raise Refusal(f"{place}: data over {DATA_PAGES} pages")
        if segment.rights & RIGHT_EXECUTE:
            raise Refusal(f"{place}: executable, but data pages are not")
    else:
        raise Refusal(f"{place} is outside the text and data areas")


def loaded(segments: List[Segment]) -> List[Segment]:
    """The segments that take memory, in order of address."""
    chosen = [segment for segment in segments
              if segment.kind == SEGMENT_LOAD and segment.memory_size > 0]
    return sorted(chosen, key=lambda segment: segment.address)


def area(image: bytes, segments: List[Segment], start: int, limit: int) -> bytes:
    """The bytes from `start` to the end of the last segment below `limit`."""
    memory = bytearray()
    for segment in loaded(segments):
        if start <= segment.address < limit:
            memory.extend(bytes(segment.address - start - len(memory)))
            memory.extend(part(image, segment.offset, segment.file_size))
            memory.extend(bytes(segment.memory_size - segment.file_size))
    return bytes(memory)


def words_of(text: bytes) -> List[int]:
    """The text's words, the last one filled up with zero bytes."""
    padded = text + bytes(-len(text) % 4)
    return [word for (word,) in struct.iter_unpack("<I", padded)]


def is_instruction(word: int) -> bool:
    """Whether plain RV64I has an instruction with this word."""
    opcode, funct3, funct7 = word & 0x7F, word >> 12 & 7, word >> 25
    if opcode in (0x37, 0x17, 0x6F):  # LUI, AUIPC, JAL
        return True
    if opcode in (0x67, 0x0F):  # JALR, FENCE
        return funct3 == 0
    if opcode == 0x63:  # branches
        return funct3 not in (2, 3)
    if opcode == 0x03:  # loads
        return funct3 != 7
    if opcode == 0x23:  # stores
        return funct3 <= 3
    if opcode == 0x73:  # ECALL, EBREAK
        return word in (0x00000073, 0x00100073)
    return is_computation(opcode, funct3, funct7)


def is_computation(opcode: int, funct3: int, funct7: int) -> bool:
    """Whether these fields are those of an integer computation of RV64I."""
    if opcode == 0x13:  # with an immediate; shift amounts have 6 bits
        upper = funct7 >> 1
        return funct3 not in (1, 5) or upper == 0 or (upper == 0x10 and funct3 == 5)
    if opcode == 0x1B:  # on 32 bits, with an immediate
        return funct3 == 0 or (funct3 in (1, 5) and funct7 == 0) or (
            funct3 == 5 and funct7 == 0x20)
    if opcode == 0x33:  # with two registers
        return funct7 == 0 or (funct7 == 0x20 and funct3 in (0, 5))
    if opcode == 0x3B:  # on 32 bits, with two registers
        return (funct7 == 0 and funct3 in (0, 1, 5)) or (
            funct7 == 0x20 and funct3 in (0, 5))
    return False


def executable_ranges(sections: List[Section],
                      segments: List[Segment]) -> List[Tuple[int, int]]:
    """Start and end of each executable section; of a stripped file, segment."""
    if not sections:
        return [(segment.address, segment.address + segment.file_size)
                for segment in loaded(segments) if segment.rights & RIGHT_EXECUTE]
    return [(section.address, section.address + section.size) for section in sections
            if section.flags & SECTION_EXECUTABLE and section.kind != SECTION_NO_BITS]


def check_words(ranges: List[Tuple[int, int]], words: List[int]) -> None:
    """Refuses words in the ranges that plain RV64I has no instruction for.

    Zero words are passed: linkers fill gaps between functions with them.
    """
    for start, end in ranges:
        first = max(start - TEXT_START, 0) // 4
        after = (end - TEXT_START + 3) // 4
        for place in range(first, min(after, len(words))):
            if words[place] != 0 and not is_instruction(words[place]):
                raise Refusal(f"word 0x{words[place]:08x} at 0x{TEXT_START + 4 * place:x} "
                              "is no instruction of plain RV64I")


def read_functions(image: bytes, sections: List[Section]) -> Dict[int, str]:
    """The names of functions by address, as far as they are fit for a comment."""
    functions: Dict[int, str] = {}
    for section in sections:
        if section.kind != SECTION_SYMBOLS or section.link >= len(sections):
            continue
        names = part(image, sections[section.link].offset, sections[section.link].size)
        records = read_table(image, SYMBOL, section.offset, SYMBOL.size,
                             section.size // SYMBOL.size)
        for name, info, _, index, value, _ in records:
            comment = COMMENT_NAME.fullmatch(names[name:].split(b"\0", 1)[0])
            if info & 15 == SYMBOL_FUNCTION and index != SECTION_UNDEFINED and comment:
                functions.setdefault(value, comment.group().decode("ascii"))
    return functions


def read_program(image: bytes) -> Program:
    """The program of an ELF file, or a refusal."""
    header = read_header(image)
    check_header(header)
    segments = read_segments(image, header)
    check_segments(segments)
    sections = read_sections(image, header)
    text = area(image, segments, TEXT_START, TEXT_LIMIT)
    if not text:
        raise Refusal("no text")
    check_words(executable_ranges(sections, segments), words_of(text))
    data = area(image, segments, DATA_START, DATA_LIMIT)
    return Program(text, data, read_functions(image, sections))


def text_lines(program: Program) -> Iterator[str]:
    """The lines of text: a word each, after its function's name."""
    for place, word in enumerate(words_of(program.text)):
        name = program.functions.get(TEXT_START + 4 * place)
        if name is not None:
            yield f"# {name}"
        yield f".word 0x{word:08X}"


def data_lines(data: bytes) -> Iterator[str]:
    """The lines of data: doublewords, zeros run together, and last bytes."""
    whole = len(data) - len(data) % 8
    zeros = 0
    for (number,) in struct.iter_unpack("<Q", data[:whole]):
        if number == 0:
            zeros += 8
            continue
        if zeros:
            yield f".zero {zeros}"
            zeros = 0
        yield f".dword 0x{number:016X}"
    rest = data[whole:]
    if not any(rest):
        zeros, rest = zeros + len(rest), b""
    if zeros:
        yield f".zero {zeros}"
    for byte in rest:
        yield f".byte 0x{byte:02X}"


def assembler_text(program: Program, titles: List[str]) -> str:
    """The program's assembler text, with the titles as first lines."""
    lines = [f"# {title}" for title in titles]
    lines.extend(text_lines(program))
    if program.data:
        lines.append(".data")
        lines.extend(data_lines(program.data))
    return "".join(line + "\n" for line in lines)


def title_line(text: str) -> str:
    """A title for `--title`: one printable line."""
    if not text.isprintable():
        raise argparse.ArgumentTypeError("a title is one printable line")
    return text


def convert(path: str, titles: List[str]) -> bytes:
    """The assembler text of the file, or a refusal."""
    try:
        with open(path, "rb") as source:
            image = source.read()
    except OSError as error:
        raise Refusal(error.strerror or "can't be read") from error
    return assembler_text(read_program(image), titles).encode("utf-8")


def refuse(path: str, reason: str) -> int:
    """Prints the one line of a refusal and gives the status."""
    name = "".join(letter if letter.isprintable() else "?" for letter in path)
    print(f"refused {name}: {reason}", file=sys.stderr)
    return 1


def main(arguments: Optional[List[str]] = None) -> int:
    """The command: prints the text and gives the exit status."""
    parser = argparse.ArgumentParser(
        description="Turn a statically linked RV64I ELF file into assembler text.")
    parser.add_argument("file", help="the ELF file, text at 0x10000 and data at 0x100000")
    parser.add_argument("--title", type=title_line, action="append", default=[],
                        help="a comment line for the head; may be given again")
    options = parser.parse_args(arguments)
    try:
        text = convert(options.file, options.title)
    except Refusal as refusal:
        return refuse(options.file, str(refusal))
    try:
        sys.stdout.buffer.write(text)
        sys.stdout.buffer.flush()
    except OSError as error:
        # What is left in the buffer would fail again when Python ends.
        os.dup2(os.open(os.devnull, os.O_WRONLY), sys.stdout.fileno())
        return refuse("-", error.strerror or "can't be written")
    return 0


if __name__ == "__main__":
    sys.exit(main())
