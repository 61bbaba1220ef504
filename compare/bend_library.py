"""Changes one byte of a static library, for compare/mutants.

    python3 bend_library.py LIBRARY OUT SECTIONS BYTES MASK

In the library's sections whose name matches SECTIONS, the first place is found that matches BYTES, a pattern over the
bytes with one group; the group's first byte is XORed with MASK (hex) and the library written to OUT. Prints the section
and the place in it. Status 3 if no place matches or the object is not of an x86-64.
"""

import re
import struct
import sys

X86_64 = 62


def members(archive):
    """Where each file of the archive begins and how long it is."""
    at = 8
    while at + 60 <= len(archive):
        length = int(archive[at + 48 : at + 58])
        yield at + 60, length
        at += 60 + length + length % 2


def sections(archive):
    """Name, start and length of each section of each 64-bit object, counted from the archive's first byte."""
    for start, length in members(archive):
        file = archive[start : start + length]
        if file[:5] != b"\x7fELF\x02" or struct.unpack_from("<H", file, 18)[0] != X86_64:
            continue
        table = struct.unpack_from("<Q", file, 40)[0]
        size, count, names_at = struct.unpack_from("<HHH", file, 58)
        headers = [struct.unpack_from("<IIQQQQ", file, table + size * number) for number in range(count)]
        names = headers[names_at][4]
        for name, _, _, _, place, extent in headers:
            end = file.index(b"\0", names + name)
            yield file[names + name : end].decode(), start + place, extent


def main():
    library, out, wanted, pattern, mask = sys.argv[1:]
    with open(library, "rb") as file:
        archive = bytearray(file.read())
    for name, start, length in sections(bytes(archive)):
        if not re.search(wanted, name):
            continue
        match = re.search(pattern.encode(), bytes(archive[start : start + length]), re.DOTALL)
        if match:
            archive[start + match.start(1)] ^= int(mask, 16)
            with open(out, "wb") as file:
                file.write(archive)
            print(f"{name}+{match.start(1):#x}")
            return 0
    return 3


if __name__ == "__main__":
    sys.exit(main())
