"""Whether a built program is proved: the file itself says so."""
import pathlib
import struct

PROOF_MARK = (
    b"rattle logic="  # what `rattle build` writes into the section .comment of what it has proved
)
# The fields that are read, 64 bits, low byte first.
ELF, SECTION = "<16x2x2x4x8x8xQ4x2x2x2xHHH", "<I4x8x8xQQ4x4x8x8x"


def comment(path: pathlib.Path) -> bytes:
    """The section .comment of an ELF file of 64 bits, empty where the file is no such file or has
    none.
    """
    data = path.read_bytes()
    if data[:6] != b"\x7fELF\x02\x01":
        return b""
    try:
        start, size, count, names = struct.unpack_from(ELF, data)
        sections: list[bytes] = []
        tables = [
            struct.unpack_from(SECTION, data, start + size * number) for number in range(count)
        ]
        for name, place, length in tables:
            if data[tables[names][1] + name :].startswith(b".comment\0"):
                sections.append(data[place : place + length])
    except (struct.error, IndexError):
        return b""
    return b"".join(sections)


def is_proved(path: pathlib.Path) -> bool:
    """Whether the program was built by a check that proved it: the file itself says so."""
    return any(text.startswith(PROOF_MARK) for text in comment(path).split(b"\0"))
