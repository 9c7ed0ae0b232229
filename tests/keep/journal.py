"""The file of a journal, read and written after docs/JOURNAL.md and nothing of the program."""

LONGEST_LINE = 65_536
OPEN, CLOSED = b"\1", b"\0"


def entry(line: bytes) -> bytes:
    """What is written after the last gate: the length of the line, the line and a closed gate."""
    return len(line).to_bytes(4, "big") + line + CLOSED


def gate_and_lines(file: bytes) -> tuple[int, list[bytes]]:
    """The place of the last gate, and the lines that the file keeps (of fewer than 2^40 bytes)."""
    gate = 0
    lines: list[bytes] = []
    while True:
        size = int.from_bytes(file[gate + 1 : gate + 5], "big")
        following = gate + 5 + size
        here = file[gate : gate + 1] == OPEN and following < len(file)
        if not here or not 1 <= size <= LONGEST_LINE:
            return gate, lines
        lines.append(file[gate + 5 : following])
        gate = following


def kept(file: bytes) -> list[bytes]:
    """The lines that the file keeps."""
    return gate_and_lines(file)[1]


def overwritten(file: bytes, place: int, piece: bytes) -> bytes:
    """The file once the piece is written over what stands from the place on."""
    return file[:place] + piece + file[place + len(piece) :]


def opened(file: bytes) -> bytes:
    """The file once it is opened, so that its last gate is there, and is 0."""
    gate, _ = gate_and_lines(file)
    if file[gate : gate + 1] not in (b"", OPEN, CLOSED) and len(file) >= gate + 5:
        file = overwritten(file, gate + 1, bytes(4))
    return overwritten(file, gate, CLOSED)


def with_line(file: bytes, line: bytes) -> bytes:
    """The file of a journal that is open, once it keeps the line, too."""
    gate, _ = gate_and_lines(file)
    return overwritten(overwritten(file, gate + 1, entry(line)), gate, OPEN)


def journal_of(lines: list[bytes]) -> bytes:
    """The file that an empty one becomes by these lines."""
    return OPEN.join([b""] + [entry(line)[:-1] for line in lines]) + CLOSED
