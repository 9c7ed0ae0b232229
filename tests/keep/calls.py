"""Calls of the program in a folder that holds its journal, and what it writes."""
import contextlib
import dataclasses
import os
import pathlib
import re
import resource
import signal
import subprocess
import tempfile
import threading
from collections.abc import Callable, Iterator

ROOT = pathlib.Path(__file__).resolve().parent.parent.parent
COURSE = str(ROOT / "examples" / "first")
JOURNAL = "ld.journal"
SECONDS = 60

# What is said on standard error at each status.
WORDS = {
    0: "",
    2: "bad-words",
    3: "shelf-fault",
    4: "unit-refused",
    5: "read-fault",
    6: "write-fault",
    9: "disk-fault",
    10: "journal-differs",
}
MORE_LINES = re.compile(rb" lines=([0-9]+)\n$")


@dataclasses.dataclass(frozen=True)
class Ending:
    """How a call ended, what it wrote, and how many bytes of its input it had taken."""

    status: int
    written: bytes
    taken: int = 0


@contextlib.contextmanager
def empty_room() -> Iterator[pathlib.Path]:
    """A folder of the test's own."""
    with tempfile.TemporaryDirectory(prefix="ld-keep-") as name:
        yield pathlib.Path(name)


def text_of(lines: list[bytes]) -> bytes:
    """The input that has these lines."""
    return b"".join(line + b"\n" for line in lines)


def blocks_of(written: bytes) -> tuple[list[bytes], bytes]:
    """The reply blocks that stand whole in what was written, and what stands after them."""
    rows, blocks, place = written.splitlines(keepends=True), [], 0
    while place < len(rows) and rows[place].endswith(b"\n"):
        more = MORE_LINES.search(rows[place])
        end = place + 1 + (int(more[1]) if more else 0)
        if end > len(rows) or not rows[end - 1].endswith(b"\n"):
            break
        blocks.append(b"".join(rows[place:end]))
        place = end
    return blocks, b"".join(rows[place:])


def limited(most: int | None) -> Callable[[], None] | None:
    """What is to be done in the new process, so that a file takes no more bytes than this."""

    if most is None:
        return None
    limits = (most, most)

    def limit() -> None:
        signal.signal(signal.SIGXFSZ, signal.SIG_IGN)
        resource.setrlimit(resource.RLIMIT_FSIZE, limits)

    return limit


def call(
    program: str,
    words: list[str],
    place: pathlib.Path,
    given: bytes | pathlib.Path = b"",
    output: str | None = None,
    most: int | None = None,
) -> Ending:
    """Calls the program in a place with these words and this input, which may be a path.

    `output` is a file to write to, and `most` how many bytes a file may have. What is said on standard error has to be
    the word of the status.
    """
    with contextlib.ExitStack() as stack:
        if isinstance(given, bytes):
            source = stack.enter_context(tempfile.TemporaryFile()).fileno()
            os.pwrite(source, given, 0)
        else:
            source = os.open(given, os.O_RDONLY)
            stack.callback(os.close, source)
        out = subprocess.PIPE
        if output is not None:
            out = os.open(output, os.O_WRONLY)
            stack.callback(os.close, out)
        done = subprocess.run(
            [program, *words],
            cwd=place,
            stdin=source,
            stdout=out,
            stderr=subprocess.PIPE,
            timeout=SECONDS,
            check=False,
            preexec_fn=limited(most),
        )
        taken = os.lseek(source, 0, os.SEEK_CUR)
    status = done.returncode
    said = f"ld: {WORDS.get(status)}\n".encode() if status else b""
    if done.stderr != said:
        raise ValueError(f"status {status}, and {done.stderr!r} is said")
    return Ending(status, done.stdout or b"", taken)


def keep(
    program: str,
    place: pathlib.Path,
    given: bytes | pathlib.Path = b"",
    folder: str = COURSE,
    output: str | None = None,
    most: int | None = None,
) -> Ending:
    """Calls `keep` on one folder."""
    return call(program, ["keep", folder], place, given, output, most)


@contextlib.contextmanager
def running(program: str, place: pathlib.Path) -> Iterator[subprocess.Popen[bytes]]:
    """A call of `keep` with pipes; one that takes too long is killed."""
    with subprocess.Popen(
        [program, "keep", COURSE],
        cwd=place,
        stdin=subprocess.PIPE,
        stdout=subprocess.PIPE,
        stderr=subprocess.DEVNULL,
    ) as process:
        watch = threading.Timer(SECONDS, process.kill)
        watch.start()
        try:
            yield process
        finally:
            watch.cancel()
            process.kill()
