"""A server of PostgreSQL for tests, on a free port, with a folder of its own."""

import os
import shutil
import socket
import subprocess
import tempfile
from pathlib import Path

SETTINGS = "-c listen_addresses=127.0.0.1 -c unix_socket_directories= -c shared_buffers=16MB"


def programs():
    """The folder with the server's programs, or None."""
    found = sorted(Path("/usr/lib/postgresql").glob("*/bin/initdb"), key=lambda path: int(path.parts[-3]))
    place = str(found[-1]) if found else shutil.which("initdb")
    return Path(place).parent if place else None


def as_user():
    """Words before a command, since the server does not run as root."""
    words = ["setpriv", "--reuid=postgres", "--regid=postgres", "--clear-groups"]
    return words if os.geteuid() == 0 else []


class Server:
    """A server whose data are new, or those of another one, which it follows as its standby `two`."""

    def __init__(self, followed=None):
        self.folder = Path(tempfile.mkdtemp(prefix="ldhost-pg-"))
        if os.geteuid() == 0:
            shutil.chown(self.folder, "postgres")
        with socket.socket() as one:
            one.bind(("127.0.0.1", 0))
            self.port = one.getsockname()[1]
        self.address = f"postgresql://postgres@127.0.0.1:{self.port}/postgres"
        if followed is None:
            self.run("initdb", "-U", "postgres", "-A", "trust")
        else:
            source = f"host=127.0.0.1 port={followed.port} user=postgres application_name=two"
            self.run("pg_basebackup", "-R", "-c", "fast", "-d", source)

    def run(self, program, *words, check=True):
        command = [*as_user(), programs() / program, "-D", self.folder / "data", *words]
        quiet = {"stdout": subprocess.DEVNULL, "stderr": subprocess.DEVNULL}
        subprocess.run([str(word) for word in command], check=check, cwd=self.folder, timeout=120, **quiet)

    def start(self, more=""):
        self.run("pg_ctl", "-w", "-l", self.folder / "log", "-o", f"-p {self.port} {SETTINGS} {more}", "start")
        return self

    def promote(self):
        self.run("pg_ctl", "-w", "promote")

    def stop(self, how="fast", check=True):
        """`immediate` is as if it were killed: what is not committed is lost."""
        self.run("pg_ctl", "-w", "-m", how, "stop", check=check)

    def end(self):
        self.stop(check=False)
        shutil.rmtree(self.folder, ignore_errors=True)
