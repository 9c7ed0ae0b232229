"""Makes the host wrong in one place at a time, in a copy; the tests that are named have to fail.

    python3 tests/wrong_hosts.py [WORD]    with a word only the changes whose file or text has it
"""

import contextlib
import multiprocessing
import os
import shutil
import signal
import sys
import tempfile
from concurrent.futures import ThreadPoolExecutor
from pathlib import Path

import pytest

TOP = Path(__file__).parent.parent
SECONDS = 300
SEEN, NOT_SEEN, LEFT_OUT, NOT_TRIED = "seen", "NOT SEEN", "left out", "NOT TRIED"
PROCESSES = multiprocessing.get_context("forkserver")
PROCESSES.set_forkserver_preload(["fastapi", "httpx", "jinja2", "jwcrypto.jwt", "pytest", "uvicorn"])
NOT_INSTALLED = shutil.ignore_patterns("__pycache__", "data", "docs", ".mypy_cache")

# (file, text, what it becomes, the tests that see it)
CHANGES = [
    # The same command again is done again.
    ("shard.py", "self.done[mark_of(line)] = ([verb, *words], reply)", "pass", "test_commands.py -k same_key"),
    # A line that was kept before its keeper died is given once more.
    (
        "logs.py",
        "if len(lines) == kept + 1 and lines[-1] == line:",
        "if False:",
        "test_failures.py -k keep-after-4",
    ),
    (
        "logs.py",
        "                    return None\n",
        "                    continue\n",
        "test_failures.py -k keep-after-4",
    ),
    # A new reader gets the line twice.
    (
        "reader.py",
        "(await self.lines())[:kept]",
        "await self.lines()",
        "test_failures.py -k replay-before-4",
    ),
    # A keeper without memory and a reader with the line go apart.
    ("shard.py", "if kept and kept.head == NO_MEMORY:", "if False:", "test_failures.py -k keep-memory-4"),
    # Replies are not compared.
    ("shard.py", "if kept and shown.text != kept.text:", "if False:", "test_commands.py -k compared"),
    # What a look settled is not kept.
    ("shard.py", "if reply.ok and reply.work[0]:", "if False:", "test_commands.py -k share_values"),
    # Time: an alarm rings at the present moment; a late one only after the command; a tick is kept always, or never comes.
    (
        "timing.py",
        'shard.line(alarm, "tick", run.name)',
        'shard.line(moment, "tick", run.name)',
        "test_time.py -k alarm",
    ),
    (
        "timing.py",
        "return await self.due(shard, run, moment)",
        "return False",
        "test_time.py -k before_the_command",
    ),
    # An alarm that a later line moved still rings; what an alarm wrote for other runs is forgotten; a double click is two.
    (
        "timing.py",
        "run.alarm.kept != shard.kept",
        "(run.alarm.moment or run.last) <= run.last",
        "test_stale.py -k put_off",
    ),
    (
        "timing.py",
        "run.alarm.kept != shard.kept",
        "(run.alarm.moment or run.last) <= run.last",
        "test_stale.py -k share_a",
    ),
    (
        "shard.py",
        "            await self.follow(run)\n        alarm",
        "            pass\n        alarm",
        "test_stale.py -k refused",
    ),
    ("web/courses.py", """key=f"{who.person} {text_of(form, 'key')} {words}\"""", "key=None", "test_race.py -k lost"),
    # A line is acknowledged that is in no table, or beside that of another host; two hosts write one table.
    ("logs.py", "await self.do(self.table.add, kept, line)", "pass", "test_table.py -k rows"),
    ("table.py", "if found != [(line,)]:", "if False:", "test_table.py -k others_write"),
    ("table.py", "while not self.do(LOCK, [self.shard])[0][0]:", "while False:", "test_table.py -k another_host"),
    (
        "table.py",
        "do update set line = ld_lines.line",
        "do update set line = excluded.line",
        "test_table.py -k others_write",
    ),
    ("logs.py", "if kept_lines(self.folder / JOURNAL):", "if False:", "test_table.py -k other_kind"),
    (
        "timing.py",
        'shard.look_at("tick", run.name, moment=moment)',
        'shard.put(shard.line(moment, "tick", run.name))',
        "test_time.py -k ticks",
    ),
    ("timing.py", "if not (run.started and run.course.looks_at_time)", "if True", "test_time.py -k ticks"),
    ("timing.py", "            if reply.head == NO_MEMORY:", "            if False:", "test_time.py -k memory"),
    ("shard.py", "if alarm and alarm <= moment:", "if False:", "test_stale.py -k no_memory"),
    # A keeper or a reader that is killed while it starts closes the run.
    ("child.py", "self.is_killed = status < 0", "self.is_killed = False", "test_failures.py -k they_start"),
    # Strangers learn which runs there are.
    (
        "web/site.py",
        "standing <= {rights.STRANGER, rights.AUTHOR}",
        "standing <= {rights.STRANGER}",
        "test_rights.py -k strangers",
    ),
    ("web/interface.py", 'if there is None and body.verb != "create"', "if False", "test_rights.py -k strangers"),
    # Files and links.
    (
        "files.py",
        "is_file and target.is_relative_to((folder / CONTENT).resolve())",
        "is_file",
        "test_pages.py -k leads_out",
    ),
    ("files.py", "(folder / CONTENT).resolve()", "folder.resolve()", "test_packages.py -k below_content"),
    ("files.py", 'unquote(re.split("[?#]", href)[0])', 're.split("[?#]", href)[0]', "test_packages.py -k whole"),
    (
        "files.py",
        "return href if scheme and scheme.group(0).lower() in SAFE_SCHEMES else None",
        "return href",
        "test_pages.py -k titles",
    ),
    ("uploads.py", 'part in ("", ".", "..") or ', "", "test_bounds.py -k stays"),
    (
        "uploads.py",
        "if sum(entry.file_size for entry in self.entries) > MOST_BYTES:",
        "if False:",
        "test_bounds.py -k bounded",
    ),
    # Packages: losses are not asked about; a draft is anybody's, is published twice, or stays when an import fails.
    ("web/authors.py", "draft.report is None or draft.report.is_whole", "True", "test_packages.py -k asked_about"),
    ("drafts.py", "draft is None or draft.author != author", "draft is None", "test_packages.py -k alone"),
    ("drafts.py", "return self.waiting.pop(name)", "return draft", "test_packages.py -k asked_about"),
    (
        "drafts.py",
        "except BaseException:\n            draft.end()\n",
        "except BaseException:\n",
        "test_packages.py -k memory",
    ),
    ("packages.py", "os.killpg(process.pid, signal.SIGKILL)", "process.kill()", "test_packages.py -k too_long"),
    ("packages.py", 'f"--as={MEMORY}", ', "", "test_packages.py -k memory"),
    ("packages.py", " or not report.exists()", "", "test_packages.py -k memory"),
    ("reports.py", "(-1, 0, 1)", "(0, 1)", "test_packages.py -k asked_about"),
    # Pages.
    ("web/site.py", "autoescape=True", "autoescape=False", "test_pages.py -k titles"),
    ("web/site.py", "if not isinstance(word, str) or not", "if False and not", "test_pages.py -k another_site"),
    ("web/courses.py", "        answer.headers.update(SANDBOX)\n", "        pass\n", "test_pages.py -k titles"),
    (
        "web/previews.py",
        "preview is None or preview.author != who.person",
        "preview is None",
        "test_pages.py -k preview_through",
    ),
    ("web/shell.py", "        if self.left < 0:", "        if False:", "test_bounds.py -k requests"),
    # Signing in.
    ("launches.py", 'if not access.take("state " + state):', "if False:", "test_lti.py -k once"),
    (
        "launches.py",
        'if not access.take("nonce " + platform.client + " " + str(claims["nonce"])):',
        "if False:",
        "test_lti.py -k denied",
    ),
    ("launches.py", '"exp": None, ', "", "test_lti.py -k denied"),
    ("web/lti.py", "if request.cookies.get(STATE) != state:", "if False:", "test_lti.py -k browser"),
    (
        "web/lti.py",
        "if found is None or name not in platform.runs:",
        "if found is None:",
        "test_lti.py -k another_platform",
    ),
    (
        "web/sign_in.py",
        "            site.attempts.failed(address)\n",
        "            pass\n",
        "test_bounds.py -k sign_in",
    ),
    ("rights.py", '"set": {ADMINISTRATOR}', '"set": {ADMINISTRATOR, MEMBER}', "test_pages.py -k other_fields"),
]


def main(words):
    chosen = [change for change in CHANGES if all(word in change[0] + change[1] for word in words)]
    found = []
    with ThreadPoolExecutor(os.cpu_count()) as pool:
        for change, verdict in zip(chosen, pool.map(verdict_of, chosen)):
            file, text, other, _ = change
            print(f"{verdict}  {file}: {text.strip()} -> {other.strip()}", flush=True)
            found.append(verdict)
    return 1 if {NOT_SEEN, NOT_TRIED} & set(found) or not found else 0


def verdict_of(change):
    """Whether the tests fail over the changed host. Tests that are left out, since the engine lacks something, see nothing;
    and nothing is shown by a change with which the tests can't begin."""
    file, text, other, tests = change
    with tempfile.TemporaryDirectory() as folder:
        copy = Path(folder) / "host"
        shutil.copytree(TOP, copy, ignore=NOT_INSTALLED)
        for beside in ("examples", "import"):
            (Path(folder) / beside).symlink_to(TOP.parent / beside)
        path = copy / "ldhost" / file
        old = path.read_text()
        assert old.count(text) == 1, (file, text)
        path.write_text(old.replace(text, other))
        first, *more = tests.split(" ")
        status, told = run(["-q", "-x", f"tests/{first}", *more], copy)
    if status == 1:
        return SEEN
    if status != 0:
        return NOT_TRIED
    return NOT_SEEN if " passed" in told else LEFT_OUT


def run(words, folder):
    """The status of pytest and what it tells; a call that takes too long is ended, with all that it started."""
    told = folder / "told"
    process = PROCESSES.Process(target=tests_alone, args=(words, folder, told))
    process.start()
    process.join(SECONDS)
    status = process.exitcode
    with contextlib.suppress(ProcessLookupError):
        os.killpg(process.pid, signal.SIGKILL)
    process.join()
    return status, told.read_text()


def tests_alone(words, folder, told):
    """Runs the tests in the folder. This process has loaded what they need, but nothing of the host."""
    os.setsid()
    os.chdir(folder)
    os.environ["PATIENCE"] = "40"
    sys.dont_write_bytecode = True
    os.dup2(os.open(told, os.O_CREAT | os.O_WRONLY), 1)
    sys.exit(pytest.main(words))


if __name__ == "__main__":
    sys.exit(main(sys.argv[1:]))
