"""Makes wrong importers and exporters, one at a time in a copy, and says which of them the tests let pass.

    python3 -m tests.mutate [FIRST [END]]
"""

import shutil
import subprocess
import sys
import tempfile
from pathlib import Path

ROOT = Path(__file__).resolve().parent.parent
# The file, a text that stands there once, and what takes its place.
WRONG = [
    ("ldimport/package.py", 'if part in ("", ".", "..") or', "if"),
    ("ldimport/package.py", 'part[-1] in " ."', 'part[-1] == " "'),
    ("ldimport/package.py", "if stat.S_ISLNK(entry.external_attr >> 16):", "if False:"),
    ("ldimport/package.py", "if self.left < 0:", "if False:"),
    ("ldimport/package.py", "if size > most:", "if False:"),
    ("ldimport/package.py", "if other != name or name in self.openers:", "if name in self.openers:"),
    ("ldimport/package.py", "        check_directory(self.path)", "        pass"),
    ("ldimport/xmltree.py", "        if has_internal_subset:", "        if False:"),
    ("ldimport/xmltree.py", "ExternalEntityRefHandler = lambda *_: 1", "ExternalEntityRefHandler = lambda *_: 0"),
    ("ldimport/xmltree.py", "            if name not in node.used_attrs:", "            if False:"),
    ("ldimport/manifest.py", '"https:", "mailto:")', '"https:", "mailto:", "javascript:")'),
    ("ldimport/manifest.py", "(place, unquote(place), path, unquote(path))", "(place, path)"),
    ("ldimport/values.py", 'at - away if zone[0] == "+" else at + away', 'at + away if zone[0] == "+" else at - away'),
    ("ldimport/values.py", "weeks * 7 + days", "weeks + days"),
    ("ldimport/names.py", 'f"{plain[:READABLE]}-{hashlib.sha256(raw.encode()).hexdigest()[:10]}"', "plain"),
    ("ldimport/context.py", 'False if word in ("false", "0") else None', "None"),
    ("ldimport/context.py", "while name in self._taken or name in self._wanted:", "while name in self._taken:"),
    ("ldimport/items.py", "context.visible(node) is None and is_visible", "context.visible(node) is None"),
    ("ldimport/environments.py", "            covers.append(beside)", "            pass"),
    ("ldimport/restrictions.py", '+ (1 if kind == "minExclusive" else -1)', ""),
    ("ldimport/restrictions.py", 'ordered[-1] if kind == "minInclusive" else ordered[0]', "ordered[0]"),
    ("ldimport/properties.py", "if not fits(datatype, restrictions, text):", "if False:"),
    ("ldimport/terms.py", '(node.tag == "greater-than") != is_left', '(node.tag == "greater-than") == is_left'),
    ("ldimport/terms.py", "parts=[second, there])", "parts=[first, there])"),
    ("ldimport/terms.py", "            return there, here\n", "            return here, there\n"),
    ("ldimport/terms.py", "place.is_of_run and named.personal", "False"),
    ("ldimport/expressions.py", "if place.is_quantified:", "if False:"),
    ("ldimport/conditions.py", "[*guard, negated(test)]", "[*guard, test]"),
    ("ldimport/conditions.py", 'becomes(name, "false")', 'becomes(name, "true")'),
    ("ldimport/conditions.py", "[action for action in actions if action not in shared]", "actions"),
    ("ldimport/persons.py", "self.is_personal(tests) or", ""),
    ("ldimport/persons.py", 'name != "users-in-role" and self.is_personal(value)', "self.is_personal(value)"),
    ("ldimport/persons.py", ' and after != sides["boolean"]', ""),
    ("ldimport/method.py", "    context.remove(named.node, why)", "    pass"),
    ("ldimport/completion.py", 'owner == "act" and named.id not in own', "False"),
    ("ldimport/completion.py", 'not named.personal or owner == "activity"', "True"),
    ("ldimport/completion.py", 'if owner == "act" and len(roles) == 1:', 'if owner == "act":'),
    ("ldimport/completion.py", '        if "complete" in obj:', "        if True:"),
    ("ldimport/completion.py", 'return {"user-choice": True}', 'return {"time-limit": "P1D"}'),
    ("ldimport/activities.py", 'not in ("user-choice", "time-limit")', 'in ("nothing",)'),
    ("ldimport/pages.py", 'node.word("property-of", "self") != "self"', "False"),
    ("ldimport/pages.py", "            waiting += outer", "            pass"),
    ("ldimport/design.py", "return max(given, needed)", "return given"),
    ("ldimport/engine.py", 'node = getattr(at, "node", node)', "pass"),
    (
        "ldimport/convert.py",
        "        if name != MANIFEST:\n            package.copy",
        "        if True:\n            package.copy",
    ),
    ("ldimport/convert.py", "        if report.is_refused():\n            return report", "        pass"),
    ("ldimport/convert.py", "shutil.rmtree(work, ignore_errors=True)", "pass"),
    ("ldimport/__main__.py", "        return 5", "        return 0"),
    ("ldexport/tree.py", "if found != text:", "if False:"),
    ("ldexport/folder.py", "                if path.is_symlink():", "                if False:"),
    ("ldexport/resources.py", "elif fold(name) in found:", "elif False:"),
    ("ldexport/resources.py", 'href.removeprefix(f"{CONTENT}/") if file else href', "href"),
    ("ldexport/components.py", 'create_new=role.get("create-new")', "create_new=None"),
    ("ldexport/components.py", "renamed.get(value, value)", "None"),
    ("ldexport/expressions.py", 'if "activity" in notice:', "if False:"),
    ("ldexport/method.py", "if self.persons.repeated([test], actions):", "if False:"),
    ("ldexport/completion.py", '            if "value" in value:', "            if False:"),
    ("ldexport/convert.py", "    tell_losses(folder, report)", "    pass"),
]


def passes(file, old, new):
    """Whether the tests pass with the change."""
    with tempfile.TemporaryDirectory() as place:
        copy = Path(place, "import")
        shutil.copytree(ROOT, copy, ignore=shutil.ignore_patterns("__pycache__"))
        for name in ("examples", "tests"):
            Path(place, name).symlink_to(ROOT.parent / name)
        path = copy / file
        text = path.read_text()
        if text.count(old) != 1:
            raise SystemExit(f"{file}: stands {text.count(old)} times: {old}")
        path.write_text(text.replace(old, new))
        words = [sys.executable, str(copy / "test"), "--fast"]
        return subprocess.run(words, capture_output=True, check=False).returncode == 0


def main():
    first = int(sys.argv[1]) if len(sys.argv) > 1 else 0
    tried = WRONG[first : int(sys.argv[2]) if len(sys.argv) > 2 else None]
    unseen = 0
    for number, (file, old, new) in enumerate(tried, first):
        if passes(file, old, new):
            unseen += 1
            print(f"{number}: the tests pass with {file}: {new}", flush=True)
    print(f"{len(tried)} wrong bodies, of which the tests let {unseen} pass")
    return 1 if unseen else 0


if __name__ == "__main__":
    sys.exit(main())
