"""host/README.md says what the code does."""

import json
import re

from conftest import TOP, say

from ldhost.platforms import read_platforms
from ldhost.rights import STANDINGS, STRANGER, TABLE

README = (TOP / "README.md").read_text()


def test_the_table_of_rights():
    columns = [one for one in STANDINGS if one != STRANGER]
    assert f"| what | {' | '.join(columns)} |" in README
    for action, who in TABLE.items():
        cells = " | ".join("yes" if one in who else "" for one in columns)
        assert f"| {action} | {cells} |" in README and STRANGER not in who


def test_the_example_of_the_interface(fractions):
    body = json.loads(re.search(r"-d '(.*)'", README).group(1))
    answer = json.loads(re.search(r'^    (\{"reply": .*\})$', README, re.M).group(1))
    done = say(fractions.api(), "monday", body["verb"], *body["words"])
    assert done | {"moment": ""} == answer | {"moment": ""}
    refused = json.loads(re.search(r'`(\{"detail": .*\})`', README).group(1))
    assert say(fractions.api(), "monday", body["verb"], *body["words"], status=409) == refused


def test_the_platforms(tmp_path):
    (tmp_path / "platforms.json").write_text(re.search(r"```json\n(.*?)```", README, re.S).group(1))
    assert read_platforms(tmp_path / "platforms.json")[0].runs == ["monday"]


def test_files_that_are_named():
    for name in re.findall(r"\]\((docs/[^)]+)\)", README) + re.findall(r"`(tests/[a-z_.]+\.py)`", README):
        assert (TOP / name).exists(), name
    guide = (TOP / "docs" / "AUTHORS.md").read_text()
    for name in re.findall(r"(\.\./[A-Za-z./]+\.md)|\]\(([^)]+)\)", guide):
        assert (TOP / "docs" / "".join(name)).exists(), name
    for row in re.findall(r"^\| (ldhost/[^|]+) \|", README, re.M):
        folder = "ldhost/web/" if "web" in row else "ldhost/"
        for name in re.findall(r"[a-z_]+\.py", row):
            assert (TOP / folder / name).exists(), name
