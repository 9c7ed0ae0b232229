"""A checklist after WCAG 2.1 AA, for each page in a real Chromium. host/README.md says what it can't see."""

import shutil

import pytest
from conftest import Host, say
from test_browser import SAMPLES, Person

# What is wrong on a page, as a list of texts.
CHECKLIST = r"""
const wrong = [];
const all = (css) => [...document.querySelectorAll(css)];
const named = (e) => (e.getAttribute("aria-label") || e.textContent).trim();
const check = (good, text) => { if (!good) wrong.push(text); };

check(document.documentElement.lang, "no language (3.1.1)");
check(document.title.trim(), "no title (2.4.2)");
check(all("h1").length === 1, "not one h1");
check(all("main").length === 1 && all("a.skip[href='#main']").length === 1, "no main part, or no way to skip to it (2.4.1)");
let level = 1;
for (const h of all("h1,h2,h3,h4,h5,h6")) {
  check(+h.tagName[1] <= level + 1, "a heading skips a level: " + h.textContent);
  check(named(h), "an empty heading");
  level = +h.tagName[1];
}
for (const e of all("input:not([type=hidden]),select,textarea"))
  check(e.labels.length && named(e.labels[0]), "no label (1.3.1): " + e.outerHTML);
for (const e of all("a,button")) check(named(e), "no name (4.1.2): " + e.outerHTML);
for (const e of all("aside,nav,section")) check(e.getAttribute("aria-label"), "a part without a name: " + e.tagName);
const ids = all("[id]").map((e) => e.id);
check(new Set(ids).size === ids.length, "an id twice (4.1.1): " + ids.filter((id, i) => ids.indexOf(id) !== i));
const buttons = all("main button").map(named);
check(new Set(buttons).size === buttons.length, "two buttons of one name: " + buttons);
for (const e of all("th")) check(e.scope, "a table's heading without scope (1.3.1)");
for (const e of all("button,select,input:not([type=hidden])"))
  check(e.getBoundingClientRect().height >= 17, "too small to press: " + e.outerHTML);
for (const e of all("[aria-describedby]"))
  check(document.getElementById(e.getAttribute("aria-describedby")), "described by nothing");
for (const e of all("*"))
  if (["auto", "scroll"].includes(getComputedStyle(e).overflowX))
    check(e.tabIndex >= 0 || e.matches("input,textarea,select"), "scrolls, but not by the keyboard (2.1.1): " + e.className);
if (all("#live[data-events]").length) check(all("[aria-live]").length === 1, "changes are not told (4.1.3)");

const rgb = (text) => text.match(/[\d.]+/g).map(Number);
const light = (c) => {
  const [r, g, b] = c.slice(0, 3).map((v) => (v /= 255) <= 0.03928 ? v / 12.92 : ((v + 0.055) / 1.055) ** 2.4);
  return 0.2126 * r + 0.7152 * g + 0.0722 * b;
};
const ground = (e) => {
  for (; e; e = e.parentElement) {
    const c = rgb(getComputedStyle(e).backgroundColor);
    if (c.length < 4 || c[3] === 1) return c;
  }
  return [255, 255, 255];
};
const walker = document.createTreeWalker(document.body, NodeFilter.SHOW_TEXT);
while (walker.nextNode()) {
  const e = walker.currentNode.parentElement;
  if (!walker.currentNode.data.trim() || !e.getClientRects().length || e.closest("script")) continue;
  const [a, b] = [light(rgb(getComputedStyle(e).color)), light(ground(e))].sort((x, y) => y - x);
  const ratio = (a + 0.05) / (b + 0.05);
  check(ratio >= 4.5, `contrast ${ratio.toFixed(1)} (1.4.3): ` + walker.currentNode.data.trim());
}
check(document.documentElement.scrollWidth <= innerWidth + 1, "wider than the window (1.4.10): " + document.documentElement.scrollWidth);
return wrong;
"""
PAGES = [
    "/",
    "/author",
    "/admin",
    "/admin/runs/monday",
    "/runs/monday",
    "/runs/monday/persons/ida",
    "/runs/twice",
    "/nothing",
]
NARROW = 320


@pytest.fixture(scope="module")
def people(tmp_path_factory, library):
    """An administrator who is also the teacher of a course, with a wide window and a narrow one."""
    host = Host(tmp_path_factory.mktemp("reading") / "data", library=library).start()
    members = [("ida", "pupil"), ("jon", "pupil"), ("admin", "teacher")]
    host.run_of("fractions", "monday", *members)
    say(host.api(), "monday", "complete", "ida", "lesson")
    host.run_of("twice", "twice", ("admin", "learner"))
    found = [Person(host, host.token, size=size) for size in ((1100, 900), (500, 900))]
    found[1].b.execute_cdp_cmd(
        "Emulation.setDeviceMetricsOverride", {"width": NARROW, "height": 640, "deviceScaleFactor": 1, "mobile": False}
    )
    yield found
    for person in found:
        person.b.quit()
    host.stop()


def wrong(person):
    assert person.b.execute_script("return innerWidth") in (NARROW, 1100)
    return person.b.execute_script(CHECKLIST)


@pytest.mark.parametrize("path", PAGES)
@pytest.mark.parametrize("width", [0, 1])
def test_page(people, width, path):
    assert wrong(people[width].go(path).see("h1")) == []


@pytest.mark.parametrize("width", [0, 1])
def test_answers_of_forms(people, width, tmp_path):
    """Pages that only come as an answer: a fault, a verdict, losses of a package, tokens, a preview, a refused token."""
    boss = people[width].go("/author").choose("folder", "wrong")
    boss.press("form[action='/author/choose'] [value=check]").see("h2", "The first fault")
    assert wrong(boss) == []
    boss.choose("folder", "bridges").press("form[action='/author/choose'] [value=publish]").see("#verdict")
    assert wrong(boss) == []
    boss.field("archive", shutil.make_archive(str(tmp_path / "p"), "zip", SAMPLES / "personal"))
    boss.press("form[action='/author/upload'] [value=check]").see("#import .here .bad", "lost").press("summary")
    assert wrong(boss) == []
    boss.press("[id^=preview-]").see("#preview")
    assert wrong(boss) == []
    boss.go("/admin").field("person", "kim").press("#f-token button").see("#tokens")
    assert wrong(boss) == []


def test_signing_in(people):
    """The page before anybody is signed in, and with a refusal. It is the last test of these persons."""
    boss = people[0].press("header button").see("h1", "Sign in")
    assert wrong(boss) == []
    boss.field("token", "nonsense").press("main button").see("#problem", "not known")
    assert wrong(boss) == [] and boss.b.switch_to.active_element.get_attribute("name") == "token"


def test_the_checklist_sees(people):
    """The checklist finds what is wrong on a page that is wrong."""
    boss = people[1]
    boss.b.get(
        "data:text/html,<!doctype html><h3>x</h3><input><button></button><p style='color:%23999'>grey</p><div style='width:3000px'>x</div>"
    )
    found = " ".join(wrong(boss))
    for text in (
        "no language",
        "no title",
        "not one h1",
        "no main",
        "skips",
        "no label",
        "no name",
        "contrast",
        "wider",
    ):
        assert text in found, text
