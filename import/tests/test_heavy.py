"""Packages that are made to take long. Each has to end within seconds."""

import time

from .support import PARTS, SHOW, ImportCase, condition

MANY = 20_000
LONGEST = 10
READ = PARTS["activities"]
DONE = '<complete><learning-activity-ref ref="read"/></complete>'
NUMBER = '<properties><loc-property identifier="n"><datatype datatype="integer"/>{}</loc-property></properties>'
USE = '<property-ref ref="n"/>'


def numbered(text):
    return "".join(text.format(number) for number in range(MANY))


def properties(each):
    return f"<properties>{numbered(each)}</properties>"


def asked(test, then=SHOW):
    return {"properties": NUMBER.format(""), "after": condition(test, then)}


def nested(depth):
    """Conditions within conditions, of which each has a test of its own."""
    inner = SHOW
    for _ in range(depth):
        inner = f"<if>{DONE}</if><then>{inner}</then>"
    return inner


OBJECT = f'<learning-object identifier="o" class="{"x " * MANY}"/>'
PACKAGES = {
    "unknown elements": {"roles": "<x/>" * MANY + '<learner identifier="learner"/>'},
    "roles": {"roles": numbered('<learner identifier="l{}"/>')},
    "properties": {
        "properties": properties('<loc-property identifier="q{}"><datatype datatype="integer"/></loc-property>')
    },
    "global properties": {
        "properties": properties('<glob-property identifier="q{0}"><existing href="urn:{0}"/></glob-property>')
    },
    "names of one uri": {
        "properties": properties('<glob-property identifier="q{}"><existing href="urn:x"/></glob-property>')
    },
    "one identifier": {"activities": READ + '<learning-activity identifier="z"/>' * MANY},
    "children": {
        "activities": f'{READ}<activity-structure identifier="s" structure-type="sequence">'
        + '<learning-activity-ref ref="read"/>' * MANY
        + "</activity-structure>"
    },
    "things to show": {"after": condition(DONE, "<show>" + '<item-ref ref="none"/>' * MANY + "</show>")},
    "conditions": {"after": condition(DONE) * (MANY // 5)},
    "a long sum": asked(f"<is>{USE}<sum>{USE * MANY}</sum></is>"),
    "a deep sum": asked(f"<is>{USE}{'<sum>' * 150}{USE}{(USE + '</sum>') * 150}</is>"),
    "a deep and long sum": asked(f"<is>{USE}{'<sum>' * 150}{USE * MANY}{'</sum>' * 150}</is>"),
    "a deep and long sum around now": asked(
        f"<is>{'<sum><property-value>P1D</property-value>' * 150}<current-datetime/>{'</sum>' * 150}{USE}</is>"
    ),
    "digits": {"properties": NUMBER.format(f"<initial-value>{'9' * 1_000_000}</initial-value>")},
    "resources": {
        "resources": numbered(
            '<resource identifier="r{0}" type="webcontent" href="{0}.html"><file href="{0}.html"/></resource>'
        )
    },
    "conditions within a condition": asked(f"<and>{DONE * 1000}</and>", (f"<if>{DONE}</if><then>{SHOW}</then>") * 500),
    "conditions deep within": asked(DONE, nested(60)),
    "words of a class": {
        "environments": f'<environments><environment identifier="e">{OBJECT}</environment></environments>',
        "after": condition(DONE, "<show>" + '<class class="x"/>' * MANY + "</show>"),
    },
    "classes": {
        "environments": f'<environments><environment identifier="e">{OBJECT}</environment></environments>',
        "after": condition(DONE, "<show>" + '<class class="x"/>' * 1000 + "</show>"),
    },
}


class Heavy(ImportCase):
    def test_packages_that_are_made_to_take_long(self):
        for name, parts in PACKAGES.items():
            with self.subTest(name):
                package = self.package(**parts)
                began = time.process_time()
                self.bring(package)
                self.assertLess(time.process_time() - began, LONGEST)

    def test_pages_of_many_items(self):
        """Each of 400 environments refers to all, and each shows a page that no activity shows."""
        references = "".join(f'<environment-ref ref="e{number}"/>' for number in range(400))
        item = '<learning-object><item identifierref="r"/><item identifierref="r"/></learning-object>'
        each = f'<environment identifier="e{{}}">{item}{{}}</environment>'
        environments = "".join(each.format(number, references) for number in range(400))
        page = '<html xmlns:l="http://www.imsglobal.org/xsd/imsld_v1p0"><l:set-property ref="n"/></html>'
        package = self.package(
            files={"a.html": page},
            properties=NUMBER.format(""),
            environments=f"<environments>{environments}</environments>",
        )
        began = time.process_time()
        self.bring(package, pages=True)
        self.assertLess(time.process_time() - began, LONGEST)
