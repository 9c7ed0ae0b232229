from .support import AT, HIDE, NOTICE, PROPERTIES, SHOW, ImportCase, change, compare, condition

N = {"property": "n"}
DAY = {"property": "day"}
NOW = {"current-datetime": True}
DONE = '<complete><learning-activity-ref ref="read"/></complete>'
ALL_DONE = f'<users-in-role><role-ref ref="learner"/><expression>{DONE}</expression></users-in-role>'


def term(word, *sides):
    return compare(word, *sides)


TESTS = [
    (compare("is", "@n", "3"), {"is": [N, {"integer": "3"}]}),
    (compare("is", "@word", "3"), {"is": [{"property": "word"}, {"text": "3"}]}),
    (compare("is-not", "@yes", "0"), {"is-not": [{"property": "yes"}, {"boolean": "false"}]}),
    (compare("less-than", "@span", "P1W"), {"less-than": [{"property": "span"}, {"duration": "P7D"}]}),
    (compare("greater-than", "@n", "2.5"), {"greater-than": [N, {"integer": "2"}]}),
    (compare("less-than", "@n", "2.5"), {"less-than": [N, {"integer": "3"}]}),
    (compare("greater-than", "2.5", "@n"), {"greater-than": [{"integer": "3"}, N]}),
    (compare("less-than", "-2.5", "@n"), {"less-than": [{"integer": "-3"}, N]}),
    (compare("is", "@n", "2.0"), {"is": [N, {"integer": "2"}]}),
    (
        compare(
            "is", '<sum><property-ref ref="n"/><property-value>1</property-value><property-ref ref="own"/></sum>', "4"
        ),
        {"is": [{"sum": [N, {"integer": "1"}, {"property": "own"}]}, {"integer": "4"}]},
    ),
    (
        compare("greater-than", term("sum", "P1D", "@day"), "<current-datetime/>"),
        {"greater-than": [{"sum": [DAY, {"duration": "P1D"}]}, NOW]},
    ),
    (
        compare("greater-than", term("subtract", "<current-datetime/>", "<time-unit-of-learning-started/>"), "P1D"),
        {"greater-than": [NOW, {"sum": [{"time-unit-of-learning-started": True}, {"duration": "P1D"}]}]},
    ),
    (
        compare("less-than", "P1D", term("subtract", "<current-datetime/>", "@day")),
        {"less-than": [{"sum": [DAY, {"duration": "P1D"}]}, NOW]},
    ),
    (
        compare("less-than", term("subtract", "@day", "<current-datetime/>"), "PT1H"),
        {"less-than": [{"subtract": [DAY, {"duration": "PT1H"}]}, NOW]},
    ),
    (
        compare("less-than", term("sum", "<current-datetime/>", "P1D"), "@day"),
        {"less-than": [NOW, {"subtract": [DAY, {"duration": "P1D"}]}]},
    ),
    (
        compare("less-than", term("subtract", "2024-01-01T00:00:00Z", "@day"), "@span"),
        {"less-than": [{"subtract": [{"datetime": "2024-01-01T00:00:00Z"}, DAY]}, {"property": "span"}]},
    ),
    (
        '<and><no-value><property-ref ref="word"/></no-value><not><is-member-of-role ref="tutor"/></not></and>',
        {"and": [{"no-value": "word"}, {"not": {"is-member-of-role": "tutor"}}]},
    ),
    (ALL_DONE, {"users-in-role": {"role": "learner", "expression": {"complete": "read"}}}),
    (
        '<or><complete><act-ref ref="a"/></complete><complete><role-part-ref ref="rp"/></complete>'
        '<complete><play-ref ref="p"/></complete></or>',
        {"or": [{"complete": "a"}, {"complete": "rp"}, {"complete": "p"}]},
    ),
    (
        compare(
            "less-than",
            '<datetime-activity-started><learning-activity-ref ref="read"/></datetime-activity-started>',
            "2024-01-01T00:00:00+01:00",
        ),
        {"less-than": [{"datetime-activity-started": "read"}, {"datetime": "2023-12-31T23:00:00Z"}]},
    ),
]
LOST = [
    (compare("is", "@n", "2.5"), "value"),
    (compare("is", "@n", "x"), "value"),
    (compare("is", "@n", "@word"), "types"),
    (compare("less-than", "@word", "x"), "types"),
    (compare("is", "@nothing", "x"), "reference"),
    (compare("is", "@read", "x"), "reference"),
    ("<and/>", "expression"),
    ("<is/>", "expression"),
    ("", "expression"),
    ("<perhaps/>", "expression"),
    (compare("greater-than", "<current-datetime/>", "<current-datetime/>"), "current-datetime"),
    (compare("is", term("multiply", "<current-datetime/>", "2"), "4"), "current-datetime"),
    (
        f'<users-in-role><role-ref ref="learner"/><expression>{ALL_DONE}</expression></users-in-role>',
        "users-in-role",
    ),
]


class Tests(ImportCase):
    def test_tests(self):
        for test, wanted in TESTS:
            done = self.bring(properties=PROPERTIES, after=condition(test))
            self.assertEqual(done.losses(), [])
            found = done.document("conditions")["conditions"]
            self.assertEqual(found, [{"if": wanted, "then": [{"show": ["read"]}]}])

    def test_tests_that_are_lost(self):
        for test, code in LOST:
            done = self.bring(properties=PROPERTIES, after=condition(test))
            self.assertIn(("lost", code), done.losses())
            self.assertIsNone(done.document("conditions"))


class Conditions(ImportCase):
    def conditions(self, *words, properties=PROPERTIES):
        done = self.bring(properties=properties, after=condition(*words))
        self.assertEqual(done.losses(), [])
        return done.document("conditions")["conditions"]

    def test_else_chains_become_flat(self):
        inner = f"<else><if>{compare('is', '@word', 'b')}</if><then>{SHOW}</then><else>{HIDE}</else></else>"
        first, second, third = self.conditions(compare("is", "@word", "a"), SHOW, inner)
        a, b = ({"is": [{"property": "word"}, {"text": text}]} for text in "ab")
        self.assertEqual(first, {"if": a, "then": [{"show": ["read"]}]})
        self.assertEqual(second, {"if": {"and": [{"not": a}, b]}, "then": [{"show": ["read"]}]})
        self.assertEqual(third, {"if": {"and": [{"not": a}, {"not": b}]}, "then": [{"hide": ["read"]}]})

    def test_actions(self):
        product = term("multiply", "@own", "2")
        notice = (
            '<notification><email-data><role-ref ref="tutor"/></email-data><learning-activity-ref ref="read"/>'
            "<subject>S</subject></notification>"
        )
        actions = change("n", f"<calculate>{product}</calculate>") + change("word", " hi ")
        actions += change("yes", '<property-ref ref="yes"/>') + notice
        (found,) = self.conditions(compare("is", "@own", "1"), actions)
        wanted = [
            {"change": {"property": "n", "value": {"multiply": [{"property": "own"}, {"integer": "2"}]}}},
            {"change": {"property": "word", "value": {"text": "hi"}}},
            {"change": {"property": "yes", "value": {"property": "yes"}}},
            {"notify": {"roles": ["tutor"], "subject": "S", "activity": "read"}},
        ]
        self.assertEqual(found["then"], wanted)

    def test_an_action_that_is_lost_leaves_the_others(self):
        otherwise = f'<else><show><class class="none"/></show>{HIDE}</else>'
        done = self.bring(properties=PROPERTIES, after=condition(compare("is", "@n", "1"), change("n", "x"), otherwise))
        self.assertEqual(sorted(code for _, code in done.losses()), ["class", "empty-action", "value"])
        wanted = {"if": {"not": {"is": [N, {"integer": "1"}]}}, "then": [{"hide": ["read"]}]}
        self.assertEqual(done.document("conditions")["conditions"], [wanted])


COUNTER = '<loc-property identifier="m"><datatype datatype="integer"/><initial-value>0</initial-value></loc-property>'
WITH_COUNTER = PROPERTIES.replace("</properties>", COUNTER + "</properties>")
ADD = change("m", f"<calculate>{term('sum', '@m', '1')}</calculate>")


class Once(ImportCase):
    """Conditions that are the same for all persons, whom the engine asks one by one."""

    def number(self, test, then, otherwise="", properties=WITH_COUNTER):
        done = self.bring(properties=properties, after=condition(test, then, otherwise))
        return len(done.document("conditions")["conditions"])

    def test_a_counter_counts_once(self):
        self.needs_engine()
        done = self.bring(
            properties=WITH_COUNTER, after=condition(compare("is", "@n", "2"), ADD + HIDE, f"<else>{ADD}</else>")
        )
        self.assertEqual(done.losses(), [])
        names = [each["identifier"] for each in done.document("properties")["properties"]]
        self.assertEqual(names[-2:], ["once", "once.2"])
        rest = done.document("conditions")["conditions"][-1]
        self.assertEqual(rest, {"if": {"is": [N, {"integer": "2"}]}, "then": [{"hide": ["read"]}]})
        lines = [[AT, "create", "r", "u"]]
        for who in ("ann", "bob", "cem"):
            lines += [[AT, "enrol", "r", who], [AT, "assign", "r", who, "learner"]]
        lines.append([AT, "start", "r"])
        for value, counted in (("2", 2), ("2", 2), ("3", 3), ("4", 3), ("2", 4)):
            lines += [[AT, "set", "r", "ann", "n", value], [AT, "enrol", "r", f"p{len(lines)}"]]
            lines.append([AT, "get", "r", "ann", "m"])
            self.assertIn(f'value="{counted}"', self.replay(done.folder, *lines).splitlines()[-1])

    def test_what_all_members_do_is_the_same_for_all(self):
        self.assertEqual(self.number(ALL_DONE, NOTICE), 2)

    def test_what_differs_is_done_for_each(self):
        for test in (compare("is", "@own", "2"), DONE, '<is-member-of-role ref="tutor"/>'):
            self.assertEqual(self.number(test, NOTICE), 1)

    def test_what_changes_nothing_when_it_is_done_again_stays(self):
        self.assertEqual(self.number(compare("is", "@n", "2"), change("n", "5")), 1)

    def test_what_ends_itself_stays(self):
        flag = '<loc-property identifier="f"><datatype datatype="boolean"/></loc-property></properties>'
        properties = WITH_COUNTER.replace("</properties>", flag)
        both = f"<and>{compare('is', '@n', '2')}{compare('is', '@f', 'false')}</and>"
        self.assertEqual(self.number(both, NOTICE + change("f", "true"), properties=properties), 1)
        self.assertEqual(self.number(both, NOTICE + change("f", "false"), properties=properties), 2)
        either = both.replace("and>", "or>")
        self.assertEqual(self.number(either, NOTICE + change("f", "true"), properties=properties), 2)
