from .support import ACTS, AT, PROPERTIES, WITH_ITEM, ImportCase, compare, condition

LOSSES_OF_ROLES = [
    ('<learner identifier="learner" create-new="allowed"/>', "create-new"),
    (
        '<learner identifier="learner"><information><item identifier="i" identifierref="r"/></information></learner>',
        "role-information",
    ),
    ('<learner identifier="learner" min-persons="many"/>', "number"),
    ('<learner identifier="learner" min-persons="201"/>', "min-persons"),
    ('<learner identifier="learner"><staff identifier="s"/></learner>', "role-kind"),
]
RESTRICTION = '<restriction restriction-type="{}">{}</restriction>'


def property(datatype, *more, kind="locpers-property"):
    """The properties with one of them, and pairs of a restriction's type and text, or texts."""
    inner = f'<datatype datatype="{datatype}"/>' if datatype else ""
    for each in more:
        inner += f"<initial-value>{each}</initial-value>" if isinstance(each, str) else RESTRICTION.format(*each)
    return f'<properties><{kind} identifier="q">{inner}</{kind}></properties>'


WHOLE_PROPERTIES = [
    (property("integer", " 05 "), {"datatype": "integer", "initial": "5"}),
    (property("boolean", "1"), {"datatype": "boolean", "initial": "true"}),
    (property("text", ""), {"datatype": "text", "initial": ""}),
    (property("duration", "PT60M"), {"datatype": "duration", "initial": "PT1H"}),
    (
        property("integer", ("minExclusive", 0), ("maxExclusive", 9)),
        {"datatype": "integer", "restrictions": {"minInclusive": "1", "maxInclusive": "8"}},
    ),
    (
        property("integer", ("minInclusive", "0.5"), ("maxInclusive", "8.5")),
        {"datatype": "integer", "restrictions": {"minInclusive": "1", "maxInclusive": "8"}},
    ),
    (
        property("duration", ("minInclusive", "PT60M"), ("minInclusive", "P1D"), ("minInclusive", "PT2H")),
        {"datatype": "duration", "restrictions": {"minInclusive": "P1D"}},
    ),
    (
        property("string", ("length", 3)),
        {"datatype": "string", "restrictions": {"minLength": 3, "maxLength": 3}},
    ),
    (
        property("string", ("enumeration", "a"), ("enumeration", "b")),
        {"datatype": "string", "restrictions": {"enumeration": ["a", "b"]}},
    ),
]
LOSSES_OF_PROPERTIES = [
    (property("real"), ("changed", "datatype")),
    (property("file"), ("changed", "datatype")),
    (property("other"), ("changed", "datatype")),
    (property("colour"), ("lost", "property")),
    (property(""), ("lost", "property")),
    (property("integer", "x"), ("lost", "initial-value")),
    (property("integer", "5", ("maxInclusive", 4)), ("lost", "initial-value")),
    (property("string", ("pattern", "a*")), ("lost", "restriction")),
    (property("integer", ("totalDigits", 2)), ("lost", "restriction")),
    (property("datetime", "2024-01-01T00:00:00"), ("changed", "initial-value")),
    (property("integer", ("minLength", 4)), ("lost", "restriction")),
]


class Roles(ImportCase):
    def test_roles(self):
        done = self.bring(
            roles='<learner identifier="learner" match-persons="exclusively-in-roles" min-persons="1" max-persons="9">'
            '<title> The  learner </title><learner identifier="x" create-new="not-allowed" min-persons=""/></learner>'
        )
        role = {
            "identifier": "learner",
            "kind": "learner",
            "title": "The learner",
            "match-persons": "exclusively-in-roles",
            "min-persons": 1,
            "max-persons": 9,
            "roles": [{"identifier": "x"}],
        }
        self.assertEqual(done.document("roles"), {"roles": [role]})
        self.assertEqual(done.losses(), [])

    def test_losses(self):
        for roles, code in LOSSES_OF_ROLES:
            self.assertEqual([loss for _, loss in self.bring(roles=roles).losses()], [code])

    def test_occurrences_need_format_2_and_no_inner_roles(self):
        role = '<learner identifier="learner" create-new="allowed">{}</learner>'
        done = self.bring(format=2, roles=role.format(""))
        self.assertEqual(done.losses(), [])
        self.assertEqual(done.document("roles")["roles"][0]["create-new"], "allowed")
        inner = self.bring(format=2, roles=role.format('<learner identifier="x"/>'))
        self.assertEqual(inner.losses(), [("changed", "create-new")])

    def test_occurrences_run(self):
        self.needs_format_2()
        done = self.bring(format=2, roles='<learner identifier="learner" create-new="allowed"/>')
        found = self.replay(done.folder, [AT, "create", "r", "u"], [AT, "new-role", "r", "learner"])
        self.assertIn("learner#1", found)


class Properties(ImportCase):
    def test_properties(self):
        for properties, wanted in WHOLE_PROPERTIES:
            done = self.bring(properties=properties)
            self.assertEqual(done.losses(), [])
            found = done.document("properties")["properties"]
            self.assertEqual(found, [{"identifier": "q", "kind": "locpers", **wanted}])

    def test_losses(self):
        for properties, loss in LOSSES_OF_PROPERTIES:
            self.assertEqual(self.bring(properties=properties).losses(), [loss])

    def test_global_properties(self):
        done = self.bring(
            properties='<properties><glob-property identifier="g"><global-definition uri="urn:g"><title>G</title>'
            '<datatype datatype="integer"/><initial-value>2</initial-value></global-definition></glob-property>'
            '<glob-property identifier="h"><existing href="urn:g"/></glob-property></properties>',
            after=condition(compare("is", "@h", "2")),
        )
        self.assertEqual(done.losses(), [])
        (found,) = done.document("properties")["properties"]
        self.assertEqual(found["uri"], "urn:g")
        test = done.document("conditions")["conditions"][0]["if"]
        self.assertEqual(test, {"is": [{"property": "g"}, {"integer": "2"}]})

    def test_the_datatype_of_an_existing_property_is_guessed(self):
        done = self.bring(
            properties='<properties><globpers-property identifier="g"><existing href="urn:g"/></globpers-property>'
            "</properties>",
            after=condition(compare("greater-than", "@g", "2")),
        )
        self.assertEqual(done.losses(), [("changed", "global-datatype")])
        self.assertEqual(done.document("properties")["properties"][0]["datatype"], "integer")

    def test_what_reads_a_lost_property_is_told(self):
        done = self.bring(properties=property("colour"), after=condition(compare("is", "@q", "red")))
        self.assertEqual(done.losses(), [("lost", "property"), ("lost", "reference")])
        self.assertIsNone(done.document("conditions"))
        (text,) = [entry.text for entry in done.entries if entry.code == "reference"]
        self.assertIn("its datatype is 'colour'", text)


TWO = '<learning-activity identifier="read"/><learning-activity identifier="see"/>'
STRUCTURE = '<activity-structure identifier="s" {}><learning-activity-ref ref="read"/>{}</activity-structure>'
LOSSES_OF_STRUCTURES = [
    (STRUCTURE.format("", ""), ("changed", "structure-type")),
    (STRUCTURE.format('structure-type="sequence" number-to-select="1"', ""), ("changed", "number-to-select")),
    (STRUCTURE.format('structure-type="selection" number-to-select="2"', ""), ("changed", "number-to-select")),
    (STRUCTURE.format('structure-type="selection" number-to-select="0"', ""), ("changed", "number-to-select")),
    (STRUCTURE.format('structure-type="selection" sort="visibility-order"', ""), ("changed", "sort")),
    (
        STRUCTURE.format('structure-type="sequence"', '<unit-of-learning-href ref="urn:x"/>'),
        ("lost", "unit-of-learning-href"),
    ),
    ('<activity-structure structure-type="sequence"/>', ("lost", "empty-structure")),
]
SUPPORT = (
    '<learning-activity identifier="read"/><support-activity identifier="s"><role-ref ref="learner"/>'
    "<complete-activity>{}</complete-activity></support-activity>"
)


class Activities(ImportCase):
    def test_structures(self):
        done = self.bring(
            activities=TWO + '<activity-structure identifier="s" structure-type="selection" number-to-select="1">'
            '<information><title>T</title><item identifier="i" identifierref="r"/></information>'
            '<learning-activity-ref ref="see"/><learning-activity-ref ref="read"/></activity-structure>'
        )
        self.assertEqual(done.losses(), [])
        structure = {
            "identifier": "s",
            "kind": "selection",
            "number-to-select": 1,
            "environments": ["s.information"],
            "children": ["see", "read"],
        }
        self.assertEqual(done.document("activities")["structures"], [structure])
        obj = {"identifier": "s.information.object", "items": [{"identifier": "i", "href": "content/a.html"}]}
        environment = {"identifier": "s.information", "title": "T", "learning-objects": [obj]}
        self.assertEqual(done.document("environments")["environments"], [environment])

    def test_losses_of_structures(self):
        for structure, loss in LOSSES_OF_STRUCTURES:
            done = self.bring(activities='<learning-activity identifier="read"/>' + structure)
            self.assertEqual(done.losses(), [loss])

    def test_what_hangs_on_a_lost_structure_is_lost(self):
        outer = '<activity-structure identifier="{}" structure-type="sequence">{}</activity-structure>'
        act = '<complete-act><when-role-part-completed ref="rp"/></complete-act>'
        plays = ACTS.format(act, "").replace(
            '<learning-activity-ref ref="read"/>', '<activity-structure-ref ref="t"/>', 1
        )
        done = self.bring(
            activities=outer.format("s", '<unit-of-learning-href ref="urn:x"/>')
            + outer.format("t", '<activity-structure-ref ref="s"/>')
            + '<learning-activity identifier="read"/>',
            plays=plays,
        )
        self.assertEqual([code for _, code in done.losses()].count("empty-structure"), 2)
        self.assertEqual(done.document("unit")["method"]["plays"][0]["acts"][0]["identifier"], "b")

    def test_support(self):
        chosen = SUPPORT.format("<user-choice/>")
        self.assertEqual(self.bring(activities=chosen).losses(), [("changed", "support")])
        done = self.bring(activities=chosen, format=2)
        self.assertEqual(done.losses(), [])
        support = {"identifier": "s", "kind": "support", "supports": ["learner"], "complete": {"user-choice": True}}
        self.assertEqual(done.document("activities")["activities"][1], support)

    def test_a_support_by_a_value_is_done_once(self):
        rule = '<when-property-value-is-set><property-ref ref="n"/></when-property-value-is-set>'
        done = self.bring(activities=SUPPORT.format(rule), format=2, properties=PROPERTIES)
        self.assertEqual(done.losses(), [("changed", "support")])
        self.assertIs(done.document("activities")["activities"][1]["repeated"], False)


ENVIRONMENTS = """<environments><environment identifier="e"><title>E</title>
<learning-object identifier="o" class="x y" isvisible="false"><item identifier="i" identifierref="r" parameters="a=1"/>
</learning-object><service identifier="s" class="x"><conference conference-type="synchronous"><title>C</title>
<participant role-ref="learner"/><item identifier="j" identifierref="r"/></conference></service>
<environment-ref ref="f"/></environment><environment identifier="f"/></environments>"""


class Environments(ImportCase):
    def test_environments(self):
        shown = '<show><class class="x"/><environment-ref ref="f"/><item-ref ref="j"/></show>'
        after = condition(compare("is", "@n", "1"), shown)
        done = self.bring(environments=ENVIRONMENTS, properties=PROPERTIES, after=after)
        self.assertEqual(done.losses(), [("changed", "service-settings")])
        hidden = {"identifier": "o", "visible": False, "items": [{"identifier": "i", "href": "content/a.html?a=1"}]}
        beside = {"identifier": "s.items", "title": "C", "items": [{"identifier": "j", "href": "content/a.html"}]}
        environment = {
            "identifier": "e",
            "title": "E",
            "learning-objects": [hidden, beside],
            "services": [{"identifier": "s", "kind": "conference", "title": "C"}],
            "environments": ["f"],
        }
        self.assertEqual(done.document("environments")["environments"], [environment, {"identifier": "f"}])
        actions = done.document("conditions")["conditions"][0]["then"]
        self.assertEqual(actions, [{"show": ["o", "s", "s.items", "f", "j"]}])
        settings = done.document("import")["services"]["s"]["children"][1]
        self.assertEqual(settings, {"element": "participant", "attributes": {"role-ref": "learner"}})

    def test_items_within_items(self):
        inner = (
            '<item identifier="i" identifierref="r" isvisible="false"><title>T</title>'
            '<item identifier="j" identifierref="r"/><item identifierref="none"/></item>'
        )
        done = self.bring(
            activities='<learning-activity identifier="read"><activity-description>'
            f"{inner}</activity-description></learning-activity>",
            properties=PROPERTIES,
            after=condition(compare("is", "@n", "1"), '<show><item-ref ref="i"/></show>'),
        )
        self.assertEqual(done.losses(), [("lost", "item")])
        items = [
            {"identifier": "i", "title": "T", "href": "content/a.html", "visible": False},
            {"identifier": "j", "href": "content/a.html", "visible": False},
        ]
        self.assertEqual(done.document("activities")["activities"][0]["items"], items)
        self.assertEqual(done.document("conditions")["conditions"][0]["then"], [{"show": ["i", "j"]}])

    def test_an_address_with_percent_signs_leads_to_the_file(self):
        resource = '<resource identifier="r" type="webcontent" href="a%20b.html"><file href="a%20b.html"/></resource>'
        done = self.bring(files={"a b.html": "x"}, resources=resource, activities=WITH_ITEM)
        self.assertEqual(done.losses(), [])
        self.assertEqual(done.document("activities")["activities"][0]["items"][0]["href"], "content/a%20b.html")
        self.assertTrue((done.folder / "content/a b.html").exists())
