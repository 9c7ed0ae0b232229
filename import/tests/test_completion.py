from .support import ACTS, AT, PROPERTIES, ImportCase, change, compare, condition

VALUE = "<when-property-value-is-set>{}</when-property-value-is-set>"


def value(name, text=None):
    asked = f'<property-ref ref="{name}"/>' + (f"<property-value>{text}</property-value>" if text else "")
    return VALUE.format(asked)


def activity(rule, after=""):
    return (
        f'<learning-activity identifier="read"><complete-activity>{rule}</complete-activity>{after}</learning-activity>'
    )


def act(rule):
    return f"<complete-act>{rule}</complete-act>"


PART_DONE = act('<when-role-part-completed ref="rp"/>')
RULES_OF_ACTIVITIES = [
    ("<user-choice/>", {"user-choice": True}),
    ("<time-limit>P1DT1H</time-limit>", {"time-limit": "P1DT1H"}),
    (value("own"), {"when-property-value-is-set": {"property": "own"}}),
    (value("yes", "1"), {"when-property-value-is-set": {"property": "yes", "value": "true"}}),
]
RULES_OF_ACTS = [
    (PART_DONE, {"when-role-part-completed": ["rp"]}),
    (act("<time-limit>PT1H</time-limit>"), {"time-limit": "PT1H"}),
    (act(value("n", "2")), {"when-property-value-is-set": {"property": "n", "value": "2"}}),
    (
        act(
            '<when-condition-true><role-ref ref="learner"/>'
            f"<expression>{compare('is', '@own', '2')}</expression></when-condition-true>"
        ),
        {
            "when-condition-true": {
                "role": "learner",
                "expression": {"is": [{"property": "own"}, {"integer": "2"}]},
            }
        },
    ),
]


class Activities(ImportCase):
    def completed(self, done):
        return done.document("activities")["activities"][0]["complete"]

    def test_rules(self):
        for rule, wanted in RULES_OF_ACTIVITIES:
            done = self.bring(properties=PROPERTIES, activities=activity(rule))
            self.assertEqual(done.losses(), [])
            self.assertEqual(self.completed(done), wanted)

    def test_several_values_become_a_condition(self):
        self.needs_engine()
        done = self.bring(properties=PROPERTIES, activities=activity(value("own", 1) + value("n", 1)))
        self.assertEqual(done.losses(), [])
        wanted = {"when-property-value-is-set": {"property": "read.met", "value": "true"}}
        self.assertEqual(self.completed(done), wanted)
        lines = [[AT, "create", "r", "u"], [AT, "enrol", "r", "ann"], [AT, "assign", "r", "ann", "learner"]]
        lines += [[AT, "start", "r"], [AT, "set", "r", "ann", "own", "1"], [AT, "tree", "r", "ann"]]
        self.assertIn("activity read done", self.replay(done.folder, *lines))

    def test_a_rule_that_is_lost_becomes_a_choice(self):
        for rule in ('<time-limit property-ref="span"/>', "<time-limit>soon</time-limit>", "<other/>", ""):
            done = self.bring(properties=PROPERTIES, activities=activity(rule))
            self.assertEqual(done.losses()[0][0], "lost")
            self.assertEqual(self.completed(done), {"user-choice": True})

    def test_of_several_rules_the_first_counts(self):
        done = self.bring(activities=activity("<user-choice/><time-limit>P1D</time-limit>"))
        self.assertEqual(done.losses(), [("lost", "several-rules")])
        self.assertEqual(self.completed(done), {"user-choice": True})

    def test_what_follows_no_rule_is_lost(self):
        follows = (
            '<on-completion><feedback-description><item identifier="i" identifierref="r"/></feedback-description>'
            "</on-completion>"
        )
        done = self.bring(activities=f'<learning-activity identifier="read">{follows}</learning-activity>')
        self.assertEqual(done.losses(), [("lost", "on-completion")])


class Acts(ImportCase):
    def completed(self, done):
        return done.document("unit")["method"]["plays"][0]["acts"][0]["complete"]

    def test_rules(self):
        for rule, wanted in RULES_OF_ACTS:
            done = self.bring(properties=PROPERTIES, plays=ACTS.format(rule, ""))
            self.assertEqual(done.losses(), [])
            self.assertEqual(self.completed(done), wanted)

    def test_rules_of_plays_and_of_the_unit(self):
        play = "<complete-play><when-last-act-completed/></complete-play>"
        unit = '<complete-unit-of-learning><when-play-completed ref="p"/></complete-unit-of-learning>'
        done = self.bring(plays=ACTS.format(PART_DONE, play), after=unit)
        self.assertEqual(done.losses(), [])
        method = done.document("unit")["method"]
        self.assertEqual(method["plays"][0]["complete"], {"when-last-act-completed": True})
        self.assertEqual(method["complete"], {"when-play-completed": ["p"]})

    def test_an_act_that_waits_for_a_person_s_value(self):
        done = self.bring(properties=PROPERTIES, plays=ACTS.format(act(value("own")), ""))
        self.assertEqual(done.losses(), [("changed", "personal")])
        asked = {"role": "learner", "expression": {"not": {"no-value": "own"}}}
        self.assertEqual(self.completed(done), {"when-condition-true": asked})

    def test_an_act_of_two_roles_that_waits_for_a_person_s_value(self):
        part = '<role-part identifier="rr"><role-ref ref="tutor"/><learning-activity-ref ref="read"/></role-part>'
        done = self.bring(properties=PROPERTIES, plays=ACTS.format(part + act(value("own")), ""))
        self.assertEqual(done.losses(), [("lost", "personal")])
        self.assertEqual(self.completed(done), {"when-role-part-completed": ["rp", "rr"]})

    def test_an_act_waits_for_its_own_parts_alone(self):
        rule = act('<when-role-part-completed ref="rp"/><when-role-part-completed ref="rq"/>')
        done = self.bring(plays=ACTS.format(rule, ""))
        self.assertEqual(done.losses(), [("lost", "reference")])
        self.assertEqual(self.completed(done), {"when-role-part-completed": ["rp"]})

    def test_an_act_without_a_rule_is_told(self):
        done = self.bring(plays=ACTS.format("", ""))
        self.assertEqual(done.codes().count("act-ends"), 1)
        self.assertEqual(done.losses(), [])

    def test_what_asks_of_an_act_that_is_left_out_is_lost(self):
        empty = '<act identifier="e"><role-part identifier="re"><role-ref ref="none"/></role-part></act></play>'
        plays = ACTS.format(PART_DONE, "").replace("</play>", empty)
        done = self.bring(plays=plays, after=condition('<complete><act-ref ref="e"/></complete>'))
        (text,) = [entry.text for entry in done.entries if "'e' is left out" in entry.text]
        self.assertIn("it has no role-parts", text)
        self.assertIsNone(done.document("conditions"))

    def test_a_change_at_the_end_of_an_act_is_the_run_s(self):
        def losses(name):
            own = change(name, '<property-ref ref="own"/>')
            follows = f"<on-completion>{own}</on-completion>"
            return self.bring(properties=PROPERTIES, plays=ACTS.format(PART_DONE + follows, "")).losses()

        self.assertEqual(losses("n"), [("lost", "personal")])
        self.assertEqual(losses("own"), [])
