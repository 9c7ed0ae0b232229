"""Each verb: what its words are, words that are right, and the reply to them. Written by hand from docs/COMMANDS.md."""

# The reply to a moment before the run's last one.
MOMENT_BACK = "no 5 moment-back {moment}"

WORK = "turns=0 fired=0 rejected=0 sent=0"
OPENS = "turns=1 fired=1 rejected=0 sent=0"

# The lines before the verb's own one: the words of each, without a moment.
CREATED = [["create", "r", "u"]]
ENROLLED = CREATED + [["enrol", "r", "ann"]]
ASSIGNED = ENROLLED + [["assign", "r", "ann", "learner"]]
STARTED = ASSIGNED + [["start", "r"]]

TREE = ["unit u open", "  play p open", "    act a open", "      part rp open", "        activity read open"]
REPORT = ["started 2024-01-01T09:00:00Z", "role learner members=1", "play p open", "act a open 2024-01-01T09:00:00Z",
          "part rp open", "unit u open", "notices 0"]

# The lines before, the kinds of the words, right words, and the lines of the reply to them.
VERBS = {
    "create": ([], ["identifier"] * 2, ["r", "u"], ["ok create"]),
    "enrol": (CREATED, ["identifier"] * 2, ["r", "ann"], [f"ok enrol {WORK}"]),
    "assign": (ENROLLED, ["identifier"] * 3, ["r", "ann", "learner"], [f"ok assign {WORK}"]),
    "drop": (ASSIGNED, ["identifier"] * 3, ["r", "ann", "learner"], [f"ok drop {WORK}"]),
    "start": (ASSIGNED, ["identifier"], ["r"], [f"ok start {OPENS}"]),
    "open": (STARTED, ["identifier"] * 3, ["r", "ann", "read"], [f"ok open {WORK}"]),
    "complete": (STARTED, ["identifier"] * 3, ["r", "ann", "read"],
                 ["ok complete turns=1 fired=2 rejected=0 sent=0"]),
    "set": (STARTED, ["identifier"] * 3 + ["text"], ["r", "ann", "n", "4"], ["no 19 unknown-property"]),
    "clear": (STARTED, ["identifier"] * 3, ["r", "ann", "n"], ["no 19 unknown-property"]),
    "get": (STARTED, ["identifier"] * 3, ["r", "ann", "n"], ["no 19 unknown-property"]),
    "tree": (STARTED, ["identifier"] * 2, ["r", "ann"], [f"ok tree {WORK} lines=5"] + TREE),
    "outbox": (STARTED, ["identifier"] * 2, ["r", "ann"], [f"ok outbox {WORK} lines=0"]),
    "report": (STARTED, ["identifier"], ["r"], [f"ok report {WORK} lines=7"] + REPORT),
    "tick": (STARTED, ["identifier"], ["r"], [f"ok tick {WORK}"]),
    "next": (STARTED, ["identifier"], ["r"], [f"ok next {WORK} at=none"]),
    "global-set": ([], ["uri", "person", "text"], ["urn:g", "", "5"], ["no 20 unknown-global"]),
    "global-get": ([], ["uri", "person"], ["urn:g", ""], ["no 20 unknown-global"]),
}

# More right words of these verbs, with the same reply.
MORE_RIGHT = [
    ("global-get", ["g", "ann"]),
    ("global-get", ["!#[]~", ""]),
    ("global-get", ["u" * 4_096, ""]),
    ("global-get", ["urn:g", "_"]),
    ("global-set", ["urn:g", "ann", ""]),
    ("global-set", ["urn:g", "", "é \n \" \\ " + "x" * 5_000]),
    ("set", ["r", "ann", "n", ""]),
    ("set", ["r", "ann", "n", "é \n \" \\ " + "x" * 5_000]),
]

# Words that have not the form of their kind.
WRONG = {
    "identifier": [
        "", "1r", "-r", ".r", "9", "a r", " r", "r ", "r/s", "r:s", "r*", "r#1", "ann!", "r\n", "r\0", "\x7f", "é", "aé",
        "ａ", "a\u200b", "😀", "a" * 65,
    ],
    "person": ["1r", "-r", ".r", " ", "a r", " r", "r ", "ann!", "r\n", "é", "a" * 65],
    "uri": ["", " ", "urn g", " urn:g", "urn:g ", "urn:g\n", "urn:\0", "urn:\x7f", "urn:\x1f", "urn:é", "u" * 4_097],
    "text": [],
}

# Identifiers that have the form.
RIGHT_IDENTIFIERS = ["_", "Z9_-.", "start", "r", "a" * 64]

# What stands in the place of a verb and is none.
NO_VERBS = [
    "", "fly", "stop", "finish", "START", "Start", "CREATE", "Enrol", " start", "start ", "start\n", "star", "starts",
    "creat", "enroll", "ok", "r", "ｔree", "global_set", "Global-set", "global", "globalset",
]

# Words of one verb behind another.
OTHER_WORDS = [
    ["start", "r", "ann"], ["enrol", "r", "ann", "learner"], ["assign", "r", "ann"], ["r", "start"], ["tick", "r", "ann"],
    ["next", "r", "ann"], ["report", "r", "ann"], ["get", "r", "ann", "n", "4"], ["set", "r", "ann", "n"],
    ["global-get", "urn:g", "", "5"], ["global-set", "urn:g", ""], ["global-get", "r", "ann", "n"],
]
