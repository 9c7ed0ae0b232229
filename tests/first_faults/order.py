"""The order of the steps and of the checks: an earlier one is told though it stands later."""
from units import (act, activities, activity, change, condition, environments_of, folder, follows, item, items, named,
                   notice, one_act, part, parts, play, prop, role, service, sized, structures_of)

BIG = b" " * 4_194_305
NOT_JSON = b"{"
LIST = []
ROOM = {"services": [service("v", "monitor")]}
REPEATED = [role("learner"), role("learner")]
AFTER = {"on_completion": follows(item("f"))}
METHOD = "unit.json /method"
ACT = "/plays/0/acts/0"


def files():
    """Files that are not there or too big, before those that cannot be read."""
    required = ["roles.json", "activities.json", "unit.json"]
    for name in required:
        yield f"no {name}", f"{name} . absent", folder(files={name: None})
        yield f"no {name}, nor what follows", f"{name} . absent", folder(
            files={each: None for each in required[required.index(name):]})
    yield "an empty folder", "roles.json . absent", {}
    names = ["roles.json", "properties.json", "environments.json", "activities.json", "unit.json", "conditions.json"]
    for name in names:
        yield f"{name} is too big", f"{name} . too-big", folder(files={name: BIG})
        yield f"{name} is too big, others cannot be read", f"{name} . too-big", folder(
            files={**{each: NOT_JSON for each in names}, name: BIG})
        yield f"{name} cannot be read", f"{name} . not-json", folder(files={name: NOT_JSON})
        yield f"{name} is empty", f"{name} . not-json", folder(files={name: b""})
        yield f"{name} is no object", f"{name} . wrong-shape", folder(files={name: LIST})
        yield f"{name} cannot be read, others are no objects", f"{name} . not-json", folder(
            files={**{each: LIST for each in names}, name: NOT_JSON})
        later = {each: NOT_JSON for each in names[names.index(name):]}
        yield f"{name} and what follows cannot be read", f"{name} . not-json", folder(files=later)
        later = {each: LIST for each in names[names.index(name):]}
        yield f"{name} and what follows are no objects", f"{name} . wrong-shape", folder(files=later)
    yield "the last is not there, the first cannot be read", "unit.json . absent", folder(
        files={"roles.json": NOT_JSON, "unit.json": None})
    yield "too big before one that is not there", "environments.json . too-big", folder(
        files={"environments.json": BIG, "activities.json": None})
    yield "one that is not there before too big", "activities.json . absent", folder(
        files={"conditions.json": BIG, "activities.json": None})
    yield "cut after its first byte", "activities.json . not-json", folder(files={"activities.json": b"{"})
    yield "two documents in one", "unit.json . not-json", folder(files={"unit.json": b"{}{}"})
    yield "not UTF-8", "unit.json . not-json", folder(files={"unit.json": b'{"title":"\xff"}'})


def broken_folders():
    """Several documents with a fault each."""
    yield "the second is not there, others cannot be read", "activities.json . absent", folder(
        files={"roles.json": b"[", "activities.json": None, "unit.json": b""})
    yield "an early one is not UTF-8, a late one is cut", "properties.json . not-json", folder(
        files={"unit.json": b"[", "properties.json": b"\xff"})
    yield "no roles, and the last one is cut", "conditions.json . not-json", folder(
        files={"roles.json": {}, "conditions.json": b"["})
    yield "no roles, and a list in place of the unit", "roles.json /roles missing", folder(
        files={"roles.json": {}, "unit.json": LIST})
    yield "a number in place of a list", "environments.json /environments wrong-shape", folder(
        files={"environments.json": {"environments": 1}})
    yield "a member of the unit that there is not", "unit.json . unknown-member", folder(tittle="U")
    yield "a role that there is not", f"{METHOD}{ACT}/role-parts/0/role unknown-ref", folder(
        plays=one_act([part(role="lerner")]))
    yield "an act named as its play", f"{METHOD}{ACT} repeated-id", folder(plays=[play(acts=[act("p")])])


def shapes():
    """Shapes before checks, whatever the file."""
    condition = {"conditions.json": {"conditions": [0]}}
    yield "conditions before roles", "conditions.json . wrong-shape", folder(
        roles=REPEATED, files={"conditions.json": LIST})
    yield "a condition before roles", "conditions.json /conditions/0 wrong-shape", folder(
        roles=REPEATED, files=condition)
    yield "a property before roles", "properties.json /properties/0/identifier missing", folder(
        roles=REPEATED, files={"properties.json": {"properties": [{}]}})
    yield "a property before a condition", "properties.json /properties/0/identifier missing", folder(
        files={"properties.json": {"properties": [{}]}, **condition})
    yield "a member before roles", "unit.json . unknown-member", folder(roles=REPEATED, tittle="x")
    yield "an inner member before roles", f"{METHOD}/complete unknown-member", folder(
        roles=REPEATED, method={"complete": {"when-over": True}})
    yield "a member that is missing before roles", f"{METHOD}{ACT}/role-parts/0/ref missing", folder(
        roles=REPEATED, plays=one_act([part(ref=None)]))
    yield "a shape before a later one", "activities.json /activities/0/visible wrong-shape", folder(
        activities=[activity(visible=0)], tittle="x")
    yield "a number of the format", "unit.json /format not-in-profile", folder(roles=REPEATED, format=2)


def checks():
    """Each check and the next one, whose place is earlier, and then one that comes much later."""
    unknown = [part(role="none")]
    ring = environments_of([[0]])
    sixty_one = [role("learner")] + [role(f"r{n}") for n in range(60)]
    yield "identifiers before references", f"{METHOD}/plays/0 repeated-id", folder(
        environments=[named("e", environments=["none"])], plays=[play("u")])
    yield "lists before references", f"{METHOD}/complete/when-play-completed/1 repeated-id", folder(
        environments=[named("e", environments=["none"])], method={"complete": {"when-play-completed": ["p", "p"]}})
    yield "references before cycles", f"{METHOD}{ACT}/role-parts/0/role unknown-ref", folder(
        environments=ring, plays=one_act(unknown))
    yield "kinds before cycles", f"{METHOD}/complete/when-play-completed/0 wrong-kind-of-ref", folder(
        environments=ring, structures=structures_of([[0]]), method={"complete": {"when-play-completed": ["a"]}})
    yield "references before levels", f"{METHOD}{ACT}/role-parts/0/role unknown-ref", folder(
        environments=[named("e", **ROOM)], plays=one_act(unknown))
    yield "references before limits", f"{METHOD}{ACT}/role-parts/0/role unknown-ref", folder(
        roles=sixty_one, plays=one_act(unknown))
    yield "cycles before levels", "activities.json /structures/0 cycle", folder(
        environments=[named("e", **ROOM)], structures=structures_of([[1], [0]]))
    yield "cycles before limits", "activities.json /structures/0 cycle", folder(
        roles=sixty_one, structures=structures_of([[0]]))
    # What is above level A stands before all that completes, so this place is the earlier one.
    yield "levels before completions", "environments.json /environments/1/services/0 above-level", folder(
        environments=[named("x"), named("e", **ROOM)], activities=[activity(complete=None, **AFTER)])
    yield "levels before limits", "environments.json /environments/1/services/0 above-level", folder(
        roles=sixty_one, environments=[named("x"), named("e", **ROOM)])
    yield "completions before limits", f"{METHOD}/on-completion not-in-profile", folder(roles=sixty_one, method=AFTER)
    yield "completions before sizes", f"{METHOD}/on-completion not-in-profile", folder(
        environments=sized("big", 30_000), plays=one_act([part(ref="big")]), method=AFTER)


URIS = [prop("n", kind="glob", uri="urn:x"), prop("m", kind="glob", uri="urn:x")]
WRONG = prop("w", initial="x")
SHOWN = condition({"complete": "read"})
TOLD = condition({"complete": "read"}, {"notify": notice("learner")})
MISTYPED = condition({"is": [{"integer": "1"}, {"text": "x"}]})
NESTED = condition({"users-in-role": {"role": "learner", "expression": {
    "users-in-role": {"role": "learner", "expression": {"complete": "read"}}}}})


def checks_of_more():
    """Each check and the next one, whose place is earlier where it can be, over what levels B and C add."""
    unknown = prop("k", kind="locrole", role="none")
    second, place = "properties.json /properties/1", "conditions.json /conditions"
    yield "shapes of conditions before identifiers", f"{place}/0/then missing", folder(
        properties=[prop("learner")], conditions=[{"if": {"complete": "read"}}])
    yield "identifiers before uris", f"{METHOD}/plays/0 repeated-id", folder(properties=URIS, plays=[play("u")])
    yield "lists of conditions before uris", f"{place}/0/then/0/show/1 repeated-id", folder(
        properties=URIS, conditions=[condition({"complete": "read"}, {"show": ["read", "read"]})])
    yield "uris before references", "properties.json /properties/2 repeated-uri", folder(properties=[unknown, *URIS])
    yield "uris before levels", f"{second} repeated-uri", folder(properties=URIS)
    yield "uris before types", f"{second} repeated-uri", folder(
        properties=[{**URIS[0], "initial": "x"}, URIS[1]], level="B")
    yield "references of conditions before cycles", f"{place}/0/if/complete unknown-ref", folder(
        environments=environments_of([[0]]), conditions=[condition({"complete": "none"})])
    yield "references of conditions before levels", f"{place}/0/then/0/hide/0 wrong-kind-of-ref", folder(
        properties=[prop("n")], conditions=[condition({"complete": "read"}, {"hide": ["n"]})])
    yield "cycles before levels of properties", "activities.json /structures/0 cycle", folder(
        properties=[prop("n")], structures=structures_of([[0]]))
    yield from later_checks_of_more(place)


def later_checks_of_more(place):
    """From levels on."""
    sixty_one = [role("learner")] + [role(f"r{n}") for n in range(60)]
    yield "levels of conditions before completions", f"{place}/0 above-level", folder(
        activities=[activity(complete=None, **AFTER)], conditions=[SHOWN])
    yield "levels of notices before completions", f"{place}/1/then/0 above-level", folder(
        activities=[activity(complete=None, **AFTER)], conditions=[SHOWN, TOLD], level="B")
    yield "levels of notices before tests in tests", f"{place}/1/then/0 above-level", folder(
        conditions=[NESTED, TOLD], level="B")
    yield "levels before types", f"{METHOD}/on-completion/notify above-level", folder(
        properties=[WRONG], level="B", method={"complete": {"time-limit": "P1D"},
                                               "on_completion": follows(notify=[notice("learner")])})
    yield "completions before types", f"{METHOD}/on-completion not-in-profile", folder(
        properties=[WRONG], level="C", method={"on_completion": {}})
    yield "tests in tests before types", f"{place}/1/if/users-in-role/expression not-in-profile", folder(
        properties=[WRONG], level="B", conditions=[MISTYPED, NESTED])
    yield "a left out moment before types", f"{METHOD}/on-completion/change/0/value not-in-profile", folder(
        properties=[WRONG], level="B", method={"complete": {"time-limit": "P1D"}, "on_completion": follows(
            change=[change("w", {"current-datetime": True})])})
    yield "tests in tests before limits", f"{place}/0/if/users-in-role/expression not-in-profile", folder(
        roles=sixty_one, level="B", conditions=[NESTED])
    yield "types before limits", f"{place}/0/if bad-type", folder(roles=sixty_one, level="B", conditions=[MISTYPED])
    yield "types before many rules", f"{place}/599/if bad-type", folder(
        level="B", conditions=[SHOWN] * 599 + [MISTYPED])
    yield "types before sizes", f"{place}/0/if bad-type", folder(
        environments=sized("big", 30_000), plays=one_act([part(ref="big")]), level="B", conditions=[MISTYPED])
    yield "leaves before sizes", f"{METHOD} too-many", folder(
        environments=sized("big", 30_000), plays=one_act([part(ref="big")]), level="B",
        conditions=[condition({"or": [{"complete": "read"}] * 4_001})])


def later_checks():
    huge = {"environments": sized("big", 30_000)}
    yield "limits before sizes", f"{METHOD}/on-completion/feedback/0 too-many", folder(
        activities=[activity(items=items("i", 4000))], plays=one_act([part(ref="big")]),
        method={"complete": {"when-play-completed": ["p"]}, **AFTER}, **huge)
    yield "rules before sizes", f"{METHOD} too-many", folder(plays=one_act(parts("rp", 599, ref="big")), **huge)


def limits():
    """Each limit before the next one, whose place is earlier where it can be."""
    sixty_one = [role("learner", roles=[named(f"r{n}") for n in range(60)])]
    rooms = environments_of([[]] * 401)
    numbers = [prop(f"n{n}") for n in range(301)]
    yield "roles before properties", "roles.json /roles/0/roles/59 too-many", folder(
        roles=sixty_one, properties=numbers, level="B")
    yield "properties before environments", "properties.json /properties/300 too-many", folder(
        properties=numbers, environments=rooms, level="B")
    yield "properties before leaves", "properties.json /properties/300 too-many", folder(
        properties=numbers, conditions=[condition({"or": [{"complete": "read"}] * 4_001})], level="B")
    objects = named("o", learning_objects=[named(f"o{n}") for n in range(1001)])
    more = items("i", 4001)
    crowd = [activity(), *activities("x", 400)]
    yield "roles before environments", "roles.json /roles/0/roles/59 too-many", folder(
        roles=sixty_one, environments=rooms)
    yield "environments before objects", "environments.json /environments/400 too-many", folder(
        environments=[objects, *rooms[:400]])
    yield "objects before items", "environments.json /environments/1/learning-objects/998 too-many", folder(
        environments=[named("e", learning_objects=[named("first", items=more), named("second")]), named(
            "o", learning_objects=objects["learning-objects"][:1000])])
    yield "items before activities", "unit.json /learning-objectives/4000 too-many", folder(
        activities=crowd, learning_objectives=more)
    yield "activities before rules", "activities.json /activities/400 too-many", folder(
        activities=crowd, plays=one_act(parts("rp", 300)))


def cases():
    yield from files()
    yield from broken_folders()
    yield from shapes()
    yield from checks()
    yield from checks_of_more()
    yield from later_checks()
    yield from limits()
