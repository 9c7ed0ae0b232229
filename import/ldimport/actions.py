"""What is done when something is completed or a condition holds: changes, notices, showing and hiding."""

from .context import Context, JsonObject, Named
from .names import shortened
from .terms import Inexpressible, Place, Terms
from .values import family
from .xmltree import Node

ACTIONS = ("show", "hide", "change-property-value", "notification")
VISIBLE = ("play", "activity", "structure", "environment", "object", "service", "item")


class Actions:
    def __init__(self, context: Context) -> None:
        self.context, self.terms = context, Terms(context)

    def read(self, node: Node) -> JsonObject | None:
        """The Action, or None where it is lost, and that is told."""
        if node.tag in ("show", "hide"):
            names = self.targets(node)
            if not names:
                self.context.leave_out(node, "empty-action", f"{node.tag} names nothing that is there")
            return JsonObject(node, **{node.tag: names}) if names else None
        if node.tag == "change-property-value":
            change = self.change(node)
            return JsonObject(node, change=change) if change else None
        notice = self.notice(node)
        return JsonObject(node, notify=notice) if notice else None

    def change(self, node: Node, is_of_run: bool = False) -> JsonObject | None:
        """The Change, or None where it is lost; `is_of_run` where the run as a whole does it."""
        try:
            return self.expressible_change(node, is_of_run)
        except Inexpressible as fault:
            tell(self.context, node, fault, "the change is left out")
            return None

    def expressible_change(self, node: Node, is_of_run: bool) -> JsonObject:
        reference, value = node.one("property-ref"), node.one("property-value")
        if reference is None or value is None:
            raise Inexpressible(node, "expression", "it needs a property-ref and a property-value")
        named = self.context.find(reference.get("ref"), ("property",))
        if not isinstance(named, Named):
            raise Inexpressible(reference, "reference", named)
        term = self.terms.read(value, Place(is_of_run=is_of_run and not named.personal))
        if term.reads_now:
            raise Inexpressible(value, "current-datetime", "the present moment can be compared, not stored")
        wanted = named.datatype if term.tag == "literal" else family(named.datatype)
        return JsonObject(node, property=named.id, value=self.terms.write(term, wanted))

    def notice(self, node: Node) -> JsonObject | None:
        """The Notice, or None where it is lost."""
        context, references = self.context, []
        for data in node.all("email-data"):
            if data.get("email-property-ref") or data.get("username-property-ref"):
                context.note(data, "email-data", "properties with addresses and names are the platform's concern")
            references += data.all("role-ref")
        found = [context.refer(reference, ("role",), "it is no recipient") for reference in references]
        roles = list(dict.fromkeys(named.id for named in found if named))
        subject = self.subject(node)
        reference = node.one("learning-activity-ref", "support-activity-ref")
        activity = None
        if reference is not None:
            activity = context.refer(reference, ("activity",), "the notice names no activity")
        if not roles:
            context.leave_out(node, "notification", "the notice is left out: it has no role as recipient")
            return None
        return JsonObject(node, roles=roles, subject=subject, activity=activity.id if activity else None)

    def subject(self, node: Node) -> str | None:
        subject = node.one("subject")
        if subject is None:
            return None
        words = subject.words()
        short = shortened(words)
        if short != words:
            self.context.changed(subject, "subject-cut", "a subject has at most 256 bytes")
        return short or None

    def targets(self, node: Node) -> list[str]:
        """What `show` and `hide` name."""
        found: dict[str, None] = {}
        for child in node.elements():
            if child.tag == "class":
                names = self.members_of_class(child)
            elif child.tag == "unit-of-learning-href":
                self.context.leave_out(child, "unit-of-learning-href", "other units within a unit are left out")
                continue
            else:
                named = self.context.refer(child, VISIBLE, f"it is left out of {node.tag}")
                names = named.covers if named else []
            self.context.count("references in show and hide", child, len(names))
            found.update(dict.fromkeys(names))
        return list(found)

    def members_of_class(self, node: Node) -> list[str]:
        context, word = self.context, node.word("class", "")
        if node.get("with-control") or node.get("title"):
            context.note(node, "class", "no control is shown to fold the class")
        names = context.classes.get(word, [])
        if names:
            context.note(node, "class", f"the class is written as {len(names)} things")
        else:
            context.report.at(node, "lost", "class", "no learning object or service has the class", word)
        return names


def tell(context: Context, node: Node, fault: Inexpressible, consequence: str) -> None:
    """Tells what can't be said, and what becomes of the element in which it stands."""
    line = f" (line {node.line})" if node.line != fault.node.line else ""
    context.lost(fault.node, fault.code, f"{fault.text}; {consequence}{line}")
    node.settle()
