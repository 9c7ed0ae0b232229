"""The values of terms, after docs/MEANING.md, "Terms and tests". A value is kept with its type; none is None."""
from values import RANGES, TEXTS, in_range, value_of

LITERALS = ["text", "integer", "boolean", "datetime", "duration"]


def type_of(datatype):
    """The type of a datatype: string, text and uri are one."""
    return "text" if datatype in TEXTS else datatype


def typed(kind, value):
    """A value with its type, or None where there is no value."""
    return None if value is None else (kind, value)


def sum_of(first, second):
    """Numbers, spans, or a moment and a span, in seconds."""
    return first[0], first[1] + second[1]


def difference_of(first, second):
    """Of two numbers or spans one of the same type, of two moments a span, of a moment and a span a moment."""
    kind = "duration" if first[0] == second[0] == "datetime" else first[0]
    return kind, first[1] - second[1]


def product_of(first, second):
    """The product of two numbers."""
    return "integer", first[1] * second[1]


def quotient_of(first, second):
    """The quotient of two numbers towards zero, or None where the divisor is zero."""
    if second[1] == 0:
        return None
    size = abs(first[1]) // abs(second[1])
    return "integer", size if (first[1] < 0) == (second[1] < 0) else -size


OPERATORS = {"sum": sum_of, "subtract": difference_of, "multiply": product_of, "divide": quotient_of}


def step(operator, first, second):
    """One step of an arithmetic: None where a part has no value or the result leaves the range of its type."""
    result = None if first is None or second is None else OPERATORS[operator](first, second)
    return None if result is None else typed(result[0], in_range(result[1], *RANGES[result[0]]))


def worked_out(run, operator, parts, owner):
    """The parts from left to right: the first two, then that with the third, and so on."""
    result = term_value(run, parts[0], owner)
    for part in parts[1:]:
        result = step(operator, result, term_value(run, part, owner))
    return result


def term_value(run, term, owner):
    """The value of a term for its owner, who is a person or the run (None), with its type; or None."""
    [(word, inner)] = term.items()
    if word in LITERALS:
        return typed(word, value_of(word, inner))
    if word == "property":
        return typed(type_of(run.unit.property[inner]["datatype"]), run.property(inner, owner))
    if word == "current-datetime":
        return "datetime", run.now
    if word == "datetime-activity-started":
        return typed("datetime", run.cells["Opened", inner, owner])
    if word == "time-unit-of-learning-started":
        return typed("datetime", run.cells["Started"])
    return worked_out(run, word, inner, owner)
