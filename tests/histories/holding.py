"""Whether tests hold, after docs/MEANING.md, "Terms and tests". The owner of a test is a person."""
from terms import term_value

COMPARISONS = {
    "is": lambda first, second: first == second,
    "is-not": lambda first, second: first != second,
    "greater-than": lambda first, second: first > second,
    "less-than": lambda first, second: first < second,
}


def compares(run, word, terms, person):
    """Both terms have a value, and the first compares so with the second."""
    first, second = [term_value(run, term, person) for term in terms]
    return first is not None and second is not None and COMPARISONS[word](first[1], second[1])


def holds_for_all(run, quantified):
    """The role has a member, and the test holds for each of its members, each asked as the owner."""
    members = run.members(quantified["role"])
    return members != [] and all(holds(run, quantified["expression"], member) for member in members)


def holds(run, test, person):
    """Whether a test holds for a person."""
    [(word, inner)] = test.items()
    if word in COMPARISONS:
        return compares(run, word, inner, person)
    if word == "and":
        return all(holds(run, each, person) for each in inner)
    if word == "or":
        return any(holds(run, each, person) for each in inner)
    if word == "not":
        return not holds(run, inner, person)
    if word == "no-value":
        return run.property(inner, person) is None
    if word == "is-member-of-role":
        return run.is_member(person, inner)
    if word == "users-in-role":
        return holds_for_all(run, inner)
    return run.is_done_for(inner, person)
