"""All tables of first faults, and their cases."""
import accepted
import bounds
import cycles
import datatypes
import good
import leaves
import left_out
import limits
import names
import order
import parts
import references
import shapes
import sizes
import texts
import uris


TABLES = [good, order, names, uris, references, cycles, bounds, left_out, datatypes, limits, leaves, sizes,
           accepted, shapes, parts, texts]


def all_cases(word=""):
    """The name, the fault and the folder of each case whose name has the word."""
    seen = set()
    for table in TABLES:
        for name, fault, documents in table.cases():
            name = f"{table.__name__}: {name}"
            if word in name:
                assert name not in seen, f"two cases are named {name}"
                seen.add(name)
                yield name, fault, documents
