"""The free branch, for every model of the machine in this folder: the literal that is added where no rule and no wish asks for one; and the wish of an entry. bench/machine.h has the same in C."""


def penalty(literal, weight):
    """The literal whose complement is wished for, and the weight of that wish: "a weight -w on a literal .. counts as a fixed -w and a wish of weight w for the literal itself"."""
    return (literal, weight) if weight >= 0 else (-literal, -weight)


def free_literal(atom, rules, entries):
    """In, if the atom heads a choice rule without a body (a weighted one is a body, whatever is in it) and no entry wishes it out; else out. Rules are (kind, heads, body), kind 1 for a
    choice, a body as in tests/bodies.py; entries (priority, literal, weight)."""
    chosen = any(kind == 1 and body == [] and atom in heads for kind, heads, body in rules)
    paid = any(penalty(literal, weight)[0] == atom and weight != 0 for _, literal, weight in entries)
    return atom if chosen and not paid else -atom
