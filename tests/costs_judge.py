"""Says of counts whether they are more than is promised (costs.py). It runs nothing: numbers go in,
and what was got beside what may be comes out."""
from typing import NamedTuple

# How many things of each kind a command is given that it has nothing to do with.
FEW = 100
MANY = 10_000

# A walk over the many takes an instruction for each at least, and over a map or a tree some ten. A
# look-up among a hundred times as many keys takes a few hundred more in all, and the way of a new
# end up the heap of ends two thousand.
MORE_INSTRUCTIONS = MANY // 2

# No list of the many is so small. What a command takes today is the same beside few.
MORE_BYTES = MANY // 4

# A node of a map that is full, or a list that grows.
MORE_BLOCKS = 3

# What the kinds of counts are, in words (costs.c).
KINDS = {"instructions": "instructions", "blocks": "blocks of memory", "bytes": "bytes asked for",
         "room": "bytes held at a time", "held": "bytes that stay",
         "long_blocks": "blocks of its length"}


class Checked(NamedTuple):
    what: str
    got: float
    most: float

    def is_over(self):
        return self.got > self.most

    def __str__(self):
        return f"{self.what}: {shown(self.got)}, at most {shown(self.most)}"


def shown(number):
    return f"{number:,.1f}".removesuffix(".0")


def middle(costs):
    """Of each count the one in the middle: one of three may find a table full, and make it anew."""
    ranked = (sorted(counts) for counts in zip(*costs))
    return type(costs[0])(*(counts[len(counts) // 2] for counts in ranked))


def more_beside(name, things, few, many):
    """What a command takes beside many things more than beside few."""
    for kind, most in (("instructions", MORE_INSTRUCTIONS), ("bytes", MORE_BYTES),
                       ("blocks", MORE_BLOCKS)):
        more = getattr(many, kind) - getattr(few, kind)
        yield Checked(f"{name} beside {MANY:,} {things}, {KINDS[kind]} more than beside {FEW}",
                      more, most)


def for_each(name, kind, few, many, more, most):
    """What each of `more` things takes, of one kind of count."""
    each = (getattr(many, kind) - getattr(few, kind)) / more
    return Checked(f"{name}, {KINDS[kind]} for each", each, most)


def at_most(name, kind, cost, most):
    return Checked(f"{name}, {KINDS[kind]}", getattr(cost, kind), most)


def no_more(name, without, with_many):
    """A command that takes no memory for what it ends takes no more blocks than one that is
    refused: its line and its answer take as many."""
    return Checked(f"{name}, blocks of memory more than where it is refused",
                   with_many.blocks - without.blocks, 0)
