"""One rule of a plan: which names it is about, their new names, and what becomes of filters."""
from dataclasses import dataclass
from functools import cached_property
from typing import NamedTuple

from .filters import HASH, PLUS, Levels, is_name, is_wild, matches, meet, normal


class Capture(NamedTuple):
    """A `+` of a side, by its name or by its number on this side."""
    name: str


Item = str | Capture  # a level of a side
Side = tuple[Item, ...]


@dataclass(frozen=True)
class Rule:
    """`FROM -> TO`. `keep FROM` has the same side twice; `none FROM` has no right side."""
    line: int
    text: str
    left: Side
    right: Side | None

    @cached_property
    def from_filter(self) -> Levels:
        """The names that it is about."""
        return plain(self.left)

    @cached_property
    def to_filter(self) -> Levels:
        """The least filter above all new names."""
        return normal(plain(self.right or ()))

    @property
    def has_tail(self) -> bool:
        return self.left[-1] == HASH

    @property
    def front(self) -> Side:
        """The levels on the left before its `#`."""
        return self.left[:-1] if self.has_tail else self.left

    @property
    def is_keep(self) -> bool:
        return self.right == self.left

    @property
    def moves(self) -> bool:
        return self.right is not None and not self.is_keep

    @property
    def ends_in_dollar(self) -> bool:
        """Whether new names begin with `$`."""
        first = (self.right or ("",))[0]
        return isinstance(first, str) and first.startswith("$")

    def without(self) -> list[Levels]:
        """Filters of the names that it is about and whose new name would be an empty text."""
        if self.right != ("", HASH) or self.is_keep:
            return []
        return [wanted for wanted in [self.with_levels({}, ())] if wanted not in ((), ("",))]

    def with_levels(self, bound: dict[str, str], tail: Levels) -> Levels:
        """The left side with levels for its captures and what stands for its `#`."""
        put = tuple(bound.get(item.name, PLUS) if isinstance(item, Capture) else item
                    for item in self.front)
        return put + tail if self.has_tail else put

    def matches(self, name: Levels) -> bool:
        return matches(self.from_filter, name)

    def new_name(self, name: Levels) -> Levels | None:
        """The new name of a name that it is about, or None."""
        if self.right is None or self.is_keep:
            return name if self.is_keep else None
        made = self.put(name)
        return made if is_name(made) else None

    def put(self, found: Levels) -> Levels:
        """The right side with what stands on the left at its places, of a name or a filter."""
        bound = dict(zip(self.front, found))
        made: Levels = ()
        for item in self.right or ():
            if item == HASH:
                made += found[len(self.front):]
            else:
                made += (bound[item] if isinstance(item, Capture) else item,)
        return made

    def within(self, wanted: Levels) -> Levels | None:
        """The filter of the names that it is about and that the filter matches."""
        met = meet(self.from_filter, wanted)
        return None if met is None else self.fitting(met)

    def back(self, wanted: Levels) -> Levels | None:
        """The filter of the names whose new names the filter matches."""
        if self.is_keep:
            return self.within(wanted)
        if is_wild(wanted[0]) and self.ends_in_dollar:
            return None
        found = self.bound_by(wanted)
        return None if found is None else self.fitting(self.with_levels(*found))

    def bound_by(self, wanted: Levels) -> tuple[dict[str, str], Levels] | None:
        """What captures and the `#` have to be so that the filter matches the new name."""
        bound: dict[str, str] = {}
        right = self.right or ()
        for place, item in enumerate(right):
            level = wanted[place:place + 1]
            if level == (HASH,):
                return bound, (HASH,)
            if item == HASH:
                return bound, wanted[place:]
            if not level or not fits(bound, item, level[0]):
                return None
        ends = wanted[len(right):] in ((), (HASH,))
        return (bound, (HASH,)) if ends else None

    def forth(self, wanted: Levels) -> Levels | None:
        """The least filter above the new names of the names that the filter matches."""
        met = self.within(wanted)
        if met is None or self.right is None:
            return None
        made = self.put(met)
        return None if made in ((), ("",)) else normal(made)

    def fitting(self, wanted: Levels) -> Levels | None:
        """The filter, unless the left side's rule on `$` or an empty text leaves it no name."""
        if wanted in ((), ("",)):
            return None
        if is_wild(self.from_filter[0]) and wanted[0].startswith("$"):
            return None
        return wanted


def plain(side: Side) -> Levels:
    """A side as a filter."""
    return tuple(PLUS if isinstance(item, Capture) else item for item in side)


def fits(bound: dict[str, str], item: Item, level: str) -> bool:
    """Whether a level of the right side can be this one, or any; a capture is it then."""
    if level == PLUS:
        return True
    if not isinstance(item, Capture):
        return item == level
    return bound.setdefault(item.name, level) == level
