"""What becomes of topic filters under a plan: proposals.

Whether they match exactly what the old ones did is for mqroute-acl to say (`asking`); the walk
here serves to find few filters that don't match more.
"""
import itertools
from collections.abc import Iterable
from dataclasses import dataclass

from .filters import HASH, Levels, covers, is_wild, join, meet
from .regions import Region, others_than, regions
from .topic_plan import Plan
from .walk import Others, Rows, denying, gains, start_of

Filters = tuple[Levels, ...]


@dataclass(frozen=True)
class Translation:
    old: Levels
    new: Filters
    wider: Levels | None  # one filter in the place of several, which may match more

    @property
    def overlaps(self) -> bool:
        return any(meet(one, other) for one, other in itertools.combinations(self.new, 2))


class Translator:
    def __init__(self, plan: Plan) -> None:
        self.plan, self.literals = plan, plan.literals()
        self.regions = regions(plan)
        self.known: dict[Levels, Translation] = {}

    def translation(self, wanted: Levels) -> Translation:
        if wanted not in self.known:
            new = [wanted] if self.stays(wanted) else self.pieces(wanted)
            new = self.merged((wanted,), new)
            if wanted[-1] == HASH:
                new = self.opened((wanted,), new)
            new = uncovered(new)
            self.known[wanted] = Translation(wanted, tuple(new), widest(new))
        return self.known[wanted]

    def others(self, *filters: Levels) -> Others:
        """Two levels that neither the plan nor these filters name."""
        return others_than(self.literals.union(*filters))

    def stays(self, wanted: Levels) -> bool:
        """Whether the filter matches under the plan what it does without, and something."""
        one = (wanted,)
        return (self.differs(one, one) is None and self.differs(one, one, True) is None
                and self.differs((), one) is not None)

    def differs(self, less: Filters, more: Filters, is_more_old: bool = False) -> Levels | None:
        """A name that the one filters match and the others don't: new ones by its new name."""
        others = self.others(*less, *more)
        for region in self.regions:
            found = self.differs_in(region, others, less, more, is_more_old)
            if found is not None:
                return found
        return None

    def differs_in(self, region: Region, others: Others, less: Filters, more: Filters,
                   is_more_old: bool) -> Levels | None:
        less_of, more_of = region.old, region.new
        if is_more_old:
            less_of, more_of = more_of, less_of
        return gains(region.start, others, less_of(less), more_of(more) + region.out)

    def is_exact(self, olds: Filters, news: list[Levels]) -> bool:
        """Whether the new filters match nothing more."""
        return self.differs(olds, tuple(news)) is None

    def pieces(self, wanted: Levels) -> list[Levels]:
        """For each region the least filter above the new names of what it has of the filter."""
        found = []
        for region in self.regions:
            own = wanted if region.rule is None and region.has(wanted) else None
            own = region.rule.within(wanted) if region.rule else own
            if own is None or not self.has_any(region, own, ()):
                continue
            own = self.without_tail(region, own)
            new = region.rule.forth(own) if region.rule else own
            found += [] if new is None else [new]
        return list(dict.fromkeys(found))

    def has_any(self, region: Region, wanted: Levels, less: Rows) -> bool:
        """Whether a name of the region matches the filter, and none of the other rows."""
        more = ((False, wanted), *region.out)
        return gains(region.start, self.others(wanted), less, more) is not None

    def without_tail(self, region: Region, wanted: Levels) -> Levels:
        """The filter without its `#`, where of the region only the level before that is left."""
        front = wanted[:-1]
        if wanted[-1] != HASH or front in ((), ("",)):
            return wanted
        return wanted if self.has_any(region, wanted, ((False, front),)) else front

    def merged(self, olds: Filters, news: list[Levels]) -> list[Levels]:
        """Two filters at a time become one, as long as that matches nothing more: the least
        first. Where they match more already they stay."""
        if len(news) < 2 or not self.is_exact(olds, news):
            return news
        wider: set[Levels] = set()  # those that match more
        while True:
            pairs = [(joined, one, other) for one, other in itertools.combinations(news, 2)
                     if (joined := joined_or_none(one, other)) not in wider and joined is not None]
            pairs.sort(key=lambda pair: sum(map(is_wild, pair[0])) - len(pair[0]))
            for joined, one, other in pairs:
                if joined not in wider and self.is_exact(olds, [joined]):
                    news = replaced(news, one, joined, other)
                    break
                wider.add(joined)
            else:
                return news

    def opened(self, olds: Filters, news: list[Levels]) -> list[Levels]:
        """With `#` in the place of wildcards at an end, where that matches nothing more: what ended
        with `#` does so again."""
        if not self.is_exact(olds, news):
            return news
        for place, wanted in enumerate(news):
            front = wanted
            while front and is_wild(front[-1]):
                front = front[:-1]
            if front != wanted and self.is_exact(olds, [(*front, HASH)]):
                news = [*news[:place], (*front, HASH), *news[place + 1:]]
        return list(dict.fromkeys(news))


def uncovered(news: Iterable[Levels]) -> list[Levels]:
    """Without those that another one covers: who subscribes to both is sent what is retained
    twice."""
    left: list[Levels] = []
    for wanted in news:
        if not any(covers(other, wanted) for other in left):
            left = [other for other in left if not covers(wanted, other)] + [wanted]
    return left


def replaced(news: Iterable[Levels], one: Levels, joined: Levels, other: Levels) -> list[Levels]:
    """With the joined filter in the place of one, and without the other."""
    return list(dict.fromkeys(
        joined if wanted == one else wanted for wanted in news if wanted != other))


def joined_or_none(one: Levels, other: Levels) -> Levels | None:
    joined = join(one, other)
    if joined is None or (is_wild(joined[0]) and not (is_wild(one[0]) or is_wild(other[0]))):
        return None
    return joined


def widest(news: list[Levels]) -> Levels | None:
    """One filter above several that begins with a level, if there is one."""
    joined: Levels | None = news[0] if len(news) > 1 else None
    for wanted in news[1:]:
        joined = None if joined is None else join(joined, wanted)
    return None if joined is None or is_wild(joined[0]) else joined


def a_name(plan: Plan, wanted: Levels, out: Iterable[Levels]) -> Levels | None:
    """A name that the filter matches and those of `out` don't, or None."""
    more = ((False, wanted), *denying(out))
    return gains(start_of(wanted), others_than(plan.literals()), (), more)
