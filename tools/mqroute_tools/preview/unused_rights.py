"""Rights that change on names which no topic of the script has: where topics are renamed, these are
listed behind the others, with the line of the plan that says that nobody has such names."""
from ..plan.unused import About, DayNames
from ..script.access_list import Question
from .acl_answers import Lists
from .findings import Preview, Right
from .renaming import Renaming


def mark_unused(found: Preview, lists: Lists, renaming: Renaming) -> None:
    names = DayNames(renaming.plan, renaming.made.names(), (lists.current, lists.proposed))
    for rights in (found.granted, found.taken):
        for right in rights:
            about = about_of(right)
            right.unused = names.is_unused(about)
            right.proposal = names.proposal(about) if right.unused else None
        rights.sort(key=lambda right: right.unused is True)


def about_of(right: Right) -> About:
    asked = tuple(Question(one.client, one.user, "", right.access) for one in right.clients)
    named = {text for one in right.clients for text in (one.client, one.user)
             if text is not None and one.stands_for_others(text)}
    lines = right.deciding.current, right.deciding.proposed
    return About(right.rule.line if right.rule else None, lines, asked, frozenset(named))
