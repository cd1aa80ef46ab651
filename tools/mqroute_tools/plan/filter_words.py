"""What is to be looked at of a filter's translation, in words."""
from ..common.tables import shown
from .asking import Verdict, Witness, verdicts
from .filters import Levels, matches, text_of
from .topic_plan import Plan
from .translator import Translation, Translator

Names = list[tuple[Levels, Levels]]  # the topics of a script, with their new names

NOTHING = "(nothing)"
NOT_ASKED = "not compared: no access list that is compared through a plan can have it"


class Judged:
    """Translations, with what mqroute-acl says of them and of the wider filters."""

    def __init__(self, translator: Translator, filters: list[Levels]) -> None:
        self.translations = {wanted: translator.translation(wanted) for wanted in filters}
        found = list(self.translations.values())
        asked = [((one.old,), one.new) for one in found]
        wider = [((one.old,), (one.wider,)) for one in found if one.wider is not None]
        said = verdicts(translator.plan, [*asked, *wider])
        self.verdicts = {one.old: verdict for one, verdict in zip(found, said)}
        self.wider = {olds[0]: verdict for (olds, _), verdict in zip(wider, said[len(asked):])}

    def wider_words(self, wanted: Levels) -> str:
        """What one filter in the place of several would match more."""
        verdict = self.wider[wanted]
        if not verdict.asked:
            return NOT_ASKED
        if verdict.more is None:
            return "exactly the same"
        lines = sorted(line for line in verdict.rules if line is not None)
        parts = [f"topics of {'line' if len(lines) == 1 else 'lines'} "
                 f"{', '.join(map(str, lines))}"] if lines else []
        parts += ["topics that keep their names"] if None in verdict.rules else []
        return f"more: {' and '.join(parts)}"


def verdict_words(made: Translation, verdict: Verdict, shared: bool,
                  names: Names | None = None) -> str:
    """Empty where it is one filter that matches exactly what the old one does. With the topics of a
    script: whether it is so for these too."""
    words = [] if made.new else ["none of its topics has a new name"]
    if not verdict.asked:
        words.append(NOT_ASKED)
    if verdict.more is not None:
        words.append(more_words(made, verdict.more, names))
    if verdict.fewer is not None:
        words.append(f"fewer: {pair_words(verdict.fewer)}")
    if len(made.new) > 1:
        words.append(several_words(made, shared, names))
    return "; ".join(words)


def pair_words(witness: Witness) -> str:
    if witness.topic == witness.new_topic:
        return shown(witness.topic)
    return f"{shown(witness.new_topic)}, which was {shown(witness.topic)}"


def more_words(made: Translation, found: Witness, names: Names | None) -> str:
    if names is None:
        return f"more: {pair_words(found)}"
    for name, new in names:
        if not matches(made.old, name) and any(matches(wanted, new) for wanted in made.new):
            return f"more: {pair_words(Witness(text_of(name), text_of(new)))}"
    return f"more, but no topic of the script: {pair_words(found)}"


def several_words(made: Translation, shared: bool, names: Names | None) -> str:
    words = f"{len(made.new)} filters" + (", each a group of its own" if shared else "")
    words += ", which overlap" if made.overlaps else ""
    idle = [] if names is None else [
        wanted for wanted in made.new if not any(matches(wanted, new) for _, new in names)]
    return words + (f"; {len(idle)} match no topic of the script" if idle else "")


def rule_of(plan: Plan, wanted: Levels) -> int:
    """The line of the one rule that gives the filter's topics new names, or 0."""
    lines = [rule.line for rule in plan.rules
             if rule.right is not None and rule.forth(wanted) is not None]
    return lines[0] if len(lines) == 1 else 0
