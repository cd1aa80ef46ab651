"""What becomes of a script's subscriptions."""
from collections import defaultdict
from typing import NamedTuple

from ..common.tables import columns, shown
from .asking import Question, verdicts
from .filter_words import NOTHING, Judged, rule_of, verdict_words
from .filters import Levels, split_share, text_of
from .report import Report
from .script_translation import NewScript, Use, Uses, new_filters
from .translator import Translator

HEAD = ["line", "subscriptions", "clients", "first line", "first of them", ""]
ODD_HEAD = ["was", "becomes", "clients", "first line", ""]
BY_OTHERS = "alone it would match more, its clients have that by other subscriptions"


class Subscription(NamedTuple):
    text: str
    use: Use
    share: str
    wanted: Levels
    new: list[str]


class Subscriptions:
    def __init__(self, translator: Translator, made: NewScript) -> None:
        self.translator, self.plan, self.made = translator, translator.plan, made
        self.all = [
            Subscription(text, use, *parts, new_filters(translator, text))
            for text, use in made.subscribed.items() if (parts := split_share(text)) is not None]
        self.judged = Judged(translator, list(dict.fromkeys(one.wanted for one in self.all)))
        self.names = list(made.renamed_topics(self.plan))
        self.by_others = self.had_by_others()

    def had_by_others(self) -> set[str]:
        """The texts whose new filters match more, where each client that subscribes to one had that
        by its other subscriptions."""
        wider = [one for one in self.all if self.judged.verdicts[one.wanted].more is not None]
        asked: dict[tuple[str, str], Question] = {}
        for one in wider:
            for client in one.use.clients:
                asked[client, one.share] = self.of_client(client, one.share)
        questions = list(dict.fromkeys(asked.values()))
        said = dict(zip(questions, verdicts(self.plan, questions)))
        exact = {key for key, question in asked.items()
                 if said[question].asked and said[question].more is None}
        return {one.text for one in wider
                if all((client, one.share) in exact for client in one.use.clients)}

    def of_client(self, client: str, share: str) -> Question:
        olds = [one.wanted for one in self.all if one.share == share and client in one.use.clients]
        news = [new for old in olds for new in self.translator.translation(old).new]
        return tuple(dict.fromkeys(olds)), tuple(dict.fromkeys(news))

    def words(self, one: Subscription) -> str:
        """What is to be looked at; empty where nothing is."""
        made, verdict = self.judged.translations[one.wanted], self.judged.verdicts[one.wanted]
        if one.text in self.by_others and len(made.new) == 1 and verdict.fewer is None:
            return BY_OTHERS
        return verdict_words(made, verdict, bool(one.share), self.names)

    def report(self, report: Report, script: str) -> None:
        exact: defaultdict[int, list[Subscription]] = defaultdict(list)
        odd, same = [ODD_HEAD], 0
        for one in self.all:
            words = self.words(one)
            self.report_object(report, one, words)
            if words:
                odd += self.odd_rows(one, words)
            elif one.new == [one.text]:
                same += 1
            else:
                exact[rule_of(self.plan, one.wanted)].append(one)
        changed = sum(map(len, exact.values()))
        report.blank()
        report.lines.append(f"Subscriptions of {script}: {len(self.all)}, of which {same} stay, "
                            f"{changed} become one other that matches exactly what they did")
        report.lines += exact_table(exact)
        if len(odd) > 1:
            report.odd = True
            report.lines += ["", "To be looked at", *columns(odd, (2, 3))]
        report.blank()
        self.report_meetings(report, script)

    def report_object(self, report: Report, one: Subscription, words: str) -> None:
        wider = self.judged.translations[one.wanted].wider
        report.objects.append({
            "kind": "subscription", "was": one.text, "becomes": one.new,
            "clients": list(one.use.clients), "line": one.use.first, "words": words,
            "or": None if wider is None else one.share + text_of(wider)})

    def odd_rows(self, one: Subscription, words: str) -> list[list[str]]:
        first, *others = one.new or [NOTHING]
        rows = [[shown(one.text), shown(first), str(len(one.use.clients)), str(one.use.first),
                 words]]
        rows += [["", shown(new), "", "", ""] for new in others]
        wider = self.judged.translations[one.wanted].wider
        if wider is not None:
            rows.append(["", f"or {shown(one.share + text_of(wider))}", "", "",
                         self.judged.wider_words(one.wanted)])
        return rows

    def report_meetings(self, report: Report, script: str) -> None:
        """Two texts of a client that become one filter, and two groups that become one."""
        for (one, other, new), (line, clients) in self.shared_filters().items():
            more = f" and {len(clients) - 1} more" if len(clients) > 1 else ""
            of = shown(clients[0]) + more
            report.remark(script, line, f"{shown(one)} and {shown(other)} of {of} share "
                          f"{shown(new)}: who unsubscribes from the one, or subscribes again, "
                          "changes the other", clients=clients, filter=new)
        groups: defaultdict[str, list[Subscription]] = defaultdict(list)
        for one_group in self.all:
            for new in one_group.new if one_group.share else ():
                groups[new].append(one_group)
        for new, found in groups.items():
            if len(found) > 1:
                names = " and ".join(shown(group.text) for group in found)
                report.remark(script, found[1].use.first,
                              f"the groups {names} become one, {shown(new)}", filter=new)

    def shared_filters(self) -> dict[tuple[str, str, str], tuple[int, list[str]]]:
        """Pairs of texts that become one filter of a client, which has one subscription for it:
        with the line of the second one, and the clients."""
        found: dict[tuple[str, str, str], tuple[int, list[str]]] = {}
        first: dict[tuple[str, str], str] = {}
        for uses in (self.made.subscribed, self.made.unsubscribed):
            for text, client, new, line in self.each_use(uses):
                one = first.setdefault((client, new), text)
                if one != text:
                    clients = found.setdefault((one, text, new), (line, []))[1]
                    clients += [] if client in clients else [client]
        return found

    def each_use(self, uses: Uses) -> list[tuple[str, str, str, int]]:
        return [(text, client, new, use.first) for text, use in uses.items()
                if split_share(text) is not None
                for new in new_filters(self.translator, text) for client in use.clients]


def exact_table(exact: dict[int, list[Subscription]]) -> list[str]:
    rows = [HEAD]
    for line, found in sorted(exact.items()):
        clients = {client for one in found for client in one.use.clients}
        rows.append([str(line or ""), str(len(found)), str(len(clients)), str(found[0].use.first),
                     shown(found[0].text), f"-> {shown(found[0].new[0])}"])
    return columns(rows, (0, 1, 2, 3)) if exact else []
