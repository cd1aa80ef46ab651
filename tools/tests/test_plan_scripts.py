"""Random scripts under random plans: where mqroute-plan has nothing to be looked at, nobody loses
or gains anything."""
import json
import random
import tempfile
import unittest
from pathlib import Path

from plan_names import NAMES, random_filter, random_plan
from test_plan import wants_programs
from worked import PROGRAM
from mqroute_tools.common.exit_status import Fault
from mqroute_tools.losses.by_plan import ByPlan
from mqroute_tools.losses.comparison import Losses
from mqroute_tools.plan.check import report_script
from mqroute_tools.plan.filters import levels
from mqroute_tools.plan.report import Report
from mqroute_tools.plan.script_translation import rewritten
from mqroute_tools.plan.topic_plan import Plan
from mqroute_tools.plan.translator import Translator
from mqroute_tools.script.oracle import answers
from mqroute_tools.script.output import Command

CLIENTS = ("c1", "c2", "c3", "c4")
TOPICS = [name for name in NAMES if name.count("/") < 3]


def random_script(chance: random.Random, plan: Plan) -> list[Command]:
    """Mostly of topics that get other names."""
    found: list[Command] = [{"do": "connect", "client": client} for client in CLIENTS]
    topics = chance.sample(TOPICS, 60)
    topics.sort(key=lambda topic: plan.new_name(levels(topic)) in (None, levels(topic)))
    topics, filters = topics[:4], [random_filter(chance)]
    filters += chance.sample(topics, 2)
    filters += [f"$share/g/{filters[0]}"]
    for _ in range(30):
        client, kind = chance.choice(CLIENTS), chance.random()
        if kind < 0.6:
            found.append({"do": "publish", "client": client, "topic": chance.choice(topics),
                          "payload": str(len(found)), "qos": chance.randint(0, 2),
                          "retain": chance.random() < 0.3})
        elif kind < 0.9:
            found.append({"do": "subscribe", "client": client, "filter": chance.choice(filters),
                          "qos": chance.randint(0, 2), "rap": chance.random() < 0.3})
        else:
            found.append({"do": "unsubscribe", "client": client,
                          "filter": chance.choice(filters)})
    return found


@wants_programs
class Scripts(unittest.TestCase):
    def setUp(self) -> None:
        folder = tempfile.TemporaryDirectory()
        self.addCleanup(folder.cleanup)
        self.folder = Path(folder.name)

    def losses(self, plan: Plan, old: bytes, new: bytes) -> Losses:
        for name, script in (("old", old), ("new", new)):
            (self.folder / name).write_bytes(script)
            texts = [text for block in answers([str(PROGRAM)], script) for text in block.texts()]
            (self.folder / f"{name}.out").write_text("".join(texts), encoding="utf-8")
        names = [str(self.folder / name) for name in ("old", "new", "old.out", "new.out")]
        losses = Losses(None)
        ByPlan(losses, plan, (names[0], names[1]), (names[2], names[3])).compare()
        return losses

    def test_nothing_to_be_looked_at(self):
        changed = copies = 0
        for seed in range(90):
            chance = random.Random(seed)
            plan = random_plan(chance)
            lines = [json.dumps(one).encode() for one in random_script(chance, plan)]
            translator, report = Translator(plan), Report()
            made = rewritten(translator, lines)
            try:
                report_script(report, translator, "script", made)
            except Fault as fault:  # a rule by which some name would be empty
                self.assertIn("or an empty one", str(fault))
                continue
            if report.odd or made.old_text() == made.new_text():
                continue
            with self.subTest(seed=seed, plan=plan.text):
                losses = self.losses(plan, made.old_text(), made.new_text())
                self.assertEqual((losses.changed_copies(), losses.changed_refusals()), ([], []))
                changed += 1
                copies += losses.totals().before
        self.assertGreater(changed, 10)
        self.assertGreater(copies, 100)


if __name__ == "__main__":
    unittest.main()
