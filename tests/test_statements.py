"""tests/statements.py says what isn't covered, or covered by nothing that can fail."""
import unittest
from dataclasses import dataclass

import statements

CASE = "01-names", "one"


@dataclass
class Mutant:
    statement: str
    says: str = "it is wrong"


def faults(why="", held=None, named=("MQTT-1.1.1-1",), failed=(CASE,)):
    mutants = {"MQTT-1.1.1-1": Mutant("MQTT-1.1.1-1")} if held is None else held
    runs = {name: (set(failed), "") for name in mutants}
    return list(statements.faults_of_statements(
        {"MQTT-1.1.1-1": ("says", why)}, {CASE: list(named)}, mutants, runs))


class Faults(unittest.TestCase):
    def test_covered(self):
        self.assertEqual(faults(), [])
        self.assertEqual(faults(why="none can be", held={}, named=()), [])

    def test_of_a_statement(self):
        for found, said in (
                (faults(failed=()), "MQTT-1.1.1-1: no case that names it fails where it is wrong"),
                (faults(named=()), "MQTT-1.1.1-1: no case names it"),
                (faults(held={}), "MQTT-1.1.1-1: no mutant and no reason"),
                (faults(why="x"), "MQTT-1.1.1-1: a reason and a mutant"),
                (faults(named=("MQTT-1.1.1-1", "MQTT-2")),
                 "01-names/one names MQTT-2, which conformance/statements hasn't"),
                (faults(held={"MQTT-1.1.1-1": Mutant("MQTT-1.1.1-1"), "MQTT-3": Mutant("MQTT-3")}),
                 "MQTT-3: MQTT-3 isn't in conformance/statements")):
            self.assertEqual(found, [said])

    def test_of_a_case(self):
        """It fails on the plain broker, or on no mutant."""
        right, wrong = (set(), ""), ({CASE}, "")
        for failed, said in (({"/01-names": right, "MQTT-1": wrong}, []),
                             ({"/01-names": wrong, "MQTT-1": wrong},
                              ["01-names/one fails on the plain broker"]),
                             ({"/01-names": right, "MQTT-1": right},
                              ["01-names/one fails on no mutant"])):
            self.assertEqual(list(statements.faults_of_cases({CASE: []}, failed)), said)


class Patience(unittest.TestCase):
    def run_with(self, mutant, *answers):
        """What comes of runs that answer so, in turn, and how long each waited."""
        runs, left, patiences = statements.Runs("python3"), list(answers), []

        def run(_mutant, _folder, patience):
            patiences.append(patience)
            return left.pop(0)
        runs.run = run
        return runs.failed(mutant, []), patiences

    def test_a_busy_machine(self):
        """A broker that couldn't be asked is asked again, and so is a plain one that differs."""
        right, wrong, unasked = (set(), ""), ({CASE}, ""), (set(), "no CONNACK")
        for mutant, answers, wanted in (("MQTT-1", [unasked, wrong], wrong),
                                        ("MQTT-1", [wrong], wrong), ("MQTT-1", [right], right),
                                        ("", [wrong, right], right), ("", [right], right),
                                        ("", [unasked, wrong, wrong], wrong)):
            got, patiences = self.run_with(mutant, *answers)
            self.assertEqual(got, wanted)
            self.assertEqual(patiences, list(statements.PATIENCES[:len(answers)]))


if __name__ == "__main__":
    unittest.main()
