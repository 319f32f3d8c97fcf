#!/usr/bin/env python3
"""Holds .ci/refusal to stored logs of real checks (.ci/refusals/; lines are cut): a file's name begins with what it must be taken
for; and to lines made here."""
import glob
import os
import subprocess
import sys
import tempfile
import unittest

HERE = os.path.dirname(os.path.abspath(__file__))
SAYS = {"fact": "refused, ", "form": "refused for its form alone: ", "unrefused": "NOT REFUSED: "}


def refusal(*words):
    run = subprocess.run([sys.executable, f"{HERE}/refusal", *words], capture_output=True, text=True, check=False)
    return run.returncode, run.stdout


class Stored(unittest.TestCase):
    def test_each_log(self):
        logs = sorted(glob.glob(f"{HERE}/refusals/*.log"))
        self.assertGreaterEqual(len(logs), 22)
        for log in logs:
            kind = os.path.basename(log).split("_")[0]
            with self.subTest(os.path.basename(log)):
                status, said = refusal(log)
                self.assertTrue(said.startswith(SAYS[kind]), said)
                self.assertEqual(status, 0 if kind == "fact" else 1)


class OneFunction(unittest.TestCase):
    """Of a log that speaks of several functions, one alone is judged."""

    def judged(self, log, proofs):
        status, said = refusal(f"{HERE}/refusals/{log}.log", proofs)
        return status, said.split(": ")[0].split(",")[0].strip()

    def test_by_its_own_goals(self):
        log = "fact_beside_form_in_another_function"
        self.assertEqual(self.judged(log, "count/carried"), (0, "refused"))
        self.assertEqual(self.judged(log, "read/read"), (1, "refused for its form alone"))
        self.assertEqual(self.judged(log, "read/used"), (1, "refused for its form alone"))

    def test_by_its_own_proof(self):
        log = "fact_equation_missing"
        self.assertEqual(self.judged(log, "build/information"), (0, "refused"))
        self.assertEqual(self.judged(log, "build/eight_bytes")[0], 1)
        self.assertEqual(self.judged(log, "information")[0], 1)

    def test_an_error_in_a_definition_is_everyones(self):
        self.assertEqual(self.judged("form_definition_ill_typed", "count/carried")[0], 1)

    def test_an_error_before_the_prover_is_everyones(self):
        self.assertEqual(self.judged("unrefused_rejected_before_the_prover", "count/carried"), (1, "NOT REFUSED"))


# Lines as a check prints them. The goal `returns-then-x` is answered in proofs/one/Answers.antt.
UNPROVED = "./proofs/one/Answers.antt:9:13: error: `{}`: `search`: no proof of `a ≡ b`"
GONE = (
    "./proofs/one/Answers.antt:5:9: error: `{0}`: `goal.{0}`: module `Rattle.made.proofs.one.Goals` has no `{0}` that can be named "
    "from here"
)
LEFT = "note: src/lib.rt:7:1: it is not proved that what the function ensures holds when it returns (`returns`)"
VALUES = "; the facts known there allow values at which this goal is false"
OF_ONE = "fn made::one: not proved"
FIELD_GONE = "./proofs/one/Answers.antt:5:9: error: `returns-else-x`: record `After` has no field `if-x`"
IMPORT_GONE = "./proofs/{}:2:40: error: module `Rattle.made.proofs.Laws` has no `law` that can be named from here"
FOLLOWS = "./proofs/{}:5:1: error: 2 declarations that depend on `law`, which was {}, were not checked: laws, all"


class Made(unittest.TestCase):
    def judged(self, *lines):
        """Whether a fact was refused by a check that says these lines."""
        with tempfile.NamedTemporaryFile("w", encoding="utf-8", suffix=".log") as log:
            log.write("\n".join([*lines, OF_ONE, "logic=not-proved", ""]))
            log.flush()
            return refusal(log.name)[0] == 0

    def test_an_answer(self):
        self.assertTrue(self.judged(UNPROVED.format("returns")))

    def test_an_answer_beside_a_goal_that_is_gone(self):
        """Goals of another place have stayed; those of the same one may be numbered anew."""
        self.assertTrue(self.judged(GONE.format("returns-then-x"), UNPROVED.format("returns")))
        self.assertFalse(self.judged(GONE.format("returns-then-x-2"), UNPROVED.format("returns-then-x")))
        self.assertFalse(self.judged(GONE.format("returns-then-x"), UNPROVED.format("returns-then-x-2")))
        self.assertTrue(self.judged(GONE.format("returns-then-x-2"), UNPROVED.format("returns-then-xx")))

    def test_an_answer_beside_one_that_names_what_is_gone(self):
        self.assertTrue(self.judged(FIELD_GONE, UNPROVED.format("returns")))
        self.assertFalse(self.judged(FIELD_GONE))

    def test_an_answer_in_a_file_that_cannot_be_read(self):
        self.assertFalse(self.judged(IMPORT_GONE.format("one/Answers.antt"), UNPROVED.format("returns")))
        self.assertTrue(self.judged(IMPORT_GONE.format("two/Answers.antt"), UNPROVED.format("returns")))

    def test_a_goal_that_the_search_leaves(self):
        """Where an answer or a lemma no longer fits, the values tell."""
        self.assertTrue(self.judged(LEFT))
        for misfit in (GONE.format("returns-then-x"), FIELD_GONE, IMPORT_GONE.format("Laws.antt")):
            self.assertFalse(self.judged(misfit, LEFT))
            self.assertTrue(self.judged(misfit, LEFT + VALUES))
        self.assertTrue(self.judged(IMPORT_GONE.format("two/Answers.antt"), LEFT))

    def test_what_follows(self):
        for how in ("rejected", "not admitted"):
            self.assertFalse(self.judged(FOLLOWS.format("Laws.antt", how)))
            self.assertFalse(self.judged(FOLLOWS.format("one/Answers.antt", how)))
            self.assertTrue(self.judged(FOLLOWS.format("one/Answers.antt", how), LEFT))

    def test_form_in_the_code_or_a_definition(self):
        for file in ("src/lib.rt", "./specs/Rule.antt"):
            error = file + ":3:1: error: `rule`: expected type `ℕ`, but this has type `Bool`"
            self.assertFalse(self.judged(error, UNPROVED.format("returns"), LEFT + VALUES))


if __name__ == "__main__":
    unittest.main()
