#!/usr/bin/env python3
"""Holds .ci/edits to what it tells of an edit: the one function in whose body it is, and which edits one check may try."""
import importlib.machinery
import importlib.util
import os
import shutil
import sys
import tempfile
import unittest

HERE = os.path.dirname(os.path.abspath(__file__))
sys.dont_write_bytecode = True
LOADER = importlib.machinery.SourceFileLoader("edits", f"{HERE}/edits")
edits = importlib.util.module_from_spec(importlib.util.spec_from_loader("edits", LOADER))
LOADER.exec_module(edits)

SOURCE = """// one { brace in a comment
use crate::Ring;

const SIZE: u8 = 8;

fn above(x: u8) -> bool
    requires { x < 9 }
    ensures bounded { x.low ≡ record { a = 1 } }
    ensures* held { ⌜ x.low ≡ 4 ⌝ }
{
    if x < 1 { false } else { 2 < x }
}

impl Ring {
    pub fn next(self) -> u8 {
        self.at + 3
    }

    pub fn last(self) -> u8
        ensures { self.at + 5 }
    {
        self.at + 4
    }
}
"""


class Function(unittest.TestCase):
    def of(self, *olds, file="src/ring.rt"):
        """The function of an edit that replaces these texts of SOURCE."""
        with tempfile.TemporaryDirectory() as folder:
            os.makedirs(f"{folder}/crates/one/src")
            for path in (f"{folder}/crates/one/{file}", f"{folder}/edit"):
                with open(path, "w", encoding="utf-8") as out:
                    out.write(SOURCE if path.endswith(".rt") else f"file: {file}\n" + "".join(f"old: {o}\nnew: x\n" for o in olds))
            root, edits.ROOT = edits.ROOT, folder
            try:
                return edits.function_of("one", f"{folder}/edit")
            finally:
                edits.ROOT = root

    def test_a_body(self):
        self.assertEqual(self.of("2 < x"), "ring/above")
        self.assertEqual(self.of("2 < x", file="src/lib.rt"), "above")
        self.assertEqual(self.of("self.at + 3"), "Ring/next")
        self.assertEqual(self.of("self.at + 4"), "Ring/last")

    def test_two_places_of_one_body(self):
        self.assertEqual(self.of("x < 1", "2 < x"), "ring/above")

    def test_anything_else_is_of_no_one_function(self):
        for olds in (
            ["x < 9"],  # a contract
            ["a = 1"],
            ["x.low ≡ 4"],
            ["self.at + 5"],
            ["SIZE: u8 = 8"],  # no function
            ["(x: u8)"],  # a signature
            ["self.at + 3", "2 < x"],  # two functions
            ["self.at + "],  # several places
            ["not there"],
        ):
            with self.subTest(olds):
                self.assertIsNone(self.of(*olds))


class Checks(unittest.TestCase):
    def test_every_edit_is_tried_once_and_no_function_twice_in_a_check(self):
        for name in ("receiver", "delivery"):
            checks = edits.checks_of(name)
            tried = [edit for check in checks for edit, _ in check]
            self.assertEqual(sorted(tried), sorted(edits.edits_of(name)))
            for check in checks:
                functions = [function for _, function in check if function]
                self.assertEqual(len(set(functions)), len(check) if len(check) > 1 else len(functions))
                self.assertLessEqual(len(check), edits.TOGETHER)

    def test_the_must_fail_edits_are_among_them(self):
        for name in sorted(os.listdir(f"{edits.ROOT}/crates")):
            folder = f"{edits.ROOT}/crates/{name}/must-fail"
            paths = {f"{folder}/{file}" for file in os.listdir(folder) if file.endswith(".edit")} if os.path.isdir(folder) else set()
            self.assertLessEqual(paths, set(edits.edits_of(name)))
        self.assertEqual(edits.label_of("line", "/crates/line/must-fail/one.edit"), "line/must-fail/one")
        self.assertEqual(edits.label_of("line", "/crates/line/edits/one.edit"), "line/one")


class Tried(unittest.TestCase):
    """What a check with three edits settles, where the prover is stood in for."""

    def tried(self, together, alone, fits=True, file="specs/One.antt"):
        """Of each edit whether it passes, and which edits each check has; `together` and `alone` name those refused, `together`
        for each check of several in its turn."""
        checks, tree = [], []
        kept = edits.replaced, edits.applied, edits.answers_follow, edits.checked, edits.refused
        edits.replaced = lambda edit: [(file, edit)]
        edits.applied = lambda copy, name, some: tree.__setitem__(slice(None), some) or ("" if fits or len(some) == 1 else "no")
        edits.answers_follow = lambda copy, name: None
        edits.checked = lambda copy, name: checks.append("".join(tree))
        edits.refused = lambda copy, function=None: ((function or tree[0]) in (together[len(checks) - 1] if function else alone), "")
        try:
            found = {edit: good for edit, good, _ in edits.tried_check("copy", "one", [(e, e) for e in "abc"])}
        finally:
            edits.replaced, edits.applied, edits.answers_follow, edits.checked, edits.refused = kept
        return found, checks

    def test_all_refused_together(self):
        self.assertEqual(self.tried(["abc"], ""), ({"a": True, "b": True, "c": True}, ["abc"]))

    def test_what_is_not_refused_together_is_tried_alone(self):
        self.assertEqual(self.tried(["ac"], "b"), ({"a": True, "b": True, "c": True}, ["abc", "b"]))
        self.assertEqual(self.tried(["ac"], ""), ({"a": True, "b": False, "c": True}, ["abc", "b"]))

    def test_an_edit_of_code_is_tried_again_with_answers_that_follow(self):
        self.assertEqual(self.tried(["ac"], "", file="src/lib.rt"), ({"a": True, "b": False, "c": True}, ["abc", "b", "b"]))
        self.assertEqual(self.tried(["ac"], "b", file="src/lib.rt"), ({"a": True, "b": True, "c": True}, ["abc", "b"]))

    def test_what_is_left_is_tried_together_while_that_settles_some(self):
        self.assertEqual(self.tried(["a", "b"], "c"), ({"a": True, "b": True, "c": True}, ["abc", "bc", "c"]))
        self.assertEqual(self.tried(["a", ""], "b"), ({"a": True, "b": True, "c": False}, ["abc", "bc", "b", "c"]))
        self.assertEqual(self.tried([""], "abc"), ({"a": True, "b": True, "c": True}, ["abc", "a", "b", "c"]))

    def test_edits_that_do_not_fit_together_are_tried_alone(self):
        self.assertEqual(self.tried([], "ab", fits=False), ({"a": True, "b": True, "c": False}, ["a", "b", "c"]))


class Copied(unittest.TestCase):
    """A small repository of its own."""

    def setUp(self):
        folder = tempfile.TemporaryDirectory()
        self.addCleanup(folder.cleanup)
        self.root, self.copy = f"{folder.name}/root", f"{folder.name}/copy"
        for path, text in {
            "crates.txt": "low:   # lowest\nside: low\nhigh staticlib: low std\n",
            "crates/low/src/lib.rt": "low\n",
            "crates/low/specs/Lib.antt": "pub mod Low\n",
            "crates/low/edits/one.edit": "",
            "crates/low/out/rlib/stamp": "built\n",
            "crates/low/out/incremental/kept.oantt": "checked\n",
            "crates/side/src/lib.rt": "side\n",
            "crates/high/src/lib.rt": "let one = 1;\n",
            "crates/high/out/incremental/kept.oantt": "checked\n",
            "crates/high/out/incremental/offers": "told\n",
            "crates/high/edits/one.edit": "file: src/lib.rt\nold: one = 1\nnew: one = 2\n",
            "crates/high/edits/two.edit": "file: src/lib.rt\nold: two\nnew: one\n",
        }.items():
            os.makedirs(os.path.dirname(f"{self.root}/{path}"), exist_ok=True)
            with open(f"{self.root}/{path}", "w", encoding="utf-8") as file:
                file.write(text)
        os.makedirs(f"{self.root}/.ci")
        shutil.copy(f"{HERE}/apply", f"{self.root}/.ci")
        self.addCleanup(setattr, edits, "ROOT", edits.ROOT)
        edits.ROOT = self.root

    def files(self):
        return sorted(os.path.relpath(f"{at}/{name}", self.copy) for at, _, names in os.walk(self.copy) for name in names)

    def read(self, path):
        with open(path, encoding="utf-8") as file:
            return file.read()

    def test_a_copy_has_what_the_crate_stands_on_and_begins_with_what_was_checked(self):
        edits.copied(self.copy, "high")
        low = ["crates/low/out/rlib/stamp", "crates/low/specs/Lib.antt", "crates/low/src/lib.rt"]
        self.assertEqual(self.files(), ["crates.txt", *low])
        self.assertEqual(self.read(f"{self.copy}/crates.txt"), "low:   # lowest\nhigh staticlib: low std\n")
        self.assertEqual(edits.applied(self.copy, "high", [f"{self.root}/crates/high/edits/one.edit"]), "")
        high = ["crates/high/out/incremental/kept.oantt", "crates/high/out/incremental/offers", "crates/high/src/lib.rt"]
        self.assertEqual(self.files(), ["crates.txt", *high, *low])
        self.assertEqual(self.read(f"{self.copy}/crates/high/src/lib.rt"), "let one = 2;\n")
        self.assertEqual(self.read(f"{self.root}/crates/high/src/lib.rt"), "let one = 1;\n")

    def test_each_check_begins_anew(self):
        edits.copied(self.copy, "high")
        edits.applied(self.copy, "high", [f"{self.root}/crates/high/edits/one.edit"])
        # What a check does: it replaces what it checked, and writes into other files.
        kept = f"{self.copy}/crates/high/out/incremental"
        os.remove(f"{kept}/kept.oantt")
        for name in ("kept.oantt", "offers", "new"):
            with open(f"{kept}/{name}", "a", encoding="utf-8") as file:
                file.write("another\n")
        self.assertEqual(edits.applied(self.copy, "high", []), "")
        self.assertEqual(self.read(f"{self.copy}/crates/high/src/lib.rt"), "let one = 1;\n")
        for at in (kept, f"{self.root}/crates/high/out/incremental"):
            self.assertEqual({name: self.read(f"{at}/{name}") for name in os.listdir(at)}, {"kept.oantt": "checked\n", "offers": "told\n"})

    def test_an_edit_that_cannot_be_applied(self):
        edits.copied(self.copy, "high")
        edit = f"{self.root}/crates/high/edits/two.edit"
        self.assertIn("0 times", edits.applied(self.copy, "high", [edit]))
        found = list(edits.tried_check(self.copy, "high", [(edit, None)]))
        self.assertEqual([(good, said.split(":")[0]) for _, good, said in found], [(False, "BAD EDIT")])


class Followed(unittest.TestCase):
    """What is made of a function's answers where an edit changes the texts after which goals and steps are named."""

    BEFORE = {"goals": ["returns-then-x-lt1", "returns"], "steps": ["if-x-lt1"], "arms": ["", "in-V"], "loops": ["invariant-loop-i"]}
    ANSWERS = (
        "pub returns-then-x-lt1 : goal.returns-then-x-lt1\n"
        "returns-then-x-lt1 c = cc (c.if-x-lt1.true, returns-then-x-lt10)\n"
        "abbrev pub invariant-loop-i : goal.invariant-loop-i\n"
    )

    def test_names_that_changed(self):
        after = {"goals": ["returns-then-x-lt2", "returns"], "steps": ["if-x-lt2"], "arms": ["", "in-V"], "loops": ["invariant-loop-j"]}
        self.assertEqual(
            edits.followed(self.ANSWERS, self.BEFORE, after),
            "pub returns-then-x-lt2 : goal.returns-then-x-lt2\n"
            "returns-then-x-lt2 c = cc (c.if-x-lt2.true, returns-then-x-lt10)\n"
            "abbrev pub invariant-loop-j : goal.invariant-loop-j\n",
        )

    def test_names_that_change_places(self):
        before = {"goals": ["returns-then-f", "returns-else-f"], "steps": [], "arms": [], "loops": []}
        after = {"goals": ["returns-else-f", "returns-then-f"], "steps": [], "arms": [], "loops": []}
        text = "returns-then-f c = one\nreturns-else-f c = other\n"
        self.assertEqual(edits.followed(text, before, after), "returns-else-f c = one\nreturns-then-f c = other\n")

    def test_the_same_names(self):
        self.assertEqual(edits.followed(self.ANSWERS, self.BEFORE, self.BEFORE), self.ANSWERS)

    def test_another_shape(self):
        after = self.BEFORE | {"goals": ["returns-then-x-lt2", "returns", "returns-2"]}
        self.assertEqual(edits.followed(self.ANSWERS, self.BEFORE, after), self.ANSWERS)
        self.assertEqual(edits.followed(self.ANSWERS, self.BEFORE, {}), self.ANSWERS)

    def test_the_names_of_one_function(self):
        made = {
            "needs": [["add-result", "overflow_add-result"], ["returns", "returns"]],
            "places": [["Start", None, ["", ""], None, []], ["Then1", "Start", ["if1", "if-x-lt1"], None, []]],
            "arms": [None, ["in-V", 1, []]],
            "loops": [[["loop", "loop-i"], ["x", "i"]]],
        }
        self.assertEqual(
            edits.names_of(made),
            {
                "goals": ["overflow_add-result", "returns"],
                "steps": ["", "if-x-lt1"],
                "arms": ["", "in-V"],
                "loops": ["invariant-loop-i", "decreases-loop-i"],
            },
        )


if __name__ == "__main__":
    unittest.main()
