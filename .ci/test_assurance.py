#!/usr/bin/env python3
"""Holds .ci/assurance to its word: the page and the tree as they are pass, and what is wrong in one of them is told."""
import os
import re
import shutil
import subprocess
import sys
import tempfile
import unittest

ROOT = os.path.dirname(os.path.dirname(os.path.abspath(__file__)))


def told_of(change, without=None):
    """Status and lines for the tree with its page changed, and without a file."""
    with tempfile.TemporaryDirectory() as folder:
        for part in os.listdir(ROOT):
            if part in (".ci", "docs") or without and without.startswith(f"{part}/"):
                shutil.copytree(f"{ROOT}/{part}", f"{folder}/{part}", ignore=shutil.ignore_patterns("out"))
            elif not part.startswith("."):
                os.symlink(f"{ROOT}/{part}", f"{folder}/{part}")
        if without:
            os.remove(f"{folder}/{without}")
        page = f"{folder}/docs/ASSURANCE.md"
        with open(page, encoding="utf-8") as file:
            text = file.read()
        with open(page, "w", encoding="utf-8") as file:
            file.write(change(text))
        run = subprocess.run([sys.executable, f"{folder}/.ci/assurance"], capture_output=True, text=True, check=False)
        return run.returncode, run.stdout


def swap(old, new):
    def change(text):
        assert old in text, old
        return re.sub(rf"(?<![\w/-]){re.escape(old)}(?!\w)", new, text)
    return change


class Page(unittest.TestCase):
    def wrong(self, change, said, without=None):
        status, lines = told_of(change, without)
        self.assertEqual(status, 1, lines)
        self.assertIn(said, lines)

    def test_as_it_is(self):
        status, lines = told_of(lambda text: text)
        self.assertEqual(status, 0, lines)

    def test_an_edit_that_is_not_there(self):
        self.wrong(swap("make_gap_11", "make_gap_12"), "no edit make_gap_12 in")

    def test_an_edit_that_is_not_named(self):
        self.wrong(lambda text: text.replace("make_gap_11, ", ""), "the edit sender/make_gap_11 stands in no row")

    def test_a_definition_that_is_not_there(self):
        self.wrong(swap("`unless_third`", "`unless_fourth`"), "nothing is called unless_fourth")

    def test_a_definition_of_another_crate(self):
        self.wrong(swap("`tick_open`", "`tick_opening`"), "nothing is called tick_opening")

    def test_a_function_that_is_not_there(self):
        self.wrong(swap("`Sender::post`", "`Sender::poste`"), "nothing is called poste")

    def test_a_file_that_is_not_there(self):
        self.wrong(swap("`tests/face.c`", "`tests/faces.c`"), "no file tests/faces.c")

    def test_a_sample_that_is_not_there(self):
        self.wrong(swap("no-loss", "no-losses"), "no sample or test no-losses")

    def test_a_test_that_is_not_there(self):
        self.wrong(swap("number_of_frames", "number_of_a_frame"), "no sample or test number_of_a_frame")

    def test_a_part_of_the_vectors_that_is_not_there(self):
        self.wrong(lambda text: text.replace("vectors: Group 71", "vectors: Group 81"), "no sample or test vectors: Group 81")

    def test_a_counterexample_that_is_not_there(self):
        for name in ("long_twice", "filler_buffer_refused", "filler_sent_unfilled"):
            proof = f"crates/delivery/counterexamples/{name}.proof"
            self.wrong(lambda text: text, f"{proof}: missing", proof)

    def test_a_counterexample_without_its_edit(self):
        said = "crates/delivery/counterexamples/filler_buffer_refused.proof: there is no such edit"
        self.wrong(lambda text: text, said, "crates/delivery/edits/filler_buffer_refused.edit")


if __name__ == "__main__":
    unittest.main()
