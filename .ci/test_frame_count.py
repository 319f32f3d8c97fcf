#!/usr/bin/env python3
"""Holds .ci/frame-count to its word: a count by arithmetic alone passes, and every other way to find it is told."""
import json
import os
import shutil
import subprocess
import sys
import tempfile
import unittest

HERE = os.path.dirname(os.path.abspath(__file__))
CRATES = """frame:
sender: frame
kospelna: sender
kospelna_c staticlib: kospelna
kospelna_summary_c staticlib: kospelna
play: sender
"""
OWN = {"kospelna_c": "src/lib.rt", "kospelna_summary_c": "src/lib.rt", "play": "src/main.rt"}
BUILT = {
    "libkospelna.a": "target/staticlib/libkospelna.a",
    "libkospelna_summary.a": "target/staticlib/libkospelna_summary.a",
    "play": "crates/play/out/play",
}
STANDARD = ("core", "std", "std_alloc", "std_collections", "std_heap", "std_io")


def local(number, *steps):
    return {"local": number, "steps": [*steps]}


def copy(number, *steps):
    return {"Copy": local(number, *steps)}


def constant(value, width=64):
    return {"Int": {"width": width, "value": value}}


def assign(to, value, *steps):
    return {"Assign": [local(to, *steps), value]}


def cast(width, of):
    return {"Op1": [{"Cast": ["Unsigned", "Unsigned", width]}, of]}


def operation(name, left, right):
    return {"Op2": [{name: "Unsigned"}, left, right]}


WIDER = assign(2, cast(64, copy(1)))
SUM = assign(3, operation("Add", copy(2), constant(6)))
PRODUCT = assign(4, operation("Mul", copy(3), constant(74899)))
SHIFT = assign(5, operation("Shr", copy(4), constant(19)))
NARROWER = assign(0, cast(16, copy(5)))
COUNT = [WIDER, SUM, PRODUCT, SHIFT, NARROWER]

MACHINE = """
0000000000000000 <kospelna_clean_figures_of>:
   8:\tja     2a <kospelna_clean_figures_of+0x2a>
  12:\timul   $0x12493,%edi,%ecx
  18:\tadd    $0x6db72,%ecx
  1e:\tshr    $0x13,%ecx
  21:\timul   %ecx,%esi
  28:\tjmp    34 <kospelna_clean_figures_of+0x34>
"""


def function(name, statements):
    """A function as a library has it: what comes between two statements, and each of them."""
    body = [part for statement in statements for part in ("Seq", statement)] + ["Return"]
    return [name, {"params": 1, "body": body}]


def written(folder, path, text):
    """A file of the folder; none where the text is None."""
    if text is not None:
        os.makedirs(os.path.dirname(f"{folder}/{path}"), exist_ok=True)
        with open(f"{folder}/{path}", "w", encoding="utf-8") as file:
            file.write(text)
        os.chmod(f"{folder}/{path}", 0o755)


def library(name, *functions):
    return f"rlib/{name}.rlib/toolchain/mir.json", json.dumps(functions)


def told(count=None, name="frame::count::frame_count", beside=(), machine=MACHINE, **other):
    """Status and lines of the check where the code is this, the same in all three; `beside` is one more function of sender. Of
    `other` each is a text in the place of a file: of a crate's own code, by the crate; of a built file, by its name; of the standard
    library's functions, "std"; None for a missing one."""
    with tempfile.TemporaryDirectory() as folder:
        shutil.copy(f"{HERE}/frame-count", folder)
        os.mkdir(f"{folder}/.ci")
        os.rename(f"{folder}/frame-count", f"{folder}/.ci/frame-count")
        written(folder, "crates.txt", CRATES)
        count = [function(name, COUNT if count is None else count)]
        for crate, functions in {"frame": count, "sender": [*beside], "kospelna": []}.items():
            path, text = library(crate, *functions)
            written(folder, f"crates/{crate}/out/{path}", other.get(crate, text))
        for crate, path in OWN.items():
            written(folder, f"crates/{crate}/{path}", other.get(crate, "// The count / 7 is elsewhere.\nfn main() {}\n"))
        for built, path in BUILT.items():
            written(folder, path, other.get(f"{built}.s", machine))
        for crate in STANDARD:
            path, text = library(crate)
            written(folder, "kit/rlibs/" + path.removeprefix("rlib/"), other.get(crate, text))
        written(folder, "bin/rt", f"#!/bin/sh\necho {folder}/kit/START-HERE.md\n")
        written(folder, "bin/objdump", '#!/bin/sh\ncat "$3"\n')
        run = subprocess.run(
            [sys.executable, f"{folder}/.ci/frame-count"], capture_output=True, text=True, check=False,
            env=dict(os.environ, PATH=f"{folder}/bin:{os.environ['PATH']}"),
        )
        return run.returncode, run.stdout + run.stderr


class Written(unittest.TestCase):
    def test_arithmetic_alone(self):
        self.assertEqual(
            told(),
            (0, "frame-count: arithmetic alone, compiled without a division or a jump: "
                "1 in libkospelna.a, 1 in libkospelna_summary.a, 1 in play\n"),
        )

    def test_a_division_by_a_power_of_two(self):
        for name in ("Div", "Rem"):
            halved = assign(5, operation(name, copy(4), constant(524288)))
            self.assertEqual(told([WIDER, SUM, PRODUCT, halved, NARROWER])[0], 0)

    def test_all_else_is_told(self):
        for name, others in {
            "division by seven": [assign(5, operation("Div", copy(3), constant(7)))],
            "remainder by seven": [assign(5, operation("Rem", copy(3), constant(7)))],
            "division by 0": [assign(5, operation("Div", copy(3), constant(0)))],
            "division by a number that is not known": [assign(5, operation("Div", copy(3), copy(2)))],
            "branch": ["Seq", {"If": copy(4)}, SHIFT, "Skip"],
            "branch by a number": ["Seq", {"Switch": [copy(4), [[0]], True]}, SHIFT, SHIFT],
            "loop": ["Seq", "Block", "Loop", SHIFT],
            "call": ["Seq", {"Call": [{"Direct": "frame::count::low_byte"}, [copy(4)], local(5)]}],
            "read of a table": [assign(5, {"Opd": copy(4, {"Deref": {"Int": 8}})})],
            "part of a value": [assign(5, {"Opd": copy(4, {"Field": 0})})],
            "write to memory": [assign(4, {"Opd": constant(0, 8)}, {"Deref": {"Int": 8}})],
            "order": [assign(5, operation("Le", copy(4), constant(7)))],
            "comparison": [assign(5, {"Op2": ["Eq", copy(4), constant(7)]})],
        }.items():
            with self.subTest(name):
                status, said = told([WIDER, SUM, PRODUCT, *others, NARROWER])
                self.assertEqual(status, 1)
                self.assertIn("frame::count::frame_count: it is not arithmetic alone: ", said)

    def test_no_product_or_two(self):
        second = assign(4, operation("Mul", copy(3), constant(9363)))
        for count, statements in {0: [WIDER, NARROWER], 2: [*COUNT[:3], second, *COUNT[3:]]}.items():
            said = f"frame::count::frame_count: not one product by a constant, but {count}\n"
            self.assertEqual(told(statements), (1, said))

    def test_a_second_place_that_divides_by_seven(self):
        for name in ("Div", "Rem"):
            rest = function("sender::begin::frames", [assign(3, operation(name, copy(2), constant(7, 16)))])
            self.assertEqual(told(beside=[rest]), (1, "sender::begin::frames: it divides by 7\n"))
            of_std = json.dumps([function("std::days::week", [assign(3, operation(name, copy(2), constant(7, 16)))])])
            self.assertEqual(told(std=of_std), (1, "std::days::week: it divides by 7\n"))
        digits = function("sender::digits", [assign(3, operation("Div", copy(2), constant(10, 16)))])
        self.assertEqual(told(beside=[digits])[0], 0)

    def test_a_crate_of_the_built_files_that_divides_by_seven(self):
        for crate, path in OWN.items():
            for divides in ("x / 7", "x % 7", "x /= 7;", "x/7"):
                said = f"crates/{crate}/{path}:2: it divides by 7\n"
                self.assertEqual(told(**{crate: f"fn one() {{\n    {divides}\n}}\n"}), (1, said))
        self.assertEqual(told(play="x / 70; x / 7.5; // x / 7\n")[0], 0)


class Compiled(unittest.TestCase):
    def test_a_division(self):
        for divides in ("div %rcx", "divl 0x8(%rsp)", "idiv %ecx", "idivq (%rax)", "divsd %xmm0,%xmm1", "vdivss %xmm0,%xmm1,%xmm2"):
            with self.subTest(divides):
                status, said = told(machine=MACHINE + f"  2c:\t{divides}\n")
                self.assertEqual(status, 1)
                self.assertEqual(said.count(f": it divides: {divides}\n"), 3)

    def test_a_jump_before_the_shift(self):
        for jump in ("jne 2a <f+0x2a>", "jmp *%rax", "notrack jmp *%rax", "bnd jmp 2a <f+0x2a>", "call 40 <g>", "ret", "repz ret"):
            with self.subTest(jump):
                status, said = told(machine=MACHINE.replace("add    $0x6db72,%ecx", jump))
                self.assertEqual(status, 1)
                self.assertEqual(said.count(": it jumps between the product and its shift: imul $0x12493,%edi,%ecx\n"), 3)

    def test_a_shift_of_another_register(self):
        status, said = told(machine=MACHINE.replace("shr    $0x13,%ecx", "shr    $0x13,%esi"))
        self.assertEqual((status, said.count(": it jumps between the product and its shift: ")), (1, 3))

    def test_a_shift_of_a_copy(self):
        for copy in ("mov %rcx,%r12\n  1f:\tshr $0x3,%r12d", "mov %ecx,%r12d\n  1f:\tmov %r12d,%esi\n  20:\tshr $0xb,%rsi"):
            with self.subTest(copy):
                self.assertEqual(told(machine=MACHINE.replace("shr    $0x13,%ecx", copy))[0], 0)

    def test_no_product_in_one_of_the_files(self):
        without = MACHINE.replace("0x12493", "0x24924925")
        self.assertEqual(told(**{"play.s": without}), (1, "crates/play/out/play: it has no product by 74899\n"))


class Missing(unittest.TestCase):
    def test_what_is_not_built(self):
        for name in ("frame", "sender", "std_io", "play.s", "libkospelna.a.s"):
            status, said = told(**{name: None})
            self.assertEqual(status, 2, name)
            self.assertTrue(said.startswith("frame-count: "), said)

    def test_a_count_under_another_name(self):
        said = "frame-count: crates/frame has no frame::count::frame_count\n"
        self.assertEqual(told(name="frame::count::frames"), (2, said))


if __name__ == "__main__":
    unittest.main()
