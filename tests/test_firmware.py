"""Tests of what tools/firmware.py sees in the instructions of a library for firmware, over small ones."""

from __future__ import annotations

import contextlib
import io
import shutil
import subprocess
import sys
import tempfile
import unittest
from pathlib import Path
from typing import Dict, List, Tuple

ROOT = Path(__file__).resolve().parents[1]
sys.path.insert(0, str(ROOT / "tools"))

import firmware  # noqa: E402

TOOLS = ["cc", "nm", "readelf", "objdump"]

HEADER = "#define BOOTKEEP_STACK_MAX 4096\nuint32_t bootkeep_one(void);\n"

FLAGS = [
    "-O1",
    "-fPIC",
    "-ffreestanding",
    "-mno-red-zone",
    "-fno-stack-protector",
    "-fcf-protection=none",
]

ONE = "unsigned bootkeep_one(void) { %s return 1; }"

# What the function does, what stands before it, and how each line begins that tells what is wrong.
CASES: Dict[str, Tuple[str, str, List[str]]] = {
    "nothing": ("", "", []),
    "the program's memory": (
        "void *block = bootkeep_allocate(9); if (block) bootkeep_free(block);",
        "void *bootkeep_allocate(unsigned long); void bootkeep_free(void *);",
        [],
    ),
    "an array": ("volatile char held[100]; held[99] = 1;", "", []),
    "memory below the stack": (
        'asm volatile("movl $1, -8(%%rsp)" ::: "memory");',
        "",
        ["bootkeep_one: movl $0x1,-0x8(%rsp)"],
    ),
    "a register of AVX": (
        'asm volatile("vxorps %%ymm0, %%ymm0, %%ymm0" :::);',
        "",
        ["bootkeep_one: vxorps %ymm0,%ymm0,%ymm0"],
    ),
    "a register of x87": ('asm volatile("fld %%st(0)" :::);', "", ["bootkeep_one: fld %st(0)"]),
    "a segment": (
        'asm volatile("mov %%fs:40, %%rax" ::: "rax");',
        "",
        ["bootkeep_one: mov %fs:0x28,%rax"],
    ),
    "a system call": ('asm volatile("syscall");', "", ["bootkeep_one: syscall"]),
    "a variable": (
        "held++;",
        "static volatile int held;",
        [".bss has 4 bytes that may be written"],
    ),
    "a call of the C library": (
        "memcpy(0, 0, 9);",
        "void *memcpy(void *, const void *, unsigned long);",
        ["memcpy is needed"],
    ),
    "a call of what isn't known": (
        'asm volatile("call *%%rax" ::: "memory");',
        "",
        ["bootkeep_one calls what isn't known: call *%rax"],
    ),
    "another call": ("", "void bootkeep_two(void) {}", ["bootkeep_two is defined"]),
    "much stack": (
        "volatile char held[5000]; held[0] = 1;",
        "",
        ["bootkeep_one takes 50"],
    ),
    "a call of itself": (
        "if (again(5)) return 2;",
        "__attribute__((noinline)) static int again(volatile int n) "
        "{ volatile int m = n; return m ? again(m - 1) * 2 + again(m - 2) : 0; }",
        ["bootkeep_one comes to 'again' again"],
    ),
}


@unittest.skipUnless(all(map(shutil.which, TOOLS)), "a C compiler and its tools are needed")
class Firmware(unittest.TestCase):
    def check(self, source: str) -> List[str]:
        """What is said of a library of this source."""
        with tempfile.TemporaryDirectory() as folder:
            file, header = Path(folder, "one.o"), Path(folder, "one.h")
            header.write_text(HEADER, encoding="utf-8")
            compiler = ["cc", *FLAGS, "-x", "c", "-c", "-o", str(file), "-"]
            subprocess.run(compiler, input=source, text=True, check=True)
            with contextlib.redirect_stdout(io.StringIO()):
                return firmware.check(str(file), str(header))

    def test_what_is_wrong_is_told(self) -> None:
        for what, (body, before, wanted) in CASES.items():
            with self.subTest(what):
                found = self.check(f"{before}\n{ONE.replace('%s', body)}\n")
                self.assertEqual(len(found), len(wanted), found)
                for line, begin in zip(found, wanted):
                    self.assertTrue(line.startswith(begin), line)

    def test_a_call_that_is_missing_is_told(self) -> None:
        self.assertEqual(self.check("static int nothing;"), ["bootkeep_one is not defined"])


if __name__ == "__main__":
    unittest.main()
