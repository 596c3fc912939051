"""Tests of what makes the wheel of the package for Python."""

from __future__ import annotations

import os
import shutil
import sys
import tempfile
import unittest
import zipfile
from pathlib import Path
from unittest import mock

ROOT = Path(__file__).resolve().parents[1]
sys.path.insert(0, str(ROOT / "libraries/python"))

import wheel_of_library  # noqa: E402

#: How a shared library of 64 bits begins, up to the number of its processor, which is that of x86-64.
ELF = b"\x7fELF\2\1\1" + bytes(9) + b"\3\0\x3e\0"


class Wheels(unittest.TestCase):
    def setUp(self) -> None:
        self.folder = Path(tempfile.mkdtemp(prefix="bootkeep test "))
        self.addCleanup(shutil.rmtree, self.folder)
        self.library = self.folder / "libbootkeep.so.1.0.0"
        self.library.write_bytes(ELF + b"one")
        (self.folder / "libbootkeep-linux.so.1").write_bytes(ELF + b"GLIBC_2.34\0GLIBC_2.2.5")
        named = mock.patch.dict(os.environ, {"BOOTKEEP_LIBRARY": str(self.library)})
        self.addCleanup(named.stop)
        named.start()

    def test_it_holds_both_libraries(self) -> None:
        name = wheel_of_library.build_wheel(str(self.folder))
        with zipfile.ZipFile(self.folder / name) as wheel:
            names = wheel.namelist()
            self.assertEqual(wheel.read("bootkeep/libbootkeep.so.1"), ELF + b"one")
            over = wheel.getinfo("bootkeep/libbootkeep-linux.so.1")
            self.assertEqual(over.external_attr >> 16, 0o755)
        modules = {it.name for it in (ROOT / "libraries/python/bootkeep").glob("*.py")}
        self.assertLessEqual({f"bootkeep/{it}" for it in modules}, set(names))

    def test_libraries_that_are_not_there_are_refused(self) -> None:
        (self.folder / "libbootkeep-linux.so.1").unlink()
        with self.assertRaisesRegex(SystemExit, "libbootkeep-linux.so.1 beside it"):
            wheel_of_library.libraries()
        for named in ("", "libbootkeep.so.1", str(self.folder / "none")):
            with mock.patch.dict(os.environ, {"BOOTKEEP_LIBRARY": named}):
                self.assertRaises(SystemExit, wheel_of_library.libraries)

    def test_what_runs_on_another_system_is_refused(self) -> None:
        for data, why in (
            (b"!<arch>\n", "is no shared library for x86-64"),
            (ELF[:18] + b"\xb7\0", "is no shared library for x86-64"),
            (ELF + b"GLIBC_2.35", "needs glibc 2.35, and the wheel is for 2.34"),
        ):
            with self.assertRaisesRegex(SystemExit, why):
                wheel_of_library.check_library("a", data)
        wheel_of_library.check_library("a", ELF)


if __name__ == "__main__":
    unittest.main()
