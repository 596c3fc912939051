"""The pages and the manuals: that what they name is there, and that pages for people don't grow. And the top of the tree,
which one of them lists."""

from __future__ import annotations

import json
import re
import shutil
import subprocess
import unittest
from pathlib import Path
from typing import Dict, List

ROOT = Path(__file__).resolve().parents[1]

FILE = re.compile(r"`((?:bench|crates|docs|fleet|libraries|packaging|tests|tools)/[\w./-]+)`")
TOP_MAX = 16
"""How many entries somebody is to see at first, who opens the repository."""

WORDS_MAX = {
    "README.md": 2100,
    "docs/apply.md": 1500,
    "docs/c.md": 2600,
    "docs/efibootmgr.md": 1850,
    "docs/firmware.md": 1250,
    "docs/fleet.md": 3600,
    "docs/library.md": 2900,
    "docs/linux.md": 1400,
    "docs/machines.md": 5800,
    "docs/packages.md": 1000,
    "docs/requests.md": 3500,
}
"""How many words each page may have that somebody reads from its top: some ten percent more than it had when it was last
cut. A page that would have more is cut again. Pages to look things up in have no limit."""

CALL = re.compile(r"\bbootkeep_[a-z]\w*")
"""A call or a struct of the library for C."""

COMMAND = re.compile(
    r"(?:# |\$ )?(?:\./|\w+=\S+ )*(?:bootvars|bootkeep|bootfleet|bootfleet-agent|fleet(?:\(\))?|check|rauc|tools/\S+|bench/\S+"
    r"|packaging/\S+|libraries/\S+|dpkg\S*|apt\S*|systemctl|mount|modprobe|ln|cp|cd|echo|zcat|install|export|mosquitto"
    r"|reboot|update-initramfs|dracut|pip|cc|cargo) |\./check$|reboot$|name=\$|fleet\(\)|export "
)
"""How a line begins that is a command."""

BLOCK = re.compile(r"(?m)^```(sh|console|rust)$")
"""The beginning of a block that `bench/pages` takes."""

SECTION = re.compile(r'`([\w/]+\.md)`, "([^"]+)"|"([^"]+)" in\s+`([\w/]+\.md)`')


def pages() -> List[Path]:
    return sorted([*ROOT.glob("*.md"), *ROOT.glob("docs/**/*.md"), *ROOT.glob("packaging/man/*")])


def texts() -> Dict[str, str]:
    """Each page, by its path in the repository."""
    return {str(page.relative_to(ROOT)): page.read_text(encoding="utf-8") for page in pages()}


class Pages(unittest.TestCase):
    def test_files_that_are_named_are_there(self) -> None:
        for name, text in texts().items():
            for file in FILE.findall(text):
                if "CRATE" not in file:
                    self.assertTrue((ROOT / file).exists(), f"{name}: {file}")

    def test_sections_that_are_named_are_there(self) -> None:
        found = 0
        for name, text in texts().items():
            for page, section, other, where in SECTION.findall(" ".join(text.split())):
                heads = (ROOT / (page or where)).read_text(encoding="utf-8")
                head = re.escape(section or other)
                self.assertTrue(
                    re.search(rf"(?m)^#+ {head}$", heads), f"{name}: {section or other}"
                )
                found += 1
        self.assertGreater(found, 0)

    def test_pages_for_people_are_short(self) -> None:
        found = texts()
        for name, most in WORDS_MAX.items():
            with self.subTest(name):
                self.assertLessEqual(len(found[name].split()), most)

    def test_calls_that_are_named_are_declared(self) -> None:
        headers = [
            (ROOT / "libraries/c/include" / name).read_text(encoding="utf-8")
            for name in ("bootkeep.h", "bootkeep-linux.h")
        ]
        declared = {it for header in headers for it in CALL.findall(header)}
        for page in ("docs/c.md", "docs/firmware.md", "docs/linux.md"):
            called = CALL.findall((ROOT / page).read_text(encoding="utf-8"))
            self.assertTrue(called)
            self.assertLessEqual(set(called), declared, page)

    def test_the_manual_describes_each_option(self) -> None:
        completions = (ROOT / "packaging/completions" / "bootvars.fish").read_text(encoding="utf-8")
        manual = (ROOT / "packaging/man" / "bootvars.1").read_text(encoding="utf-8")
        described = manual[manual.index(".Sh DESCRIPTION") : manual.index(".Sh EXAMPLES")]
        options = set(re.findall(r"(?m)^complete .* -l ([\w-]+)", completions))
        self.assertIn("dry-run", options)
        for option in sorted(options):
            with self.subTest(option):
                self.assertRegex(
                    described, rf"(?m)(^\.|\s)Fl -{option}\b(?!-)|[ ,]-{option}\b(?!-)"
                )


def indented_commands(text: str) -> List[str]:
    """The commands of the blocks of a page that are indented, which `bench/pages` doesn't run. What goes on on further lines,
    as a loop, is no command here."""
    text = re.sub(r"(?ms)^```.*?^```$", "", text)
    blocks = re.findall(r"(?m)(?:^\n|\A)((?: {4}.*\n)+)", text)
    lines = [line[4:] for block in blocks for line in block.splitlines()]
    return [line for line in lines if COMMAND.match(line)]


class Commands(unittest.TestCase):
    """Each command of a page is run: by `bench/pages`, or by what `bench/page_commands.json` names."""

    def setUp(self) -> None:
        rows = (ROOT / "bench/page_commands.json").read_text(encoding="utf-8")
        self.rows: List[Dict[str, str]] = json.loads(rows)
        self.pages = {name: text for name, text in texts().items() if name.endswith(".md")}

    def test_each_page_with_blocks_is_run(self) -> None:
        bench = (ROOT / "bench/pages").read_text(encoding="utf-8")
        default = re.search(r"(?s)set -- (README.*?)\nfi", bench)
        assert default is not None
        run = default[1].replace("\\\n", " ").split()
        blocks = [name for name, text in self.pages.items() if BLOCK.search(text)]
        self.assertEqual(sorted(run), sorted(blocks))

    def test_each_other_command_is_listed_once(self) -> None:
        listed = sorted({(row["page"], row["command"]) for row in self.rows})
        self.assertEqual(len(listed), len(self.rows))
        written = {
            (name, command)
            for name, text in self.pages.items()
            if name != "CHANGELOG.md"
            for command in indented_commands(text)
        }
        self.assertEqual(listed, sorted(written))

    def test_what_tries_it_has_it(self) -> None:
        for row in self.rows:
            with self.subTest(row["command"]):
                if "not_run" in row:
                    self.assertTrue(row["not_run"])
                    continue
                by = (ROOT / row["tried_by"]).read_text(encoding="utf-8")
                self.assertTrue(row["as"])
                self.assertIn(row["as"], by, row["tried_by"])


@unittest.skipUnless(shutil.which("git") and (ROOT / ".git").exists(), "this is no clone")
class Top(unittest.TestCase):
    def setUp(self) -> None:
        told = subprocess.run(
            ["git", "-C", str(ROOT), "ls-files", "-z"], capture_output=True, text=True, check=True
        )
        tops = {file.partition("/")[0] for file in told.stdout.split("\0")}
        self.entries = sorted(it for it in tops if it and not it.startswith("."))

    def test_it_has_few_entries(self) -> None:
        self.assertLessEqual(len(self.entries), TOP_MAX, self.entries)

    def test_each_is_listed(self) -> None:
        page = (ROOT / "docs" / "architecture.md").read_text(encoding="utf-8")
        rows = re.search(r"(?m)^\| At the top .*\n((?:\|.*\n)+)", page)
        assert rows is not None
        firsts = [row.split("|")[1] for row in rows[1].splitlines()[1:]]
        named = re.findall(r"`([\w.-]+)/?`", " ".join(firsts))
        self.assertEqual(sorted(named), self.entries)


if __name__ == "__main__":
    unittest.main()
