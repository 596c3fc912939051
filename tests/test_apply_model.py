"""Tests of the model that `bench/apply` compares `bootvars apply` with: it answers the cases as the library has to."""

from __future__ import annotations

import json
import sys
import unittest
from pathlib import Path
from typing import Any, Dict

ROOT = Path(__file__).resolve().parents[1]
sys.path.insert(0, str(ROOT / "bench/apply-side"))

import profile_model  # noqa: E402
from profile_model import Entry, Profile, Refused  # noqa: E402

FAULTS = {
    "Twice": "twice",
    "BadOption": "option",
    "OtherDescription": "other",
    "Ambiguous": "several",
    "Unknown": "unknown",
    "BadOrder": "order",
    "BadNext": "next",
}
"""What the model calls the faults of the library, by the words that name them."""

PARTS = {"Entry": "entry", "OrderName": "order", "Order": "order", "Next": "next"}


def values_of(told: Dict[str, str]) -> profile_model.Values:
    return {name: bytes.fromhex(data) for name, data in told.items()}


def profile_of(told: Dict[str, Any]) -> Profile:
    """The profile of a case, which says by null what isn't to be there."""
    entries = [
        Entry(
            it["description"],
            bytes.fromhex(it["option"]) if "option" in it else None,
            it.get("active"),
        )
        for it in told.get("entries", [])
    ]
    singles = {
        it: False if told[it] is None else told[it] for it in ("next", "timeout") if it in told
    }
    return Profile(entries, told.get("first"), told.get("only"), **singles)


class Cases(unittest.TestCase):
    def setUp(self) -> None:
        calls = json.loads((ROOT / "tests/cases/boot_profiles.json").read_text("utf-8"))
        (self.cases,) = (it["cases"] for it in calls if it["call"] == "apply")

    def test_the_model_answers_them(self) -> None:
        tried = {"made": 0, "refused": 0}
        for case in self.cases:
            if case["answer"].endswith("NoFree"):
                continue
            with self.subTest(case["name"]):
                before, profile = values_of(case["vars"]), profile_of(case["profile"])
                if case["answer"] == "Done":
                    after = profile_model.applied(before, profile)
                    self.assertEqual(after, values_of(case["after"]))
                    tried["made"] += 1
                    continue
                with self.assertRaises(Refused) as why:
                    profile_model.applied(before, profile)
                words = case["answer"].split()
                self.assertEqual(why.exception.part, PARTS[words[0]])
                self.assertIn(why.exception.why, [FAULTS[it] for it in words if it in FAULTS])
                tried["refused"] += 1
        self.assertGreater(min(tried.values()), 10)

    def test_what_it_tells_of_variables_leads_to_them(self) -> None:
        for case in self.cases:
            if case["answer"] != "Done":
                continue
            with self.subTest(case["name"]):
                after = values_of(case["after"])
                told = profile_model.told(after)
                if all(name in after for name in ("BootNext", "Timeout")):
                    self.assertIsNotNone(told.next)
                self.assertEqual(profile_model.applied(after, told), after)


if __name__ == "__main__":
    unittest.main()
