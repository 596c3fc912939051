"""Tests of libbootkeep-linux over emulators' variable files, as test_c_machine.py has them over folders.

Variable files are made and read by hand, in variable_store.py."""

from __future__ import annotations

import fcntl
import os
import subprocess
import unittest
from pathlib import Path
from typing import Optional

from test_c_machine import (
    ABSENT,
    AT_CHANGE,
    AT_JOURNAL,
    AT_RUN,
    AT_STATE,
    AT_VARIABLES,
    ATTRIBUTES,
    BUSY,
    CHANGED,
    EACCES,
    ENOENT,
    ENOSPC,
    EROFS,
    NAME,
    SYSTEM,
    TAKEN_BACK,
    OfMachines,
    Told,
    field,
    frame,
    idle_journal,
    numbers,
    option,
    pending_journal,
    set_file,
)
from variable_store import (
    ADDED,
    DELETED,
    OTHER_VENDOR,
    STORE_LEN,
    VOLUME_LEN,
    record,
    records_in,
    variable_file,
    variables_in,
)

AT_NAME = 3
NO_START = 0x8019


class VariableFileTest(OfMachines):
    """Machines whose variables are in a variable file."""

    def setUp(self) -> None:
        super().setUp()
        self.variables = self.folder / "vars.fd"
        self.first_records = [
            record("Lang", b"eng"),
            *(
                record(f"Boot{n:04X}", option(it))
                for n, it in enumerate(["first", "second", "third"])
            ),
            record("BootOrder", numbers(2, 1), state=DELETED),
            record("BootOrder", numbers(0, 1, 2)),
            record("Boot0005", b"not the standard's", vendor=OTHER_VENDOR),
        ]
        self.variables.write_bytes(variable_file(*self.first_records))

    def store(self, name: str, data: bytes) -> None:
        """Stores a variable, as an emulator does that takes no lock; of the base's set-up none."""
        if self.variables.suffix == ".fd":
            file = self.variables.read_bytes()
            self.variables.write_bytes(variable_file(*records_in(file), record(name, data)))
        else:
            super().store(name, data)

    def stored(self, name: str) -> Optional[bytes]:
        found = variables_in(self.variables.read_bytes()).get(name)
        return None if found is None else found[4:]

    # ---- What is there

    def test_what_is_there_is_told(self) -> None:
        self.assertIn("place 2", self.call("place").output)
        self.assertIn("plan 0000 0001 0002 order 0000 0001 0002", self.call("plan").output)
        out = self.folder / "out"
        self.call("variables", str(out))
        kept = {
            f"Boot{n:04X}": ATTRIBUTES + option(it)
            for n, it in enumerate(["first", "second", "third"])
        }
        kept["BootOrder"] = ATTRIBUTES + numbers(0, 1, 2)
        self.assertEqual(out.read_bytes(), set_file({**kept, "Lang": b"eng"}))
        self.call("data", str(out))
        data = {name: value[4:] for name, value in kept.items()}
        self.assertEqual(out.read_bytes(), set_file({**data, "Lang": b"eng"}))
        self.assertFalse(self.state.exists())

    def test_a_folder_is_told(self) -> None:
        self.variables = self.folder / "efivars"
        self.assertIn("place 1", self.call("place").output)

    # ---- Changes

    def test_a_change_appends_its_records_and_keeps_all_other_bytes(self) -> None:
        before = self.variables.read_bytes()
        told = self.call("first", "0002")
        self.assertEqual((told.status, told.changed, told.record), (0, True, 1), told.output)
        after = self.variables.read_bytes()
        old_order = self.first_records[5]
        changed = [*self.first_records, record("BootOrder", numbers(2, 0, 1))]
        changed[5] = old_order[:2] + bytes([DELETED]) + old_order[3:]
        self.assertEqual(after, variable_file(*changed))
        self.assertEqual(len(after), len(before))
        self.assertEqual([it.name for it in self.state.iterdir()], ["history"])

    def test_what_is_so_already_writes_nothing(self) -> None:
        found = self.variables.stat()
        told = self.call("first", "0000")
        self.assertEqual((told.status, told.changed, told.record), (0, False, 0), told.output)
        self.assertEqual(self.variables.stat().st_ino, found.st_ino)

    def test_a_dry_run_touches_nothing(self) -> None:
        before = self.variables.read_bytes()
        told = self.call("--flags", "1", "remove", "0001")
        self.assertEqual((told.status, told.changed, told.record), (0, True, 0), told.output)
        self.assertEqual(self.variables.read_bytes(), before)
        self.assertFalse(self.state.exists())

    def test_changes_are_undone_one_after_the_other(self) -> None:
        before = variables_in(self.variables.read_bytes())
        self.call("first", "0002")
        between = variables_in(self.variables.read_bytes())
        self.call("remove", "0001")
        self.assertEqual(self.stored("Boot0001"), None)
        self.assertEqual(self.call("undo").status, 0)
        self.assertEqual(variables_in(self.variables.read_bytes()), between)
        self.assertEqual(self.call("undo").status, 0)
        self.assertEqual(variables_in(self.variables.read_bytes()), before)
        self.assertEqual(self.call("undo").status, ABSENT)

    def test_undo_asks_for_force_if_something_else_has_changed_since(self) -> None:
        self.call("timeout", "5")
        self.call("timeout", "6")
        self.call("--no-record", "timeout", "7")
        self.assertEqual(self.call("undo").status, CHANGED)
        self.assertEqual(self.stored("Timeout"), numbers(7))
        self.assertEqual(self.call("--flags", "10", "undo").status, 0)
        self.assertEqual(self.stored("Timeout"), numbers(5))

    def test_undo_needs_a_state_folder(self) -> None:
        told = self.call("undo")
        self.assertEqual((told.status, told.at, told.error), (SYSTEM, AT_STATE, ENOENT))
        self.assertFalse(self.state.exists())

    def test_write_brings_a_set(self) -> None:
        self.call("timeout", "5")
        given = set_file({"Boot0007": option("other"), "BootOrder": numbers(7)})
        self.assertEqual(self.call("write", self.file("set", given)).status, 0)
        kept = {
            "Boot0007": option("other"),
            "BootOrder": numbers(7),
            "Timeout": numbers(5),
            "Lang": b"eng",
        }
        wanted = {name: ATTRIBUTES + data for name, data in kept.items()}
        self.assertEqual(variables_in(self.variables.read_bytes()), wanted)

    def test_write_stores_what_firmware_would_refuse(self) -> None:
        given = set_file({"Boot0007": b"\1", "BootOrder": b"\7\0\0", "BootNext": b"\7"})
        self.assertEqual(self.call("write", self.file("set", given)).status, 0)
        self.assertEqual((self.stored("Boot0007"), self.stored("BootOrder")), (b"\1", b"\7\0\0"))

    def test_a_store_without_room_is_refused_and_stays(self) -> None:
        self.variables.write_bytes(
            variable_file(*self.first_records, room=sum(map(len, self.first_records)) + 8)
        )
        before = self.variables.read_bytes()
        added = option("long " * 40)
        told = self.call("add", self.file("option", added), "none", "0")
        self.assert_refused(told, AT_CHANGE, 0x1107)
        self.assertEqual(self.variables.read_bytes(), before)
        self.assertEqual(list(self.state.iterdir()), [])

    def test_records_are_moved_together_if_there_is_no_room_after_them(self) -> None:
        self.variables.write_bytes(
            variable_file(*self.first_records, room=sum(map(len, self.first_records)) + 8)
        )
        self.assertEqual(self.call("first", "0002").status, 0)
        found = records_in(self.variables.read_bytes())
        self.assertEqual([one for one in found if one[2] != ADDED], [])
        self.assertIn(self.first_records[6], found)
        self.assertEqual(self.stored("BootOrder"), numbers(2, 0, 1))

    # ---- Requests, and what is owed

    def test_a_request_goes_by_the_journal_and_is_applied_once(self) -> None:
        self.make_state()
        stream = self.file("stream", frame(5, 0, numbers(2)))
        self.assertIn("reply 7 fault 0 outcome 1", self.call("update", stream).output)
        self.assertEqual(self.stored("BootNext"), numbers(2))
        after = self.variables.read_bytes()
        self.assertIn("reply 2 fault 0 outcome 1", self.call("update", stream).output)
        self.assertEqual(self.variables.read_bytes(), after)
        self.assertIn("number 1 owed 0", self.call("journal").output)

    def without_start(self, *call: str) -> Told:
        """A call of a machine whose start isn't given."""
        words = self.words(*call)
        at = words.index("--start")
        return self.told(words[:at] + words[at + 2 :])

    def test_the_start_is_needed_by_the_journal_alone(self) -> None:
        stream = self.file("stream", frame(5, 0, numbers(2)))
        self.assertEqual(self.without_start("first", "0002").status, 0)
        self.assertEqual(self.without_start("undo").status, 0)
        self.assert_refused(self.without_start("update", stream), AT_NAME, NO_START)
        order = ATTRIBUTES + numbers(0, 1, 2)
        self.make_state(pending_journal("BootOrder", order, ATTRIBUTES + numbers(1, 0)))
        self.assert_refused(self.without_start("timeout", "1"), AT_NAME, NO_START)
        self.assert_refused(self.without_start("--flags", "1", "timeout", "1"), AT_NAME, NO_START)
        self.assertEqual(self.stored("BootOrder"), numbers(0, 1, 2))

    def test_what_was_left_to_do_is_done_first_and_the_journal_is_idle_then(self) -> None:
        order = ATTRIBUTES + numbers(0, 1, 2)
        self.make_state(pending_journal("BootOrder", order, ATTRIBUTES + numbers(1, 0)))
        self.assertIn("owed 1", self.call("owed").output)
        told = self.call("timeout", "3")
        self.assertEqual((told.status, told.settled), (0, True), told.output)
        self.assertEqual(
            (self.stored("BootOrder"), self.stored("Timeout")), (numbers(1, 0), numbers(3))
        )
        self.assertEqual((self.state / "journal").read_bytes(), idle_journal())

    def test_settle_writes_attributes_anew_though_the_data_are_the_same(self) -> None:
        other = b"\3\0\0\0" + numbers(0, 1, 2)
        self.make_state(pending_journal("BootOrder", ATTRIBUTES + numbers(0, 1, 2), other))
        told = self.call("settle")
        self.assertEqual((told.status, told.settled), (0, True), told.output)
        self.assertEqual(variables_in(self.variables.read_bytes())["BootOrder"], other)

    def test_settle_looks_at_no_other_family(self) -> None:
        self.make_state()
        (self.state / "driver").mkdir(mode=0o700)
        (self.state / "driver" / "journal").write_bytes(b"BKJ9")
        self.assertEqual(self.call("settle").status, 0)
        self.assertIn("owed 0", self.call("owed").output)

    def test_the_journal_of_another_machine_is_left_alone_by_changes(self) -> None:
        begun = b"BKJ2" + field(b"another") + field(b"") + b"\1\5start" + field(b"")
        pending = begun + b"\7Timeout" + field(b"") + field(ATTRIBUTES + numbers(9))
        for journal in (idle_journal("another"), pending):
            self.make_state(journal)
            self.assertEqual(self.call("first", "0002").status, 0)
            self.assertEqual(self.call("undo").status, 0)
            stream = self.file("stream", frame(5, 0, numbers(2)))
            self.assert_refused(self.call("update", stream), AT_JOURNAL, 0x8008)
            self.assertEqual((self.state / "journal").read_bytes(), journal)
        self.assertEqual(
            (self.stored("BootOrder"), self.stored("Timeout")), (numbers(0, 1, 2), None)
        )

    def test_a_damaged_journal_is_refused(self) -> None:
        self.make_state(b"BKJ9")
        self.assert_refused(self.call("first", "0002"), AT_JOURNAL, 0x0C01)
        self.assertEqual(self.stored("BootOrder"), numbers(0, 1, 2))

    # ---- Variables that no set can hold

    def test_an_entry_without_a_value_keeps_its_number_and_its_record(self) -> None:
        empty = record("Boot0003", b"")
        self.variables.write_bytes(variable_file(*self.first_records, empty))
        told = self.call("add", self.file("option", option("new")), "none", "0")
        self.assertEqual((told.status, told.entry), (0, "00004"), told.output)
        self.assertIn("Boot0003 is ignored: it has no value", told.output)
        self.assertIn(empty, records_in(self.variables.read_bytes()))
        told = self.call("remove", "0003")
        self.assert_refused(told, AT_RUN, 0x800D)
        self.assertEqual(
            told.text,
            f"{self.variables}: Boot0003 has no value or too long a one, and stays as it is",
        )
        given = set_file({"Boot0003": option("other"), "BootOrder": numbers(3)})
        self.assertEqual(self.call("write", self.file("set", given)).status, 0)
        self.assertEqual(self.stored("Boot0003"), option("other"))

    def test_a_state_of_a_set_file_is_no_variable(self) -> None:
        self.variables.write_bytes(
            variable_file(*self.first_records, record("BootKeepState", b"state"))
        )
        out = self.folder / "out"
        told = self.call("data", str(out))
        self.assertIn("BootKeepState is ignored", told.output)
        self.assertNotIn(b"BootKeepState", out.read_bytes())

    # ---- Hostile situations

    def test_hostile_bytes_are_refused_and_stay(self) -> None:
        good = self.variables.read_bytes()
        cut = bytearray(good)
        cut[VOLUME_LEN + STORE_LEN + 40 : VOLUME_LEN + STORE_LEN + 44] = b"\xfe\xff\xff\x7f"
        for bytes_there, kind in (
            (b"", 0x1101),
            (b"BVS1", 0x1101),
            (good[:-100], 0x1102),
            (good[:16] + b"\0" + good[17:], 0x1101),
            (good[:60] + b"\1" + good[61:], 0x1102),
            (good[:VOLUME_LEN] + b"\0" + good[VOLUME_LEN + 1 :], 0x1103),
            (good[: VOLUME_LEN + 21] + b"\0" + good[VOLUME_LEN + 22 :], 0x1105),
            (bytes(cut), 0x1106),
        ):
            self.variables.write_bytes(bytes_there)
            for call in (["first", "0002"], ["plan"], ["place"], ["--flags", "1", "timeout", "1"]):
                self.assert_refused(self.call(*call), AT_VARIABLES, kind)
            self.assertEqual(self.variables.read_bytes(), bytes_there)
            self.assertFalse(self.state.exists())

    def test_a_file_with_too_many_bytes_is_refused(self) -> None:
        with open(self.variables, "r+b") as file:
            file.truncate(64 * 1024 * 1024 + 1)
        self.assert_refused(self.call("first", "0002"), AT_VARIABLES, 0x8005)

    def test_what_is_not_erased_after_the_last_record_is_read_and_never_written(self) -> None:
        lost = record("Boot0009", option("lost"))
        damaged = variable_file(*self.first_records, free=b"\xff" * 8 + lost)
        self.variables.write_bytes(damaged)
        place = VOLUME_LEN + STORE_LEN + sum(map(len, self.first_records)) + 8
        told = self.call("first", "0002")
        self.assert_refused(told, AT_VARIABLES, 0x8018)
        self.assertIn(f"place {place} ", told.output)
        self.assertEqual(self.variables.read_bytes(), damaged)
        seen = self.call("plan")
        self.assertEqual(seen.status, 0, seen.output)
        self.assertIn(
            f"damaged at byte {place}, and there may have been more: 1 records", seen.output
        )

    def test_the_first_byte_of_a_record_that_was_cut_off_is_no_damage(self) -> None:
        self.variables.write_bytes(variable_file(*self.first_records, free=b"\xaa"))
        self.assertEqual(self.call("first", "0002").status, 0)
        self.assertEqual(self.stored("BootOrder"), numbers(2, 0, 1))

    def test_a_link_is_followed_and_stays(self) -> None:
        elsewhere = self.folder / "elsewhere"
        elsewhere.mkdir()
        self.variables.rename(elsewhere / "real.fd")
        (self.folder / "middle").symlink_to("elsewhere/real.fd")
        self.variables.symlink_to(self.folder / "middle")
        self.assertEqual(self.call("first", "0002").status, 0)
        self.assertTrue(self.variables.is_symlink())
        self.assertEqual(self.stored("BootOrder"), numbers(2, 0, 1))
        self.assertEqual([it.name for it in elsewhere.iterdir()], ["real.fd"])

    def test_a_link_that_leads_nowhere_or_in_a_circle_is_told(self) -> None:
        self.variables.unlink()
        self.variables.symlink_to("nowhere")
        told = self.call("first", "0002")
        self.assertEqual((told.status, told.at, told.error), (SYSTEM, AT_VARIABLES, ENOENT))
        self.variables.unlink()
        self.variables.symlink_to("vars.fd")
        self.assertEqual(self.call("first", "0002").status, SYSTEM)
        self.assertFalse(self.state.exists())

    def test_rights_and_owner_stay(self) -> None:
        self.variables.chmod(0o664)
        if not os.getuid():
            os.chown(self.variables, 65534, 65533)
        before = self.variables.stat()
        self.assertEqual(self.call("first", "0002").status, 0)
        after = self.variables.stat()
        self.assertEqual(
            (after.st_mode, after.st_uid, after.st_gid),
            (before.st_mode, before.st_uid, before.st_gid),
        )
        self.assertNotEqual(after.st_ino, before.st_ino)

    def test_a_lock_of_another_program_is_told(self) -> None:
        self.make_state()
        lock = os.open(self.variables, os.O_RDONLY)
        fcntl.flock(lock, fcntl.LOCK_EX)
        stream = self.file("stream", frame(5, 0, numbers(2)))
        for call in (["first", "0002"], ["update", stream]):
            told = self.call(*call)
            self.assertEqual((told.status, told.at), (BUSY, AT_VARIABLES), told.output)
        self.assertEqual(self.call("--flags", "1", "first", "0002").status, 0)
        os.close(lock)
        self.assertEqual(self.call("first", "0002").status, 0)

    def test_what_is_in_the_place_of_the_new_file_is_replaced(self) -> None:
        left = self.folder / ".bootkeep-vars.fd"
        left.write_bytes(b"left by a cut")
        self.assertEqual(self.call("first", "0002").status, 0)
        self.assertFalse(left.exists())
        left.mkdir()
        told = self.call("first", "0001")
        self.assertEqual((told.status, told.at, told.left), (SYSTEM, AT_CHANGE, 0), told.output)
        self.assertEqual(self.stored("BootOrder"), numbers(2, 0, 1))

    def test_a_request_is_taken_back_if_the_file_cannot_be_replaced(self) -> None:
        self.make_state()
        before = self.variables.read_bytes()
        (self.folder / ".bootkeep-vars.fd").mkdir()
        told = self.call("update", self.file("stream", frame(5, 0, numbers(2))))
        self.assertEqual((told.status, told.at, told.left), (TAKEN_BACK, AT_CHANGE, 1), told.output)
        self.assertEqual(self.variables.read_bytes(), before)
        self.assertIn("number 0 owed 0", self.call("journal").output)
        self.assertEqual(list((self.state / "history").iterdir()), [])

    def test_a_long_name_is_cut_for_the_new_file(self) -> None:
        long = self.folder / ("ä" * 125 + ".fd")
        self.variables.rename(long)
        self.variables = long
        self.assertEqual(self.call("first", "0002").status, 0)
        self.assertEqual(self.stored("BootOrder"), numbers(2, 0, 1))
        self.assertEqual(
            [it for it in self.folder.iterdir() if it.name.startswith(".bootkeep")], []
        )

    @unittest.skipIf(os.getuid(), "only root becomes another user")
    def test_a_file_that_may_not_be_written_is_told(self) -> None:
        self.folder.chmod(0o755)
        Path(self.built.name).chmod(0o755)
        self.make_state()
        os.chown(self.state, 65534, 65534)
        told = self.call("first", "0002", user=65534)
        self.assertEqual(
            (told.status, told.at, told.error), (SYSTEM, AT_VARIABLES, EACCES), told.output
        )
        self.variables.chmod(0)
        told = self.call("plan", user=65534)
        self.assertEqual(
            (told.status, told.at, told.error), (SYSTEM, AT_VARIABLES, EACCES), told.output
        )

    @unittest.skipIf(os.getuid(), "only root may write what is read-only")
    def test_a_file_that_is_read_only_stays_so(self) -> None:
        self.variables.chmod(0o444)
        self.assertEqual(self.call("first", "0002").status, 0)
        self.assertEqual(self.stored("BootOrder"), numbers(2, 0, 1))
        self.assertEqual(self.variables.stat().st_mode & 0o777, 0o444)

    def test_a_file_on_a_disk_that_is_read_only_is_told(self) -> None:
        if subprocess.run(["unshare", "-m", "true"], capture_output=True, check=False).returncode:
            self.skipTest("nothing can be mounted here")
        before = self.variables.read_bytes()
        disk = self.folder / "disk"
        disk.mkdir()
        inside = disk / "vars.fd"
        mount = f"mount -t tmpfs none {disk} && cp {self.variables} {inside} && mount -o remount,ro {disk}"
        self.variables = inside
        words = ["sh", "-c", f'{mount} && exec "$@"', "sh", *self.words("first", "0002")]
        made = subprocess.run(
            ["unshare", "-m", *words], capture_output=True, text=True, check=False
        )
        self.assertRegex(made.stdout, f"status 0100 at 2 left 0 errno {EROFS}")
        self.assertEqual((self.folder / "vars.fd").read_bytes(), before)

    @unittest.skipIf(os.getuid(), "only root becomes another user")
    def test_without_a_state_folder_a_change_is_made_and_cannot_be_undone(self) -> None:
        self.folder.chmod(0o755)
        Path(self.built.name).chmod(0o755)
        own = self.folder / "own"
        own.mkdir()
        os.chown(own, 65534, 65534)
        self.variables = self.variables.rename(own / "vars.fd")
        os.chown(self.variables, 65534, 65534)
        told = self.call("first", "0002", user=65534)
        self.assertEqual((told.status, told.record), (0, 0), told.output)
        self.assertIn("there is no undo of this change", told.output)
        self.assertEqual(self.stored("BootOrder"), numbers(2, 0, 1))
        self.assertFalse(self.state.exists())

    def test_a_record_that_cannot_be_kept_is_told_and_the_change_is_made(self) -> None:
        self.make_state()
        (self.state / "history").write_bytes(b"")
        told = self.call("first", "0002")
        self.assertEqual((told.status, told.record), (0, 0), told.output)
        self.assertIn("there is no undo of this change", told.output)
        self.assertEqual(self.stored("BootOrder"), numbers(2, 0, 1))

    def test_a_state_folder_that_others_may_write_is_refused(self) -> None:
        self.make_state()
        self.state.chmod(0o770)
        self.assert_refused(self.call("first", "0002"), AT_STATE, 0x8001)
        self.assertEqual(self.stored("BootOrder"), numbers(0, 1, 2))

    @unittest.skipUnless(os.path.exists("/dev/full"), "there is no full device")
    def test_a_full_disk_changes_nothing(self) -> None:
        if subprocess.run(["unshare", "-m", "true"], capture_output=True, check=False).returncode:
            self.skipTest("nothing can be mounted here")
        disk = self.folder / "disk"
        disk.mkdir()
        self.make_state()
        inside = disk / "vars.fd"
        fill = f"mount -t tmpfs -o size=12k none {disk} && cp {self.variables} {inside} && "
        fill += f"{{ head -c 65536 /dev/zero >{disk}/fill 2>/dev/null; true; }} && sha256sum <{inside}; "
        self.variables = inside
        script = fill + f'"$@"; sha256sum <{inside}; ls -A {disk}'
        words = ["unshare", "-m", "sh", "-c", script, "sh", *self.words("first", "0002")]
        made = subprocess.run(words, capture_output=True, text=True, check=False)
        self.assertRegex(made.stdout, f"status 0100 at 8 left 0 errno {ENOSPC}")
        first, *_rest = made.stdout.splitlines()
        self.assertIn(f"\n{first}\nfill\nvars.fd\n", made.stdout)

    def test_a_pipe_or_a_device_is_refused(self) -> None:
        self.variables.unlink()
        os.mkfifo(self.variables)
        for call in (["first", "0002"], ["plan"], ["place"]):
            self.assert_refused(self.call(*call), AT_VARIABLES, 0x8004)
        self.variables = Path("/dev/null")
        self.assert_refused(self.call("first", "0002"), AT_VARIABLES, 0x8004)

    def test_another_tool_writes_in_between(self) -> None:
        # The journal has a change that began with another order than the file has now.
        self.make_state()
        self.call("update", self.file("stream", frame(5, 0, numbers(2))))
        pending = pending_journal(
            "BootOrder", ATTRIBUTES + numbers(2, 1, 0), ATTRIBUTES + numbers(1, 0)
        )
        (self.state / "journal").write_bytes(pending)
        told = self.call("settle")
        self.assertIn("BootOrder was changed meanwhile, and is overwritten", told.output)
        self.assertEqual(self.stored("BootOrder"), numbers(1, 0))
        self.assertEqual(self.stored("BootNext"), numbers(2))

    def test_a_file_of_another_path_is_another_machine(self) -> None:
        words = [
            it
            for it in self.words("update", self.file("stream", frame(5, 0, numbers(2))))
            if it not in ("--name", NAME)
        ]
        self.make_state()
        self.assertEqual(self.told(words).status, 0)
        moved = self.variables.rename(self.folder / "moved.fd")
        words = [str(moved) if it == str(self.folder / "vars.fd") else it for it in words]
        self.assert_refused(self.told(words), AT_JOURNAL, 0x8008)


if __name__ == "__main__":
    unittest.main()
