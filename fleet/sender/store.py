"""The file of a ledger: its tables, its settings, and what is done to it as a whole or not at all.

Each write is in a transaction of SQLite, which is on the disk (`synchronous=FULL`) when it ends.
"""

from __future__ import annotations

import fcntl
import glob
import math
import os
import secrets
import sqlite3
import tempfile
import time
from contextlib import contextmanager
from pathlib import Path
from typing import Any, Dict, Iterator, Optional, Type, TypeVar

Self = TypeVar("Self", bound="Store")

SCHEMA = """
CREATE TABLE setting(name TEXT PRIMARY KEY, value TEXT NOT NULL) WITHOUT ROWID;
CREATE TABLE machine(
    name TEXT PRIMARY KEY,
    era INTEGER NOT NULL DEFAULT 0,
    next INTEGER NOT NULL DEFAULT 0,    -- the next number: what became of those below it is known
    journal TEXT,                       -- the identity of its journal, once it told one; or that it may have had one
    entries INTEGER NOT NULL DEFAULT 0, -- how many entries it had when it was looked at last
    unmet INTEGER NOT NULL DEFAULT 0,   -- how often in a row it wasn't as a message expects, and had applied nothing
    seen REAL,                          -- when it was heard of last
    note TEXT,                          -- why it refused what is sent again, if it did last
    trouble TEXT,
    told TEXT,                          -- what it said of itself when the trouble began
    holder TEXT,
    until REAL NOT NULL DEFAULT 0,      -- when the lease ends
    due REAL NOT NULL DEFAULT 0,        -- it is silent: no sender takes it up before
    wave INTEGER                        -- in which wave it is, if there are any
) WITHOUT ROWID;
CREATE TABLE job(id INTEGER PRIMARY KEY, goal TEXT NOT NULL, made REAL NOT NULL);
CREATE TABLE goal(
    machine TEXT NOT NULL REFERENCES machine ON DELETE CASCADE,
    job INTEGER NOT NULL REFERENCES job,
    state TEXT NOT NULL DEFAULT 'open' CHECK (state IN ('open', 'reached', 'failed', 'cancelled')),
    since INTEGER NOT NULL DEFAULT 0,   -- requests before this number aren't of this attempt
    entry INTEGER,                      -- where its entry is; of a trial, once the machine came up by it
    note TEXT,                          -- why it has failed; or while it is open, what it waits for
    ended REAL,
    PRIMARY KEY(machine, job)
) WITHOUT ROWID;
CREATE TABLE request(
    machine TEXT NOT NULL REFERENCES machine ON DELETE CASCADE,
    era INTEGER NOT NULL,
    number INTEGER NOT NULL,
    attempt INTEGER NOT NULL,
    job INTEGER NOT NULL REFERENCES job,
    part INTEGER NOT NULL,              -- which one of a `send` it is
    kind INTEGER NOT NULL,
    entry INTEGER,                      -- what it is about
    frame BLOB NOT NULL,
    state TEXT NOT NULL DEFAULT 'sent'
        CHECK (state IN ('sent', 'late', 'done', 'refused', 'passed', 'dropped')),
    outcome TEXT,
    stored INTEGER,                     -- the entry under which it stored an option
    data TEXT,                          -- of a trial: the SHA-256 of the data of the entry that is tried
    start TEXT,                         -- of a trial that isn't over: in which start the machine was when it was made
    PRIMARY KEY(machine, era, number, attempt)
) WITHOUT ROWID;
CREATE INDEX goal_open ON goal(machine) WHERE state = 'open';
CREATE INDEX goal_job ON goal(job, state);
CREATE INDEX request_sent ON request(machine) WHERE state = 'sent';
CREATE INDEX request_job ON request(machine, job);
CREATE INDEX machine_holder ON machine(holder) WHERE holder IS NOT NULL;
CREATE INDEX machine_wave ON machine(wave) WHERE wave IS NOT NULL;
CREATE INDEX machine_trouble ON machine(name) WHERE trouble IS NOT NULL;
"""

VERSION = 3

UPGRADE = """
ALTER TABLE request ADD COLUMN data TEXT;
ALTER TABLE request ADD COLUMN start TEXT;
UPDATE setting SET value = '3' WHERE name = 'version';
"""
"""What makes a ledger of version 3 of one of version 2, in which there were no trials."""


LATEST = "latest"
"""The setting, and the end of the name of a file beside the ledger, by which the latest ledger is known."""

COPIED = "copied"
"""The setting by which a copy says that it is one."""


class LedgerError(Exception):
    """Why nothing can be done with the ledger."""


def is_locked(path: Path) -> bool:
    """Whether a sender is at work that has this lock."""
    with open(path, encoding="utf-8") as lock:
        try:
            fcntl.flock(lock, fcntl.LOCK_EX | fcntl.LOCK_NB)
        except BlockingIOError:
            return True
    return False


class Store:
    """An open file of a ledger. Calls that write are to be made in a `transaction`."""

    def __init__(self, path: Path) -> None:
        if not path.is_file():
            raise LedgerError(f"{path}: there is no ledger; `bootfleet init` makes one")
        self.path, self.path_beside = path, Path(f"{path.resolve()}.{LATEST}")
        self.marked, self.mark_due = -math.inf, math.inf
        self.db = sqlite3.connect(str(path), isolation_level=None, timeout=60)
        try:
            self.db.execute("PRAGMA journal_mode=WAL")
            self.db.execute("PRAGMA synchronous=FULL")
            self.db.execute("PRAGMA foreign_keys=ON")
            version = self.setting("version")
            if version == "2":
                self._upgrade()
                version = self.setting("version")
        except sqlite3.DatabaseError as error:
            raise LedgerError(f"{path}: it is no ledger: {error}") from error
        if version != str(VERSION):
            raise LedgerError(f"{path}: its version is {version}, and {VERSION} is known")

    @classmethod
    def make(cls: Type[Self], path: Path, settings: Dict[str, str]) -> Self:
        """A new ledger with these settings."""
        try:
            path.touch(0o600, exist_ok=False)
        except FileExistsError:
            raise LedgerError(f"{path}: it is there already") from None
        db = sqlite3.connect(str(path))
        with db:
            db.executescript(SCHEMA)
            held = {"version": str(VERSION), **settings}
            db.executemany("INSERT INTO setting VALUES(?, ?)", held.items())
        db.close()
        return cls(path)

    def _upgrade(self) -> None:
        """Makes this version of a ledger of the one before it: no sender of that one may be at work, as it would take a
        trial for another goal."""
        with self.transaction():
            for path in self.path.parent.glob(f"{glob.escape(self.path.name)}.*.lock"):
                if is_locked(path):
                    raise LedgerError(
                        f"{path}: a sender of an earlier version is at work: end it first"
                    )
            if self.setting("version") == "2":
                for statement in UPGRADE.strip().splitlines():
                    self.db.execute(statement)

    @contextmanager
    def transaction(self) -> Iterator[None]:
        """What is done in it is done as a whole, and on the disk afterwards, or not at all."""
        self.db.execute("BEGIN IMMEDIATE")
        try:
            yield
            if self.mark_due <= time.monotonic():
                self._mark()
        except BaseException:
            self.db.execute("ROLLBACK")
            raise
        self.db.execute("COMMIT")

    @contextmanager
    def savepoint(self) -> Iterator[None]:
        """A part of a transaction, of which nothing is done if it fails."""
        self.db.execute("SAVEPOINT part")
        try:
            yield
        except BaseException:
            self.db.execute("ROLLBACK TO part")
            raise
        finally:
            self.db.execute("RELEASE part")

    def one(self, query: str, *values: object) -> Any:
        """The first row that a query finds, or none."""
        return self.db.execute(query, values).fetchone()

    def setting(self, name: str) -> Optional[str]:
        """A setting of the ledger."""
        found = self.one("SELECT value FROM setting WHERE name = ?", name)
        return None if found is None else str(found[0])

    def set_setting(self, name: str, value: str) -> None:
        """Makes a setting of the ledger, or another one of it."""
        self.db.execute("INSERT OR REPLACE INTO setting VALUES(?, ?)", (name, value))

    def remove_setting(self, name: str) -> None:
        """Removes a setting of the ledger, if it is there."""
        self.db.execute("DELETE FROM setting WHERE name = ?", (name,))

    def is_other(self) -> bool:
        """Whether this isn't the ledger that was marked last, but an older copy that took its place, or a new one."""
        return self.setting(COPIED) is not None or self.setting(LATEST) != self._beside()

    def mark(self, pause: float = 0) -> None:
        """Has the ledger marked as the latest one, when the transaction ends, or a later one if it was marked less than so
        many seconds ago."""
        self.mark_due = min(self.mark_due, self.marked + pause)

    def _mark(self) -> None:
        self.marked, self.mark_due = time.monotonic(), math.inf
        with open(self.path_beside, "w", encoding="ascii") as out:
            out.write(secrets.token_hex(16))
            out.flush()
            os.fsync(out.fileno())
        self.set_setting(LATEST, self._beside() or "")
        self.remove_setting(COPIED)

    def _beside(self) -> Optional[str]:
        """What was drawn when a ledger was marked, and the time of the file that has it: a file that is brought back has
        another one."""
        try:
            with open(self.path_beside, encoding="ascii", errors="replace") as file:
                return f"{file.read()} {os.fstat(file.fileno()).st_ctime_ns}"
        except FileNotFoundError:
            return None

    def back_up(self, path: Path) -> None:
        """Copies the ledger as it is at one moment to a file of its own, which replaces what is there as a whole, and says
        that it is a copy."""
        descriptor, made = tempfile.mkstemp(dir=path.parent, prefix=".bootfleet-")
        try:
            copy = sqlite3.connect(made, isolation_level=None)
            self.db.backup(copy)
            copy.execute("INSERT OR REPLACE INTO setting VALUES(?, '1')", (COPIED,))
            # Of one file: the ledger's own has a second one beside it, with what was stored last.
            copy.execute("PRAGMA journal_mode=DELETE")
            copy.close()
            os.fsync(descriptor)
            os.replace(made, path)
        except BaseException:
            os.unlink(made)
            raise
        finally:
            os.close(descriptor)
