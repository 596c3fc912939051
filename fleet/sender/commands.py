"""The words of `bootfleet`, and what is done for them."""

from __future__ import annotations

import argparse
import fcntl
import io
import os
import re
import shutil
import signal
import sqlite3
import sys
import time
from pathlib import Path
from typing import IO, Callable, Dict, List

import bootkeep

from . import certificates, completions, machines, page, status, waves
from .brokers import KINDS, BrokerError, Mosquitto, broker_of
from .certificates import CertificateError
from .courier import MqttCourier, split_broker
from .entries import Wanted, activated
from .goals import Goal
from .ledger import Doubt, Ledger
from .run import Sender
from .store import LedgerError
from .telling import Teller

LEDGER = "/var/lib/bootfleet/ledger"

NOT_DONE = 1
BAD_WORDS = 2
FAILED = 3

NAME_OF_MACHINE = "its name"

DELIVER = re.compile(rb"deliver ((?:[0-9a-fA-F]{2})*)")


class Problem(Exception):
    """Why a command isn't carried out."""


REFUSALS = (Problem, LedgerError, CertificateError, BrokerError)
"""Why nothing is done."""


def main(words: List[str]) -> int:
    """Does what the words ask for, and gives the status."""
    known = parser()
    completions.answer_shell(known)
    options = known.parse_args(words)
    try:
        command: Callable[[argparse.Namespace], int] = options.command
        return command(options)
    except bootkeep.Error as refused:
        print(f"bootfleet: refused: {refused}", file=sys.stderr)
        return FAILED
    except (*REFUSALS, ValueError, OSError, sqlite3.Error) as problem:
        print(f"bootfleet: {problem}", file=sys.stderr)
        return FAILED


def parser() -> argparse.ArgumentParser:
    made = argparse.ArgumentParser(prog="bootfleet", description=__doc__)
    made.add_argument(
        "--ledger",
        metavar="FILE",
        type=Path,
        default=Path(os.environ.get("BOOTFLEET_LEDGER", LEDGER)),
        help=f"the ledger; otherwise the environment's BOOTFLEET_LEDGER, or {LEDGER}",
    )
    commands = made.add_subparsers(metavar="COMMAND", required=True)
    _add_set_up(commands)
    _add_goals(commands)
    _add_running(commands)
    _add_decisions(commands)
    return made


def _add(commands: "argparse._SubParsersAction[argparse.ArgumentParser]", name: str,
         does: Callable[[argparse.Namespace], int], about: str) -> argparse.ArgumentParser:  # fmt: skip
    made = commands.add_parser(name, help=about, description=about)
    made.set_defaults(command=does)
    return made


def _add_set_up(commands: "argparse._SubParsersAction[argparse.ArgumentParser]") -> None:
    init = _add(commands, "init", do_init, "makes a ledger, and what a broker needs")
    init.add_argument("ledger_made", metavar="LEDGER", type=Path, help="the file that is made")
    init.add_argument(
        "--broker", metavar="HOST[:PORT]", required=True, help="as agents and senders call it"
    )
    init.add_argument(
        "--certs", metavar="FOLDER", type=Path, required=True, help="of keys and certificates"
    )
    init.add_argument(
        "--broker-kind",
        choices=sorted(KINDS),
        metavar="KIND",
        default=Mosquitto.kind,
        help=f"what the broker is: {' or '.join(sorted(KINDS))}; otherwise the former",
    )
    enroll = _add(commands, "enroll", do_enroll, "takes machines in, with a certificate for each")
    enroll.add_argument("machines", metavar="MACHINE", nargs="+", help=NAME_OF_MACHINE)
    enroll.add_argument(
        "--request", metavar="FILE", type=Path, help="of one machine that has made its key itself"
    )
    sender = _add(commands, "enroll-sender", do_enroll_sender, "makes certificates of more senders")
    sender.add_argument("names", metavar="NAME", nargs="+", help="by which it runs: `run --as`")
    revoke = _add(commands, "revoke", do_revoke, "takes rights away from machines or senders")
    _name_machines(
        revoke.add_argument("names", metavar="NAME", nargs="+", help="of a machine or a sender")
    )


def _add_goals(commands: "argparse._SubParsersAction[argparse.ArgumentParser]") -> None:
    for name, about in (
        ("first", "an entry is to be there, and first in BootOrder"),
        ("next", "an entry is to be there, and the next one, once"),
        ("remove", "an entry isn't to be there, or several"),
        ("try", "a new entry is tried by one start, and first only if the machine came up by it"),
    ):
        made = _add(commands, name, do_goal, about)
        made.set_defaults(goal=name)
        made.add_argument("--description", metavar="TEXT", help="its description")
        made.add_argument(
            "--path", metavar="TEXT", action="append", help="its path; given again, its next one"
        )
        made.add_argument("--option", metavar="FILE", type=Path, help="all of it: a load option")
        if name == "first":
            made.add_argument("--next", action="store_true", help="and the next one, once")
        _add_machines(made)
    order = _add(commands, "order", do_order, "entries are to be first in BootOrder, as they stand")
    order.add_argument(
        "entries", metavar="ENTRY", nargs="+", help="a file with a load option, or a description"
    )
    _add_machines(order)
    send = _add(
        commands, "send", do_send, "sends requests, each once: a script or a stream of frames"
    )
    send.add_argument(
        "script", metavar="SCRIPT", type=Path, help="lines of `deliver` and a frame, or frames"
    )
    _add_machines(send)


def _add_machines(made: argparse.ArgumentParser) -> None:
    which = made.add_mutually_exclusive_group(required=True)
    which.add_argument("--machines", metavar="FILE", type=Path, help="a file with their names")
    which.add_argument("--all", action="store_true", help="all that are enrolled")


def _add_running(commands: "argparse._SubParsersAction[argparse.ArgumentParser]") -> None:
    run = _add(
        commands,
        "run",
        do_run,
        "sends, until it is ended, and tells on standard error how far it is",
    )
    run.add_argument(
        "--until-done", action="store_true", help="or until nothing is left to be done"
    )
    run.add_argument("--limit", metavar="SECONDS", type=float, help="or for so many seconds")
    run.add_argument(
        "--as", dest="name", metavar="NAME", default=certificates.SENDER, help="by this certificate"
    )
    run.add_argument(
        "--waves",
        metavar="SIZES",
        help="so many machines first, then so many, as 1,5%%,100%%; 100%% is all at once",
    )
    run.add_argument(
        "--stop-at", metavar="N", type=int, help="once so many of them are in trouble, none goes on"
    )
    shown = _add(commands, "status", do_status, "shows how it stands")
    how = shown.add_mutually_exclusive_group()
    how.add_argument("--json", action="store_true", help="as one object of JSON")
    how.add_argument(
        "--page",
        metavar="FILE",
        type=Path,
        help="writes a page of HTML: troubles first, waves, progress, and a search",
    )
    how.add_argument(
        "--metrics", metavar="FILE", type=Path, help="writes a text that Prometheus collects"
    )
    shown.add_argument(
        "--watch",
        nargs="?",
        metavar="SECONDS",
        type=float,
        const=2.0,
        help="again after so many seconds, or 2, until it is ended",
    )

    backup = _add(commands, "backup", do_backup, "copies the ledger as it is at one moment")
    backup.add_argument("file", metavar="FILE", type=Path, help="the copy, made anew as a whole")


def _add_decisions(commands: "argparse._SubParsersAction[argparse.ArgumentParser]") -> None:
    for name, does, about in (
        ("resend", do_resend, "goes on with machines in trouble as the ledger has them"),
        (
            "adopt",
            do_adopt,
            "goes on with machines in trouble as they say themselves, after showing it",
        ),
        ("forget", do_forget, "takes machines out, with all that was asked of them"),
    ):
        made = _add(commands, name, does, about)
        _name_machines(
            made.add_argument("machines", metavar="MACHINE", nargs="+", help=NAME_OF_MACHINE)
        )
        if name != "resend":
            made.add_argument("--yes", action="store_true", help="without asking")
        if name == "adopt":
            _add_doubts(made)
    cancel = _add(commands, "cancel", do_cancel, "gives up what isn't reached yet of a job")
    cancel.add_argument("job", metavar="JOB", type=int, help="its number, as `status` has it")
    _name_machines(
        cancel.add_argument(
            "machines", metavar="MACHINE", nargs="*", help="of these alone; otherwise of all"
        )
    )


def _name_machines(argument: argparse.Action) -> None:
    """Has a shell complete what this argument takes by the names in the ledger."""
    setattr(argument, "completer", completions.machine_names)


def _add_doubts(made: argparse.ArgumentParser) -> None:
    for word, about in (
        ("--done", "this `next`, `send` or `try` was done: it isn't sent again"),
        ("--again", "this one wasn't: what isn't known to be done of it is sent again"),
    ):
        made.add_argument(word, metavar="JOB", type=int, action="append", default=[], help=about)


# What is done


def do_init(options: argparse.Namespace) -> int:
    host, port = split_broker(options.broker)
    if options.ledger_made.exists():
        raise Problem(f"{options.ledger_made}: it is there already")
    options.ledger_made.parent.mkdir(parents=True, exist_ok=True)
    options.certs.mkdir(parents=True, exist_ok=True)
    certificates.make_authority(options.certs)
    broker = certificates.make_broker(options.certs, host, port, options.broker_kind)
    certificates.make_sender(options.certs, certificates.SENDER)
    settings = {"broker": f"{host}:{port}", "certs": str(options.certs.resolve())}
    Ledger.make(options.ledger_made, settings)
    print(broker.how_to_start())
    return 0


def do_enroll(options: argparse.Namespace) -> int:
    ledger = Ledger(options.ledger)
    broker = broker_of(_certs(ledger))
    senders = broker.senders()
    for name in options.machines:
        certificates.check_name(name)
        broker.check_name(name)
        if name == certificates.BROKER or name in senders:
            raise Problem(f"{name}: this name isn't a machine's")
    if options.request is not None and len(options.machines) != 1:
        raise Problem(f"{options.request}: a request is of one machine")
    for name in options.machines:
        if options.request is None:
            made = certificates.make_machine(_certs(ledger), name, _broker(ledger))
        else:
            made = certificates.sign_machine(_certs(ledger), name, _broker(ledger), options.request)
        with ledger.transaction():
            ledger.add_machine(name)
        print(f"{made}: copy it to the machine, as /etc/bootfleet")
    broker.let_machines(options.machines)
    if broker.knows_machines:
        print(broker.how_to_let())
    return 0


def do_enroll_sender(options: argparse.Namespace) -> int:
    ledger = Ledger(options.ledger)
    broker = broker_of(_certs(ledger))
    for name in options.names:
        certificates.check_name(name)
        broker.check_name(name)
        if name == certificates.BROKER or ledger.has_machine(name):
            raise Problem(f"{name}: this name isn't a sender's")
    for name in options.names:
        certificates.make_sender(_certs(ledger), name)
    print(f"{broker.how_to_let()}, and then `run --as NAME`")
    return 0


def do_revoke(options: argparse.Namespace) -> int:
    ledger = Ledger(options.ledger)
    for name in options.names:
        certificates.check_name(name)
        certificates.revoke(_certs(ledger), name)
        print(f"{name}: it has no rights any more")
    print("\n".join(broker_of(_certs(ledger)).how_to_revoke(options.names)))
    return 0


def do_goal(options: argparse.Namespace) -> int:
    wanted = _wanted(options)
    if options.goal == "try":
        wanted = _tried(wanted)
    goals = [Goal(options.goal, (wanted,))]
    if options.goal == "first" and options.next:
        goals.append(Goal("next", (wanted,)))
    return _add_jobs(options, goals)


def do_order(options: argparse.Namespace) -> int:
    return _add_jobs(options, [Goal("order", tuple(map(_entry_of_word, options.entries)))])


def do_send(options: argparse.Namespace) -> int:
    return _add_jobs(options, [Goal("send", frames=tuple(read_frames(options.script)))])


def do_run(options: argparse.Namespace) -> int:
    ledger = Ledger(options.ledger)
    if options.waves is not None:
        made = waves.read_waves(options.waves, options.stop_at)
        with ledger.transaction():
            ledger.set_waves(made if made.is_any() else None)
    elif options.stop_at is not None:
        raise Problem("--stop-at goes with --waves")
    lock = _lock(ledger, options.name)
    stopped: List[int] = []
    for number in (signal.SIGTERM, signal.SIGINT):
        signal.signal(number, lambda got, _: stopped.append(got))
    teller = Teller()
    courier = MqttCourier(_broker(ledger), _certs(ledger) / options.name, options.name, teller)
    sender = Sender(ledger, courier, options.name, teller=teller)
    try:
        is_done = sender.run(options.until_done, options.limit, lambda: bool(stopped))
    finally:
        courier.close()
        lock.close()
    counts = sender.counts
    teller.say(
        f"sent {counts.out}, of them {counts.again} again; took {counts.taken} replies,"
        f" passed over {counts.passed_over}"
    )
    if stopped and not options.until_done:
        return 0
    return 0 if is_done and ledger.all_reached() else NOT_DONE


def do_status(options: argparse.Namespace) -> int:
    ledger = Ledger(options.ledger)
    try:
        while True:
            _show_status(options, status.read_status(ledger))
            if options.watch is None:
                return 0
            time.sleep(options.watch)
    except KeyboardInterrupt:
        return 0


def _show_status(options: argparse.Namespace, found: status.Status) -> None:
    if options.json:
        print(status.as_json(found), flush=True)
        return
    if options.metrics is not None:
        status.write_whole(options.metrics, status.as_metrics(found))
        return
    if options.page is not None:
        again = None if options.watch is None else max(1, round(options.watch))
        status.write_whole(options.page, page.as_page(found, again))
        return
    columns, lines = shutil.get_terminal_size()
    if options.watch is None:
        print("\n".join(status.as_table(found, columns)))
    else:
        print("\033[H\033[2J" + "\n".join(status.as_table(found, columns, lines - 1)), flush=True)


def do_backup(options: argparse.Namespace) -> int:
    ledger = Ledger(options.ledger)
    if options.file.exists() and os.path.samefile(options.file, options.ledger):
        raise Problem(f"{options.file}: it is the ledger itself")
    ledger.back_up(options.file)
    return 0


def do_resend(options: argparse.Namespace) -> int:
    ledger = Ledger(options.ledger)
    with ledger.transaction():
        for name in _in_trouble(ledger, options.machines):
            ledger.resend(name)
    return 0


def do_adopt(options: argparse.Namespace) -> int:
    ledger = Ledger(options.ledger)
    for name in _in_trouble(ledger, options.machines):
        told = ledger.told(name)
        if told is None:
            raise Problem(f"{name}: it has told nothing of itself: mend it, and then `resend`")
        machine, unanswered = ledger.machine(name), ledger.count_unanswered(name)
        trouble = ledger.trouble(name)
        print(f"{name}: {trouble}")
        print(f" the ledger has:\n  journal {machine.journal or '-'}, next {machine.next}")
        print(f"  {unanswered} requests without an answer, which are not sent again")
        print(f" the machine says:\n{machines.describe(told)}")
        doubts = ledger.doubts(name)
        for doubt in doubts:
            print(f" it may have been done: {_words_of_doubt(doubt)}")
        done = [doubt.job for doubt in doubts if _is_done(doubt, options)]
        if options.yes or _agrees("Go on from what the machine says?"):
            with ledger.transaction():
                if (ledger.trouble(name), ledger.told(name)) != (trouble, told):
                    raise Problem(f"{name}: somebody else decided meanwhile: see how it stands now")
                for job in done:
                    ledger.say_done(name, job)
                ledger.adopt(name, told)
    return 0


def _words_of_doubt(doubt: Doubt) -> str:
    return (
        f"job {doubt.job}: {doubt.goal}: {doubt.done} of {doubt.of} known to be done,"
        f" {doubt.unanswered} sent without an answer"
    )


def _is_done(doubt: Doubt, options: argparse.Namespace) -> bool:
    """Whether what may have been done was done, as the words say, or whoever is asked."""
    is_done, is_again = doubt.job in options.done, doubt.job in options.again
    if is_done != is_again:
        return is_done
    if is_done:
        raise Problem(f"job {doubt.job}: --done and --again say both")
    if options.yes or not sys.stdin.isatty():
        raise Problem(
            f"{_words_of_doubt(doubt)}: --done {doubt.job} or --again {doubt.job} says which it is"
        )
    return not _agrees(f"Send what isn't known to be done of job {doubt.job} (again)?")


def do_forget(options: argparse.Namespace) -> int:
    ledger = Ledger(options.ledger)
    for name in options.machines:
        if not ledger.has_machine(name):
            raise Problem(f"{name}: there is no such machine in the ledger")
    if options.yes or _agrees(f"Forget what was asked of {' '.join(options.machines)}?"):
        for name in options.machines:
            certificates.forget_machine(_certs(ledger), name)
        with ledger.transaction():
            for name in options.machines:
                ledger.forget(name)
    return 0


def do_cancel(options: argparse.Namespace) -> int:
    ledger = Ledger(options.ledger)
    with ledger.transaction():
        count = ledger.cancel(options.job, options.machines or None)
    print(f"{count} goals of job {options.job} are cancelled")
    return 0


# What the words mean


def _wanted(options: argparse.Namespace) -> Wanted:
    """The entry that is meant. One that may be added is meant by all of it."""
    paths = tuple(options.path or ())
    if options.option is not None:
        if options.description is not None or paths:
            raise Problem(
                "--option says all of an entry: --description and --path don't go with it"
            )
        return _option(options.option.read_bytes(), str(options.option))
    if options.description is None and not paths:
        raise Problem("which entry? --description, --path, both, or --option says it")
    for path in paths:
        try:
            bootkeep.path_parse_exact(path)
        except bootkeep.Refused as refused:
            raise Problem(f"{path}: it is no path: {refused}") from refused
    if options.goal != "remove" and options.description is not None and paths:
        made = bootkeep.option_make(bootkeep.ATTRIBUTE_ACTIVE, options.description, paths)
        return Wanted(made)
    return Wanted(None, options.description, paths)


def _tried(wanted: Wanted) -> Wanted:
    """The entry that is tried: it is active if it is kept."""
    if wanted.option is None:
        raise Problem("which entry? --option, or --description and --path, say all of it")
    return Wanted(activated(wanted.option, True))


def _option(data: bytes, name: str) -> Wanted:
    try:
        bootkeep.option(data)
    except bootkeep.Refused as refused:
        raise Problem(f"{name}: it is no load option: {refused}") from refused
    return Wanted(data)


def _entry_of_word(word: str) -> Wanted:
    """The entry that a word of `order` means: by a file with a load option, or by a description."""
    if os.path.isfile(word):
        return _option(Path(word).read_bytes(), word)
    return Wanted(None, word)


def read_frames(path: Path) -> List[bytes]:
    """The frames of a script or a stream. Raises Problem for what is no request."""
    data = path.read_bytes()
    frames = _cut_stream(data, path) if data[:2] == b"BQ" else _cut_script(data, path)
    for at, frame in enumerate(frames):
        try:
            bootkeep.frame_parts(frame)
        except bootkeep.Refused as refused:
            raise Problem(f"{path}: request {at + 1} of it is no frame: {refused}") from refused
    if not frames:
        raise Problem(f"{path}: it has no request")
    return frames


def _cut_script(data: bytes, path: Path) -> List[bytes]:
    frames = []
    for at, line in enumerate(data.split(b"\n"), 1):
        delivered = DELIVER.fullmatch(line)
        if line and delivered is None:
            raise Problem(f"{path}: line {at}: only `deliver` and a frame can be sent")
        if delivered is not None:
            frames.append(bytes.fromhex(delivered[1].decode()))
    return frames


def _cut_stream(data: bytes, path: Path) -> List[bytes]:
    frames: List[bytes] = []
    try:
        for frame in bootkeep.frames(io.BytesIO(data)):
            frames.append(frame)
    except bootkeep.Refused as refused:
        at = sum(map(len, frames))
        raise Problem(f"{path}: offset {at}: there is no whole frame: {refused}") from refused
    return frames


def _add_jobs(options: argparse.Namespace, goals: List[Goal]) -> int:
    """Makes goals of machines, and prints the number of each job."""
    ledger = Ledger(options.ledger)
    names = ledger.machine_names() if options.all else _names(options.machines)
    known = set(ledger.machine_names())
    unknown = [name for name in names if name not in known]
    if unknown:
        raise Problem(f"{options.machines}: not enrolled: {' '.join(unknown[:10])}")
    if not names:
        raise Problem("there is no machine")
    with ledger.transaction():
        jobs = [ledger.add_job(goal, names) for goal in goals]
    for job, goal in zip(jobs, goals):
        print(f"job {job}: {goal}, of {len(names)} machines")
    return 0


def _names(path: Path) -> List[str]:
    """The names in a file, each once: words, and after a # what isn't one."""
    lines = path.read_text(encoding="utf-8").splitlines()
    words: Dict[str, None] = {}
    for line in lines:
        words.update(dict.fromkeys(line.partition("#")[0].split()))
    return list(words)


def _in_trouble(ledger: Ledger, names: List[str]) -> List[str]:
    for name in names:
        if not ledger.has_machine(name):
            raise Problem(f"{name}: there is no such machine in the ledger")
        if ledger.trouble(name) is None:
            raise Problem(f"{name}: it is in no trouble")
    return names


def _agrees(question: str) -> bool:
    """Asks whoever called. Nobody's answer is no."""
    if not sys.stdin.isatty():
        raise Problem("nobody is there to ask: --yes says so")
    return input(f"{question} [y/N] ").strip().lower() in ("y", "yes")


def _broker(ledger: Ledger) -> str:
    return ledger.setting("broker") or ""


def _certs(ledger: Ledger) -> Path:
    return Path(ledger.setting("certs") or "")


def _open_private(path: str, flags: int) -> int:
    return os.open(path, flags, 0o600)


def _lock(ledger: Ledger, name: str) -> "IO[str]":
    """Keeps a second sender with the same certificate out: a broker would let only one of them stay connected."""
    lock = open(f"{ledger.path}.{name}.lock", "w", encoding="utf-8", opener=_open_private)
    # Whoever may read it could keep it locked, also one that an earlier version made.
    os.fchmod(lock.fileno(), 0o600)
    try:
        fcntl.flock(lock, fcntl.LOCK_EX | fcntl.LOCK_NB)
    except BlockingIOError:
        lock.close()
        raise Problem(
            f"{name}: it is running already; `enroll-sender` and `run --as` make it two"
        ) from None
    return lock
