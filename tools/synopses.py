"""How commands are called, as mdoc has it: what their arguments may be together."""

from __future__ import annotations

from dataclasses import dataclass, replace
from typing import Dict, List, Tuple

from command_rows import DRY_RUN, Argument, Command, Group, Letter


@dataclass(frozen=True)
class Form:
    """A way to call a command."""

    others: Tuple[str, ...]
    """The arguments that it may have, but for those of which it has one."""
    choices: Tuple[Argument, ...]
    """Those of which it has one, in their order."""
    may_lack_all: bool
    """Whether it may have none of these."""


def modes(command: Command) -> List[str]:
    """The flags with which a command does something else: those in the place of a value, and those without a dry run."""
    values = [it for it in command.arguments if not it.is_option]
    in_place = {name for it in values for name in (*it.instead, *it.excludes)}
    without = {it.name for it in command.arguments if DRY_RUN in it.excludes}
    return [it.name for it in command.arguments if it.name in in_place | without]


def forms(command: Command) -> List[Form]:
    """The ways to call a command, of which none has arguments that exclude each other by such a flag."""
    flags = modes(command)
    plain = [it for it in command.arguments if it.name not in flags]
    value = next((it for it in plain if not it.is_option and (it.instead or it.excludes)), None)
    given = (value,) if value else ()
    names = tuple(it.name for it in plain if it is not value)
    found = [Form(names, given, value is not None and not value.is_required and not value.instead)]
    for flag in (command.argument(it) for it in flags):
        beside = [it.name for it in plain if is_beside(command, it, flag)]
        found.append(Form(tuple(beside), (flag,), False))
    return merged(found)


def is_beside(command: Command, argument: Argument, flag: Argument) -> bool:
    """Whether an argument may be given beside a flag, with what it needs."""
    needed = [command.argument(it) for it in argument.needs if command.has(it)]
    return all(it.agrees(flag) for it in (argument, *needed))


def merged(found: List[Form]) -> List[Form]:
    """The ways, of which those that differ in nothing but what they have one of are one."""
    by_others: Dict[Tuple[str, ...], Form] = {}
    for form in found:
        before = by_others.get(form.others)
        if before:
            choices = (*before.choices, *form.choices)
            form = Form(form.others, choices, before.may_lack_all)
        by_others[form.others] = form
    return list(by_others.values())


def synopsis(commands: List[Command]) -> List[str]:
    """How commands are called. Those that are called alike stand together, at the place of the first."""
    alike: Dict[Tuple[str, ...], List[str]] = {}
    for command in commands:
        for lines in called(command):
            alike.setdefault(tuple(lines), []).append(command.name)
    return [
        line
        for lines, names in alike.items()
        for line in (".Nm", f".Cm {' | '.join(names)}", *lines)
    ]


def called(command: Command) -> List[List[str]]:
    """The lines of each way to call a command, after its name."""
    if not command.arguments:
        return [[".Op Ar word ..."]]
    after = requests(command.commands)
    return [[*lines_of_form(command, form), *after] for form in forms(command)]


def lines_of_form(command: Command, form: Form) -> List[str]:
    """The arguments of a way to call a command: options first, and values after them."""
    choice = [choice_of(form)] if form.choices else []
    is_of_flags = all(it.is_option for it in form.choices)
    options = [it for it in command.arguments if it.is_option and it.name in form.others]
    values = [it for it in command.arguments if not it.is_option and it.name in form.others]
    after = [] if is_of_flags else choice
    return [
        *(choice if is_of_flags else []),
        *option_lines(command, options),
        *(value_line(it, form) for it in values),
        *after,
    ]


def choice_of(form: Form) -> str:
    """The arguments of which a way has one."""
    words = " | ".join(shown(it) for it in form.choices)
    if form.may_lack_all:
        return f".Op {words}"
    return f".Brq {words}" if len(form.choices) > 1 else f".{words}"


def value_line(value: Argument, form: Form) -> str:
    """A value, which isn't needed where something is given in its place."""
    is_needed = value.is_required and not (value.instead and form.choices)
    return f".{shown(value)}" if is_needed else f".Op {shown(value)}"


def option_lines(command: Command, options: List[Argument]) -> List[str]:
    """Options, of which those of a group stand together: first those that have to be given."""
    lines: Dict[str, bool] = {}
    for option in options:
        group = next((it for it in command.groups if option.name in it.names), None)
        if group:
            words = alternatives(command, group)
            lines[f".Brq {words}" if group.is_required else f".Op {words}"] = group.is_required
        elif option.is_required:
            lines[f".{shown(option)}"] = True
        else:
            lines[optional(option)] = False
    return sorted(lines, key=lambda it: not lines[it])


def alternatives(command: Command, group: Group) -> str:
    """The arguments of a group, of which one is given."""
    return " | ".join(shown(command.argument(it)) for it in group.names)


def optional(option: Argument) -> str:
    """An option that needn't be given."""
    words = shown(replace(option, is_repeated=False))
    return f".Oo {words} Oc ..." if option.is_repeated else f".Op {words}"


def requests(commands: List[Command]) -> List[str]:
    """The commands of a command, of which one follows."""
    if not commands:
        return []
    last = [False] * (len(commands) - 1) + [True]
    each = [request(it) + ("" if is_last else " |") for it, is_last in zip(commands, last)]
    return [".Bro", *each, ".Brc"]


def request(command: Command) -> str:
    """A command that follows another one, with its values."""
    values = [shown(it) for it in command.arguments if it.is_required]
    choices = [f"Bro {alternatives(command, it)} Brc" for it in command.groups]
    return " ".join([f".Cm {command.name}", *values, *choices])


def shown(argument: Argument) -> str:
    """An argument, as mdoc has it behind a macro."""
    value = f"Ar {argument.value}" if argument.value else ""
    words = f"Fl -{argument.name} {value}".rstrip() if argument.is_option else value
    return f"{words} ..." if argument.is_repeated else words


def bootkeep_synopsis(usages: List[str]) -> List[str]:
    """How the commands of `bootkeep` are called, by what its help says."""
    return [line for usage in usages for line in (".Nm", *bootkeep_lines(usage.split()))]


def bootkeep_lines(words: List[str]) -> List[str]:
    """The words of a call, as mdoc has them."""
    lines: List[str] = []
    for word in words:
        option = word.strip("[]")
        if option.startswith("--"):
            lines.append(f"{'.Op ' if option != word else '.'}Fl {option[1:]}")
        elif word.isupper() and lines[-1].startswith((".Ar", ".Fl")):
            lines[-1] += f" {word}" if lines[-1].startswith(".Ar") else f" Ar {word}"
        else:
            lines.append(f".Ar {word}" if word.isupper() else f".Cm {word}")
    return lines


def efibootmgr_synopsis(options: List[Letter], values: Dict[str, str]) -> List[str]:
    """How `efibootmgr` is called: first the letters that have no value."""
    done = [it for it in options if it.name in values and it.letter]
    asking = "hV"
    letters = [it.letter for it in done if it.takes != "Value" and it.letter not in asking]
    plain = sorted(letters, key=lambda it: (it.lower(), it.isupper()))
    return [
        ".Nm bootvars efibootmgr",
        f".Op Fl {''.join(plain)}",
        *(f".Op Fl {it.letter} Ar {values[it.name]}" for it in done if it.takes == "Value"),
        *(
            f".Op Fl -{it.name}"
            for it in options
            if it.name in values and not it.letter and it.choice == "Keep"
        ),
        ".Op Ar word ...",
        ".Nm bootvars efibootmgr",
        f".Fl {' | '.join(asking)}",
    ]
