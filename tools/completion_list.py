"""Completions of a program for shells, made out of what its --help prints."""

from __future__ import annotations

import re
import subprocess
import sys
from dataclasses import dataclass, field, replace
from pathlib import Path
from typing import Callable, Dict, Iterator, List

from repository import ROOT

FOLDER = ROOT / "packaging/completions"
"""The folder of the files."""

FILES = {"FILE", "FOLDER", "SET"}
"""What a value is called that is the path of a file or a folder."""

OPTION = re.compile(r"^  (?:-(\w), |    )--([\w-]+)(?: <([^>]+)>)?(?:  +(.*))?$")
"""A line of an option, with its letter, its name, what its value is called, and what is said of it."""

COMMAND = re.compile(r"^  ([\w-]+)  +(.*)$")
"""A line of a command, with its name, and what is said of it."""

SECONDS = 60
"""After how many seconds a program that doesn't answer is given up."""


@dataclass(frozen=True)
class Option:
    """An option of a command."""

    letter: str
    name: str
    value: str
    """What its value is called; nothing if it has none."""
    about: str


@dataclass
class Command:
    """A command, whose words begin with the program's name."""

    words: str
    options: List[Option] = field(default_factory=list)
    commands: Dict[str, str] = field(default_factory=dict)
    """What is said of each of its own commands, by their names."""


def read_help(words: str, text: str) -> Command:
    """The command of these words whose help, short or long, is this text."""
    command = Command(words)
    part = ""
    for line in text.splitlines():
        if not line.startswith(" "):
            part = line or part
            continue
        option, named = OPTION.match(line), COMMAND.match(line)
        if part == "Options:" and option:
            letter, name, value, about = (it or "" for it in option.groups())
            command.options.append(Option(letter, name, value, about))
        elif part == "Options:" and not command.options[-1].about:
            command.options[-1] = replace(command.options[-1], about=line.strip())
        elif part == "Commands:" and named and named[1] != "help":
            command.commands[named[1]] = named[2]
    return command


def commands_of(help_of: Callable[[List[str]], str], words: List[str]) -> Iterator[Command]:
    """The command of these words and all below it, each before its own, by what `help_of` answers for their words."""
    command = read_help(" ".join(words), help_of(words))
    yield command
    for name in command.commands:
        yield from commands_of(help_of, [*words, name])


def help_of_program(program: Path, words: List[str]) -> str:
    """The help that a program prints for a command, whose words begin with the program's name.

    Raises OSError or subprocess.SubprocessError if it prints none."""
    asked = subprocess.run(
        [program, *(["help", *words[1:]] if len(words) > 1 else ["--help"])],
        stdin=subprocess.DEVNULL,
        capture_output=True,
        check=True,
        encoding="utf-8",
        timeout=SECONDS,
    )
    return asked.stdout


def made(name: str, commands: List[Command]) -> Dict[str, str]:
    """The files of a program with these commands, by their names."""
    return {
        f"{name}.bash": bash(name, commands),
        f"_{name}": zsh(name, commands),
        f"{name}.fish": fish(name, commands),
    }


def made_of(program: Path, name: str) -> Dict[str, str]:
    """The files of this program, which it is asked for.

    Raises OSError or subprocess.SubprocessError if it doesn't answer."""
    return made(name, list(commands_of(lambda words: help_of_program(program, words), [name])))


def bash(name: str, commands: List[Command]) -> str:
    """The file for bash."""
    lines = [
        f"# Completions of {name} for bash, made by tools/completions: source it, or put it where bash looks for them.",
        f"_{name}() {{",
        "    local current=${COMP_WORDS[COMP_CWORD]} before=${COMP_WORDS[COMP_CWORD - 1]}",
        f'    local command={name} words="" word',
        '    for word in "${COMP_WORDS[@]:1:COMP_CWORD-1}"; do',
        '        case "$command $word" in',
        f'            {cases(names_of(commands))}) command+=" $word" ;;',
        "        esac",
        "    done",
        '    case "$command $before" in',
        f'        {cases(valued(commands, True))}) mapfile -t COMPREPLY < <(compgen -f -- "$current"); return ;;',
        f"        {cases(valued(commands, False))}) return ;;",
        "    esac",
        "    case $command in",
    ]
    for command in commands:
        words = " ".join([*command.commands, *spelled(command)])
        lines.append(f'        "{command.words}") words="{words}" ;;')
    return "\n".join(
        [
            *lines,
            "    esac",
            '    mapfile -t COMPREPLY < <(compgen -W "$words" -- "$current")',
            "    [[ $current == -* || $command == "
            + name
            + ' ]] || mapfile -t -O "${#COMPREPLY[@]}" COMPREPLY < <(compgen -f -- "$current")',
            "}",
            f"complete -o filenames -F _{name} {name}",
            "",
        ]
    )


def zsh(name: str, commands: List[Command]) -> str:
    """The file for zsh."""
    lines = [
        f"#compdef {name}",
        f"# Completions of {name} for zsh, made by tools/completions: put it into a folder of fpath.",
        f"_{name}() {{",
        f"  local command={name} word",
        "  local -a commands options",
        '  for word in "${(@)words[2,CURRENT-1]}"; do',
        '    case "$command $word" in',
        f'      ({cases(names_of(commands))}) command+=" $word" ;;',
        "    esac",
        "  done",
        '  case "$command ${words[CURRENT-1]}" in',
        f"    ({cases(valued(commands, True))}) _files; return ;;",
        f"    ({cases(valued(commands, False))}) _message value; return ;;",
        "  esac",
        "  case $command in",
    ]
    for command in commands:
        lines.append(f'    ("{command.words}")')
        lines += [
            f"      commands+=({quoted(described(it, about))})"
            for it, about in command.commands.items()
        ]
        lines += [
            f"      options+=({quoted(described(f'--{it.name}', it.about))})"
            for it in command.options
        ]
        lines += [
            f"      options+=({quoted(described(f'-{it.letter}', it.about))})"
            for it in command.options
            if it.letter
        ]
        lines.append("      ;;")
    return "\n".join(
        [
            *lines,
            "  esac",
            "  if [[ ${words[CURRENT]} == -* ]]; then",
            "    _describe -o option options",
            "  else",
            "    (( $#commands )) && _describe command commands",
            f"    [[ $command == {name} ]] || _files",
            "  fi",
            "}",
            f'_{name} "$@"',
            "",
        ]
    )


def fish(name: str, commands: List[Command]) -> str:
    """The file for fish."""
    lines = [
        f"# Completions of {name} for fish, made by tools/completions: put it into ~/.config/fish/completions.",
        f"function __{name}_at",
        f"    set -l command {name}",
        "    for word in (commandline -opc)[2..-1]",
        '        switch "$command $word"',
        "            case " + " \\\n".join(quoted(it) for it in names_of(commands)),
        '                set command "$command $word"',
        "        end",
        "    end",
        '    test "$command" = "$argv"',
        "end",
        f"complete -c {name} -f -n '__{name}_at {name}'",
    ]
    for command in commands:
        at = f"complete -c {name} -n {quoted(f'__{name}_at {command.words}')}"
        lines += [f"{at} -a {it} -d {quoted(about)}" for it, about in command.commands.items()]
        for option in command.options:
            letter = f" -s {option.letter}" if option.letter else ""
            value = "" if not option.value else " -r -F" if option.value in FILES else " -x"
            lines.append(f"{at} -l {option.name}{letter}{value} -d {quoted(option.about)}")
    return "\n".join([*lines, ""])


def names_of(commands: List[Command]) -> List[str]:
    """The words of each command but the program itself."""
    return [command.words for command in commands[1:]]


def valued(commands: List[Command], are_files: bool) -> List[str]:
    """The words of each option whose value is the path of a file, or is something else, after those of its command."""
    return [
        f"{command.words} --{option.name}"
        for command in commands
        for option in command.options
        if option.value and (option.value in FILES) == are_files
    ]


def spelled(command: Command) -> List[str]:
    """The options of a command as they are written."""
    letters = [f"-{option.letter}" for option in command.options if option.letter]
    return [f"--{option.name}" for option in command.options] + letters


def cases(words: List[str]) -> str:
    """The words as patterns, each on a line, of which one has to match."""
    return " | \\\n".join(f'"{it}"' for it in words)


def described(word: str, about: str) -> str:
    """A word with what is said of it."""
    return f"{word}:{about}"


def quoted(text: str) -> str:
    """The text between single quotes, for a shell."""
    return "'" + text.replace("'", "'\\''") + "'"


def differences(program: Path, name: str) -> List[str]:
    """Which files of a program aren't as they are made of its help: nothing if all are."""
    try:
        wanted = made_of(program, name)
    except (OSError, subprocess.SubprocessError) as error:
        return [f"{name} isn't asked for its help: {error}"]
    unlike = []
    for file, text in wanted.items():
        path = FOLDER / file
        if not path.is_file() or path.read_text(encoding="utf-8") != text:
            unlike.append(
                f"packaging/completions/{file} isn't as tools/completions makes it of {name} --help"
            )
    return unlike


def main(words: List[str]) -> int:
    """Makes the files of the programs at these paths. The answer is a status."""
    if not words:
        print("completions: takes the paths of programs, as out/unproved/bootvars", file=sys.stderr)
        return 2
    for word in words:
        try:
            files = made_of(Path(word), Path(word).name)
        except (OSError, subprocess.SubprocessError) as error:
            print(f"completions: {word}: {error}", file=sys.stderr)
            return 1
        FOLDER.mkdir(exist_ok=True)
        for file, text in files.items():
            (FOLDER / file).write_text(text, encoding="utf-8")
            print(FOLDER / file)
    return 0
