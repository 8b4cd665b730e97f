#!/usr/bin/env python3
"""Writes the man pages of `ncroute` and `ncimport` from what their help and that of each command say and from the documents of `docs/` (as
`lib/manual.py` has them), and their completions for bash, zsh and fish from the help alone.

usage: make_manual.py BIN FOLDER     (BIN: the folder of the programs as they are built; FOLDER gets share/man, share/bash-completion, share/zsh,
                                      share/fish)
"""
import os
import pathlib
import re
import subprocess
import sys

from lib.manual import NAME, documents, reference, roff


# A line of help that tells of an option.
OPTION = re.compile(r"\s*((?:-\w, )?--[\w-]+)(?: <([\w=,\[\]]+)>)?\s{2,}(.*)")


class Option:
    """An option of a command: its names, the name and the possible values of its value, what it does, and the heading that it stands under."""

    def __init__(self, names, value, text, heading):
        self.names, self.value, self.heading = names, value, heading
        values = re.search(r" \[possible values: (.*)\]", text)
        self.values = values[1].split(", ") if values else []
        self.text = text[: values.start()] if values else text

    def long(self):
        return self.names[-1]

    def may_come_again(self):
        """Whether the option may be given more than once: one whose value names what it is for, as NAME=FILE, or has parts, may."""
        return bool(self.value) and ("=" in self.value or "," in self.value)


class Command:
    """What the help of a program or of a command of it says; the command that is the program has an empty name."""

    def __init__(self, program, name, text):
        self.program, self.name = program, name
        head, *self.body = re.split(r"(?m)^(?=Usage: )", text, maxsplit=1)
        self.about = head.strip()
        sections = "".join(self.body).split("\n\n")
        self.usage = re.sub("^Usage: ", "", sections[0]).strip()
        self.commands, self.arguments, self.options, self.rest = [], [], [], []
        for section in sections[1:]:
            title, *lines = section.rstrip("\n").split("\n")
            if self.rest:
                self.rest.append(section)
            elif title == "Commands:":
                self.commands = [tuple(re.split(r"\s{2,}", line.strip(), maxsplit=1)) for line in lines]
            elif title == "Arguments:":
                self.arguments = [tuple(re.split(r"\s{2,}", line.strip(), maxsplit=1)) for line in lines]
            elif all(map(OPTION.fullmatch, lines)):
                self.options += [option_of(line, "" if title == "Options:" else title.removesuffix(":")) for line in lines]
            else:
                self.rest = [section]

    def page(self):
        return (f"{self.program}-{self.name}" if self.name else self.program), 1

    def takes_files(self):
        return any(re.search("FILE|OLD|NEW", argument) for argument, _ in self.arguments)


def option_of(line, heading):
    names, value, text = OPTION.fullmatch(line).groups()
    return Option(names.split(", "), value, text, heading)


def commands_of(folder, name):
    """A program itself, and each of its commands."""
    def help_of(*words):
        ran = subprocess.run([os.path.join(folder, name), *words, "--help"], capture_output=True, text=True, check=True)
        return Command(name, " ".join(words), ran.stdout)

    program = help_of()
    return [program] + [help_of(command) for command, _ in program.commands if command != "help"]


# ---- man pages


def head(page, about):
    """How a page begins. No word is cut, and no line stretched: what a page shows is often code."""
    name, section = page
    return [f'.TH {name.upper()} {section} "" "Gomthau" "Gomthau"', ".nh", ".ad l", ".SH NAME", f"{roff(name)} \\- {about}"]


def of_command(command, is_documented):
    """What the help of a command says, as roff. Its running text is left out where a document has it, and more."""
    lines = [".SH SYNOPSIS", ".nf", roff(command.usage), ".fi"]
    if command.commands:
        lines += [".SH COMMANDS"] + [line for name, about in command.commands for line in (".TP", f".B {roff(name)}", roff(about))]
    if command.arguments:
        lines += [".SH ARGUMENTS"] + [line for name, about in command.arguments for line in (".TP", f".I {roff(name)}", roff(about))]
    lines.append(".SH OPTIONS")
    for before, option in zip([None] + command.options, command.options):
        if option.heading and option.heading != before.heading:
            lines.append(f".SS {roff(option.heading)}")
        value = f" \\fI{option.value}\\fR" if option.value else ""
        lines += [".TP", f"\\fB{roff(', '.join(option.names))}\\fR{value}", roff(option.text)]
    if command.rest and not is_documented:
        lines += [".SH DESCRIPTION", ".nf", roff("\n\n".join(command.rest)), ".fi"]
    return lines


def related(page, documents, known):
    """The pages that a page names at its end: those that its document refers to, and those whose documents refer to it; the program's names all."""
    near = {(NAME, 1)} | {to for it in documents for to in it.references if it.page == page} | {it.page for it in documents if page in it.references}
    return sorted((known if page == (NAME, 1) else near & known) - {page}, key=lambda it: (it[1], it[0]))


def pages(commands, documents):
    """Each man page, by its file: one for each program and command, with the document about it, and one for each other document."""
    texts, documented = {}, {document.page for document in documents}
    for command in commands:
        page = command.page()
        texts[page] = head(page, roff(command.about)) + of_command(command, page in documented)
    for document in documents:
        if document.page[1] != 1:
            texts[document.page] = head(document.page, document.plain(document.title)) + [".SH DESCRIPTION", *document.lines]
        elif document.page in texts:
            texts[document.page] += [f".SH {document.heading_text(document.title, '.SH')}", *document.lines]
        else:
            sys.exit(f"docs/{document.name}.md is about {document.page[0]}, and there is no such command")
    for page, lines in texts.items():
        lines += [".SH SEE ALSO", ", ".join(map(reference, related(page, documents, set(texts))))]
        # The first line has `man` call `tbl`.
        yield f"share/man/man{page[1]}/{page[0]}.{page[1]}", "\n".join((["'\\\" t"] if ".TS" in lines else []) + lines) + "\n"


# ---- completions


def bash_cases(command, before):
    """What bash completes behind a command: values of options, and options and files. `before` stands before a word where it is looked at."""
    values, words = [], []
    for option in command.options:
        if option.value:
            asked = f'-W "{" ".join(option.values)}"' if option.values else {"FILE": "-f", "FOLDER": "-d"}.get(option.value)
            found = f'COMPREPLY=($(compgen {asked} -- "$word")); ' if asked else ""
            values.append(f'    "{before}{option.long()}") {found}return ;;')
    names = " ".join(option.long() for option in command.options)
    words.append(f'    "{before}-"*) COMPREPLY=($(compgen -W "{names}" -- "$word")) ;;')
    if command.takes_files():
        words.append(f'    "{before}"*) COMPREPLY=($(compgen -f -- "$word")) ;;')
    return values, words


def bash(program, commands):
    name = program.program
    lines = [f"# Completes {name} in bash.", f"_{name}() {{", "    local word=${COMP_WORDS[COMP_CWORD]} before=${COMP_WORDS[COMP_CWORD - 1]}"]
    lines.append("    COMPREPLY=()")
    which, cases = "", [bash_cases(program, "")]
    if commands:
        names = " ".join([command.name for command in commands] + ["help"] + [option.long() for option in program.options])
        lines += ["    if ((COMP_CWORD == 1)); then", f'        COMPREPLY=($(compgen -W "{names}" -- "$word"))', "        return", "    fi"]
        which, cases = "${COMP_WORDS[1]} ", [bash_cases(command, f"{command.name} ") for command in commands]
    lines += [f'    case "{which}$before" in', *(line for values, _ in cases for line in values), "    esac"]
    lines += [f'    case "{which}$word" in', *(line for _, words in cases for line in words), "    esac"]
    lines += ["}", f"complete -o filenames -F _{name} {name}"]
    return "\n".join(lines) + "\n"


def in_quotes(text):
    """A text within single quotes of a shell, without the signs that zsh's descriptions give a meaning to."""
    return text.replace("'", "'\\''").replace("[", "(").replace("]", ")").replace(":", ",")


def zsh_arguments(command):
    """The words by which zsh completes the options and arguments of a command."""
    specs = []
    for option in command.options:
        action = {"FILE": "_files", "FOLDER": "_files -/"}.get(option.value, f"({' '.join(option.values)})")
        values = f":{option.value}:{action}" if option.value else ""
        again = "*" if option.may_come_again() else ""
        for name in option.names:
            sign = "=" if option.value and name.startswith("--") else ""
            specs.append(f"'{again}{name}{sign}[{in_quotes(option.text)}]{values}'")
    if command.takes_files():
        specs.append("'*:file:_files'")
    return f"_arguments {' '.join(specs)}"


def zsh(program, commands):
    name = program.program
    lines = [f"#compdef {name}", f"_{name}() {{"]
    if commands:
        lines += ["    local -a commands", "    commands=("]
        lines += [f"        '{command}:{in_quotes(about)}'" for command, about in program.commands]
        lines += ["    )", "    if ((CURRENT == 2)); then", "        _describe command commands", "        return", "    fi"]
        lines += ["    local command=$words[2]", "    shift words", "    ((CURRENT--))", "    case $command in"]
        lines += [f"    {command.name}) {zsh_arguments(command)} ;;" for command in commands]
        lines.append("    esac")
    else:
        lines.append(f"    {zsh_arguments(program)}")
    lines += ["}", f'_{name} "$@"']
    return "\n".join(lines) + "\n"


def in_fish_quotes(text):
    """A text within single quotes of fish."""
    return "'" + text.replace("\\", "\\\\").replace("'", "\\'") + "'"


def fish_options(command, when):
    """The lines by which fish completes the options and arguments of a command, each of which begins with when it does."""
    for option in command.options:
        files = {"FILE": " -r -F", "FOLDER": " -x -a '(__fish_complete_directories)'"}
        value = files.get(option.value, f" -x -a '{' '.join(option.values)}'") if option.value else ""
        names = " ".join(f"-l {name[2:]}" if name.startswith("--") else f"-s {name[1:]}" for name in option.names)
        yield f"{when} {names}{value} -d {in_fish_quotes(option.text)}"
    if command.takes_files():
        yield f"{when} -F"


def fish(program, commands):
    name = program.program
    lines = [f"# Completes {name} in fish.", f"complete -c {name} -f"]
    for command, about in program.commands:
        lines.append(f"complete -c {name} -n __fish_use_subcommand -a {command} -d {in_fish_quotes(about)}")
    for command in commands or [program]:
        when = f" -n '__fish_seen_subcommand_from {command.name}'" if command.name else ""
        lines += fish_options(command, f"complete -c {name}{when}")
    return "\n".join(lines) + "\n"


def main(words):
    if len(words) != 2:
        sys.exit(__doc__)
    programs = [commands_of(words[0], name) for name in (NAME, "ncimport")]
    files = dict(pages([command for commands in programs for command in commands], documents()))
    for program, *commands in programs:
        files[f"share/bash-completion/completions/{program.program}"] = bash(program, commands)
        files[f"share/zsh/site-functions/_{program.program}"] = zsh(program, commands)
        files[f"share/fish/vendor_completions.d/{program.program}.fish"] = fish(program, commands)
    for name, text in files.items():
        path = pathlib.Path(words[1], name)
        path.parent.mkdir(parents=True, exist_ok=True)
        path.write_text(text)


if __name__ == "__main__":
    main(sys.argv[1:])
