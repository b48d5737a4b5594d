"""Compares what the program and its manual page say of commands and options with the table of the options.

The program says it by `--help`, and the page man/plotraster.1 in its sections COMMANDS and OPTIONS. Each
must name the same commands and, for each command, the options of the table, in its order, and no others.
They must give an option the name of its value, its range and its default of the table, and the program must
take the ends of each range and nothing beyond them. tests/test_completions.py compares the completions with
the help.
"""

import os
import re

from option_table import OPTIONS, options_of
from recipe_checks import units_of
from reference.command_line import DOCUMENTS
from reference.outputs import FORMS
from shared import TOP, assert_nothing, read, run

PAGE = os.path.join(TOP, "man", "plotraster.1")
SECONDS = 10
# Options that take no value.
FLAGS = tuple(it.name for it in OPTIONS if it.takes == "flag")
ONLY_OF_DRAW = tuple(it.name for it in OPTIONS if it.commands == ("draw",))
HELP = "--help"
VERSION = "--version"
EVERY_COMMAND = "All commands"
PAPER = "--page"
CHARACTERS = "--characters"
OUTPUT = "--output"
PORTRAIT = "-portrait"
# What --page names besides papers.
PLOT = "plot"


def range_in(text):
    """The values that a description gives for the profile full: `10 to 1200`, or a list such as `75, 100 or 150`."""
    wider = re.search(r"(\d+) to \d+, with --profile full to (\d+)", text)
    if wider:
        return f"{wider[1]} to {wider[2]}"
    listed = re.search(r"\d+(?:, \d+)+ or \d+", text)
    found = listed or re.search(r"\d+ to \d+", text)
    return found[0] if found else None


# ---- what the program says


def help_of(program, words):
    """The lines of the help that the program prints."""
    done = run(program, [*words, HELP], SECONDS, text=True)
    assert (done.returncode, done.stderr) == (0, ""), f"{' '.join(words)} {HELP}"
    return done.stdout.splitlines()


def commands_in_help(program):
    """The commands, in the order of the help."""
    lines = help_of(program, [])
    start = lines.index("Commands:") + 1
    return [line.split()[0] for line in lines[start:lines.index("", start)]]


def options_in_help(program, command):
    """The options of a command, in order: a name, and the name of its value, range and default, if it has them."""
    found = {}
    for line in help_of(program, [command]):
        name = re.match(r" +(?:-\w, )?(--[a-z]+)", line)
        if name is None or name[1] == HELP:
            continue
        if name[1] in FLAGS:
            assert re.fullmatch(r" +--[a-z]+ +[A-Z].*", line), f"{command} {HELP}: a value: {line}"
            found[name[1]] = (None, None, None)
            continue
        says = re.fullmatch(r" +(?:-\w, )?--[a-z]+ <([A-Z]+)> +(.*?)(?: \[default: ([^]]*)\])?", line)
        assert says is not None, f"{command} {HELP}: no value: {line}"
        found[name[1]] = (says[1], range_in(says[2]), says[3])
    return found


def words_in_help(program, command):
    """The words in quotes that the help of a command gives for values, by the options' names."""
    lines = [re.match(r" +(--[a-z]+) <.*", line) for line in help_of(program, [command])]
    found = {line[1]: re.findall(r"'(\w+)'", line[0]) for line in lines if line}
    return {name: words for name, words in found.items() if words}


def papers_in_help(program, command):
    """The names of papers that the help of a command gives: in landscape, and in portrait."""
    line = next(it for it in help_of(program, [command]) if it.startswith(f"      {PAPER} "))
    found = []
    for text in re.split(r", | or ", re.search(r"--height: (.*);", line)[1]):
        first, _, last = text.partition(" to ")
        found += [first[:-1] + chr(it) for it in range(ord(first[-1]), ord(last[-1]) + 1)] if last else [first]
    return [*found, *(f"{it}{PORTRAIT}" for it in found)]


def characters_in_help(program, command):
    """The names of characters that the help of a command gives."""
    line = next(it for it in help_of(program, [command]) if it.startswith(f"      {CHARACTERS} "))
    return re.split(r", | or ", line.rpartition(": ")[2])


def ends(values):
    """Numbers at the ends of a range or beside the numbers of a list, and whether each is in it."""
    numbers = [int(it) for it in re.findall(r"\d+", values)]
    beside = [numbers[0] - 1, numbers[-1] + 1]
    if " to " not in values:
        beside += [it + 1 for it in numbers]
    return [(it, True) for it in numbers] + [(it, False) for it in beside]


def takes(program, command, option):
    """Whether the program takes an option, written with its value, on a small page and an empty plot, in the profile full."""
    small = [it for it in ["--profile=full", "--width=64", "--height=64", "--fit"] if it.split("=")[0] != option.split("=")[0]]
    done = run(program, [command, *small, option], SECONDS)
    return not done.stderr.startswith((b"error: ", b"plotraster: resolution is not", b"plotraster: bad "))


def wrong_ranges(program, command, options):
    """The ranges in the help that are not those of the program."""
    for name, (value, values, _) in options.items():
        for number, is_in in ends(values) if values and value != "LIST" else []:
            if takes(program, command, f"{name}={number}") != is_in:
                yield f"{command} {name}: the help says {values}, and {number} is {'refused' if is_in else 'taken'}"


# ---- what the manual page says


def plain(text):
    """A line of the page without its fonts: the request, and the words."""
    text = text.replace("\\-", "-")
    return re.sub(r"^\.(?:B|I|BI|BR|RB|IR|RI) ", "", text).replace('"', "")


def section(name):
    """The lines of a section of the page."""
    lines = open(PAGE, encoding="utf-8").read().splitlines()
    start = lines.index(f".SH {name}") + 1
    end = next(at for at in range(start, len(lines)) if lines[at].startswith(".SH "))
    return lines[start:end]


def entries(lines):
    """The entries of a section: the part that each is in, its head and its text."""
    found, part = [], None
    for at, line in enumerate(lines):
        if line.startswith(".SS "):
            part = line[4:].strip('"')
        elif line.startswith(".TP"):
            found.append([part, plain(lines[at + 1]), ""])
        elif found and not lines[at - 1].startswith(".TP"):
            found[-1][2] += plain(line) + " "
    return found


def commands_in_page():
    return [head for _, head, _ in entries(section("COMMANDS"))]


def commands_in_synopsis():
    """The commands of each line of the synopsis that has a choice of them."""
    choices = [re.findall(r"[a-z]+", plain(it)) for it in section("SYNOPSIS") if " | " in it]
    return choices or [[]]


def name_of(head):
    """The long name in the head of an entry, without the short one, or the first word."""
    words = head.replace(",", "").split()
    return next((it for it in words if it.startswith("--")), words[0])


def commands_of(part, commands):
    """The commands that a part of the options is about."""
    if part == EVERY_COMMAND:
        return commands
    others = re.fullmatch("All but (.+)", part)
    named = re.findall(r"[a-z]+", others[1] if others else part.replace(" and ", ","))
    return [it for it in commands if it not in named] if others else named


def options_in_page(command, commands):
    """The options of a command, as `options_in_help` gives them."""
    found = {}
    for part, head, text in entries(section("OPTIONS")):
        words = head.split()
        if {HELP, VERSION} & set(words) or command not in commands_of(part, commands):
            continue
        name = name_of(head)
        if name in FLAGS:
            found[name] = (None, None, None) if words == [name] else (words[-1], None, None)
            continue
        own = re.search(rf"For {command} it is ([^.]*)\.", text)
        values = range_in(own[1] if own else re.sub(r"For \w+ it is [^.]*\.", "", text))
        default = re.search(rf"For {command} the default is ([^ ,.;]+)", text) or re.search(r"The default is ([^,.]+)", text)
        found[name] = (words[-1], values, default[1] if default else None)
    return found


# ---- the tests


def differ(what, one, one_says, other, other_says):
    """A line on a difference, if there is one."""
    if one_says != other_says:
        yield f"{what}: {one} has {one_says}, {other} {other_says}"


def wrong_commands(program, commands):
    yield from differ("commands", "the program", commands, "the page", commands_in_page())
    for choice in commands_in_synopsis():
        yield from differ("commands", "the program", commands, "the synopsis", choice)


def wrong_options(command, options, commands):
    """The differences of a command's options."""
    page = options_in_page(command, commands)
    yield from differ(command, "the program", list(options), "the page", list(page))
    for name in options.keys() & page.keys():
        yield from differ(f"{command} {name}", "the program", options[name], "the page", page[name])


def test_commands(program):
    commands = commands_in_help(program)
    assert commands == ["draw", *DOCUMENTS, *FORMS, "report"]
    assert_nothing(wrong_commands(program, commands))


def lines_of_table(command):
    """What help has for the options of a command: the names, the name of the value, and the text."""
    for option in options_of(command):
        short = f"-{option.short}, " if option.short else ""
        value = f" <{option.value_name}>" if option.takes != "flag" else ""
        yield f"{short}{option.name}{value}", option.says(command)


def wrong_numbers(command):
    """The ranges in the texts of the table that are not those that it has. The printers of pcl know only some numbers."""
    for option in options_of(command):
        values = range_in(option.says(command))
        if " to " in option.takes and values != option.takes and (command, option.name) != ("pcl", "--dots"):
            yield f"{command} {option.name} takes {option.takes}, and the text says {values}"


def test_help_is_the_table(program):
    """Help has the options of the table, in its order, with their names, values, texts and defaults, and no others."""
    for command in commands_in_help(program):
        lines = help_of(program, [command])
        shown = [re.fullmatch(r" +((?:-\w, )?--[a-z]+(?: <[A-Z]+>)?) +(.*)", line) for line in lines]
        shown = [it.groups() for it in shown if it and HELP not in it[1]]
        wanted = list(lines_of_table(command))
        assert [names for names, _ in shown] == [names for names, _ in wanted], command
        assert_nothing(f"{command}: help has {one}, the table {other}" for one, other in zip(shown, wanted) if one != other)
        assert_nothing(wrong_numbers(command))


def test_other_spellings(program):
    """The program takes the other spellings of the table, which help leaves out."""
    for option in OPTIONS:
        assert all(takes(program, option.commands[0], f"{it}=all=black") for it in option.aliases), option.name


def test_options(program):
    commands = commands_in_help(program)
    for command in commands:
        options = options_in_help(program, command)
        assert len(options) >= 4
        assert_nothing(wrong_ranges(program, command, options))
        assert_nothing(wrong_options(command, options, commands))


def sentences_of_help(program, commands):
    """What help says of each command and of each option, by their names, but for the resolutions of pcl and those options
    of draw that other commands have, too."""
    for line in help_of(program, []):
        found = re.fullmatch(r"  ([a-z]+)  +(.+)", line)
        if found and found[1] in commands:
            yield "COMMANDS", found[1], found[2]
    for command in ("ppm", "report", "draw"):
        for line in help_of(program, [command]):
            found = re.fullmatch(r" +(?:-\w, )?(--[a-z]+)(?: <[A-Z]+>)? +(.*?)(?: \[default: .*\])?", line)
            if found and found[1] != HELP and (command != "draw" or found[1] in ONLY_OF_DRAW):
                yield "OPTIONS", found[1], found[2]


def test_page_begins_with_the_sentences_of_help(program):
    """Each entry of the page begins with what the program's help says, as a sentence."""
    commands = commands_in_help(program)
    page = {(name, name_of(head)): text for name in ("COMMANDS", "OPTIONS")
            for _, head, text in entries(section(name))}
    sentences = list(sentences_of_help(program, commands))
    shown = len(options_of("ppm")) + len(options_of("report")) + len(ONLY_OF_DRAW)
    assert len(sentences) == len(commands) + shown
    assert_nothing(f"{name}: the page has {page[part, name]!r}, the help {says!r}"
                   for part, name, says in sentences if not page[part, name].startswith(says + ". "))


def test_quoted_values_of_help(program):
    """A value in quotes is taken, as 'all' for the list of pens, and so is each default."""
    for command in commands_in_help(program):
        words = words_in_help(program, command)
        pens, form = (["--pens"] if command != "report" else []), (["--form"] if command == "draw" else [])
        labels = ["--labels"] if command in ("draw", "dxf") else []
        assert list(words) == ["--profile", *pens, *labels, *form]
        for name, values in words.items():
            assert options_in_help(program, command)[name][2] in values
            assert all(takes(program, command, f"{name}={word}") for word in values)


def papers_in_recipes():
    """The width and the height of each paper in docs/RECIPES.md, by its name."""
    rows = re.findall(r"^\| `(\S+)` \| (\S+ by \S+ \w+) \|$", read("docs", "RECIPES.md"), re.M)
    landscape = {name: tuple(units_of(size)) for name, size in rows}
    return {**landscape, **{f"{name}{PORTRAIT}": (height, width) for name, (width, height) in landscape.items()}}


def test_papers(program):
    """Help and docs/RECIPES.md have the same papers, which are of the sizes that RECIPES has."""
    papers = papers_in_recipes()
    assert list(papers) == papers_in_help(program, "report")
    for name, (width, height) in papers.items():
        done = run(program, ["report", f"{PAPER}={name}"], SECONDS, text=True)
        assert (done.returncode, done.stdout.splitlines()[0]) == (0, f"page {width} {height} 0 0"), name


def test_message_of_papers(program):
    """The message on a bad name has the names as help has them."""
    names = re.search(r"--height: (.*);", "\n".join(help_of(program, ["report"])))[1]
    done = run(program, ["report", f"{PAPER}=none"], SECONDS, text=True)
    assert done.stderr == f"plotraster: bad page: use {names}, one of these with {PORTRAIT}, or plot\n"


def test_message_of_rotations(program):
    """The message on a wrong word has the numbers as help has them."""
    for command in commands_in_help(program):
        values = options_in_help(program, command)["--rotate"][1]
        done = run(program, [command, "--rotate=none"], SECONDS, text=True)
        assert done.stderr == f"plotraster: bad rotation: use {values}\n"


def test_characters(program):
    """The message on a bad name has the names as help has them, each of which is taken."""
    for command in commands_in_help(program):
        names = characters_in_help(program, command)
        assert len(names) == 6
        for name in names:
            done = run(program, [command, "--profile=full", "--width=64", "--height=64", f"{CHARACTERS}={name}"], SECONDS)
            assert done.returncode == 0, f"{command} {CHARACTERS} {name}"
        done = run(program, [command, "--profile=full", f"{CHARACTERS}=none"], SECONDS, text=True)
        assert done.stderr == f"plotraster: bad characters: use {', '.join(names[:-1])} or {names[-1]}\n"
