"""Compares what bash, zsh and fish complete with what the program says of its commands and options.

Each shell reads its file of completions/ and completes the last words of many command lines in one run. It must offer all
commands and, for each command, all of its options and, after an option, the values that help names. What fish and zsh say of
a command or an option must begin what help says of it.
"""

import os
import re
import shutil
import subprocess

import pytest

from shared import TOP, assert_nothing, need, read
from test_options import (CHARACTERS, FLAGS, HELP, OUTPUT, PAPER, PLOT, VERSION, characters_in_help, commands_in_help,
                          differ, help_of, options_in_help, papers_in_help, words_in_help)

SECONDS = 60
SHELLS = ("bash", "zsh", "fish")
# Each script has the file of completions as its first argument, and lines as the others. It prints what is offered for each
# line, a line of words.
BASH = """source "$1"
for line in "${@:2}"; do
    read -ra COMP_WORDS <<< "$line"
    [[ $line == *' ' ]] && COMP_WORDS+=('')
    COMP_CWORD=$((${#COMP_WORDS[@]} - 1))
    _plotraster
    echo "${COMPREPLY[@]}"
done"""
FISH = r"""source $argv[1]
for line in $argv[2..]
    echo (complete -C $line | string replace -r '\t.*' '')
end"""
# Zsh completes only what is typed, so it has a terminal: a key completes all lines. `compadd` is what offers words.
ZSH = r"""zmodload zsh/zpty
export COMPLETIONS=$1:h LINES_TO_COMPLETE=${(F)@[2,-1]}
zpty terminal zsh -f -i
zpty -w terminal "source $COMPLETIONS/inside; print rea''dy"
zpty -r terminal said '*ready*'
zpty -w -n terminal $'\x18'
zpty -r terminal said '*finished*'
cat $COMPLETIONS/offered"""
ZSH_INSIDE = r"""fpath=($COMPLETIONS $fpath)
autoload -Uz compinit
compinit -u -D
compadd() {
    if [[ ${argv[1,(i)(-|--)]} != *-[OAD]* ]]; then
        local -a found
        builtin compadd -A found "$@"
        offered+=($found)
    fi
    builtin compadd "$@"
}
offer() {
    offered=()
    _main_complete
    print -r -- $offered >> $COMPLETIONS/offered
    compstate[insert]= compstate[list]=
}
zle -C offer complete-word offer
all() {
    for BUFFER in ${(f)LINES_TO_COMPLETE}; do
        CURSOR=$#BUFFER
        zle offer
    done
    BUFFER=
    print finished
    exit
}
zle -N all
bindkey '^X' all"""


def offered(shell, lines, folder, at=None):
    """The words that a shell offers at the end of each line."""
    path = os.path.join(TOP, "completions", f"plotraster.{shell}")
    words = {"bash": ["bash", "--norc", "-c", BASH, "bash"], "zsh": ["zsh", "-f", "-c", ZSH, "zsh"],
             "fish": ["fish", "--no-config", "-c", FISH]}[shell]
    if shell == "zsh":
        # As it is installed, since zsh finds it by its name.
        path = shutil.copy(path, folder / "_plotraster")
        (folder / "inside").write_text(ZSH_INSIDE)
    done = subprocess.run([*words, path, *lines], cwd=at, env={**os.environ, "HOME": str(folder), "TERM": "dumb"},
                          stdin=subprocess.DEVNULL, capture_output=True, text=True, timeout=SECONDS)
    assert (done.returncode, done.stderr) == (0, ""), f"{shell}: {done.stderr}"
    found = [line.split() for line in done.stdout.splitlines()]
    assert len(found) == len(lines), f"{shell}: {done.stdout}"
    return found


def long_options(words):
    """The long options among words; zsh and fish offer short ones, too."""
    return sorted(word for word in words if word.startswith("--"))


def allowed(values, words):
    """Those of the offered words that a description of values allows."""
    numbers = [int(it) for it in re.findall(r"\d+", values)]
    if " to " in values:
        return [it for it in words if it.isdigit() and numbers[0] <= int(it) <= numbers[1]]
    return [str(it) for it in numbers]


def values_in_help(program, command):
    """For each option of a command but --output the words that help names, or what its values are in words."""
    named = {**words_in_help(program, command), PAPER: [*papers_in_help(program, command), PLOT],
             CHARACTERS: characters_in_help(program, command)}
    for name, (_, values, _) in options_in_help(program, command).items():
        if name not in (OUTPUT, *FLAGS):
            yield name, named.get(name, values)


@pytest.fixture(scope="module", params=SHELLS)
def shell(request, pytestconfig):
    need(pytestconfig, request.param)
    return request.param


def test_words(program, shell, tmp_path):
    """What is offered for commands, for the options of each, and for the values of these. A shell may offer no number."""
    commands = commands_in_help(program)
    wanted = {"plotraster ": sorted(commands), "plotraster -": [HELP, VERSION]}
    for command in commands:
        wanted[f"plotraster {command} -"] = sorted([*options_in_help(program, command), HELP])
        for name, values in values_in_help(program, command):
            wanted[f"plotraster {command} {name} "] = values
    assert len(wanted) > 100
    wrong = []
    for (line, values), words in zip(wanted.items(), offered(shell, list(wanted), tmp_path)):
        if line.endswith("-"):
            words = long_options(words)
        elif line == "plotraster ":
            words = sorted(it for it in words if not it.startswith("-"))
        elif isinstance(values, list):
            values, words = sorted(values), sorted(words)
        else:
            values = allowed(values, words) if words else []
        wrong += differ(line, "the program", values, shell, words)
    assert_nothing(wrong)


def test_begun_words(shell, tmp_path):
    """Only words that go on from what is there are offered, also after an equals sign."""
    lines = {"plotraster dr": ["draw"], "plotraster ppm --prof": ["--profile"], "plotraster ppm --profile f": ["full"],
             "plotraster draw --form p": ["pbm", "pcl", "pdf", "png", "ppm"], "plotraster report --smo": [],
             "plotraster pdf --page=leg": ["legal", "legal-portrait"]}
    if shell == "bash":
        # Bash takes a word apart at an equals sign only in a terminal.
        del lines["plotraster pdf --page=leg"]
    found = offered(shell, list(lines), tmp_path)
    assert [sorted(it.removeprefix("--page=") for it in words) for words in found] == list(lines.values())


def test_files(shell, tmp_path):
    """Names of plots, and of the file after -o and --output."""
    plots = tmp_path / "plots"
    plots.mkdir()
    for name in ("example.plt", "other.plt"):
        (plots / name).touch()
    lines = {}
    for command in ("draw", "pbm", "report"):
        lines[f"plotraster {command} ex"] = ["example.plt"]
        lines[f"plotraster {command} --left 5 "] = ["example.plt", "other.plt"]
        lines[f"plotraster {command} example.plt o"] = ["other.plt"]
        for option in ("-o", OUTPUT):
            lines[f"plotraster {command} {option} o"] = ["other.plt"]
    assert [sorted(it) for it in offered(shell, list(lines), tmp_path, plots)] == list(lines.values())


def test_bash_is_registered():
    """Once bash has read the file, it completes the words of `plotraster`, and file names too."""
    words = ["bash", "-c", 'source "$0" && complete -p plotraster', os.path.join(TOP, "completions", "plotraster.bash")]
    done = subprocess.run(words, capture_output=True, text=True, timeout=SECONDS)
    assert done.stdout.startswith("complete "), done.stderr
    assert "-F _plotraster plotraster" in done.stdout
    assert "-o filenames" in done.stdout or "-o default" in done.stdout


def sentences_in_help(program):
    """What help says of each command, and of each option of each command."""
    for line in help_of(program, []):
        found = re.fullmatch(r"  ([a-z]+)  +(.+)", line)
        if found and found[1] != "help":
            yield "plotraster ", *found.groups()
    for command in commands_in_help(program):
        for line in help_of(program, [command]):
            found = re.fullmatch(r" +(?:-\w, )?(--[a-z]+)(?: <[A-Z]+>)? +(.*)", line)
            if found:
                yield f"plotraster {command} --", *found.groups()


def test_descriptions(program, pytestconfig, tmp_path):
    """What fish says of a word begins what help says of it, and zsh has the same words."""
    need(pytestconfig, "fish")
    sentences, of_zsh = list(sentences_in_help(program)), read("completions", "plotraster.zsh")
    lines = sorted({line for line, _, _ in sentences})
    script = 'source $argv[1]; for line in $argv[2..]; complete -C $line | string replace -r "^" "$line\t"; end'
    words = ["fish", "--no-config", "-c", script, os.path.join(TOP, "completions", "plotraster.fish"), *lines]
    done = subprocess.run(words, capture_output=True, text=True, timeout=SECONDS, env={**os.environ, "HOME": str(tmp_path)})
    said = {(line, name): text for line, name, text in (it.split("\t") for it in done.stdout.splitlines())}
    assert len(said) == len(sentences) > 100, done.stderr
    for line, name, sentence in sentences:
        text = said[line, name]
        assert sentence.startswith(text) and len(text) > 8, f"{line} {name}: {text}, but help says {sentence}"
        assert any(f"{mark}{text}" in of_zsh for mark in ("[", f"{name}:", "margin='")), f"zsh has not: {text}"
