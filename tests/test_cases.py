"""Runs the command-line cases of tests/cases on the built program.

A case is a text file `cases/NAME.case`. A line `key: value` gives one thing; a key with nothing
after its colon takes the indented lines below it, without their first four blanks. A line that
starts with `#` is a comment. The keys:

    words           the arguments, split as by a shell; each further line is another run
    file NAME       a file NAME with these bytes (a text) in the folder where the program runs
    folder          a folder of this name there
    memory          how many KiB of memory the program may have
    read fails      the number of the read of standard input that fails, once
    write fails     the number of the write to standard output that fails, once
    memory fails    `each`: the program runs again and again, and another allocation is refused each
                    time, until ten refusals in a row have no effect; each run must either say `out of
                    memory` with status 4 and nothing on standard output, or do what the case says
    input           standard input, a text; by default empty. The case also runs with the text in a
                    file that is named after the words, unless it is about standard input
    input from      standard input is the output of this shell command
    input device    standard input is this device
    output to       standard output is this device, `a closed pipe`, or `a pipe that closes after N
                    bytes`
    file size       how many bytes a file may have that the program writes to
    ignores         a signal that the program is started with ignored, such as `SIGXFSZ`
    status          the expected exit status; by default 0
    output          what standard output must be: a text, each line with its line feed
    output hex      the same, as bytes in hexadecimal; blanks and line ends are ignored
    output begins   how standard output must begin
    message         the name of a message of tests/reference/messages.py and its values: what standard error
                    must be, and its exit status
    error           what standard error must be: one line
    error begins    how standard error must begin
    then            a command that reads the output and must accept it
    then says       a text that its output must contain
    then hex        how its output must begin, in hexadecimal

What a case does not name must be empty: standard output and standard error too.

The keys with `fails` need a C compiler, `cc`, for tests/refuse.c.
"""

import itertools
import os
import resource
import shlex
import signal
import subprocess
import tempfile

import pytest

from reference import messages
from shared import HERE, assert_nothing, need

CASES = os.path.join(HERE, "cases")
SECONDS = 120
# How many refused allocations in a row must have no effect.
WITHOUT_EFFECT = 10
# The file that has a case's input in the second run.
PLOT = "plot.plt"


def read_case(path):
    """The case's keys, each with the list of its values."""
    case, open_key = {}, None
    with open(path, encoding="utf-8") as lines:
        for number, line in enumerate(lines, 1):
            line = line.rstrip("\n")
            if open_key is not None and (line.startswith("    ") or line == ""):
                case[open_key][-1] += line[4:] + "\n"
                continue
            open_key = None
            if line == "" or line.startswith("#"):
                continue
            key, colon, value = line.partition(":")
            if not colon:
                raise ValueError(f"{path}:{number}: no key")
            if value.strip() == "":
                open_key, value = key, ""
            case.setdefault(key, []).append(value[1:] if value.startswith(" ") else value)
    if "message" in case:
        status, said = messages.refused(*shlex.split(one(case, "message")))
        case.update(status=[str(status)], error=[said.decode().rstrip("\n")])
    return case


def one(case, key, default=None):
    values = case.get(key)
    return values[0] if values else default


def lines_of(text):
    """A block's text, without the empty lines that separate it from the next key."""
    text = text.rstrip("\n")
    return text + "\n" if text else ""


def words_of(case):
    """The arguments of each run of the case."""
    return one(case, "words", "").strip("\n").split("\n")


def set_up(case, folder):
    for key, values in case.items():
        if key.startswith("file "):
            with open(os.path.join(folder, key[5:]), "wb") as made:
                made.write(values[0].encode())
    for name in case.get("folder", []):
        os.mkdir(os.path.join(folder, name))


def source_of(case):
    """Standard input: a stream, and the process that feeds it, if there is one."""
    if "input from" in case:
        feeder = subprocess.Popen(["sh", "-c", one(case, "input from")], stdout=subprocess.PIPE)
        return feeder.stdout, feeder
    if "input device" in case:
        return open(one(case, "input device"), "rb"), None
    given = tempfile.TemporaryFile()
    given.write(one(case, "input", "").encode())
    given.seek(0)
    return given, None


def sink_of(case):
    """Standard output: what the program writes to, and the file to read it from."""
    to = one(case, "output to")
    if to == "a closed pipe":
        reader, writer = os.pipe()
        os.close(reader)
        return os.fdopen(writer, "wb"), None
    if to is not None and to.startswith("a pipe that closes after "):
        reader = subprocess.Popen(["head", "-c", to.split()[5]], stdin=subprocess.PIPE, stdout=subprocess.DEVNULL)
        return reader.stdin, None
    if to is not None:
        return open(to, "wb"), None
    taken = tempfile.TemporaryFile()
    return taken, taken


def refusals_of(case):
    """The variables that make tests/refuse.c refuse what the case says."""
    keys = {"read fails": "READ_FAILS", "write fails": "WRITE_FAILS"}
    return {variable: one(case, key) for key, variable in keys.items() if key in case}


def is_refusing(case):
    return bool(refusals_of(case)) or "memory fails" in case


def prepare(case):
    """What a run does before the program begins."""
    limits = []
    if "memory" in case:
        limits.append((resource.RLIMIT_AS, 1024 * int(one(case, "memory"))))
    if "file size" in case:
        limits.append((resource.RLIMIT_FSIZE, int(one(case, "file size"))))

    def begin():
        for limit, most in limits:
            resource.setrlimit(limit, (most, most))
        for name in case.get("ignores", []):
            signal.signal(getattr(signal, name), signal.SIG_IGN)

    return begin


def run(program, words, case, folder, refusals, refuse):
    """The exit status, standard output and standard error of one run."""
    source, feeder = source_of(case)
    sink, taken = sink_of(case)
    surroundings = dict(os.environ, LD_PRELOAD=refuse, **refusals) if refusals else None
    with source, sink, tempfile.TemporaryFile() as errors:
        ran = subprocess.run(
            ["plotraster"] + shlex.split(words), executable=program, env=surroundings,
            preexec_fn=prepare(case),
            stdin=source, stdout=sink, stderr=errors, cwd=folder, timeout=SECONDS,
        )
        if feeder is not None:
            source.close()
            feeder.wait()
        output = b""
        if taken is not None:
            taken.seek(0)
            output = taken.read()
        errors.seek(0)
        return ran.returncode, output, errors.read()


def shown(data):
    return repr(data[:200]) + (f" .. of {len(data)} bytes" if len(data) > 200 else "")


def compare(case, status, output, errors):
    """What is wrong with a run, a line each."""
    wanted = int(one(case, "status", "0"))
    if status != wanted:
        yield f"status {status} instead of {wanted}"
    begins = one(case, "output begins")
    if begins is not None:
        if not output.startswith(begins.encode()):
            yield f"output begins {shown(output)}"
    else:
        text = lines_of(one(case, "output", "")).encode()
        expected = bytes.fromhex(one(case, "output hex")) if "output hex" in case else text
        if output != expected:
            yield f"output {shown(output)} instead of {shown(expected)}"
    begins = one(case, "error begins")
    if begins is not None:
        if not errors.startswith(begins.encode()):
            yield f"error begins {shown(errors)}"
    else:
        text = one(case, "error")
        expected = b"" if text is None else (text + "\n").encode()
        if errors != expected:
            yield f"error {shown(errors)} instead of {shown(expected)}"


def read_on(case, output):
    """What is wrong with what the case's next command makes of the output, a line each."""
    command = shlex.split(one(case, "then"))
    ran = subprocess.run(command, input=output, capture_output=True, timeout=SECONDS)
    if ran.returncode != 0:
        yield f"{command[0]}: status {ran.returncode}: {shown(ran.stderr)}"
    says = one(case, "then says")
    if says is not None and says.encode() not in ran.stdout:
        yield f"{command[0]}: {shown(ran.stdout)}"
    begins = one(case, "then hex")
    if begins is not None and not ran.stdout.startswith(bytes.fromhex(begins)):
        yield f"{command[0]}: {shown(ran.stdout)}"


OUT_OF_MEMORY = (4, b"", messages.said("memory"))


def answers(program, words, case, folder, refuse):
    """What the runs give, each after how many refusals it is wrong to say `out of memory`: for a case
    without refused allocations, one run; else one for each refusal that has no other effect."""
    if "memory fails" not in case:
        yield run(program, words, case, folder, refusals_of(case), refuse)
        return
    refused, without_effect = 0, 0
    for number in itertools.count(1):
        answer = run(program, words, case, folder, {"MEMORY_FAILS": str(number)}, refuse)
        if answer == OUT_OF_MEMORY:
            refused, without_effect = refused + 1, 0
            continue
        yield answer
        without_effect += 1
        if without_effect == WITHOUT_EFFECT:
            break
    assert refused, f"{words}: no allocation was refused"


def judge(program, case, words, refuse):
    """What is wrong with the runs of a case with these words, a line each."""
    with tempfile.TemporaryDirectory() as folder:
        set_up(case, folder)
        for status, output, errors in answers(program, words, case, folder, refuse):
            for wrong in compare(case, status, output, errors):
                yield f"{words}: {wrong}"
            if "then" in case:
                for wrong in read_on(case, output):
                    yield f"{words}: {wrong}"


def by_file(case):
    """The case with its input in a file that its words name, if it can be read from there too."""
    is_about_input = {"read fails", "input from", "input device"} & set(case)
    words = words_of(case)
    if "input" not in case or is_about_input or any(names_a_file(it) for it in words):
        return None
    named = "\n".join(f"{it} {PLOT}" for it in words)
    rest = {key: values for key, values in case.items() if key != "input"}
    return {**rest, "words": [named], f"file {PLOT}": case["input"]}


def names_a_file(words):
    """Whether the words of a run name a file, or are no subcommand's."""
    split = shlex.split(words)
    if not split or split[0].startswith("-"):
        return True
    takes_value = {
        "--width", "--height", "--page", "--left", "--below", "--rotate", "--profile", "--sheet", "--characters", "--dots",
        "--pens", "--band", "--from", "--rows",
    }
    free = [it for before, it in zip(split, split[1:]) if not it.startswith("-") and before not in takes_value]
    return bool(free) or "--help" in split


def all_cases():
    """Each case by its name, once with its input on standard input and once, where it can be, in a file."""
    for file in sorted(os.listdir(CASES)):
        if file.endswith(".case"):
            case = read_case(os.path.join(CASES, file))
            yield pytest.param(case, id=file[:-len(".case")])
            if by_file(case):
                yield pytest.param(by_file(case), id=f"{file[:-len('.case')]}-by-file")


@pytest.mark.parametrize("case", all_cases())
def test_case(case, program, pytestconfig, request):
    if "then" in case:
        need(pytestconfig, shlex.split(one(case, "then"))[0])
    refuse = request.getfixturevalue("refuse") if is_refusing(case) else None
    assert_nothing(wrong for words in words_of(case) for wrong in judge(program, case, words, refuse))
