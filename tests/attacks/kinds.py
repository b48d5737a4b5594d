"""The kinds of attacks on the program. Each makes some runs on a bench, and breaks off if one of them is not as it should be."""

import os
import re
import shutil
import subprocess

from reference import messages
from reference.command_line import EACH

from .answers import DEVICE, MEMORY, REFUSED, USAGE, must, refusals
from .bench import SECONDS, How
from .outputs import check
from .plots import mutilated
from .words import COMMANDS, FOLDER, form_of, mistake_in, right_options, soup, with_wrong_value, with_wrong_word, words_of

LINE = b"SP1;PU0,28;PD64,28;"
OLD = b"an older picture\n"
PAST_THE_END = messages.said("first-row")
TOO_FAR = messages.said("too-far-to-turn")
TOO_LONG = messages.said("too-long")
# The most bytes of an output that is written byte by byte.
MOST_SHORT = 3000
# Plots of one name and of several, and names that need care.
NAMES = (
    "a.plt", "b.plt", "deep/a.plt", "a.hpgl", "plan", ".plan", "pl\u00e4n.v2.plt", "dot.", "a b.PLT", "deep/plan.gz",
    "\U0001f58a)(\\.plt", "<&>\"\u202e.plt", "\x01\x7f\u2028.plt", "\ufeff", "n" * 240,
)
# Programs that read a form, too: a few outputs are given to them.
READERS = {"png": ("pngcheck", "-q"), "pdf": ("qpdf", "--check"), "svg": ("xmllint", "--noout"), "dxf": ("ezdxf", "audit")}
SAMPLE = 0.002


def write(name, data):
    os.makedirs(os.path.dirname(name) or ".", exist_ok=True)
    with open(name, "wb") as file:
        file.write(data)


def read(name):
    with open(name, "rb") as file:
        return file.read()


def small(dice):
    """A command with options that are right."""
    command = dice.choice(COMMANDS)
    return command, right_options(command, dice)


def ends(ran):
    """How a run ended, for a message."""
    return f"status {ran.status}, says {ran.errors[:300]!r}"


def check_right(bench, ran, command, options, dice):
    """Breaks off if the run of a right command line is wrong, or its output."""
    wrong = mistake_in(command, options)
    if wrong is not None:
        must(ran.status == USAGE and ran.errors.startswith(wrong.encode()), f"{ends(ran)} for {wrong}")
    elif ran.status == USAGE:
        is_possible = {PAST_THE_END: "from" in options, TOO_FAR: command != "report" and options.get("rotate", "0") != "0"}
        must(is_possible.get(ran.errors), ends(ran))
    else:
        must(ran.status in (0, REFUSED), ends(ran))
    if ran.status != 0:
        must(len(refusals(ran)) == 1 or wrong == "error: ", ends(ran))
        return
    must(may_say_more(command, options) or not ran.errors, ends(ran))
    form = form_of(command, options)
    check(form, ran.output, size_of(options), has_all_rows(options))
    if form in READERS and dice.random() < SAMPLE:
        must(is_read(READERS[form], bench.got), f"{READERS[form][0]} refuses it")


def is_read(reader, file):
    """Whether another program reads a file without a complaint; so it does if it is not there."""
    return shutil.which(reader[0]) is None or subprocess.run([*reader, file], capture_output=True, timeout=SECONDS).returncode == 0


def may_say_more(command, options):
    """Whether something may be said of an output that is written."""
    has_sheets = options.get("profile", "full" if command == "draw" else "core") == "full" and "sheet" not in options
    return command == "draw" or has_sheets or options.get("page") == "plot" or bool({"fit", "verbose"} & set(options))


def has_all_rows(options):
    """Whether a picture in rows is to be whole."""
    return int(options.get("from", 0)) == 0 and "rows" not in options


def size_of(options):
    """The columns and the rows of a picture, if they do not depend on the plot."""
    if "fit" in options or not {"width", "height", "dots"} <= set(options):
        return None
    sides = ("width", "height") if options.get("rotate", "0") in ("0", "180") else ("height", "width")
    return tuple((int(options[side]) * int(options["dots"]) + 508) // 1016 for side in sides)


def mutilated_plots(bench, dice, plots):
    """A mutilated plot is drawn, or described, or refused."""
    command, options = small(dice)
    ran = bench.run(words_of(command, options, [], dice), mutilated(plots, dice))
    check_right(bench, ran, command, options, dice)


def wrong_words(bench, dice, _):
    """A wrong command line is refused with what is wrong, and any has an answer. Files that are there stay."""
    write("a.plt", LINE)
    write("b.plt", LINE)
    os.mkdir(FOLDER)
    (command, options), kind, wrong = small(dice), dice.randrange(3), None
    if kind == 0:
        options, wrong = with_wrong_value(command, options, dice)
        words = words_of(command, options, ["a.plt"], dice)
    elif kind == 1:
        words, wrong = with_wrong_word(command, options, ["a.plt"], dice)
    else:
        words = soup(dice)
    ran = bench.run(words)
    must(wrong is None or ran.status == USAGE and ran.errors.startswith(wrong.encode()), f"{ends(ran)} for {wrong}")
    for name in ("a.plt", "b.plt"):
        must(read(name) == LINE or kind == 2 and is_output(name, words), f"{name} is overwritten")
    must(kind == 2 or sorted(os.listdir(".")) == ["a.plt", "b.plt", FOLDER] and not os.listdir(FOLDER), "a file is written")


def is_output(name, words):
    """Whether words name a file as the output."""
    return any(option in ("-o", "--output") and word == name for option, word in zip(words, words[1:]))


def plots_into_a_folder(bench, dice, plots):
    """Plots are drawn into a folder, some of one name, and in spite of what is there."""
    command, options = small(dice)
    names = dice.sample(NAMES, dice.choice((1, 1, 2, 3, 4)))
    for name in names:
        write(name, mutilated(plots, dice))
    write("other", OLD)
    form, before = form_of(command, options), {name: read(name) for name in (*names, "other")}
    is_full = options.get("profile", "full" if command == "draw" else "core") == "full"
    if is_full and form not in ("report", "pdf") and dice.random() < 0.3:
        options["sheet"] = EACH
    is_apart = is_full and form not in ("report", "pdf") and options.get("sheet", EACH if command == "draw" else "1") == EACH
    wanted = {}
    for name in names if not is_apart else ():
        wanted[name] = bench.run(words_of(command, options, [name], dice))
        check_right(bench, wanted[name], command, options, dice)
    os.mkdir(FOLDER)
    obstacles = put_obstacles(names, form, dice)
    ran = bench.run(words_of(command, {**options, "output": FOLDER}, names, dice))
    must(ran.output == b"", "a picture is on standard output")
    must(before == {name: read(name) for name in before}, "a plot or another file is overwritten")
    if is_apart:
        check_apart(form, names, set(obstacles), has_all_rows(options))
    else:
        check_folder(ran, form, names, wanted, obstacles)


def stem_of(name):
    return os.path.splitext(os.path.basename(name))[0]


def put_obstacles(names, form, dice):
    """Puts older files into the folder, and what cannot be written; the kinds of these by the name of the output."""
    obstacles = {}
    for name in names:
        file = os.path.join(FOLDER, f"{stem_of(name)}.{form}")
        if file in obstacles or dice.random() < 0.6:
            continue
        obstacles[file] = kind = dice.choice(("old", "part", "link.part", "folder", "folder.part", "null", "full", "dangling"))
        if kind in ("old", "part"):
            write(file + (".part" if kind == "part" else ""), OLD)
        elif kind in ("folder", "folder.part"):
            os.mkdir(file + kind.removeprefix("folder"))
        elif kind == "link.part":
            os.symlink("../other", file + ".part")
        else:
            os.symlink("none" if kind == "dangling" else f"/dev/{kind}", file)
    return obstacles


def check_folder(ran, form, names, wanted, obstacles):
    """Breaks off unless the folder has what each plot alone gives, and nothing else."""
    status, refused, done = 0, 0, set()
    for name in names:
        file = os.path.join(FOLDER, f"{stem_of(name)}.{form}")
        kind, alone = obstacles.get(file, ""), wanted[name]
        is_refused = file in done or kind.startswith("folder") or alone.status != 0
        is_refused = is_refused or kind == "full" and alone.output != b""
        is_kept = file in done or alone.status == 0 or kind.startswith("folder")
        status, refused = max(status, DEVICE if is_refused and is_kept else alone.status), refused + is_refused
        if file not in done:
            check_file(file, kind, None if is_refused else alone.output)
        done.add(file)
    must(ran.status == status, f"{ends(ran)} instead of {status}")
    must(len(refusals(ran)) == refused, f"{ends(ran)}, {refused} refusals")
    left = {os.path.join(FOLDER, name) for name in os.listdir(FOLDER)}
    left -= {file + ".part" for file, kind in obstacles.items() if kind == "folder.part"}
    must(left <= done, f"{sorted(left - done)} is there")


def check_file(file, kind, wanted):
    """Breaks off unless a file has what is wanted, or what it had."""
    if kind in ("null", "full"):
        must(os.path.islink(file), f"{file} is no device any more")
    elif wanted is not None:
        must(os.path.isfile(file) and not os.path.islink(file) and read(file) == wanted, f"{file} is another output")
    elif kind == "old":
        must(read(file) == OLD, f"{file} is not the older one")
    elif kind == "dangling":
        must(os.path.islink(file) and not os.path.exists(file), f"{file} is there")
    else:
        must(kind == "folder" or not os.path.lexists(file), f"{file} is there")


def check_apart(form, names, obstacles, is_beginning):
    """Breaks off unless the folder has whole pictures of sheets, beside what was there."""
    stems = "|".join(re.escape(stem_of(name)) for name in names)
    for name in os.listdir(FOLDER):
        file = os.path.join(FOLDER, name)
        if file not in obstacles and file.removesuffix(".part") not in obstacles:
            must(re.fullmatch(rf"({stems})(-[0-9]+)?\.{form}", name), f"{file} is there")
            check(form, read(file), None, is_beginning)


def plots_into_files(bench, dice, plots):
    """A plot is drawn into a file of any name, or this fails, and nothing is left."""
    command, options = small(dice)
    plot = mutilated(plots, dice)
    plain = bench.run(words_of(command, options, [], dice), plot)
    check_right(bench, plain, command, options, dice)
    write("plot", plot)
    write("old", OLD)
    os.mkdir("folder")
    os.mkdir("part.part")
    for link, to in (("link", "old"), ("dangling", "none/none"), ("loop", "loop"), ("null", "/dev/null")):
        os.symlink(to, link)
    before = set(os.listdir("."))
    good = ("new", "old", "link", "dangling", "loop", "folder/../new", "n" * 250)
    bad = ("none/new", "folder", "part", "plot/new", "loop/new", "dangling/new", "/proc/new", "/sys/new", "new/", "n" * 255)
    name, is_good = (dice.choice(good), True) if dice.random() < 0.5 else (dice.choice(bad), False)
    ran = bench.run(words_of(command, {**options, "output": name}, [], dice), plot)
    must(ran.output == b"", "a picture is on standard output")
    file = os.path.normpath(name)
    if is_good and plain.status == 0:
        must((ran.status, ran.errors) == (0, plain.errors), ends(ran))
        must(not os.path.islink(file) and read(file) == plain.output, f"{name} is another output")
    else:
        must(ran.status == (plain.status if is_good else DEVICE), ends(ran))
    after = before | ({file} if is_good and plain.status == 0 else set())
    must(set(os.listdir(".")) == after and os.listdir("folder") == [], f"there is {sorted(set(os.listdir('.')) ^ after)}")
    must(file == "old" and is_good or read("old") == OLD, "an older file is overwritten")


def devices_that_fail(bench, dice, plots):
    """A device, a pipe or a disk takes a part of the output: nothing is under the name of the file but a whole output."""
    command, options = small(dice)
    options.pop("verbose", None)
    plot, words = mutilated(plots, dice), words_of(command, options, [], dice)
    plain = bench.run(words, plot)
    check_right(bench, plain, command, options, dice)
    check_read(bench, words, plot, plain, dice)
    if plain.status != 0:
        return
    check_closed(bench, command, options, plot, dice)
    if not plain.output:
        return
    most = len(plain.output)
    sizes = [dice.choice((0, 1, 10, 100, most // 2, most - 1)) for _ in range(4)]
    hows = [How(to="/dev/full"), How(closed=(1,)), *(How(leaves=it) for it in sizes[:2]), How(refused={"WRITE_FAILS": "1"})]
    for how in [*hows, *(How(limit=min(it, most - 1)) for it in sizes)]:
        check_unfinished(bench.run(words, plot, how), how, plain.output)
    for how in (How(limit=dice.randrange(most)), How(refused={"SYNC_FAILS": "1"})):
        check_not_stored(bench, command, options, plot, how, plain.output, dice)


def check_read(bench, words, plot, plain, dice):
    """What is on standard input is read in parts of any size, or not at all, or it has no end."""
    hows = [How(to="/dev/null"), How(closed=(2,)), *([How(refused={"SHORT": "1"})] if len(plain.output) < MOST_SHORT else [])]
    for how in hows:
        ran = bench.run(words, plot, how)
        must(ran.status == plain.status and (how.to or ran.output == plain.output), f"{ends(ran)}, {how}")
    if plain.errors.startswith(b"error: ") or plain.status == USAGE and plain.errors != PAST_THE_END:
        return
    for how in (How(closed=(0,)), How(given="."), How(refused={"READ_FAILS": "1"})):
        ran = bench.run(words, plot, how)
        must((ran.status, ran.errors) == (DEVICE, messages.said("read")), f"{ends(ran)}, {how}")
    if dice.random() < 0.1:
        ran = bench.run(words, plot, How(given="/dev/zero"))
        must((ran.status, ran.errors) == (REFUSED, TOO_LONG), ends(ran))


def check_closed(bench, command, options, plot, dice):
    """A file that is opened may get the number of a standard file that is closed: no message is written into it."""
    write("plot", plot)
    named = bench.run(words_of(command, options, ["plot"], dice))
    for closed in ((2,), (1, 2), (0, 1, 2)):
        ran = bench.run(words_of(command, {**options, "output": "whole"}, ["plot"], dice), b"", How(closed=closed))
        must(ran.status == 0 and read("whole") == named.output, f"{ends(ran)}, another output, {closed} closed")


def check_unfinished(ran, how, whole):
    """Breaks off unless an output was not written whole, and what was is its beginning."""
    if ran.status == 0:
        # What is in the pipe is lost without a failure.
        must(how.leaves is not None, f"status 0, {how}")
    else:
        must(ran.status == DEVICE and messages.text("write").encode() in refusals(ran)[0], f"{ends(ran)}, {how}")
    must(whole.startswith(ran.output), f"no beginning of the output, {how}")
    must(how.limit is None or len(ran.output) <= how.limit, f"more than {how}")


def check_not_stored(bench, command, options, plot, how, whole, dice):
    """A file of a disk that is full, or that fails when all is written."""
    write("out", OLD)
    ran = bench.run(words_of(command, {**options, "output": "out"}, [], dice), plot, how)
    must(ran.status == DEVICE and read("out") == OLD, f"{ends(ran)}, {how}")
    found = re.search(messages.text("broken-off", "([0-9]+)", "([0-9]+)").encode() + b"\n", ran.errors)
    must(bool(found) == os.path.exists("out.part"), f"out.part, {how}")
    if not found:
        return
    part, (row, after) = read("out.part"), map(int, found.groups())
    must(whole.startswith(part) and after <= len(part) <= (how.limit or len(whole)), f"out.part, {how}")
    must(how.limit is not None or part == whole, f"out.part, {how}")
    os.remove("out.part")
    if command == "report" or command == "draw" or not has_all_rows(options):
        return
    rest = bench.run(words_of(command, {**options, "from": str(row)}, [], dice), plot)
    must(part[:after] + rest.output == whole, f"no rest from row {row}, {how}")


def refused_memory(bench, dice, plots):
    """Each allocation of a run is refused in turn, or all from it on: each output is written whole, or nothing is."""
    command, options = small(dice)
    options.pop("verbose", None)
    for name in ("a.plt", "b.plt"):
        write(name, mutilated(plots, dice)[:200])
    os.mkdir(FOLDER)
    files, where = dice.choice(((["a.plt"], {}), (["a.plt"], {"output": "one"}), (["a.plt", "b.plt"], {"output": FOLDER})))
    words, cause = words_of(command, {**options, **where}, files, dice), dice.choice(("MEMORY_FAILS", "MEMORY_ENDS"))
    plain, whole = bench.run(words), outputs_here()
    number, without_effect = 0, 0
    while without_effect < 5:
        number += 1
        remove_outputs()
        how = How(refused={cause: str(number)})
        ran, found = bench.run(words, b"", how), outputs_here()
        if ran.status == MEMORY:
            must(len(files) > 1 or not found, f"{sorted(found)} is there, {how}")
        else:
            must(ran == plain and found == whole, f"{ends(ran)}, {how}")
        must(found.items() <= whole.items(), f"another output, {how}")
        without_effect = 0 if ran.status == MEMORY else without_effect + 1


def outputs_here():
    """The files that were written."""
    names = [*(os.path.join(FOLDER, name) for name in os.listdir(FOLDER)), *(set(os.listdir(".")) & {"one", "one.part"})]
    return {name: read(name) for name in names}


def remove_outputs():
    for name in outputs_here():
        os.remove(name)


# Each kind and how often it is chosen: one of devices makes a dozen runs, and one of memory some hundreds.
KINDS = {
    mutilated_plots: 6000, wrong_words: 1200, plots_into_a_folder: 250, plots_into_files: 250, devices_that_fail: 90,
    refused_memory: 4,
}
