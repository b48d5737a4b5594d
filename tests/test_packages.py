"""Makes the packages of the built program, and uses what is in them.

`tools/dist` makes them twice, and the bytes must be the same. Each package is unpacked into an empty folder,
where the command, without its symbols, the manual page and the documents must be those of the repository, with all
that `make install` copies; the command draws there what the program under test draws, `man` shows the page, and bash
completes words. The package of the filter for CUPS has what `make install-cups` copies.
dpkg installs the packages for Debian below a folder, and removes all of them. Copies of the repository with another
version, without a file, or with a field that lintian refuses, and a command that needs more than the C library,
must be refused.
"""

import filecmp
import glob
import gzip
import os
import re
import shutil
import subprocess
import tarfile
import time

import pytest

from shared import TOP, assert_nothing, need

SECONDS = 60
MOMENT = 1700000000
DOCUMENTS = ("CHANGELOG.md", "LICENSE-APACHE", "LICENSE-MIT", "README.md", "docs/FORMATS.md", "docs/INSTRUCTIONS.md",
             "docs/RECIPES.md")
# What `make install` and `make install-cups` copy, below the prefix, beside the command.
INSTALLED = {
    "share/man/man1/plotraster.1": "man/plotraster.1",
    "share/bash-completion/completions/plotraster": "completions/plotraster.bash",
    "share/zsh/site-functions/_plotraster": "completions/plotraster.zsh",
    "share/fish/vendor_completions.d/plotraster.fish": "completions/plotraster.fish",
    "share/mime/packages/plotraster.xml": "packaging/desktop/plotraster.xml",
    "share/thumbnailers/plotraster.thumbnailer": "packaging/desktop/plotraster.thumbnailer",
}
CUPS = {
    "lib/cups/filter/hpgltopdf": "packaging/cups/hpgltopdf",
    "share/cups/mime/plotraster.types": "packaging/cups/plotraster.types",
    "share/cups/mime/plotraster.convs": "packaging/cups/plotraster.convs",
}
SCRIPT = "packaging/cups/restart"
EXECUTABLE = ("bin/plotraster", "filter/hpgltopdf")
# What `make dist` reads. Each of these must be there.
SOURCES = ("Makefile", "packaging/control", "packaging/copyright", "packaging/cups/control", SCRIPT, "tools/dist",
           *INSTALLED.values(), *CUPS.values(), *DOCUMENTS)
FIRST = "marks --width 64 --height 64 --dots 127 line.plt"
ROSE = "ppm --dots 150 rose.plt"
FIRST_MARKS = "".join(f"4 {column} 1 000000\n" for column in range(8))


def read(*parts):
    """The bytes of a file; those of a file that gzip compressed are unpacked."""
    path = os.path.join(*parts)
    with (gzip.open if path.endswith(".gz") else open)(path, "rb") as file:
        return file.read()


def run(words, folder, **environment):
    return subprocess.run(words, cwd=folder, capture_output=True, text=True, timeout=SECONDS,
                          env=dict(os.environ, **environment))


def make(program, top, folder, *options, umask=0o022):
    """Runs the script of a copy of the repository, and gives its exit status and what it says."""
    os.makedirs(folder)
    ran = subprocess.run([os.path.join(top, "tools", "dist"), *options, program, folder], umask=umask, capture_output=True,
                         text=True, env=dict(os.environ, SOURCE_DATE_EPOCH=str(MOMENT)), timeout=SECONDS)
    return ran.returncode, ran.stdout + ran.stderr


def listed(root):
    """All files below a folder."""
    return {os.path.relpath(os.path.join(at, name), root) for at, _, names in os.walk(root) for name in names}


def wrong_files(root, wanted):
    """Compares an unpacked package with what it must have: for each file the one that it is a copy of, if any."""
    if listed(root) != set(wanted):
        yield f"the files differ in {sorted(listed(root) ^ set(wanted))}"
        return
    for name, source in wanted.items():
        path = os.path.join(root, name)
        if source and read(path) != read(TOP, source):
            yield f"{name} is not {source}"
        mode = 0o755 if name.endswith(EXECUTABLE) else 0o644
        if os.stat(path).st_mode & 0o777 != mode:
            yield f"{name} has the mode {os.stat(path).st_mode & 0o777:o}"


def wrong_entries(entries):
    """All entries belong to root, and have the same time and the usual modes."""
    for entry in entries:
        owner = f"{entry.uid}:{entry.gid} {entry.uname}:{entry.gname}"
        mode = 0o755 if entry.isdir() or entry.name.endswith(EXECUTABLE) else 0o644
        if (owner, entry.mtime, entry.mode) != ("0:0 root:root", MOMENT, mode):
            yield f"{entry.name}: owner {owner}, time {entry.mtime}, mode {entry.mode:o}"


def missing_of_install(stripped, root, folder):
    """What `make install` copies, and what an unpacked package has otherwise. It may compress a file."""
    done = run(["make", "--silent", "install", f"PROGRAM={stripped}", f"DESTDIR={folder}", "PREFIX="], TOP)
    if done.returncode or listed(folder) != {"bin/plotraster", *INSTALLED}:
        yield f"make install: {done.stderr}"
    for name in listed(folder):
        # Debian's zsh reads another folder.
        names = {name, f"{name}.gz", name.replace("site-functions", "vendor-completions")}
        copies = [each for each in names if os.path.exists(os.path.join(root, each))]
        if len(copies) != 1 or read(root, copies[0]) != read(folder, name):
            yield f"{name} of make install is not in the package, or is another file"


def wrong_completion(path, folder):
    """Bash reads the completion, and completes a command and a value of its option."""
    script = """. "$1"; complete -p plotraster; complete_word() { COMP_WORDS=("$@"); COMP_CWORD=$(($# - 1)); _plotraster; }
        complete_word plotraster pp; echo "${COMPREPLY[@]}"; complete_word plotraster ppm --profile f; echo "${COMPREPLY[@]}" """
    ran = run(["bash", "--norc", "-eu", "-c", script, "bash", path], folder)
    if (ran.returncode, ran.stderr) != (0, "") or ran.stdout.splitlines()[1:] != ["ppm", "full"]:
        yield f"bash: status {ran.returncode}, {ran.stdout!r}, {ran.stderr!r}"


def wrong_use(program, stripped, root, page, folder):
    """What the unpacked command draws, how its manual page is shown, and what else `make install` copies."""
    os.makedirs(folder)
    command = f"{root}/bin/plotraster"
    yield from missing_of_install(stripped, root, os.path.join(folder, "installed"))
    yield from wrong_completion(f"{root}/share/bash-completion/completions/plotraster", folder)
    shutil.copy(os.path.join(TOP, "examples", "line.plt"), folder)
    shutil.copy(os.path.join(TOP, "examples", "rose.plt"), folder)
    ran = run([command, *FIRST.split()], folder)
    if (ran.returncode, ran.stdout, ran.stderr) != (0, FIRST_MARKS, ""):
        yield f"{FIRST}: status {ran.returncode}, {ran.stdout!r}, {ran.stderr!r}"
    drawn, wanted = (subprocess.run([each, *ROSE.split()], cwd=folder, capture_output=True, timeout=SECONDS)
                     for each in (command, program))
    if drawn.returncode or drawn.stdout != wanted.stdout or not drawn.stdout.startswith(b"P6\n1754 1240\n255\n"):
        yield f"{ROSE}: status {drawn.returncode}, {drawn.stdout[:20]!r}, {drawn.stderr!r}"
    shown = run(["man", "--warnings", "-l", f"{root}/share/man/man1/{page}"], folder, MANWIDTH="100", LC_ALL="C.UTF-8")
    if shown.returncode or shown.stderr or "draw an HP-GL or HP-GL/2 plot" not in shown.stdout:
        yield f"man: status {shown.returncode}, {shown.stderr!r}"


def wrong_archive(program, stripped, made, number, folder):
    title = f"plotraster-{number}-x86_64-linux"
    path, root = os.path.join(made, f"{title}.tar.gz"), os.path.join(folder, "archive")
    with tarfile.open(path) as archive:
        yield from wrong_entries(archive.getmembers())
        if any(not entry.isfile() or not entry.name.startswith(f"{title}/") for entry in archive):
            yield "it has an entry that is no file of its folder"
    # Unpacked as the README says it.
    os.makedirs(root)
    readme = read(TOP, "README.md").decode()
    said = re.search(r"^tar xzf build/(\S+) (.+) -C \S+ ", readme, re.M)
    ran = run(["tar", "xzf", os.path.join(made, said[1]), *said[2].split(), "-C", root], folder)
    if ran.returncode or f"apt install ./build/plotraster_{number}_amd64.deb " not in readme:
        yield f"not as in the README: {ran.stderr}"
    wanted = {"bin/plotraster": stripped, **INSTALLED}
    wanted.update({f"share/doc/plotraster/{name}": name for name in DOCUMENTS})
    yield from wrong_files(root, wanted)
    yield from wrong_use(program, stripped, root, "plotraster.1", os.path.join(folder, "use"))


def versions(text, heading):
    """The words of a changelog under each version, without marks of points and headings."""
    return {number: re.findall(r"[^\s*\[\]#-]\S*", said) for number, said in re.findall(heading, text, re.M | re.S)}


def wrong_control(control, root, named, depends, files):
    """The sums and the fields of a package for Debian."""
    sums = run(["md5sum", "--check", "--quiet", "--strict", f"{control}/md5sums"], root)
    if sums.returncode or len(read(control, "md5sums").splitlines()) != files:
        yield f"md5sums: {sums.stdout}{sums.stderr}"
    text = read(control, "control").decode()
    fields = dict(re.findall(r"^([\w-]+): (.+)$", text, re.M))
    if not named.items() <= fields.items() or not re.fullmatch(depends, fields["Depends"]):
        yield f"control: {fields}"
    if re.search("@[A-Z]+@", text):
        yield f"control has a mark that is not replaced: {text}"
    size = sum(os.path.getsize(os.path.join(root, name)) for name in listed(root)) / 1024
    if abs(int(fields["Installed-Size"]) - size) > max(size / 10, 4 * files):
        yield f"Installed-Size is {fields['Installed-Size']}, the files have {size:.0f} KiB"


def unpacked(path, folder):
    """Unpacks a package for Debian: gives the folders of its files and of what dpkg wants to know, and what is wrong."""
    root, control = f"{folder}/package", f"{folder}/control"
    with open(f"{folder}/data.tar", "wb") as data:
        subprocess.run(["dpkg-deb", "--fsys-tarfile", path], stdout=data, check=True, timeout=SECONDS)
    with tarfile.open(f"{folder}/data.tar") as data:
        wrong = list(wrong_entries(data))
    for words in (["--extract", path, root], ["--control", path, control]):
        subprocess.run(["dpkg-deb", *words], check=True, timeout=SECONDS)
    return root, control, wrong


def wrong_documents(root, package):
    """The changelog of a package for Debian."""
    changes = f"usr/share/doc/{package}/changelog.gz"
    said = versions(read(root, changes).decode(), rf"^{package} \((\S+)\) unstable; urgency=medium$(.*?)^ -- ")
    if said != versions(read(TOP, "CHANGELOG.md").decode(), r"^## (\S+) \([\d-]+\)$(.*?)(?=^## |\Z)"):
        yield f"{changes} has other words than CHANGELOG.md: {said}"


def wrong_package(program, stripped, made, number, folder):
    root, control, wrong = unpacked(os.path.join(made, f"plotraster_{number}_amd64.deb"), folder)
    yield from wrong
    wanted = {"usr/bin/plotraster": stripped, "usr/share/doc/plotraster/changelog.gz": None,
              "usr/share/doc/plotraster/copyright": "packaging/copyright"}
    wanted.update({f"usr/{name}".replace("site-functions", "vendor-completions"): of for name, of in INSTALLED.items()})
    wanted["usr/share/man/man1/plotraster.1.gz"] = wanted.pop("usr/share/man/man1/plotraster.1")
    wanted.update({f"usr/share/doc/plotraster/{name}": name for name in DOCUMENTS if name != "CHANGELOG.md"})
    yield from wrong_files(root, wanted)
    yield from wrong_documents(root, "plotraster")
    named = {"Package": "plotraster", "Version": number, "Architecture": "amd64"}
    yield from wrong_control(control, root, named, r"libc6 \(>= 2\.\d+\)", len(wanted))
    yield from wrong_use(program, stripped, f"{root}/usr", "plotraster.1.gz", f"{folder}/use")


def wrong_package_for_cups(_program, _stripped, made, number, folder):
    root, control, wrong = unpacked(os.path.join(made, f"plotraster-cups_{number}_all.deb"), folder)
    yield from wrong
    documents = "usr/share/doc/plotraster-cups"
    wanted = {**{f"usr/{name}": of for name, of in CUPS.items()}, f"{documents}/changelog.gz": None,
              f"{documents}/copyright": "packaging/copyright"}
    yield from wrong_files(root, wanted)
    yield from wrong_documents(root, "plotraster-cups")
    named = {"Package": "plotraster-cups", "Version": number, "Architecture": "all"}
    yield from wrong_control(control, root, named, rf"cups-filters, plotraster \(>= {re.escape(number)}\)", len(wanted))
    scripts = listed(control) - {"control", "md5sums"}
    if scripts != {"postinst", "postrm"} or any(read(control, name) != read(TOP, SCRIPT) for name in scripts):
        yield f"the scripts are {scripts}"


def wrong_installation(packages, folder):
    """dpkg installs packages below a folder, finds their files as their sums say, and removes all of them."""
    # The scripts run as in a system that is put together, where they do nothing.
    dpkg = ["dpkg", f"--root={folder}", "--log=/dev/null", "--force-depends,not-root,bad-path,script-chrootless"]
    names = [os.path.basename(path).split("_")[0] for path in packages]
    ran = [run([*dpkg, *words], folder) for words in (["--install", *packages], ["--verify", *names])]
    shown = run([f"{folder}/usr/bin/plotraster", "--version"], folder)
    installed = listed(folder)
    ran.append(run([*dpkg, "--purge", *names], folder))
    if any(each.returncode for each in ran) or ran[1].stdout or not shown.stdout.startswith("plotraster "):
        yield f"dpkg: {[(each.returncode, each.stdout, each.stderr) for each in (*ran, shown)]}"
    if not {f"usr/{name}" for name in CUPS} <= installed:
        yield f"dpkg installs {installed}"
    left = [name for name in listed(folder) if not name.startswith("var/lib/dpkg/")]
    if left:
        yield f"dpkg --purge leaves {left}"


def copy_of_sources(folder, but=None):
    """A copy of what `make dist` reads, with a file left out."""
    for name in SOURCES:
        if name != but:
            os.makedirs(os.path.dirname(os.path.join(folder, name)), exist_ok=True)
            shutil.copy(os.path.join(TOP, name), os.path.join(folder, name))
    return folder


def change(path, pattern, text):
    """Replaces the first match in a file."""
    with open(path, encoding="utf-8") as file:
        changed = re.sub(pattern, text, file.read(), count=1)
    with open(path, "w", encoding="utf-8") as file:
        file.write(changed)


def wrong_versions(program, number, folder):
    """Another version in one place after another, and in the last copy in all places but the command."""
    places = (("CHANGELOG.md", "## "), ("man/plotraster.1", "plotraster "), ("README.md", "version "),
              ("README.md", "plotraster_"), ("README.md", "plotraster-cups_"), ("README.md", "plotraster-"))
    for at, changed in enumerate([*([place] for place in places), places]):
        top = copy_of_sources(f"{folder}/version/{at}")
        for name, before in changed:
            change(os.path.join(top, name), before + re.escape(number), f"{before}{number}1")
        status, said = make(program, top, f"{folder}/of-version/{at}", "--unchecked")
        if status == 0 or "the versions differ" not in said:
            yield f"another version in {changed}: status {status}, {said}"


def wrong_refusals(program, number, folder):
    """What must be refused, and the unchanged copy, which must not."""
    status, said = make(program, copy_of_sources(f"{folder}/same"), f"{folder}/of-same", "--unchecked")
    if status:
        yield f"an unchanged copy is refused: {said}"
    for name in SOURCES:
        if name != "tools/dist":
            status, _ = make(program, copy_of_sources(f"{folder}/{name}", name), f"{folder}/of/{name}", "--unchecked")
            if status == 0:
                yield f"without {name} nothing is refused"
    yield from wrong_versions(program, number, folder)
    status, said = make("/bin/ls", TOP, f"{folder}/other", "--unchecked")
    if status == 0 or "dist: /bin/ls needs" not in said:
        yield f"a command with more libraries: status {status}, {said}"


@pytest.fixture(scope="module")
def number():
    """The version that the changelog names first."""
    return re.search(r"^## (\S+) \(", read(TOP, "CHANGELOG.md").decode(), re.M)[1]


@pytest.fixture(scope="module")
def made(program, pytestconfig, tmp_path_factory):
    """The folder with the packages."""
    need(pytestconfig, "readelf", "dpkg-deb", "man")
    folder = str(tmp_path_factory.mktemp("packages") / "first")
    status, said = make(program, TOP, folder, "--unchecked")
    assert status == 0 and len(os.listdir(folder)) == 3, said
    return folder


def test_same_bytes_each_time(program, made, pytestconfig, tmp_path):
    """A second time, under another mask and later, so that a time of its own would differ. lintian must accept it."""
    need(pytestconfig, "lintian")
    time.sleep(1.1)
    status, said = make(program, TOP, tmp_path / "second", umask=0o077)
    assert status == 0 and "lintian" not in said, said
    for name in sorted(os.listdir(made)):
        assert filecmp.cmp(os.path.join(made, name), tmp_path / "second" / name, shallow=False), name


def test_what_lintian_refuses(program, pytestconfig, tmp_path):
    """A field that lintian refuses: nothing is put into the folder."""
    need(pytestconfig, "readelf", "dpkg-deb", "lintian")
    top = copy_of_sources(str(tmp_path / "sources"))
    change(os.path.join(top, "packaging", "control"), "(?m)^Maintainer: .*", "Maintainer: nobody")
    status, said = make(program, top, tmp_path / "made")
    assert status and "E: plotraster: malformed-contact" in said
    assert os.listdir(tmp_path / "made") == []


@pytest.mark.parametrize("wrong", [wrong_archive, wrong_package, wrong_package_for_cups])
def test_package(wrong, program, made, number, tmp_path):
    stripped = str(tmp_path / "stripped")
    subprocess.run(["strip", "--remove-section=.comment", "-o", stripped, program], check=True, timeout=SECONDS)
    assert_nothing(wrong(program, stripped, made, number, str(tmp_path)))


def test_installation_by_dpkg(made, number, tmp_path):
    packages = [os.path.join(made, f"plotraster{name}.deb") for name in (f"_{number}_amd64", f"-cups_{number}_all")]
    assert_nothing(wrong_installation(packages, str(tmp_path)))


def test_times_are_those_of_the_commit(program, made, tmp_path):
    """Without SOURCE_DATE_EPOCH all entries have the time of the last commit."""
    said = run(["git", "log", "-1", "--format=%ct"], TOP)
    if said.returncode:
        pytest.skip("this is no checkout of git, so there is no commit")
    surroundings = {key: value for key, value in os.environ.items() if key != "SOURCE_DATE_EPOCH"}
    words = [os.path.join(TOP, "tools", "dist"), "--unchecked", program, tmp_path]
    subprocess.run(words, env=surroundings, check=True, timeout=SECONDS, stdout=subprocess.DEVNULL)
    archive, = glob.glob(os.path.join(tmp_path, "*.tar.gz"))
    with tarfile.open(archive) as entries:
        assert {entry.mtime for entry in entries} == {int(said.stdout)}


def test_install_and_uninstall(program, tmp_path):
    """What `make install` and `make install-cups` copy is there, and `make uninstall` removes all of it."""
    place = [f"PROGRAM={program}", f"DESTDIR={tmp_path}", "PREFIX=/usr"]
    wanted = {f"usr/{name}" for name in ("bin/plotraster", *INSTALLED)}
    for target, files in (("install", wanted), ("install-cups", wanted | {f"usr/{name}" for name in CUPS}), ("uninstall", set())):
        done = run(["make", "--silent", target, *place], TOP)
        assert done.returncode == 0, done.stderr
        assert listed(tmp_path) == files, target


def test_install_says_what_to_run_first(tmp_path):
    done = run(["make", "--silent", "install", f"PROGRAM={tmp_path}/none", f"DESTDIR={tmp_path}"], TOP)
    assert done.returncode and "nothing is built yet: type make" in done.stderr
    assert not listed(tmp_path)


def test_refusals(program, made, number, tmp_path):
    assert_nothing(wrong_refusals(program, number, str(tmp_path)))
