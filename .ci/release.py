#!/usr/bin/env python3
"""Makes a release by dist/make, and tries it as its user would: release.py. It prints a line for each thing that it
checks, as .ci/own-checks does, and ends with status 1 if one fails.

The archive is unpacked into a folder that is the root of all that is run there. The program runs with nothing else in
it. The commands of the release's README and the compilers find the folders of the system beside it, but neither this
repository nor the Rattle kit. Where the system allows no such root they run outside of it, and a line says so.
"""
import os
import re
import shutil
import subprocess
import sys
import tarfile
import tempfile
import time
from pathlib import Path

from commands import FENCED, shortened

TOP = Path(__file__).resolve().parent.parent
MAKE = [TOP / "dist/make", "deb"]
PATH = "/usr/local/bin:/usr/bin:/bin:/usr/sbin:/sbin"
# Makes the folders of the system visible below the root $1, and runs the command $2 in its folder /home.
ENTER = """
for name in bin sbin lib lib64 usr etc dev proc; do
    if [ -L /$name ]; then
        [ -L "$1/$name" ] || cp -P /$name "$1/$name"
    elif [ -d /$name ]; then
        mkdir -p "$1/$name" && mount --rbind /$name "$1/$name" || exit
    fi
done
exec chroot "$1" bash -c 'cd /home && eval "$1"' - "$2"
"""
WARNINGS = "-Wall -Wextra -Werror"
EXAMPLE = "share/doc/vozhkell/examples/c"
# How pool.c is built by the compiler $CC as $SOURCE, in the language that CMake calls $LANGUAGE.
LINKED = f"""set -e
export PKG_CONFIG_PATH=$PWD/lib/pkgconfig
mkdir by-cmake
cp {EXAMPLE}/pool.c by-cmake/$SOURCE
cd by-cmake
$CC -std=$STD -O2 {WARNINGS} $SOURCE $(pkg-config --cflags --libs vozhkell) -o by-pkg-config
./by-pkg-config
sed "s/pool C/pool $LANGUAGE/; s/pool[.]c/$SOURCE/" ../{EXAMPLE}/CMakeLists.txt > CMakeLists.txt
cmake -S . -B out -DCMAKE_PREFIX_PATH="${{PWD%/*}}" -DCMAKE_${{LANGUAGE}}_COMPILER=$CC \\
    -DCMAKE_${{LANGUAGE}}_FLAGS="-std=$STD {WARNINGS}"
cmake --build out
out/pool
$CC -shared -o libvozhkell.so -Wl,--whole-archive ../lib/libvozhkell.a -Wl,--no-whole-archive
$CC -std=$STD -O2 {WARNINGS} $SOURCE -I ../include -L . -lvozhkell -Wl,-rpath,$PWD -pthread -o by-shared
./by-shared
"""
COMPILERS = [("gcc", "c11", "C"), ("clang", "c11", "C"), ("g++", "c++17", "CXX"), ("clang++", "c++17", "CXX")]


class Wrong(Exception):
    """What is wrong with the release."""


def run(words, wanted=0, **how):
    """What a command writes, which ends with the wanted status."""
    ended = subprocess.run(words, stdin=subprocess.DEVNULL, capture_output=True, text=True, timeout=300, **how)
    if ended.returncode != wanted:
        said = f"{ended.stdout[-3000:]}{ended.stderr[-3000:]}"
        raise Wrong(f"{words[-1]}\nends with {ended.returncode} and not {wanted}:\n{said}")
    return ended.stdout


# Two lists of names that have to be one.

def compare(names, others, what, other):
    """Fails where two sets of names differ, or where there are none."""
    wrong = [f"{name} is in {what} and not in {other}" for name in sorted(names - others)]
    wrong += [f"{name} is in {other} and not in {what}" for name in sorted(others - names)]
    if wrong or not names:
        raise Wrong("\n".join(wrong) or f"{what} has no names")


def commands_in_usage(text):
    """The commands in the program's usage line."""
    return {words.split()[0] for words in re.search(r"usage: (.*)", text)[1].split("|")}


def commands_in_page(text):
    """The commands in the manual page of the program."""
    return set(re.findall(r"^\.TP\n\.BI? (\w+)", re.search(r"\.SH COMMANDS\n(.*?)\.SH", text, re.S)[1], re.M))


def functions_in_header(text):
    return set(re.findall(r"^static inline \w+ (\w+)\(", text, re.M))


def functions_in_page(text):
    return set(re.findall(r"^\.B int (\w+)\(", text, re.M))


# What a release is.

class Release:
    """The archive and the package that dist/make has made, and the archive unpacked."""

    def __init__(self, room):
        self.room = room
        self.made = []
        self.root = room / "root"
        self.tree = self.root / "home"

    def is_the_same_twice(self):
        for name in ("first", "second"):
            said = run([*MAKE, "--out", self.room / name]).split()
            self.made.append([Path(file) for file in said])
        same(*self.made)
        self.unpack(self.tree)

    def unpack(self, to):
        to.mkdir(parents=True, exist_ok=True)
        run(["tar", "-xzf", self.made[0][0], "-C", to, "--strip-components=1"])

    def stands_alone(self):
        run(["sha256sum", "--check", "--strict", "--quiet", "SHA256SUMS"], cwd=self.tree)
        headers = run(["readelf", "--wide", "--program-headers", "--dynamic", self.tree / "bin/vozhkell"])
        if "INTERP" in headers or "(NEEDED)" in headers:
            raise Wrong(f"bin/vozhkell is linked dynamically:\n{headers}")
        folders = [str(TOP), str(Path(shutil.which("rt")).resolve().parents[1])]
        for file in filter(Path.is_file, self.tree.rglob("*")):
            wrong = [folder for folder in folders if folder.encode() in file.read_bytes()]
            if wrong:
                raise Wrong(f"{file.relative_to(self.tree)} names {wrong[0]}")

    def has_its_pages(self):
        usage = run([self.tree / "bin/vozhkell"], wanted=1)
        commands = commands_in_usage(usage)
        page = (self.tree / "share/man/man1/vozhkell.1").read_text()
        compare(commands, commands_in_page(page), "the usage line", "vozhkell(1)")
        completions = run(["bash", "-c", '. share/bash-completion/completions/vozhkell; COMP_CWORD=1\n'
                           '_vozhkell vozhkell ""; printf "%s\\n" "${COMPREPLY[@]}"'], cwd=self.tree)
        compare(commands, set(completions.split()), "the usage line", "the completions of bash")
        completions = (self.tree / "share/zsh/site-functions/_vozhkell").read_text()
        compare(commands, set(re.findall(r"^    '(\w+):", completions, re.M)), "the usage line", "those of zsh")
        page = (self.tree / "share/man/man3/vozhkell.3").read_text()
        header = (self.tree / "include/vozhkell.h").read_text()
        compare(functions_in_header(header), functions_in_page(page), "vozhkell.h", "vozhkell(3)")
        pages = {file.stem for file in (self.tree / "share/man/man1").iterdir()}
        compare({file.name for file in (self.tree / "bin").iterdir()}, pages, "bin", "the manual pages")

    def has_right_pages(self):
        for page in (self.tree / "share/man").glob("*/*"):
            ended = subprocess.run(["man", "--warnings", "-E", "UTF-8", "-l", page], capture_output=True, text=True)
            if ended.returncode or ended.stderr:
                raise Wrong(f"{page.name}: {ended.stderr}")

    def answers(self, root, program, examples):
        """The program alone in a root prints what stands beside the examples."""
        for out in sorted(examples.glob("*.out")):
            trace = next(examples.glob(f"{out.stem}.vm*"))
            command = "groups" if trace.suffix == ".vmgroups" else "replay"
            with open(trace, "rb") as text:
                ended = subprocess.run([*in_root(root, program), command], stdin=text, capture_output=True,
                                       env={"PATH": PATH})
            if ended.returncode not in (0, 3) or ended.stdout != out.read_bytes():
                raise Wrong(f"{command} of {trace.name}: status {ended.returncode}\n{ended.stderr.decode()}")

    def runs_alone(self):
        root = self.room / "empty"
        (root / "bin").mkdir(parents=True)
        shutil.copy2(self.tree / "bin/vozhkell", root / "bin")
        self.answers(root, "/bin/vozhkell", self.tree / "share/doc/vozhkell/examples")

    def enter(self, command, wanted=0, **settings):
        """What a command writes in the release's folder, with the folders of the system beside it and no others."""
        environment = {"PATH": PATH, "HOME": "/home/user", "TMPDIR": "/tmp", **settings}
        if has_roots():
            for name in ("tmp", "home/user"):
                (self.root / name).mkdir(parents=True, exist_ok=True)
            return run([*mounting(), "bash", "-c", ENTER, "-", self.root, command], wanted, env=environment)
        environment["HOME"] = str(self.tree / "user")
        return run(["bash", "-c", command], wanted, cwd=self.tree, env={**environment, "TMPDIR": str(self.room)})

    def keeps_its_word(self):
        """The commands of README do what it says."""
        blocks = FENCED.findall((self.tree / "README.md").read_text(encoding="utf-8"))
        for (info, command), after in zip(blocks, [*blocks[1:], ("", "")]):
            if not info.startswith("sh") or "reads" in info and not os.access(info.split()[-1], os.R_OK):
                continue
            printed = self.enter(command)
            if after[0].startswith("output") and shortened(printed, after[1]) != after[1]:
                raise Wrong(f"{command}prints\n{printed}")

    def is_linked(self, compiler, standard, language):
        """pool.c, over the library as it was unpacked anew."""
        shutil.rmtree(self.tree)
        self.unpack(self.tree)
        source = "pool.cc" if language == "CXX" else "pool.c"
        self.enter(LINKED, CC=compiler, STD=standard, LANGUAGE=language, SOURCE=source)

    def is_installed(self):
        """A release comes and goes, and what isn't of it stays."""
        tree, prefix = self.room / "to install", self.room / "a prefix"
        self.unpack(tree)
        (prefix / "bin").mkdir(parents=True)
        (prefix / "bin/other").write_text("")
        before = names_in(prefix)
        how = {"env": {"PATH": PATH, "PREFIX": str(prefix)}}
        run([tree / "install", "--undo"], wanted=1, **how)
        for _ in range(2):
            run([tree / "install"], **how)
        if not names_in(prefix) > before | {f"bin/{file.name}" for file in (tree / "bin").iterdir()}:
            raise Wrong(f"installed are {names_in(prefix)}")
        run([prefix / "bin/vozhkell-page", tree / "share/doc/vozhkell/examples/drift.vmtrace"], env={"PATH": PATH})
        run([tree / "install", "--undo"], **how)
        (prefix / "bin/vozhkell").write_text("")
        run([tree / "install"], wanted=1, **how)
        if names_in(prefix) != before | {"bin/vozhkell"}:
            raise Wrong(f"left are {names_in(prefix)}")
        (prefix / "bin/vozhkell").unlink()
        with open(tree / "include/vozhkell.h", "a") as file:
            file.write("\n")
        run([tree / "install"], wanted=1, **how)
        if names_in(prefix) != before:
            raise Wrong(f"left are {names_in(prefix)}")

    def is_packed(self):
        """The package has what the archive has, and its program answers alone in a root."""
        package, root, alone = self.made[0][1], self.room / "package", self.room / "of package"
        run(["dpkg-deb", "--extract", package, root])
        (alone / "bin").mkdir(parents=True)
        shutil.copy2(root / "usr/bin/vozhkell", alone / "bin")
        self.answers(alone, "/bin/vozhkell", root / "usr/share/doc/vozhkell/examples")
        for part in ("bin", "include", "lib"):
            compare(names_in(self.tree / part), names_in(root / "usr" / part), f"{part} of the archive", "the package")

    def pleases_lintian(self):
        run(["lintian", "--allow-root", "--fail-on", "error", self.made[0][1]])


def same(files, others):
    """Fails where two releases differ: it says in which file, of an archive."""
    for file, other in zip(files, others):
        if file.name != other.name:
            raise Wrong(f"one is {file.name}, and one {other.name}")
        if file.read_bytes() == other.read_bytes():
            continue
        wrong = [f"{file.name} differs from itself"]
        if file.name.endswith(".tar.gz"):
            with tarfile.open(file) as one, tarfile.open(other) as two:
                parts = [{it.name: (it.mode, it.mtime, it.linkname, it.isfile() and archive.extractfile(it).read())
                          for it in archive} for archive in (one, two)]
            wrong += sorted(name for name in {**parts[0], **parts[1]} if parts[0].get(name) != parts[1].get(name))
        raise Wrong("\n".join(wrong))
    if not files or len(files) != len(others):
        raise Wrong(f"{len(files)} files are made, and then {len(others)}")


def names_in(folder):
    return {str(path.relative_to(folder)) for path in folder.rglob("*") if not path.is_dir() or path.is_symlink()}


def mounting():
    return ["unshare", "--mount", *(["--map-root-user"] if os.geteuid() else [])]


def has_roots():
    """Whether this system lets a command have a root of its own, with mounts that nobody else sees."""
    try:
        with tempfile.TemporaryDirectory() as folder:
            words = [*mounting(), "bash", "-c", ENTER, "-", folder, "true"]
            Path(folder, "home").mkdir()
            return subprocess.run(words, capture_output=True).returncode == 0
    except OSError:
        return False


def in_root(root, program):
    """The words that run a program with nothing but it in its root, or else as any other."""
    if not has_roots():
        return [f"{root}{program}"]
    return [*mounting(), "chroot", root, program]


def check(what, call, needed):
    """Says whether something of the release is as it should be, or what is missing to see it."""
    missing = [name for name in needed if not shutil.which(name)]
    if missing:
        print(f"own-checks: left out: {what}, since {' and '.join(missing)} are not there", flush=True)
        return True
    began, wrong = time.monotonic(), None
    try:
        call()
    except (Wrong, OSError, subprocess.TimeoutExpired) as error:
        wrong = str(error)
    print(f"own-checks: {'FAILED' if wrong else 'ok'}: {what} ({time.monotonic() - began:.0f} s)", flush=True)
    if wrong:
        print("    " + wrong.rstrip().replace("\n", "\n    "), flush=True)
    return not wrong


def main():
    with tempfile.TemporaryDirectory() as room:
        release = Release(Path(room).resolve())
        if not check("a release of one commit is the same twice, byte for byte", release.is_the_same_twice,
                     ["dpkg-deb"]):
            return 1
        if not has_roots():
            print("own-checks: left out: a root of its own for a release, since the system allows none", flush=True)
        checks = [
            ("a release's program is a static file, and no file names the folders of its making",
             release.stands_alone, ["readelf"]),
            ("a release's manual pages and completions have what its program, its header and its tools have",
             release.has_its_pages, []),
            ("a release's manual pages are shown without a warning", release.has_right_pages, ["man"]),
            ("a release's program alone answers the examples", release.runs_alone, []),
            ("a release's README does what it says", release.keeps_its_word, ["cc", "cmake", "pkg-config"]),
            *((f"pool.c is linked by pkg-config, by CMake and to a shared library, by {it[0]} as {it[1]}",
               lambda it=it: release.is_linked(*it), [it[0], "cmake", "pkg-config"]) for it in COMPILERS),
            ("a release is installed, and taken away", release.is_installed, []),
            ("a Debian package has what the archive has", release.is_packed, []),
            ("lintian finds no error in the package", release.pleases_lintian, ["lintian"]),
        ]
        return 0 if all([check(*it) for it in checks]) else 1


if __name__ == "__main__":
    sys.exit(main())
