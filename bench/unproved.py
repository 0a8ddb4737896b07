#!/usr/bin/env python3
"""Builds the program without a proof, as close as that gets to the proved build, to count its instructions.

    unproved.py OUT

`rt try` compiles the program without proofs, but with checks of arithmetic, indexes and addresses, with its locals
filled, and without the attributes that say what is inlined. This takes the module that it hands to LLVM, drops those
checks, puts the attributes of the sources back, and compiles and links that for the processor of the proved program. It
takes some three minutes.

Its counts are near those of the proved program, and not the same, as LLVM inlines other calls. By valgrind `certify`
took 2,546 instructions an event where the proved program took 2,557, and 1,559 where it took 1,635; `check` 798 a line
where it took 788, and 720 where it took 711; `replay` 920 where it took 938, 903 where it took 934, and 895 where it
took 914. So compare such programs with one another, and count the proved one in the end.

Nothing of OUT is proved, and it must not be used for anything else: it goes on where `rt try` would have stopped.
Needed are Linux and a Rattle kit whose `rt try` leaves its module for a moment, as 13b does.
"""
import argparse
import os
import re
import shutil
import subprocess
import sys
import tempfile
import time
from pathlib import Path

TOP = Path(__file__).resolve().parent.parent
KIT = Path(shutil.which("rt") or "rt").resolve().parent.parent
LEVELS = {
    "#[inline]": "inlinehint",
    "#[inline(always)]": "alwaysinline",
    "#[inline(never)]": "noinline",
    "#[cold]": "cold",
}
FUNCTION = re.compile(r"\s*(?:pub(?:\([^)]*\))?\s+)?(?:const\s+)?(?:unsafe\s+)?(?:ghost\s+)?fn\s+(\w+)")
IMPL = re.compile(r"(?:unsafe\s+)?impl\b(.*)")
DEFINITION = re.compile(r'define internal .*?@"([^"]+)"')


def without_arguments(text):
    """The text without what stands in angle brackets."""
    kept, depth = [], 0
    for at, char in enumerate(text):
        if char == "<":
            depth += 1
        elif char == ">" and text[at - 1] != "-":
            depth -= 1
        elif depth == 0:
            kept.append(char)
    return "".join(kept)


def owner_of(head):
    """How the module names the owner of an impl's functions: the type, and the trait after it if there is one."""
    head = without_arguments(head.split("{")[0]).split(" where ")[0].strip()
    trait, _, owner = head.rpartition(" for ")
    return owner.split("::")[-1].strip("&[] ") + trait.strip().split("::")[-1]


def levels_in(source):
    """The attribute of each function of a file that has one, by owner and name."""
    lines = source.read_text(encoding="utf-8").split("\n")
    found, owner, level = {}, None, None
    for at, line in enumerate(lines):
        head = IMPL.match(line)
        if head:
            text = head.group(1)
            for more in lines[at + 1 :]:
                if "{" in text:
                    break
                text += " " + more
            owner = owner_of(text)
        elif line.startswith("}"):
            owner = None
        named = FUNCTION.match(line)
        if line.strip() in LEVELS:
            level = LEVELS[line.strip()]
        elif named:
            if level:
                found[owner if line.startswith("    ") else None, named.group(1)] = level
            level = None
    return found


def all_levels():
    """The same of the kit's crates and of this repository's, by crate."""
    levels = {}
    for folder in [*(KIT / "rattle").glob("*/src"), *(TOP / "crates").glob("*/src")]:
        for source in folder.rglob("*.rt"):
            for (owner, name), level in levels_in(source).items():
                levels[folder.parent.name, owner, name] = level
    return levels


def level_of(levels, function):
    """The attribute of a function by the name that the module has for it."""
    parts = re.sub(r"::<.*$", "", function).split("::")
    if len(parts) < 2:
        return None
    return levels.get((parts[0], parts[-2], parts[-1])) or levels.get((parts[0], None, parts[-1]))


def rewritten(module, levels):
    """The lines of a module without checks, with attributes."""
    for line in module:
        is_check = 'call void @"rattle-llvm-checks::' in line or line.strip() == "call void @llvm.trap()"
        if is_check or ("@llvm.memset" in line and "i8 -86," in line):
            continue
        if line.startswith("attributes #"):
            line = line.replace(" sanitize_address", "").replace(' "frame-pointer"="all"', "")
            line = line.replace("{ }", "{ nounwind }")
        defined = DEFINITION.match(line)
        level = defined and level_of(levels, defined.group(1))
        if level:
            line = re.sub(r"(\) )(#\d+ \{)$", rf"\1{level} \2", line)
        yield line


def module_of_try(work):
    """The module that `rt try` hands to LLVM, copied while it stands."""
    module = work / "module.bc"
    environment = {**os.environ, "TMPDIR": str(work / "try")}
    (work / "try").mkdir()
    words = ["rt", "try", "--", "replay"]
    with open(TOP / "examples/first.vmtrace", "rb") as trace, open(work / "said", "wb") as said:
        running = subprocess.Popen(
            words, cwd=TOP / "crates/vozhkell", env=environment, stdin=trace, stdout=said, stderr=subprocess.STDOUT
        )
        while running.poll() is None:
            try:
                for found in (work / "try").rglob("module.bc"):
                    shutil.copyfile(found, work / "part")
                    os.replace(work / "part", module)
            except OSError:
                pass  # it was removed meanwhile
            time.sleep(0.2)
    if running.returncode or not module.exists():
        sys.exit(f"unproved.py: rt try left no module: {(work / 'said').read_text(errors='replace')[-500:]}")
    return module


def main():
    words = argparse.ArgumentParser(usage=__doc__)
    words.add_argument("out", type=Path)
    out = words.parse_args().out.resolve()
    clang = KIT / "toolchain/bin/clang"
    quiet = ["-Wno-everything", "-x", "ir"]
    with tempfile.TemporaryDirectory() as folder:
        work = Path(folder)
        module = module_of_try(work)
        as_text = [clang, "-S", "-emit-llvm", "-Xclang", "-disable-llvm-passes", *quiet, module, "-o", work / "try.ll"]
        subprocess.run(as_text, check=True)
        with open(work / "try.ll", encoding="utf-8") as before, open(work / "out.ll", "w", encoding="utf-8") as after:
            after.writelines(rewritten(before, all_levels()))
        compiled = [clang, "-O3", "-march=x86-64-v2", "-c", *quiet, work / "out.ll", "-o", work / "out.o"]
        subprocess.run(compiled, check=True)
        linked = ["--target", "x86_64-unknown-linux-gnu", "--toolchain", KIT / "toolchain", "-o", out, work / "out.o"]
        libraries = [KIT / "c/libos_c.a", KIT / "c/liblibc_c.a"]
        subprocess.run([KIT / "bin/rattle-link", *linked, *libraries], check=True, stdout=subprocess.DEVNULL)


if __name__ == "__main__":
    main()
