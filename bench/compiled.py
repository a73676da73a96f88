"""What the kit's clang is given of a proved program, and how it is called. For stack."""
import os
import shutil
import subprocess
import sys

ROOT = os.path.dirname(os.path.dirname(os.path.abspath(__file__)))
KIT = os.path.dirname(os.path.dirname(os.path.realpath(shutil.which("rt"))))
TOOLS = os.path.join(KIT, "toolchain")
CLANG = os.path.join(TOOLS, "bin", "clang")


def rests(tree):
    """Each room of a tree and what it rests on, as crates.txt says."""
    found = {}
    for line in open(os.path.join(tree, "crates.txt")):
        if ":" in line and not line.startswith("#"):
            room, below = line.split(":")
            found[room] = below.split()
    return found


def rooms_below(room, tree=ROOT):
    """The rooms and libraries that a room rests on, however far below: lowest first."""
    lines, found = rests(tree), []
    if room not in lines:
        sys.exit("crates.txt has no %s" % room)

    def visit(name):
        for below in lines.get(name, []):
            if below not in found:
                visit(below)
                found.append(below)

    visit(room)
    return found


def clang_that_tells(work):
    """A copy of the kit's toolchain, by links, whose clang keeps what it was given."""
    tools = os.path.join(work, "tools")
    if not os.path.isdir(tools):
        os.makedirs(os.path.join(tools, "bin"))
        for name in os.listdir(TOOLS):
            if name != "bin":
                os.symlink(os.path.join(TOOLS, name), os.path.join(tools, name))
        for name in os.listdir(os.path.join(TOOLS, "bin")):
            if name != "clang":
                os.symlink(os.path.join(TOOLS, "bin", name), os.path.join(tools, "bin", name))
        with open(os.path.join(tools, "bin", "clang"), "w") as f:
            f.write('#!/bin/sh\ncase " $* " in *" -O3 "*) cp module.bc "%s/last.bc" && echo "$@" >"%s/words" ;; esac\nexec "%s" "$@"\n' % (work, work, CLANG))
        os.chmod(os.path.join(tools, "bin", "clang"), 0o755)
    return tools


def intermediate(work, tree, program):
    """The intermediate text of a program of a tree before any of clang's passes, as work/module.bc, and the words that compile it."""
    room, own = os.path.join(tree, "crates", program), rests(tree)
    # proves it, and leaves the rooms below it built
    told = subprocess.run(["rt", "run"], cwd=room, stdin=subprocess.DEVNULL, capture_output=True, text=True)
    if told.returncode:
        sys.exit(told.stdout + told.stderr)
    words = [os.path.join(KIT, "bin", "rattle"), "build", "--crate-name", program, "src/main.rt", "-L", "dependency=%s/rlibs" % KIT]
    for below in ["std"] + rooms_below(program, tree):
        place = "%s/crates/%s/out/rlib" % (tree, below) if below in own else "%s/rlibs" % KIT
        words += ["-L", "dependency=" + place] if below in own else []
        words += ["--extern", "%s=%s/%s.rlib" % (below, place, below)] if below in ["std"] + own[program] else []
    words += ["--antt-project", "%s/rattle/logic/antt-project.json" % KIT, "--logic-built", "%s/logic_built" % KIT, "--links", program + "=",
              "--incremental", "out/incremental", "--toolchain", clang_that_tells(work), "--backend", "llvm", "-o", os.path.join(work, "program.o")]
    told = subprocess.run(words, cwd=room, stdin=subprocess.DEVNULL, capture_output=True, text=True)
    if told.returncode or not os.path.exists(os.path.join(work, "last.bc")):
        sys.exit(told.stdout + told.stderr)
    words = open(os.path.join(work, "words")).read().split()
    target = [w for w in words if w.startswith("--target=")]
    subprocess.run([CLANG] + target + ["-S", "-emit-llvm", "-Xclang", "-disable-llvm-passes", "-x", "ir", "last.bc", "-o", "module.bc"],
                   cwd=work, check=True, capture_output=True)
    os.remove(os.path.join(work, "last.bc"))
    return os.path.join(work, "module.bc"), words
