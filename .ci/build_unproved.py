"""Compiles the program of these sources without a proof, into crates/peregrine/out/unproved.

The toolchain has a trial run, `rt try`, that compiles anew each time, slowly and with checks of each access. Here it
runs over a toolchain of links in which something else stands for the compiler: it keeps the module that the trial run
made of the sources, and the module is compiled without those checks. What stays in it are the checks that stop a run at
an overflow or an index out of bounds.
"""

import hashlib
import os
import shutil
import signal
import subprocess
import sys
import tempfile
import time

from kept import PROGRAM, identity_of, mark_of_program, write
from module_parts import Module
from toolchain import Stopped, processors, say, sum_of_files, text_of

# the exit status that asks for the toolchain's own trial run
NO_WAY = 3
# how often the script says what it is at, in seconds
TELL_EACH = 30
# the word by which the trial run has the compiler check each access
CHECKED = "-fsanitize=address"

COMPILER = """\
#!/bin/sh
# stands for the compiler of a trial run: it keeps the program's module and the words, and compiles only other modules
PATH=/usr/bin:/bin
case " $* " in
    *" {checked} "*)
        cp module.bc '{room}' && printf '%s\\n' "$@" >'{room}/words'
        exit 1
        ;;
esac
exec '{compiler}' "$@"
"""


class NoWay(Exception):
    """This toolchain's trial run works otherwise."""


def key_of(tree):
    """Returns a checksum of all that the program is compiled from: the toolchain, and the sources of its crates."""
    crates = [*tree.below(PROGRAM), PROGRAM]
    sources = [(it, tree.crates[it], sum_of_files(tree.at(it), ["src"])) for it in crates]
    return hashlib.sha256(repr((identity_of(tree.kit), sources)).encode()).hexdigest()


def links_to(folder, to, but=()):
    """Makes a folder of links to all that another holds, but for these names."""
    os.mkdir(to)
    for name in sorted(set(os.listdir(folder)) - set(but)):
        os.symlink(f"{folder}/{name}", f"{to}/{name}")


def copy_of_toolchain(kit, to):
    """Makes a toolchain of links. Its scripts are copied, since they look for all else beside themselves."""
    links_to(kit, to, ["bin"])
    scripts = [it for it in os.listdir(f"{kit}/bin") if it.startswith("rt")]
    links_to(f"{kit}/bin", f"{to}/bin", scripts)
    for name in scripts:
        shutil.copy2(f"{kit}/bin/{name}", f"{to}/bin/{name}")
    return to


def write_command(path, text):
    """Makes a command of this text, in place of one that stands there."""
    if os.path.lexists(path):
        os.remove(path)
    write(path, text)
    os.chmod(path, 0o755)


def toolchain_without_compiler(kit, room):
    """Makes a toolchain of links in which something else stands for the compiler, and nothing for the prover: a trial
    run asks that only whether a check would refuse a name, which takes a processor as long as all else."""
    to = copy_of_toolchain(kit, f"{room}/kit")
    os.remove(f"{to}/toolchain")
    links_to(f"{kit}/toolchain", f"{to}/toolchain", ["bin"])
    links_to(f"{kit}/toolchain/bin", f"{to}/toolchain/bin")
    compiler = f"{kit}/toolchain/bin/clang"
    write_command(f"{to}/toolchain/bin/clang", COMPILER.format(checked=CHECKED, room=room, compiler=compiler))
    write_command(f"{to}/bin/rattle", "#!/bin/sh\n")
    return to


def run_and_tell(commands, what, room, **more):
    """Runs commands side by side, says each half minute what it is at, and returns the most of their exit statuses.
    What they say stands in the room. An end of this one ends them."""
    told, running = time.monotonic(), []
    with open(f"{room}/said", "w", encoding="utf-8") as said:
        how = {"stdin": subprocess.DEVNULL, "stdout": said, "stderr": said, "start_new_session": True, **more}
        try:
            for words in commands:
                running.append(subprocess.Popen(words, **how))
            while any(it.poll() is None for it in running):
                time.sleep(0.1)
                if time.monotonic() - told >= TELL_EACH:
                    say(what)
                    told = time.monotonic()
            return max(abs(it.returncode) for it in running)
        finally:
            for it in running:
                if it.poll() is None:
                    os.killpg(it.pid, signal.SIGTERM)
                    it.wait()


def end_of_said(room):
    """Returns the last of what the commands said."""
    return text_of(f"{room}/said")[-4000:].rstrip()


def make_module(tree, room):
    """Has a trial run make the program's module, and returns the words by which it is compiled."""
    rt = f"{toolchain_without_compiler(tree.kit, room)}/bin/rt"
    how = {"cwd": tree.at(PROGRAM), "env": {**os.environ, "TMPDIR": room}}
    status = run_and_tell([[sys.executable, rt, "try"]], "reading the sources, unproved", room, **how)
    if not os.path.isfile(f"{room}/words"):
        if status == 1:
            raise Stopped(f"the sources aren't compiled:\n{end_of_said(room)}")
        raise NoWay(f"its trial run compiles no module of its own:\n{end_of_said(room)}")
    leave = {"-c", "-o", "module.o", "module.bc", "-Werror", CHECKED}
    return [it for it in text_of(f"{room}/words").splitlines() if it not in leave and not it.startswith("-O")]


def read_module(kit, room, words):
    """Returns the module that stands in the room."""
    as_text = [f"{kit}/toolchain/bin/clang", *words, "-S", "-emit-llvm", "-Xclang", "-disable-llvm-passes"]
    if run_and_tell([[*as_text, f"{room}/module.bc", "-o", f"{room}/module.ll"]], "reading the module, unproved", room):
        raise NoWay(f"the module can't be read:\n{end_of_said(room)}")
    try:
        return Module(text_of(f"{room}/module.ll"))
    except (KeyError, TypeError) as why:
        raise NoWay("the module is written in another way") from why


def compile_program(tree, room):
    """Compiles the program into the room: the parts of its module side by side, which are then linked."""
    kit, words = tree.kit, make_module(tree, room)
    parts = read_module(kit, room, words).parts(min(8, processors()))
    files = [f"{room}/part{number}" for number in range(len(parts))]
    for file, text in zip(files, parts):
        write(f"{file}.ll", text)
    compiler = [f"{kit}/toolchain/bin/clang", *words, "-O1", "-c"]
    compiling = [[*compiler, f"{it}.ll", "-o", f"{it}.o"] for it in files]
    linking = [f"{kit}/bin/rattle-link", "--target", "x86_64-unknown-linux-gnu", "--toolchain", f"{kit}/toolchain"]
    linking += ["-o", f"{room}/{PROGRAM}", *[f"{it}.o" for it in files]]
    linking += [f"{kit}/c/libos_c.a", f"{kit}/c/liblibc_c.a"]
    for commands in (compiling, [linking]):
        if run_and_tell(commands, "compiling the program, unproved", room):
            raise NoWay(f"the module isn't compiled:\n{end_of_said(room)}")


def run(tree):
    """Compiles the program where it doesn't yet stand for these sources."""
    began, key, kept = time.time(), key_of(tree), f"{tree.at(PROGRAM)}/out/unproved"
    program, mark = f"{kept}/{PROGRAM}", f"{kept}/key"
    if not os.path.isfile(program) or text_of(mark) != mark_of_program(key, program):
        say("compiling the sources without a proof; this takes one to three minutes, once")
        os.makedirs(kept, exist_ok=True)
        # (not below out/, where rt refuses links)
        with tempfile.TemporaryDirectory(prefix="peregrine-") as room:
            try:
                compile_program(tree, room)
            except NoWay as why:
                say(f"the toolchain's own trial run is asked, which keeps nothing, since {why}")
                return NO_WAY
            shutil.copy2(f"{room}/{PROGRAM}", f"{program}.new")
        os.replace(f"{program}.new", program)
        write(mark, mark_of_program(key, program))
    # a text that changes from here on is newer than the program
    os.utime(program, (began, began))
    return 0
