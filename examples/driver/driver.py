"""The command: words, the compiler, the rules, the check by the program."""

import os
import re
import shutil
import signal
import subprocess
import sys
import tempfile

import where
from module import Refused
from places import Places
from rewriting import rewritten

COMPILERS = ["clang"] + [f"clang-{n}" for n in range(15, 22)]
LEAST = 15
# without vectors, and with the C library's functions as calls in place of its headers' own tables and bodies
FLAGS = ["-S", "-emit-llvm", "-fno-vectorize", "-fno-slp-vectorize", "-D__NO_CTYPE", "-D__NO_INLINE__", "-fdebug-compilation-dir=."]
# a loop isn't replaced by a formula for its result, which is computed in 65 bits; two calls of pthread_create aren't made
# one that gets its function from a choice; and a table of texts isn't made one of differences of addresses
LEVELS = {"-O0": ["-O0"], "-O1": ["-O1", "-mllvm", "-replexitval=never", "-mllvm", "-sink-common-insts=false", "-fno-pie"]}


class Lacking(Exception):
    """A tool or a file that isn't there."""


class WrongWords(Exception):
    """Words of another form: the sentence says which."""


def say(text):
    print(f"peregrine-c: {text}", file=sys.stderr)


def version_of(command):
    """The main number of a clang's version, 0 where the command isn't one."""
    ran = subprocess.run([command, "--version"], capture_output=True, text=True)
    found = re.search(r"clang version (\d+)", ran.stdout)
    return int(found[1]) if found else 0


def compiler():
    """A clang that writes untyped pointers."""
    found = [it for it in COMPILERS if shutil.which(it)]
    for command in found:
        if version_of(command) >= LEAST:
            return command
    if found:
        raise Lacking(f"{found[0]} is older than clang {LEAST} and writes typed pointers; on Debian: apt-get install clang-16")
    raise Lacking(f"no clang was found; clang {LEAST} or later is wanted, on Debian: apt-get install clang-16")


def run(words):
    ran = subprocess.run(words, capture_output=True, text=True, errors="replace")
    if ran.returncode:
        sys.stderr.write(ran.stderr)
        raise Refused(f"{os.path.basename(words[0])} refused the program")
    return ran.stdout


def compiled(files, level, flags, top):
    """The text that the compiler makes of the files, linked into one."""
    if len(files) == 1 and files[0].endswith(".ll"):
        with open(files[0], encoding="utf-8", errors="surrogateescape") as it:
            return it.read()
    clang = compiler()
    with tempfile.TemporaryDirectory(prefix="peregrine-c-") as folder:
        texts = []
        for i, file in enumerate(files):
            texts.append(file if file.endswith(".ll") else f"{folder}/{i}.ll")
            if not file.endswith(".ll"):
                run([clang, *FLAGS, *LEVELS[level], f"-I{top}/examples", *flags, "-o", texts[-1], file])
        if len(texts) > 1:
            link = re.sub(r"clang(.*)$", r"llvm-link\1", clang)
            if not shutil.which(link):
                raise Lacking(f"{link} was not found; on Debian: apt-get install {link.replace('llvm-link', 'llvm')}")
            run([link, "-S", "-o", f"{folder}/whole.ll", *texts])
            texts = [f"{folder}/whole.ll"]
        with open(texts[0], encoding="utf-8", errors="surrogateescape") as it:
            return it.read()


def checked(text, top):
    """What the program says of a text: None where it accepts it, else the line of its refusal."""
    program = os.environ.get("PEREGRINE", f"{top}/crates/peregrine/out/peregrine")
    if not os.access(program, os.X_OK):
        say("the program isn't built, so it wasn't asked whether it accepts the text; ./peregrine builds it")
        return None
    ran = subprocess.run([program, "once"], input=text.encode("utf-8", errors="surrogateescape"), capture_output=True)
    return ran.stdout.decode(errors="replace").split("\n")[0] if ran.returncode == 3 else None


def words_of(words):
    """The files, where to write, the level and clang's flags; WrongWords tells which word has another form."""
    flags = []
    if "--" in words:
        at = words.index("--")
        words, flags = words[:at], words[at + 1 :]
    files, out, level = [], None, "-O0"
    while words:
        word, words = words[0], words[1:]
        if word == "-o" and words:
            out, words = words[0], words[1:]
        elif word in LEVELS:
            level = word
        elif word.startswith("-O"):
            raise WrongWords(f"{word} is no level here: there are -O0 and -O1")
        elif word.startswith("-"):
            raise WrongWords(f"{word} is none of these words; a flag of clang's stands behind --")
        elif not word.endswith((".c", ".ll")):
            raise WrongWords(f"{word} ends neither with .c nor with .ll")
        else:
            files.append(word)
    if not files:
        raise WrongWords("no FILE is named")
    return files, out, level, flags


def tried(text, out, top):
    """What the rules make of a compiler's text, None where they refuse it; and the refusal, by them or by the program,
    with its place in C where the text has one."""
    made = refused = None
    try:
        made = rewritten(text)
        refusal = checked(made, top) if out else None
        refused = where.cure_of(refusal, made) if refusal else None
    except Refused as it:
        refused = it
    if refused and refused.line:
        refused.place = Places(made or text).of_line(refused.line)
    return made, refused


def make(files, out, level, flags, top):
    """Makes the text, writes it, and has the program look at it. For the place of a refusal it is compiled with -g."""
    for file in files:
        if not os.path.isfile(file):
            raise Lacking(f"there is no file {file}")
    made, refused = tried(compiled(files, level, flags, top), out, top)
    if made is not None:
        put(made, out)
    if refused and not refused.place and any(it.endswith(".c") for it in files):
        _, again = tried(compiled(files, level, [*flags, "-g"], top), out, top)
        refused.place = again and again.place
    if refused:
        raise refused


def put(text, file=None):
    """Writes a text to a file, or to standard output."""
    try:
        with open(file or 1, "wb", closefd=bool(file)) as it:
            it.write(text.encode("utf-8", errors="surrogateescape"))
    except OSError as it:
        it.filename = file or "standard output"
        raise


def answer(words, top, usage):
    """Does what the words ask for, and gives the status."""
    if words[:1] in (["--help"], ["-h"]):
        put(usage.strip() + "\n")
        return 0
    if words[:1] == ["--where"] and len(words) == 3 and words[1].isdigit():
        if not os.path.isfile(words[2]):
            raise Lacking(f"there is no file {words[2]}")
        put(where.told(int(words[1]), words[2]) + "\n")
        return 0
    make(*words_of(words), top)
    return 0


def main(words, top, usage):
    """Each fault is told in a line, with a status of its own."""
    try:
        return answer(words, top, usage)
    except WrongWords as it:
        say(str(it))
        print(usage.strip(), file=sys.stderr)
        return 2
    except Refused as it:
        say(f"{it.place.file}:{it.place.line}: {it.sentence}" if it.place else it.sentence)
        return 1
    except Lacking as it:
        say(str(it))
        return 3
    except BrokenPipeError:
        # the reader is gone: this ends by the signal, without a word, as other tools do
        signal.signal(signal.SIGPIPE, signal.SIG_DFL)
        os.kill(os.getpid(), signal.SIGPIPE)
    except OSError as it:
        say(f"{it.filename}: {it.strerror}")
        return 4
