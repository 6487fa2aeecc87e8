"""A try of `.ci/edits` on a small repository made for it, with edits that must not pass."""

import os
import shutil
import subprocess
import sys
import tempfile

SOURCE = """\
//! Small functions, whose wrong bodies are known.
#![tactic(auto)]

ghost use Rattle.std.specs.Prelude.{◌≡◌, ◌+◌, ◌≤◌};

/// One more.
pub fn next(n: u8) -> u8
    requires { n ≤ 100 }
    ensures { result ≡ n + 1 }
{
    n + 1
}

/// Two more.
pub fn second(n: u8) -> u8
    requires { n ≤ 99 }
    ensures { result ≡ n + 2 }
{
    next(next(n))
}

/// The same.
pub fn same(n: u8) -> u8
    ensures { result ≡ n }
{
    let copy = n;
    copy
}

/// What `stepped` adds.
pub const STEP: u8 = 1;

/// One step more.
pub fn stepped(n: u8) -> u8
    requires { n ≤ 100 }
    ensures { result ≡ n + 1 }
{
    n + STEP
}

/// Twice as much.
pub fn twice(n: u8) -> u8
    requires { n ≤ 100 }
    ensures { result ≡ n + n }
{
    n + n
}
"""

# each edit, by name: its old and its new text
REFUSED = {
    "a_wrong_body": ("    n + 1", "    n"),
    "a_body_that_adds_too_little": ("    next(next(n))", "    next(n)"),
    "a_wrong_constant": ("STEP: u8 = 1;", "STEP: u8 = 2;"),
    "a_wrong_contract": ("ensures { result ≡ n + n }", "ensures { result ≡ n }"),
}
FAILED = {
    "it_changes_nothing": ("let copy = n;", "let copy = n;"),
    "it_is_a_correct_body": ("next(next(n))", "next(n) + 1"),
    "it_does_not_compile": ("    copy", "    original"),
    "it_is_not_there": ("    n - n", "    n"),
}
# those that change a body alone, and the one that is right
BODIES = ("a_wrong_body", "a_body_that_adds_too_little")
CORRECT = "it_is_a_correct_body"
REASONS = {
    "it_changes_nothing": "changes nothing",
    "it_is_a_correct_body": "isn't refused: the crate is still proved",
    "it_does_not_compile": "doesn't compile",
    "it_is_not_there": "0 times",
}


def made(folder):
    """Makes a repository with one crate, and with this script."""
    here = os.path.dirname(os.path.realpath(__file__))
    os.makedirs(f"{folder}/crates/pg_small/src")
    # (the top of a repository, with no commit)
    os.mkdir(f"{folder}/.git")
    shutil.copytree(here, f"{folder}/.ci", ignore=shutil.ignore_patterns("edits.tried", "__pycache__"))
    with open(f"{folder}/crates.txt", "w", encoding="utf-8") as it:
        it.write("pg_small:\n")
    with open(f"{folder}/crates/pg_small/src/lib.rt", "w", encoding="utf-8") as it:
        it.write(SOURCE)


def ran(words, folder):
    """Runs a command in the repository, and returns its status and its lines."""
    done = subprocess.run(
        words, cwd=folder, stdout=subprocess.PIPE, stderr=subprocess.STDOUT, text=True, check=False
    )
    return done.returncode, done.stdout.rstrip("\n").split("\n")


def said_of(edits, folder, after_ci):
    """Returns the exit status and the lines of the script on the repository with these edits, and whether it wrote the
    record."""
    shutil.rmtree(f"{folder}/crates/pg_small/edits", ignore_errors=True)
    os.mkdir(f"{folder}/crates/pg_small/edits")
    for name, (old, new) in edits.items():
        with open(f"{folder}/crates/pg_small/edits/{name}.edit", "w", encoding="utf-8") as it:
            it.write(f"file: src/lib.rt\nold: {old}\nnew: {new}\n")
    record = f"{folder}/.ci/edits.tried"
    if os.path.isfile(record):
        os.remove(record)
    words = [sys.executable, ".ci/edits", "--jobs", "1"] + (["--after-ci"] if after_ci else [])
    status, lines = ran(words, folder)
    kept = os.path.isfile(record)
    if kept:
        with open(record, encoding="utf-8") as it:
            kept = "pg_small" in it.read()
    return status, lines, kept


def faults_of(folder, after_ci):
    """Tries all edits together, in which case all but some must fail by name, then those by themselves, and then bodies
    alone, which after rt ci aren't checked as they stand. Returns what went wrong, and what the script said."""
    wrong = []
    status, lines, record = said_of({**REFUSED, **FAILED}, folder, after_ci)
    for name, reason in REASONS.items():
        if not any(it.startswith(f"pg_small/{name}.edit: ") and reason in it for it in lines):
            wrong.append(f"{name} isn't named as one that fails since it {reason}")
    if status != 1 or lines[-1] != f"{len(REFUSED)} passed, {len(FAILED)} failed" or record:
        wrong.append(f"a run with edits that fail ended with status {status}, and it says: {lines[-1]}")
    told = lines
    bodies = {name: REFUSED[name] for name in BODIES}
    for edits in (REFUSED, bodies):
        status, lines, record = said_of(edits, folder, after_ci)
        told = told + lines
        if status != 0 or lines[-1] != f"{len(edits)} passed, 0 failed" or not record:
            wrong.append(f"a run with wrong bodies alone ended with status {status}, and it says: {lines[-1]}")
    status, lines, record = said_of({**bodies, CORRECT: FAILED[CORRECT]}, folder, after_ci)
    told = told + lines
    if status != 1 or lines[-1] != f"{len(bodies)} passed, 1 failed" or record:
        wrong.append(f"a run with a body that is right ended with status {status}, and it says: {lines[-1]}")
    return wrong, told


def run():
    """Tries edits of both kinds, over what checks keep and after rt ci."""
    wrong = []
    for after_ci in (False, True):
        with tempfile.TemporaryDirectory(prefix="edits-self-") as folder:
            made(folder)
            status, told = ran(["rt", "ci"], folder) if after_ci else (0, [])
            faults = [f"rt ci ended with status {status}"] if status else []
            if not faults:
                faults, told = faults_of(folder, after_ci)
        if faults:
            print("\n".join([*told, *faults]))
        wrong += faults
    came = "FAILED" if wrong else "passed"
    print(f"self-test {came}: edits that must fail fail by name, and a wrong body is refused")
    print("0 passed, 1 failed" if wrong else "1 passed, 0 failed")
    return 1 if wrong else 0
