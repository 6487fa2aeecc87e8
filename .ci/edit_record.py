"""The record of the wrong bodies that were tried and refused: a line for each crate."""

import datetime
import hashlib
import os
import subprocess

from toolchain import PARTS, crates_of, sum_of_files

RECORD = ".ci/edits.tried"
HEAD = "# crate, checksum of what its wrong bodies stand on, date, toolchain: see .ci/edits\n"


def checksums(root):
    """Returns, for each crate with edits, a checksum of its sources, definitions, proofs and edits, of its line of
    crates.txt, and of the sources, definitions and proofs of all crates below it."""
    crates, of_texts = crates_of(root), {}

    def texts(crate):
        if crate not in of_texts:
            below = [texts(it) for it in crates[crate] if it in crates]
            own = sum_of_files(f"{root}/crates/{crate}", PARTS)
            of_texts[crate] = hashlib.sha256(repr((crate, crates[crate], own, below)).encode()).hexdigest()
        return of_texts[crate]

    found = {}
    for crate in crates:
        if os.path.isdir(f"{root}/crates/{crate}/edits"):
            edits = sum_of_files(f"{root}/crates/{crate}", ["edits"])
            found[crate] = hashlib.sha256(f"{texts(crate)} {edits}".encode()).hexdigest()
    return found


def read_record(root):
    """Returns the lines of the record, by crate: checksum, date and toolchain."""
    try:
        with open(f"{root}/{RECORD}", encoding="utf-8") as it:
            lines = [line.rstrip("\n").split(" ", 3) for line in it if not line.startswith("#")]
    except FileNotFoundError:
        return {}
    return {it[0]: it[1:] for it in lines if len(it) == 4}


def write_record(root, record):
    """Writes the record, whole or not at all."""
    lines = [f"{crate} {' '.join(said)}\n" for crate, said in sorted(record.items())]
    with open(f"{root}/{RECORD}.new", "w", encoding="utf-8") as it:
        it.write(HEAD + "".join(lines))
    os.replace(f"{root}/{RECORD}.new", f"{root}/{RECORD}")


def toolchain_line():
    """Returns the toolchain's one line about itself."""
    said = subprocess.run(["rt", "version"], stdout=subprocess.PIPE, text=True, check=False).stdout
    return " ".join(said.split()) or "unknown"


def today():
    return datetime.datetime.now(datetime.timezone.utc).date().isoformat()


def commit(root):
    """Returns the hash of the commit that is checked out, or no text outside a repository."""
    words = ["git", "-C", root, "rev-parse", "HEAD"]
    try:
        said = subprocess.run(words, stdout=subprocess.PIPE, stderr=subprocess.DEVNULL, text=True, check=False)
    except FileNotFoundError:
        return ""
    return said.stdout.strip() if said.returncode == 0 else ""


def due(root, sums, record):
    """Returns the crates to try: each whose checksum isn't the record's, and a tenth of the others, which the
    commit's hash chooses."""
    changed = [it for it in sums if record.get(it, [""])[0] != sums[it]]
    others = [it for it in sums if it not in changed]
    of_commit = commit(root)
    others.sort(key=lambda it: hashlib.sha256(f"{of_commit} {it}".encode()).hexdigest())
    return changed, others[: (len(others) + 9) // 10]
