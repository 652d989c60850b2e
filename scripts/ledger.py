"""The ledger `docs/edits.ledger`: which edits were refused, and over what.

A line is CRATE/EDIT and two sums of what the refusal rests on. The first is of the edit, the crate's sources, definitions and proofs but for its tests,
and the toolchain's logic. Where any of it changes, the gate judges the edit again. The second is of the contracts of the crates below. Where only they
have changed, the line is *older*: a run judges one of 8 such edits again, and one of 48 of those whose line has both sums."""
import hashlib
import os

from kit import LOGIC, rtlib

# Into how many shares the edits are parted. A run draws one of them, and of the edits whose line is older one of so many.
SHARES, SHARES_OF_OLDER = 48, 8
HEAD = "# Each edit that was refused, and the sums of what that rests on. Written by scripts/gate.py --edits all (or new); see docs/GATE.md.\n"


def read(file):
    """Returns the two sums that stand behind each CRATE/EDIT in the ledger."""
    if not os.path.isfile(file):
        return {}
    with open(file, encoding="utf-8") as it:
        rows = [line.split() for line in it if line.strip() and not line.startswith("#")]
    return {row[0]: (*row[1:], "", "")[:2] for row in rows}


def write(file, sums):
    with open(file, "w", encoding="utf-8") as it:
        it.write(HEAD)
        it.writelines(" ".join([label, *sums[label]]) + "\n" for label in sorted(sums))


def texts_below(folder):
    """Yields each file below the folder, by its path there, with its bytes, in a fixed order."""
    for at, folders, names in sorted(os.walk(folder)):
        for name in sorted(names):
            with open(f"{at}/{name}", "rb") as it:
                yield os.path.relpath(f"{at}/{name}", folder), it.read()


def texts_of(crate, part):
    """Yields the files of the crate's src, specs or proofs that its proof reads: all but its modules of tests."""
    for path, text in texts_below(f"{crate.folder}/{part}"):
        if part == "specs" or not is_of_tests(crate, path):
            yield path, text


def is_of_tests(crate, path):
    """Returns whether a file of src or proofs stands in a module `tests` that the module above declares for tests alone."""
    names = path.removesuffix(".rt").split("/")
    if "tests" not in names:
        return False
    above = "/".join(names[: names.index("tests")]) or ("main" if crate.is_program else "lib")
    file = f"{crate.folder}/src/{above}.rt"
    return os.path.isfile(file) and "\n#[cfg(test)]\nmod tests;\n" in rtlib.text_of(file)


def contracts(crate):
    """Returns a sum of what other crates can read of a built library: its public items, its clauses and its definitions."""
    found = hashlib.sha256()
    for row in [*texts_below(f"{crate.rlib}/interface/lang"), *texts_of(crate, "specs")]:
        found.update(repr(row).encode())
    for path, text in texts_of(crate, "src"):
        found.update(repr((path, [*rtlib.ghost_texts(text.decode())])).encode())
    return found.hexdigest()


def own(crate):
    """Returns a sum of the crate's own text, which each of its edits rests on."""
    found = hashlib.sha256(LOGIC.encode())
    found.update(repr([crate.name, crate.of_kit]).encode())
    for part in rtlib.PARTS:
        for row in texts_of(crate, part):
            found.update(repr((part, row)).encode())
    return found.hexdigest()


def below(crate):
    """Returns a sum of the contracts of all crates below, whose libraries are built."""
    found = hashlib.sha256(repr([(it.name, contracts(it)) for it in crate.below()]).encode())
    return found.hexdigest()[:16]


def sum_of(edit, own_of_crate):
    with open(edit, "rb") as it:
        return hashlib.sha256(own_of_crate.encode() + it.read()).hexdigest()[:32]


def parts(labels, most):
    """Returns the labels in parts of at most so many, of about one size."""
    number = -(-len(labels) // most)
    return [labels[len(labels) * at // number : len(labels) * (at + 1) // number] for at in range(number)]


def shares(edits):
    """Returns the share of each edit, one of 48 of about as many. `edits` has the labels of each crate's. Those of a crate stay together as far as a share
    has room for them, since edits that go into one check share its beginning."""
    most = max(1, -(-sum(map(len, edits.values())) // SHARES))
    found = [[] for _ in range(SHARES)]
    for part in sorted((it for labels in edits.values() if labels for it in parts(sorted(labels), most)), key=lambda it: (-len(it), it)):
        min(found, key=len).extend(part)
    return {label: at for at, labels in enumerate(found) for label in labels}


def drawn(seed):
    """Returns the share that a run with this seed draws."""
    return hashlib.sha256(seed.encode()).digest()[0] % SHARES


def is_drawn(share, draw, is_older):
    """Returns whether a run that draws this share judges an edit of the share again, whatever the ledger says of it."""
    return share == draw or is_older and share % SHARES_OF_OLDER == draw % SHARES_OF_OLDER
