#!/usr/bin/env python3
"""The tables of limits in README.md and of sizes in docs/BENCHMARKS.md, asked of the library.

    ./build library
    docs/limits.py            writes both tables between their markers
    docs/limits.py --check    writes nothing, and fails where a table is not what the library gives

It calls the library by the module of examples/python, which needs a C compiler to make a shared object of target/staticlib/libexports.a (or of the archive
that is named behind --library).

What is asked, at every degree and depth; with the largest modulus, and for binding also with the largest of 31 bits; at degree 128 with 12289, its only one:
  extraction   from which bound B on the judge refuses by 14; at the largest that it takes it must say yes to a vector whose one coefficient is
               (8*d*d)^L * B and no to one more, so that this ceiling is the library's and not only this script's
  binding      up to which B twice that ceiling is below the modulus
  texts        whether the table writer writes the longest and the shortest text, with one row and with four, or refuses it by 1
Neither extraction nor binding knows of rows: the answers with one row and with four must be the same.
"""
import argparse
import bisect
import pathlib
import subprocess
import sys
import tempfile

ROOT = pathlib.Path(__file__).resolve().parent.parent
PYTHON = ROOT / "examples" / "python"
sys.dont_write_bytecode = True
sys.path.insert(0, str(PYTHON))
from marked import place  # noqa: E402
from wovenrock import PARTS, Library, Refused  # noqa: E402

DEGREES = (2, 4, 8, 16, 32, 64, 128)
DEPTHS = range(9)
MODULUS = 2**61 - 1
NARROW = 2**31 - 1
OF_128 = 12289
BOUNDS = range(1, 128)
LARGEST = BOUNDS[-1]
ROWS = (1, 4)
LONG, GROWTH, SLACK = 1, 14, 15

PROVE_READS = ("key", "message", "challenges")
PROVE_PRINTS = ("commitment", "rounds", "challenges", "last", "claims")
VERIFY_READS = ("key", *PROVE_PRINTS)


def wrong(what):
    raise SystemExit("limits: the library does not answer as the definitions say: " + what)


def modulus_of(degree):
    return OF_128 if degree == 128 else MODULUS


def ceiling(settings):
    return (8 * settings.degree**2) ** settings.depth * settings.bound


def judged(library, settings, slack, coefficient):
    """The judge on zeros, but for one coefficient of w."""
    commitment, key, rest = ([0] * length for length in (settings.commitment, settings.key, settings.table - 1))
    return library.judge(settings, commitment, slack, key, [coefficient, *rest])


def grows_too_far(library, settings):
    """Is 14 the refusal of a judge that is given slack 0, which is refused by 15 behind it."""
    try:
        judged(library, settings, 0, 0)
    except Refused as refused:
        if refused.number in (GROWTH, SLACK):
            return refused.number == GROWTH
    wrong(f"the judge with slack 0 at {settings}")


def extraction_bound(library, degree, depth):
    """The largest B at which the judge does not refuse by 14, 0 where there is none."""

    def at(bound, rows):
        return library.settings(degree, depth, modulus_of(degree), bound, rows)

    def largest(rows):
        return bisect.bisect_left(BOUNDS, True, key=lambda bound: grows_too_far(library, at(bound, rows)))

    found, *others = map(largest, ROWS)
    if any(other != found for other in others):
        wrong(f"the judge's refusal 14 at degree {degree} and depth {depth} depends on the rows")
    for settings in (at(found, rows) for rows in ROWS if found):
        top = ceiling(settings)
        if [judged(library, settings, 1, x) for x in (top, -top, top + 1, -top - 1)] != [True, True, False, False]:
            wrong(f"the judge at the ceiling of {settings}")
    return found


def binding_bound(modulus):
    """The largest B at which twice the ceiling is below the modulus, 0 where there is none."""
    return lambda library, degree, depth: bisect.bisect_left(
        BOUNDS, True, key=lambda bound: 2 * ceiling(library.settings(degree, depth, modulus, bound)) >= modulus
    )


def text_size(library, degree, depth, rows, parts, longest):
    """Bytes of the longest or the shortest text with these parts, None where the writer refuses it by 1."""
    largest = modulus_of(degree) - 1
    settings = library.settings(degree, depth, modulus_of(degree), LARGEST if longest else 1, rows)
    lengths = (settings.key, settings.table, settings.commitment, settings.rounds, settings.challenges, settings.element, settings.claims)
    # of the final coefficients that a verifier can accept, -n*B has most bytes
    last = -(settings.bound << depth)
    values = (largest, -settings.bound, largest, largest, 2 * degree - 1, last, largest) if longest else (0,) * len(PARTS)
    tables = {name: [value] * length for name, value, length in zip(PARTS, values, lengths) if name in parts}
    try:
        return len(library.write(settings, tables))
    except Refused as refused:
        if refused.number != LONG:
            wrong(f"the writer at {settings} with {parts}: {refused}")
        return None


def span(depths):
    """Depths in a row from 0, in words."""
    if depths != list(range(len(depths))):
        wrong(f"depths {depths} are not all up to a largest one")
    if not depths:
        return "none"
    return "0" if len(depths) == 1 else f"0 to {depths[-1]}"


def by_bound(bounds):
    """A cell: the depths at which every B is allowed, and those at which a smaller one is."""
    cell = span([depth for depth in DEPTHS if bounds[depth] == LARGEST])
    for depth in DEPTHS:
        if 0 < bounds[depth] < LARGEST:
            cell += f"; {depth} where B ≤ {bounds[depth]}"
    return cell


def by_size(longest, shortest):
    """A cell: the depths whose longest text fits, and those of which only some texts do."""
    cell = span([depth for depth in DEPTHS if longest[depth] is not None])
    some = [str(depth) for depth in DEPTHS if longest[depth] is None and shortest[depth] is not None]
    return cell + (f"; {' and '.join(some)} for some" if some else "")


def named(degree):
    return str(degree) if modulus_of(degree) == MODULUS else f"{degree}, q = {modulus_of(degree)}"


def limits_table(library):
    lines = [
        "| d | extraction is allowed at L | it binds at L, q = 2^31 − 1 | it binds at L, q = 2^61 − 1"
        " | the text that `prove` reads fits at L | with four rows | the text that `verify` reads fits at L | with four rows |",
        "|---:|---|---|---|---|---|---|---|",
    ]
    for degree in DEGREES:
        cells = [named(degree), by_bound([extraction_bound(library, degree, depth) for depth in DEPTHS])]
        for modulus in (NARROW, MODULUS):
            allowed = modulus_of(degree) == MODULUS
            cells.append(by_bound([binding_bound(modulus)(library, degree, depth) for depth in DEPTHS]) if allowed else "–")
        for parts in (PROVE_READS, VERIFY_READS):
            for rows in ROWS:
                cells.append(by_size(*([text_size(library, degree, depth, rows, parts, longest) for depth in DEPTHS] for longest in (True, False))))
        lines.append("| " + " | ".join(cells) + " |")
    return "\n".join(lines) + "\n"


def sizes_table(library):
    lines = [
        "| d | rows | " + " | ".join(f"L = {depth}" for depth in DEPTHS) + " |",
        "|---:|---:|" + "---:|" * len(DEPTHS),
    ]
    for degree in DEGREES:
        for rows in ROWS:
            sizes = [text_size(library, degree, depth, rows, PROVE_PRINTS, True) for depth in DEPTHS]
            if rows == 1 and None in sizes:
                wrong(f"a transcript of degree {degree} and one row does not fit")
            cells = ("too long" if size is None else f"{size:,}" for size in sizes)
            lines.append(f"| {named(degree)} | {rows} | " + " | ".join(cells) + " |")
    return "\n".join(lines) + "\n"


def main():
    arguments = argparse.ArgumentParser(description="writes or checks the tables of limits and sizes")
    arguments.add_argument("--check", action="store_true", help="write nothing, fail where a table differs")
    arguments.add_argument("--library", default=ROOT / "target" / "staticlib" / "libexports.a", help="the static library")
    given = arguments.parse_args()
    with tempfile.TemporaryDirectory() as folder:
        shared = subprocess.run([PYTHON / "shared", folder, given.library], stdout=subprocess.PIPE, text=True, check=False)
        if shared.returncode != 0:
            raise SystemExit("limits: there is no library to ask")
        library = Library(shared.stdout.strip())
        tables = (("limits", ROOT / "README.md", limits_table(library)), ("sizes", ROOT / "docs" / "BENCHMARKS.md", sizes_table(library)))
    differ = [str(page.relative_to(ROOT)) for name, page, table in tables if not place(page, name, "docs/limits.py", table, given.check)]
    if given.check and differ:
        raise SystemExit("limits: not what docs/limits.py gives: " + ", ".join(differ))
    print("limits: " + (f"written: {', '.join(differ)}" if differ else "both tables are what the library gives"))


main()
