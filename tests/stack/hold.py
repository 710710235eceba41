"""Holds the figures of README and header to what was measured: hold.py MEASURED ARCHIVE [--figures | --set]

MEASURED has a line `CALL BYTES bytes` for each call. Each call of the archive is measured, and got as deep as
its frames do; it has one row in README (section Stack) and one in the header, with the same figure; it uses
no more than its figure, which is at most STALE bytes too high.

--figures prints the rows of both files as they should stand, --set puts the figures there first.
"""
import re
import sys
from pathlib import Path

import frames

ROOT = Path(__file__).resolve().parents[2]
README = ROOT / "README.md"
HEADER = ROOT / "include" / "nesbrunka.h"
STALE = 64
ARGUMENTS = 64  # the most that a caller puts on the stack, which is not in the sum of the frames

MEASURED = re.compile(r"^(?P<call>nesbrunka_\w+) +(?P<bytes>\d+) bytes$", re.MULTILINE)
SECTION = re.compile(r"^## Stack\n(?:(?!## ).*\n)*", re.MULTILINE)
README_ROW = re.compile(r"^(\| `(?P<call>\w+)` \| )(?P<bytes>[\d,]+)( \|.*)$", re.MULTILINE)
HEADER_ROW = re.compile(r"^( \*   nesbrunka_(?P<call>\w+))(?P<bytes> +[\d,]+)()$", re.MULTILINE)


def section(readme):
    found = SECTION.search(readme)
    return found[0] if found else ""


def rows(row, text):
    """Of each call its rows."""
    found = {}
    for match in row.finditer(text):
        found.setdefault("nesbrunka_" + match["call"], []).append(match)
    return found


def figure(match):
    return int(match["bytes"].replace(",", ""))


def with_figures(row, text, used):
    def filled(match):
        call = "nesbrunka_" + match["call"]
        width = len(match["bytes"]) if match["bytes"].startswith(" ") else 0
        return match[0] if call not in used else match[1] + f"{used[call]:{width},}" + match[4]
    return row.sub(filled, text)


def set_readme(readme, used):
    return SECTION.sub(lambda found: with_figures(README_ROW, found[0], used), readme)


def set_header(header, used):
    return with_figures(HEADER_ROW, header, used)


def print_rows(readme, header, used):
    """A call that has no row yet gets one."""
    in_readme = rows(README_ROW, section(set_readme(readme, used)))
    in_header = rows(HEADER_ROW, set_header(header, used))
    for call, size in used.items():
        short = call.removeprefix("nesbrunka_")
        print(in_readme[call][0][0] if call in in_readme else f"| `{short}` | {size:,} | - |")
    for call, size in used.items():
        print(in_header[call][0][0] if call in in_header else f" *   {call:24}{size:6,}")


# Each check is a pair: whether it holds, and what is wrong where it does not.

def check_frames(sums, used):
    for call, reach in sums.items():
        yield call in used, f"{call} is not measured"
        over = used.get(call, reach) - reach
        yield -STALE <= over <= ARGUMENTS, f"{call}: {reach + over} bytes measured, its frames have {reach}"


def check_rows(file, found, used):
    for call in sorted(used.keys() | found.keys()):
        count = len(found.get(call, ()))
        if call in used:
            yield count == 1, f"{file} has {count} figures for {call}, {used[call]} bytes measured"
        else:
            yield False, f"{file} has a figure for {call}, which is no call"


def check_figures(in_readme, in_header, used):
    for call in sorted(used.keys() & in_readme.keys() & in_header.keys()):
        own, other, size = figure(in_readme[call][0]), figure(in_header[call][0]), used[call]
        yield own == other, f"{call}: {own} bytes in README, {other} in the header, {size} measured"
        yield size <= own, f"{call}: its figure is {own} bytes, and {size} were measured: more"
        yield own <= size + STALE, f"{call}: its figure is {own} bytes, and {size} were measured: far less"


def check_texts(readme, header, used):
    in_readme, in_header = rows(README_ROW, section(readme)), rows(HEADER_ROW, header)
    yield from check_rows("README", in_readme, used)
    yield from check_rows("the header", in_header, used)
    yield from check_figures(in_readme, in_header, used)


def refused(checks):
    return not all(right for right, _ in checks)


def check_checks(sums, readme, header, used):
    """With these texts, which pass, each change of one figure or row is refused."""
    for call, size in used.items():
        low, high = {**used, call: size - 8}, {**used, call: size + STALE + 1}
        other = {name: bytes_ for name, bytes_ in used.items() if name != call}
        in_readme = rows(README_ROW, section(readme))[call][0][0] + "\n"
        in_header = rows(HEADER_ROW, header)[call][0][0] + "\n"
        wrong = {
            "a figure too low": check_texts(set_readme(readme, low), set_header(header, low), used),
            "a figure too high": check_texts(set_readme(readme, high), set_header(header, high), used),
            "two figures": check_texts(readme, set_header(header, low), used),
            "no row in README": check_texts(readme.replace(in_readme, ""), header, used),
            "no row in the header": check_texts(readme, header.replace(in_header, ""), used),
            "two rows in README": check_texts(readme.replace(in_readme, 2 * in_readme), header, used),
            "two rows in the header": check_texts(readme, header.replace(in_header, 2 * in_header), used),
            "a row without a call": check_texts(readme, header, other),
            "a call without a measure": check_frames(sums, other),
            "more than its frames": check_frames(sums, {**used, call: sums[call] + ARGUMENTS + 1}),
            "less than its frames": check_frames(sums, {**used, call: sums[call] - STALE - 1}),
        }
        for what, checks in wrong.items():
            yield refused(checks), f"{call}: {what} is not refused"


def all_checks(archive, readme, header, used):
    try:
        sums = frames.sums(archive)
        checks = [*check_frames(sums, used)]
    except frames.NoSum as fault:
        checks = [(False, f"the frames cannot be added up: {fault}")]
    checks += check_texts(readme, header, used)
    if not refused(checks):
        checks += check_checks(sums, set_readme(readme, used), set_header(header, used), used)
    return checks


def main():
    measured, archive, *option = sys.argv[1:]
    used = {match["call"]: figure(match) for match in MEASURED.finditer(Path(measured).read_text())}
    readme, header = README.read_text(), HEADER.read_text()
    if option == ["--figures"]:
        print_rows(readme, header, used)
        return
    if option == ["--set"]:
        readme, header = set_readme(readme, used), set_header(header, used)
        README.write_text(readme)
        HEADER.write_text(header)
    checks = all_checks(archive, readme, header, used)
    for right, words in checks:
        if not right:
            print(f"different: {words}")
    failed = sum(not right for right, _ in checks)
    print(f"figures: {len(checks) - failed} checks passed, {failed} did not")
    sys.exit(failed != 0)


main()
