#!/usr/bin/env python3
"""Holds the papers to the calculator and the program, so that a changed method cannot leave them stale.

    python3 tests/paper.py [--show NAME] [program]

  figures   every number of each example "### Worked example: NAME" of docs/METHOD.md and examples/yubetsu-2001/README.md is, in order, what
            paper_figures.py works out
  inputs    each block of hex there, given to the calculator and to the built program, prints the block of text after it
  files     one of these blocks is examples/three-elements/river.hex, and what it prints expected.txt there; floats.hex there prints the
            same, but for the number of the refusal; proportional-noise.hex prints its own expected output, with β 0 that of river.hex;
            each file of examples/two-storms/ prints its own too, and the page's command compares the two; so do the rivers of
            examples/one-dam/ and examples/tanks/
  lines     each printed line that these pages, README.md and examples/c/README.md show stands in an expected output

--show prints the numbers of one example as the calculator has them, to write the page by. The program is target/bin/cabinet unless
another path is given. The last line is "paper: N figures in M examples, K inputs, L lines, F failed".
"""
import argparse
import re
import subprocess
import sys
import tempfile
from pathlib import Path

from calculator.program import cut_table, run
from paper_figures import bytes_of_hex, sample_worked, worked

ROOT = Path(__file__).resolve().parent.parent
METHOD, SAMPLE = ROOT / "docs/METHOD.md", ROOT / "examples/yubetsu-2001"
HEADING = "### Worked example: "
# A word of four or eight hex digits with a letter and a figure or all F, or a number.
NUMBER = re.compile(r"\b(?=(?:[0-9A-F]{4}){1,2}\b)(?=\w*[A-F])(?=\w*[0-9]|F+\b)\w+|\u2212?[0-9]+(?:,[0-9]{3}(?![0-9]))*(?:\.[0-9]+)?")
BLOCK = re.compile(r"^```(\w+)\n(.*?)^```$", re.MULTILINE | re.DOTALL)
# Where printed lines are shown, their form, and the file in which each must stand (of METHOD.md its own blocks of output).
FIGURE_LINE, OUTLET_LINE = r"^    ([0-9]+(?: [0-9]+){6})$", r"^    (step [0-9]+: .*)$"
SHOWN = ((ROOT / "README.md", FIGURE_LINE, SAMPLE / "expected.txt"), (SAMPLE / "README.md", FIGURE_LINE, SAMPLE / "expected.txt"),
         (ROOT / "examples/c/README.md", OUTLET_LINE, ROOT / "examples/c/expected.txt"), (METHOD, FIGURE_LINE, METHOD))


def numbers(text):
    """All numbers of a text in order, without their commas."""
    return [found.replace(",", "") for found in NUMBER.findall(text)]


def examples(page):
    """The text of each worked example by its name, without blocks of hex and of output."""
    found = {}
    for part in re.split(r"^(?=#{1,3} )", BLOCK.sub("", page), flags=re.MULTILINE):
        if part.startswith(HEADING):
            name, _, text = part[len(HEADING):].partition("\n")
            found[name] = text
    return found


def compare_example(name, text, expected):
    """What differs between an example and the calculator's numbers; nothing where all agree."""
    try:
        right = numbers(expected())
    except Exception as error:  # an assertion, or other blends than the example writes
        return f"{name}: the calculator no longer works in the way that the example writes ({error!r})"
    given = numbers(text)
    for at, (here, there) in enumerate(zip(given, right)):
        if here != there:
            return f"{name}: number {at + 1}, after {' '.join(given[max(0, at - 4):at])}, is {here}, the calculator has {there}"
    if len(given) != len(right):
        return f"{name}: {len(given)} numbers, the calculator has {len(right)}"
    return None


def figures(page, right):
    """How many numbers and examples of a page were compared, and the complaints."""
    there, complaints = examples(page), []
    for name in there.keys() ^ right.keys():
        complaints.append(f"{name}: {'no numbers in paper_figures.py' if name in there else 'no such example in the page'}")
    for name in there.keys() & right.keys():
        complaint = compare_example(name, there[name], right[name])
        complaints += [complaint] if complaint else []
    return sum(len(numbers(text)) for text in there.values()), len(there), complaints


def program_output(program, data):
    return subprocess.run([program], input=data, stdout=subprocess.PIPE, timeout=60).stdout


def inputs(page, program):
    """Each block of hex with the block of text after it: how many, and the complaints."""
    blocks, complaints, count = BLOCK.findall(page), [], 0
    for (kind, block), (next_kind, output) in zip(blocks, [*blocks[1:], ("", "")]):
        if kind != "hex":
            continue
        count += 1
        first = block.splitlines()[0]
        if next_kind != "text":
            complaints.append(f"no output after the hex that begins with {first}")
            continue
        data = bytes_of_hex(block)
        for name, printed in (("calculator", run(data)), ("program", program_output(program, data))):
            if printed.decode() != output:
                complaints.append(f"the hex that begins with {first}: the {name} prints something else")
    return count, complaints


def files(page, program):
    """The example river in the page and in its own files; what it prints where its stages are floats and where its gauge has a β; what two
    storms print, a river with a dam and one with tanks."""
    complaints, folder, storms = [], ROOT / "examples/three-elements", ROOT / "examples/two-storms"
    for kind, name in (("hex", "river.hex"), ("text", "expected.txt")):
        if (kind, (folder / name).read_text()) not in BLOCK.findall(page):
            complaints.append(f"METHOD.md does not have examples/three-elements/{name} as it stands")
    expected, with_beta = ((folder / name).read_text() for name in ("expected.txt", "proportional-noise-expected.txt"))
    floats, noise = (bytes_of_hex((folder / name).read_text()) for name in ("floats.hex", "proportional-noise.hex"))
    size = len(cut_table(noise))
    without_beta = noise[:size - 2] + bytes(2) + noise[size:]
    less, more = ((f"two-storms/{name}.hex", bytes_of_hex((storms / f"{name}.hex").read_text()),
                   (storms / f"{name}-expected.txt").read_text()) for name in ("less-rain", "more-rain"))
    rivers = [(f"{name}/river.hex", bytes_of_hex((ROOT / f"examples/{name}/river.hex").read_text()),
               (ROOT / f"examples/{name}/expected.txt").read_text()) for name in ("one-dam", "tanks")]
    for words, data, right in (*rivers, ("three-elements/floats.hex", floats, expected.replace("refused 13", "refused 18")),
                               ("three-elements/proportional-noise.hex", noise, with_beta),
                               ("three-elements/proportional-noise.hex with β 0", without_beta, expected), less, more):
        for name, printed in (("calculator", run(data)), ("program", program_output(program, data))):
            if printed.decode() != right:
                complaints.append(f"for examples/{words} the {name} prints something else than stands there")
    return complaints + comparison(page, less[2], more[2])


def comparison(page, less, more):
    """The page's command that compares two storms prints nothing for these outputs; with the two exchanged, each line with another
    discharge; with one variance changed, its line."""
    command, = re.findall(r"^    (paste .*)$", page, re.MULTILINE)
    other = sum(here.split()[3] != there.split()[3] for here, there in zip(less.splitlines(), more.splitlines(), strict=True))
    *figures, variance, margin = more.partition("\n")[0].split(" ")
    changed = " ".join([*figures, str(int(variance) + 1), margin]) + more[more.index("\n"):]
    complaints = []
    for words, first, second, right in (("as they are", less, more, 0), ("exchanged", more, less, other),
                                        ("with one variance changed", less, changed, 1)):
        with tempfile.TemporaryDirectory() as folder:
            (Path(folder) / "less.txt").write_text(first)
            (Path(folder) / "more.txt").write_text(second)
            printed = subprocess.run(["bash", "-c", command], cwd=folder, stdout=subprocess.PIPE, timeout=60).stdout.splitlines()
        if len(printed) != right:
            complaints.append(f"METHOD.md's comparison of two storms, {words}, prints {len(printed)} lines in place of {right}")
    return complaints


def lines():
    """Printed lines that the papers show: how many, and those that are not printed."""
    complaints, count = [], 0
    for page, form, expected in SHOWN:
        printed = set(expected.read_text().splitlines())
        shown = re.findall(form, page.read_text(), re.MULTILINE)
        count += len(shown)
        complaints += [f"{page}: {line!r} is not in {expected}" for line in shown if line not in printed]
        complaints += [] if shown else [f"{page} shows no printed line"]
    return count, complaints


def main():
    parser = argparse.ArgumentParser(description=__doc__, formatter_class=argparse.RawDescriptionHelpFormatter)
    parser.add_argument("program", nargs="?", default=str(ROOT / "target/bin/cabinet"))
    parser.add_argument("--show", metavar="NAME", help="print one example's numbers")
    options = parser.parse_args()
    if options.show:
        print((worked() | sample_worked())[options.show]())
        return 0
    page = METHOD.read_text()
    figure_count, example_count, complaints = figures(page, worked())
    more_figures, more_examples, wrong_sample = figures((SAMPLE / "README.md").read_text(), sample_worked())
    input_count, wrong_inputs = inputs(page, options.program)
    line_count, wrong_lines = lines()
    complaints += wrong_sample + wrong_inputs + files(page, options.program) + wrong_lines
    for complaint in complaints:
        print(f"FAILED {complaint}")
    print(f"paper: {figure_count + more_figures} figures in {example_count + more_examples} examples, {input_count} inputs, {line_count} "
          f"lines, {len(complaints)} failed")
    return 1 if complaints else 0


if __name__ == "__main__":
    sys.exit(main())
