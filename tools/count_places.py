"""Counts, in crates/*/src of a commit, the places that docs/DESIGN-PASS.md speaks of: `python3 tools/count_places.py COMMIT [POINT]`.

Each point has patterns that find its candidates. What of them is a place is judged by reading; the page says so. Points 2 and 5 compare lines with
one another: 2 counts functions by their name, 5 counts facts by the contracts that ask for them.
"""
import collections
import re
import subprocess
import sys

PATTERNS = {
    1: [
        r"^(pub )?enum ",
        r"^\s+(pub )?\w+: bool,",
        r"const NO_\w+|const [A-Z]+: u8 = 0x",
        r"rule: u8",
        r"Err\(\w+\) => (return )?Err\(|Ok\(\w+\) => (Ok\(|\w+,$)|Some\(\w+\) => Ok\(|None => (Err\(|None)|if let Err\(",
        r"fn \w+\(.*\) -> \(",
    ],
    3: [r"for \w+ in .*\.\.|while |loop \{|\+= 1;|-= 1;"],
    4: [r"fn (of_\w+|parts_of|told_\w+|lesser|put_\w+|write_\w+|say\w*|number|line|is_printable|rest_is_kept|state_of|\w+_of)\b"],
    6: [r"^\s+(pub )?\w+: \[.*; [A-Z_]+\],", r"^\s+(pub )?(count|lines): usize,", r"\(?rows: .*, tonnes: |^\s+(pub )?tonnes: "],
    7: [r"match \*?(name|rule|side|call|command|fault|byte|self|first)\b|if (rule|name) ==|if first !=|\bfn\(|\bdyn "],
}


def sources(commit):
    names = subprocess.run(["git", "ls-tree", "-r", "--name-only", commit, "crates"], capture_output=True, text=True, check=True).stdout.split()
    for name in names:
        if "/src/" in name and name.endswith(".rt"):
            text = subprocess.run(["git", "show", f"{commit}:{name}"], capture_output=True, text=True, check=True).stdout
            yield name, [line for line in text.splitlines() if not line.lstrip().startswith("//")]


def by_pattern(commit, point):
    for name, lines in sources(commit):
        for line in lines:
            if any(re.search(p, line) for p in PATTERNS[point]):
                yield f"{name}: {line.strip()}"


def same_names(commit):
    count = collections.Counter()
    for _, lines in sources(commit):
        for line in lines:
            found = re.search(r"\bfn (\w+)", line)
            if found and found[1] not in ("main", "fmt", "new", "from"):
                count[found[1]] += 1
    return [f"{n} {name}" for name, n in sorted(count.items()) if n > 1]


def same_facts(commit):
    count = collections.Counter()
    for _, lines in sources(commit):
        for line in lines:
            found = re.match(r"\s+requires( \w+)? (\{.*\})", line)
            if found:
                count[found[2].replace(".old", ".now")] += 1
    return [f"{n} {fact}" for fact, n in sorted(count.items()) if n > 2]


def main():
    commit = sys.argv[1]
    points = [int(sys.argv[2])] if len(sys.argv) > 2 else [1, 2, 3, 4, 5, 6, 7]
    for point in points:
        if point == 2:
            hits = same_names(commit)
        elif point == 5:
            hits = same_facts(commit)
        else:
            hits = list(by_pattern(commit, point))
        print(f"point {point}: {len(hits)}")
        for hit in hits:
            print(f"  {hit}")


main()
