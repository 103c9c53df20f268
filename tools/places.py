#!/usr/bin/env python3
"""Lists where the code may still be in the older language's forms, by the points of docs/DESIGN-PASS.md.

    python3 tools/places.py [COMMIT]

Without a commit it reads the checkout. What it lists are candidates: the page says which of them are places."""
import re
import subprocess
import sys
from collections import defaultdict


def sources(commit):
    """(path, text) of every .rt file of src/."""
    listed = ["git", "ls-tree", "-r", "--name-only", commit] if commit else ["git", "ls-files"]
    for path in subprocess.check_output(listed + ["crates"], text=True).split():
        if re.match(r"crates/\w+/src/.*\.rt$", path):
            show = ["git", "show", f"{commit}:{path}"] if commit else ["cat", path]
            yield path, subprocess.check_output(show, text=True)


FN = re.compile(r"^ *(?:pub(?:\(crate\))? )?(?:const )?(?:extern \"C\" )?fn (\w+)", re.M)


def functions(path, text):
    """Name, signature with its contract, and body of each function."""
    for m in FN.finditer(text):
        indent = re.match(r" *", text[m.start():].lstrip("\n")).group()
        end = text.find(f"\n{indent}}}\n", m.end())
        whole = text[m.start():end]
        if f"\n{indent}{{\n" in whole:
            head, body = whole.split(f"\n{indent}{{\n", 1)
        elif " {\n" in whole:
            head, body = whole.split(" {\n", 1)
        else:
            continue
        yield path.split("/")[1] + "::" + m.group(1), head, body


def shape(body):
    """The body with names and numbers left out."""
    return re.sub(r"\b\d[\w.]*", "0", re.sub(r"\b(?!if\b|else\b|while\b|for\b|in\b|match\b|return\b|let\b|mut\b)[a-zA-Z_]\w*", "n", body))


def show(title, found):
    print(f"{title}: {len(found)}")
    for line in found:
        print("    " + line)


def main():
    commit = sys.argv[1] if len(sys.argv) > 1 else None
    texts = list(sources(commit))
    fns = [f for path, text in texts for f in functions(path, text)]
    crate = lambda path: path.split("/")[1]
    grep = lambda pattern, inside=None: [
        f"{crate(p)}: {line.strip()}" for p, t in texts for line in t.splitlines()
        if re.search(pattern, line) and not line.strip().startswith(("//", "ghost use"))]

    print("POINT 1")
    show("  enums of the crates", grep(r"^\s*(pub )?enum "))
    show("  functions that answer by literal numbers",
         [n for n, h, b in fns if re.search(r"-> [uif]\d+\n|-> [uif]\d+$", h) and
          len(re.findall(r"(?:return |=> |^    |\{ )\d[\w.]*(?:;|,|\n|$| \})", b + "\n", re.M)) >= 2])
    show("  functions that ask which by a literal number",
         [n for n, h, b in fns if re.search(r"(?:if|==|match) [^\n]*(?:== [0-9]+\b|!= 0\b)", b) or re.search(r"\n\s+1 =>", b)])
    print("POINT 2")
    shapes = defaultdict(list)
    for n, h, b in fns:
        if len(b.strip().splitlines()) > 1 or len(b) > 90:
            shapes[shape(b)].append(n)
    show("  functions of one shape", [" ".join(v) for v in shapes.values() if len(v) > 1])
    structs = defaultdict(list)
    for p, t in texts:
        for m in re.finditer(r"struct (\w+)(?:<[^>]*>)? \{\n(.*?)\n\}", t, re.S):
            types = re.findall(r"^\s*(?:pub )?(?!ghost)\w+: (.*),$", m.group(2), re.M)
            structs[", ".join(types)].append(f"{crate(p)}::{m.group(1)}")
    show("  structs of the same fields", [k + ": " + " ".join(v) for k, v in structs.items() if len(v) > 1])
    print("POINT 3")
    show("  while and loop", grep(r"^\s*(while|loop)\b"))
    show("  for over numbers that index a slice",
         [n for n, h, b in fns for m in re.finditer(r"for (\w+) in [^\n]*\.\.[^\n]*\{\n(.*)", b, re.S)
          if re.search(r"\w\[(?:%s|at|next|to)\b" % m.group(1), m.group(2))])
    lines = defaultdict(int)
    for n, h, b in fns:
        for line in b.splitlines():
            if len(line.strip()) > 12:
                lines[n, shape(line.strip())] += 1
    show("  lines of one shape, five or more in a function",
         sorted({f"{n} ({c})" for (n, s), c in lines.items() if c >= 5 and "(" in s}))
    print("POINT 4")
    show("  fields named twice (x: x)", grep(r"^\s*(\w+): \1,?$"))
    show("  copies (let x = s.x)", grep(r"^\s*let (\w+) = \w+\.\1;"))
    show("  1 or 0 by hand", grep(r"\{ [01](\.0)? \} else \{ [01](\.0)? \}"))
    words = r"::(same_\w+|abs|alike|is_nan|is_infinite|signum|to_i32|trunc|fract|min|max|size|exponent|clamp|number_of|count_of|truth_of|one_unless|less_digit|flat|\w+_(in|out|of)|float|byte|half|word)$"
    show("  conversions, comparisons and library methods by hand",
         [n for n, h, b in fns if re.search(words, n) and "specs" not in h.split("\n")[0]])
    print("POINT 5")
    show("  function, below, x, f apart", [n for n, h, b in fns if len(re.findall(r"\b(?:function|below|x|f|u): (?:Function|bool|f64)", h)) >= 3])
    show("  low and high apart", [n for n, h, b in fns if re.search(r"\blow: f64", h) and re.search(r"\bhigh: f64", h)])
    needs = defaultdict(list)
    for n, h, b in fns:
        for m in re.finditer(r"requires (?:\w+ )?\{ (.*?) \}", h):
            needs[m.group(1)].append(n)
    show("  facts required of three or more", [f"{k}: {' '.join(v)}" for k, v in needs.items() if len(v) > 2])
    print("POINT 6")
    show("  numbered constants", grep(r"^const [A-Z]+\d+:"))
    print("POINT 7")
    show("  bool parameters", [f"{n} {m}" for n, h, b in fns for m in re.findall(r"(\w+): bool", h)])
    show("  match function", [n for n, h, b in fns if "match function" in b])
    print("POINT 8")
    listed = ["git", "ls-tree", "-r", "--name-only", commit] if commit else ["git", "ls-files"]
    proofs = [p for p in subprocess.check_output(listed + ["crates"], text=True).split() if re.match(r"crates/\w+/proofs/.*antt$", p)]
    read = lambda p: subprocess.check_output(["git", "show", f"{commit}:{p}"] if commit else ["cat", p], text=True)
    all_text = [read(p) for p in proofs]
    print(f"  proof files: {len(proofs)}, lines: {sum(t.count(chr(10)) for t in all_text)}")
    print(f"  imports of the older libraries: {sum(len(re.findall(r'^use (?:mathlib|Prim|native|lib|borrow)[.]', t, re.M)) for t in all_text)}")
    print(f"  answers: {sum(len(re.findall(r'^pub [^:]+ : goal[.]', t, re.M)) for t in all_text)}")


main()
