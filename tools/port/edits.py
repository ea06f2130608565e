#!/usr/bin/env python3
"""edits.py [-o FOLDER] [WORD..]: brings the must-fail edits of LANDED to the spelling of today's sources, by text.

In a temporary checkout of LANDED (first line of docs/PORT.md) each edit has a folder crates/NAME__K, with the files that it
edits, edited. port.py (without rt fmt, so that lines stay lines) and tools/port/names turn all of it at once. Then each
ported edited file is set beside the ported unedited one, and every line that differs gives a pair old:/new: whose text of
old: stands once in the file as it is today. What can't be done so is listed; it is done by hand.

An edit whose file differs from LANDED already is left as it is, unless a WORD stands in its path. -o FOLDER keeps the
turned checkout there, and takes it from there where it is there.
"""

import difflib
import glob
import importlib.util
import os
import re
import shutil
import subprocess
import sys
import tempfile

PORT = "/opt/rattle/port/port.py"
ROOT = os.path.realpath(os.path.join(os.path.dirname(os.path.realpath(__file__)), "..", ".."))
LANDED = open(f"{ROOT}/docs/PORT.md").readline().split()[0]


def git(*words, at=ROOT):
    return subprocess.run(["git", "-C", at, *words], check=True, capture_output=True, text=True).stdout


def landed_edits():
    """The paths of the edits of LANDED, in order; their places are the K of their folders."""
    return sorted(p for p in git("ls-tree", "-r", "--name-only", LANDED).splitlines() if re.fullmatch(r"crates/\w+/(must-fail|more-edits)/.*\.edit", p))


def pairs_of(text):
    """The pairs of an edit: (file, old, new)."""
    path, old, found = "", None, []
    for line in text.split("\n"):
        if line.startswith("file: "):
            path = line[6:].strip()
        elif line.startswith("old: "):
            old = line[5:]
        elif line.startswith("new:"):
            found.append((path, old, re.sub(r"\A ", "", line[4:])))
    return found


def made(folder):
    """Makes the checkout of LANDED with a folder for each edit, and turns it."""
    os.makedirs(folder, exist_ok=True)
    subprocess.run(f"git -C {ROOT} archive {LANDED} | tar -x -C {folder}", shell=True, check=True)
    for k, edit in enumerate(landed_edits()):
        crate = edit.split("/")[1]
        for name in (f"{crate}__{k}", f"{crate}__{k}u"):
            os.makedirs(f"{folder}/crates/{name}/src")
            with open(f"{folder}/crates/{name}/src/lib.rt", "w") as it:
                it.write("// none\n")
        texts = {}
        for path, old, new in pairs_of(open(f"{folder}/{edit}").read()):
            if path not in texts:
                texts[path] = open(f"{folder}/crates/{crate}/{path}").read()
            assert texts[path].count(old) == 1, (edit, old)
            texts[path] = texts[path].replace(old, new)
        for path, text in texts.items():
            whole = open(f"{folder}/crates/{crate}/{path}").read()
            for name, it in ((f"{crate}__{k}", text), (f"{crate}__{k}u", whole)):
                to = f"{folder}/crates/{name}/{path}"
                os.makedirs(os.path.dirname(to), exist_ok=True)
                with open(to, "w") as file:
                    file.write(it.replace(f"Rattle\u00b7{crate}\u00b7", f"Rattle\u00b7{name}\u00b7"))
    shutil.rmtree(f"{folder}/tools/port", ignore_errors=True)
    shutil.copytree(f"{ROOT}/tools/port", f"{folder}/tools/port")
    for words in (["init", "-q"], ["add", "-A"], ["-c", "user.name=edits", "-c", "user.email=edits@localhost", "commit", "-q", "-m", "landed"]):
        git(*words, at=folder)
    spec = importlib.util.spec_from_file_location("port", PORT)
    port = importlib.util.module_from_spec(spec)
    spec.loader.exec_module(port)
    port.rt = lambda *words, where: ""
    port.SAID = f"{folder}/.git/port-said"
    if port.turn(folder):
        raise SystemExit("port.py failed")
    subprocess.run(["sh", f"{folder}/tools/port/names"], check=True)
    git("add", "-A", at=folder)
    git("-c", "user.name=edits", "-c", "user.email=edits@localhost", "commit", "-q", "-m", "turned", at=folder)


WORD = re.compile(r"[\w']")


def parted(a, b):
    """The longest common head and tail of two lines, by whole words: a = head + x + tail, b = head + y + tail."""
    n = 0
    while n < min(len(a), len(b)) and a[n] == b[n]:
        n += 1
    while n and any(n < len(s) and WORD.match(s[n - 1]) and WORD.match(s[n]) for s in (a, b)):
        n -= 1
    m = 0
    while m < min(len(a), len(b)) - n and a[len(a) - 1 - m] == b[len(b) - 1 - m]:
        m += 1
    while m and any(len(s) - m - 1 >= 0 and WORD.match(s[len(s) - m]) and WORD.match(s[len(s) - m - 1]) for s in (a, b)):
        m -= 1
    return a[:n], a[n : len(a) - m], b[n : len(b) - m], a[len(a) - m :]


def cuts(text):
    """The places where a line may be cut."""
    return [i for i in range(len(text) + 1) if i in (0, len(text)) or not (WORD.match(text[i - 1]) and WORD.match(text[i]))]


def pair(a, b, base, now):
    """A pair old, new for the line a that becomes b: the widest text round the change that stands once in base and in now."""
    head, x, y, tail = parted(a, b)
    best = None
    for i in cuts(head):
        for j in reversed(cuts(tail)):
            old = head[i:] + x + tail[:j]
            if best and len(old) <= len(best[0]):
                break
            if old.strip() and old[0] != " " and old[-1] != " " and base.count(old) == 1 and now.count(old) == 1:
                best = old, head[i:] + y + tail[:j]
    if not best and base.count(a) == 1 and now.count(a) == 1:
        best = a, b
    return best


def ported(folder, edit, k):
    """The edit as text of today, or None and why not."""
    crate = edit.split("/")[1]
    out, files = [], []
    for path, _, _ in pairs_of(git("show", f"{LANDED}:{edit}")):
        if path not in files:
            files.append(path)
    for path in files:
        def read(name):
            return open(f"{folder}/crates/{name}/{path}").read().replace(f"{crate}__{k}u", crate).replace(f"{crate}__{k}", crate)

        base, edited = read(f"{crate}__{k}u"), read(f"{crate}__{k}")
        now = open(f"{ROOT}/crates/{crate}/{path}").read()
        a, b = base.split("\n"), edited.split("\n")
        found = []
        for tag, i1, i2, j1, j2 in difflib.SequenceMatcher(None, a, b, False).get_opcodes():
            if tag == "equal":
                continue
            if i2 - i1 != j2 - j1:
                return None, f"{path}: {i2 - i1} lines become {j2 - j1}:\n" + "\n".join(["  - " + l for l in a[i1:i2]] + ["  + " + l for l in b[j1:j2]])
            for one, other in zip(a[i1:i2], b[j1:j2]):
                if one == other:
                    continue
                it = pair(one, other, base, now)
                if not it:
                    return None, f"{path}: the text is not there once today:\n  - {one}\n  + {other}"
                found.append(it)
        if not found:
            return None, f"{path}: nothing differs"
        # further pairs apply to what the earlier ones made: an order in which each text stands once
        for order in (found, found[::-1]):
            text, well = now, True
            for old, new in order:
                well = well and text.count(old) == 1
                text = text.replace(old, new)
            if well:
                break
        else:
            return None, f"{path}: no order of the pairs: {found}"
        out += [f"file: {path}"] + [l for old, new in order for l in (f"old: {old}", f"new: {new}")]
    return "\n".join(out) + "\n", None


def main(words):
    keep = None
    if words[:1] == ["-o"]:
        keep, words = words[1], words[2:]
    folder = keep or tempfile.mkdtemp(prefix="edits-")
    try:
        if not os.path.isdir(f"{folder}/crates"):
            made(folder)
        n, left = 0, 0
        for k, edit in enumerate(landed_edits()):
            there = f"{ROOT}/{edit}"
            if not any(w in edit for w in words) and (not os.path.isfile(there) or open(there).read() != git("show", f"{LANDED}:{edit}")):
                continue
            text, why = ported(folder, edit, k)
            if text:
                n += 1
                with open(there, "w") as it:
                    it.write(text)
            else:
                left += 1
                print(f"by hand: {edit}: {why}")
        print(f"{n} written, {left} by hand")
    finally:
        if not keep:
            shutil.rmtree(folder)


if __name__ == "__main__":
    main(sys.argv[1:])
