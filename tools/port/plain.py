#!/usr/bin/env python3
"""plain.py FILE..: in Answers.antt, a `let` that only gives a variable a second name goes, with the first name in its
place; and a helper's blank line."""
import re
import sys

TOKEN = r"[A-Za-z_0-9'\-]+"


def end_of_scope(text, at):
    """Where the parenthesis that holds the place at is closed, or the end."""
    depth = 0
    for i in range(at, len(text)):
        if text[i] in "([{":
            depth += 1
        elif text[i] in ")]}":
            depth -= 1
            if depth < 0:
                return i
    return len(text)


def plain(text):
    while True:
        m = re.search(rf"\blet ({TOKEN}) = ({TOKEN}) in(\n\s*| )", text)
        if m is None:
            return text
        name, var = m.group(1), m.group(2)
        end = end_of_scope(text, m.end())
        scope = text[m.end() : end]
        again = re.search(rf"(\blet {re.escape(name)}\b(?! *=)?|λ[^.]*(?<![\w'\-]){re.escape(name)}(?![\w'\-])[^.]*\.)", scope)
        stop = len(scope)
        if again:
            stop = again.start()
            if scope[again.start() :].startswith("let"):
                # the value of the later let still has the old name
                eq = scope.find(" in", again.start())
                value = scope[again.start() : eq]
                head, eqs, rest = value.partition("=")
                rest = re.sub(rf"(?<![\w.'\-]){re.escape(name)}(?![\w'\-])", var, rest)
                scope = scope[: again.start()] + head + eqs + rest + scope[eq:]
        new = re.sub(rf"(?<![\w.'\-]){re.escape(name)}(?![\w'\-])", var, scope[:stop]) + scope[stop:]
        text = text[: m.start()] + new + text[end:]


for path in sys.argv[1:]:
    old = open(path).read()
    parts = re.split(r"(\n\n(?=\S))", old)
    new = "".join(p if p.startswith("\n\n") else plain(p) for p in parts)
    new = re.sub(r" in\n\n(?= )", " in\n", new)
    new = re.sub(r"\n\n(?=\S)", "\n\n", new)
    if new != old:
        open(path, "w").write(new)
        print(path)
