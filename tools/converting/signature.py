"""Which rules a signature declares."""
import os
import re

RULE = re.compile(r"\(declare-rule\s+([^\s()]+)")
INCLUDE = re.compile(r'\(include\s+"([^"]+)"\)')
COMMENT = re.compile(r";[^\n]*")


def declared_rules(path):
    """The rules of a signature file and of what it includes; None where there is no such file."""
    if not os.path.exists(path):
        return None
    rules, seen, paths = set(), set(), [os.path.abspath(path)]
    while paths:
        path = paths.pop()
        if path in seen or not os.path.exists(path):
            continue
        seen.add(path)
        with open(path, encoding="utf-8") as text:
            commands = COMMENT.sub("", text.read())
        rules.update(RULE.findall(commands))
        paths += [os.path.join(os.path.dirname(path), name) for name in INCLUDE.findall(commands)]
    return rules
