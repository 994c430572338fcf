"""Compares a page with the rows that it shows. A block '```agda ROW' is the text of that row, a row named in '`..agda`' stands for its
text, and the next block without a language is what is written of it."""
import re
import sys

page, rows = sys.argv[1], sys.argv[2]
written, row = {}, None
for line in open(f"{rows}/stdout", encoding="utf-8").read().split("\n"):
    if re.fullmatch(r"\w+(/\w+)*\.agda", line):
        row = written.setdefault(line, [])
    elif row is not None:
        row.append(line)

wrong, shown, count = [], None, 0
lines = open(page, encoding="utf-8").read().split("\n")
at = 0
while at < len(lines):
    named = re.search(r"`(\w+(?:/\w+)+\.agda)`", lines[at])
    if named:
        shown = named.group(1)
    if lines[at].startswith("```"):
        end = lines.index("```", at + 1)
        block = lines[at + 1 : end]
        if lines[at].startswith("```agda "):
            shown = lines[at].split(" ", 1)[1]
            text = open(f"{rows}/data/{shown}", encoding="utf-8").read().rstrip("\n").split("\n")
            if block != text:
                wrong.append(f"line {at + 1}: this is not the text of the row {shown}")
        elif block != written.get(shown):
            wrong.append(f"line {at + 1}: this is not what is written of the row {shown}")
        else:
            count += 1
        at = end
    at += 1

if not count:
    wrong.append("no row is shown")
for it in wrong:
    print(f"{page}: {it}")
sys.exit(1 if wrong else 0)
