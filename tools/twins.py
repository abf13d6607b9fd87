#!/usr/bin/env python3
"""Lists the functions of src/ whose bodies have the same shape: the same but for names, types, numbers and strings.

  tools/twins.py [CRATE ..]    at the top; a line for each group, by crate, its functions behind it; then how many groups there are

A body of fewer than nine tokens is not looked at."""
import collections
import glob
import re
import sys

WORDS = {'let', 'mut', 'if', 'else', 'while', 'for', 'in', 'return', 'match', 'as', 'true', 'false', 'Ok', 'Err', 'Some', 'None', 'fn'}
TOKEN = re.compile(r'b?"[^"]*"|[A-Za-z_]\w*|\d[\w.]*|->|=>|::|\.\.=?|[<>=!+*/-]=|&&|\|\||<<|>>|\S')


def functions(path):
    """Each function of a file, with the text of its body."""
    text = re.sub(r'//[^\n]*', '', open(path, encoding='utf-8').read())
    for head in re.finditer(r'^( *)(?:pub )?(?:extern "C" )?fn (\w+)', text, re.M):
        start = re.compile(rf'^{head[1]}\{{', re.M).search(text, head.end())
        short = re.compile(r'\{ *$', re.M).search(text, head.end())
        if short and (not start or short.start() < start.start()):
            start = short
        end = re.compile(rf'^{head[1]}\}}', re.M).search(text, start.end()) if start else None
        if end:
            yield head[2], text[start.end():end.start()]


def shape(body):
    """The tokens of a body, each name by the place of its first appearance."""
    seen = {}
    for token in TOKEN.findall(body):
        if re.match(r'b?"|\d', token):
            yield '#'
        elif re.match(r'\w', token) and token not in WORDS:
            yield str(seen.setdefault(token, len(seen)))
        else:
            yield token


groups = collections.defaultdict(list)
for path in sorted(glob.glob('crates/*/src/*.rt')):
    crate = path.split('/')[1]
    if sys.argv[1:] and crate not in sys.argv[1:]:
        continue
    for name, body in functions(path):
        tokens = tuple(shape(body))
        if len(tokens) >= 9:
            groups[tokens].append(f'{crate}::{name}')
found = [names for names in groups.values() if len(names) > 1]
for names in found:
    print(', '.join(names))
print(len(found), 'groups,', sum(map(len, found)), 'functions')
