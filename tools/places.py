#!/usr/bin/env python3
"""Lists the places in src/ that docs/DESIGN-PASS.md counts, point by point.

usage: python3 tools/places.py [--list]     at the top of the repository; --list prints each place, not only how many there are

It goes by text: each row is a pattern over the files crates/*/src/**/*.rt, or a count of what stands in several of them. A row shows where to
look; which of its places are ones that a better form serves is judged by reading.
"""
import glob
import itertools
import pathlib
import re
import subprocess
import sys
import tempfile

FILES = {f: open(f, encoding='utf-8').read() for f in sorted(glob.glob('crates/*/src/**/*.rt', recursive=True))}
CLAUSE = re.compile(r'^\s*(?:requires|ensures)\*? (?:\w+ )?\{(.*)\}\s*;?$', re.M)
FUNCTION = re.compile(r'^\s*(?:pub(?:\([a-z]+\))? )?fn (\w+)[^{;]*', re.M)
STRUCT = re.compile(r'^(?:pub(?:\([a-z]+\))? )?struct (\w+)[^{;]*\{(.*?)^\}', re.M | re.S)


def at(text, place):
    return text.count('\n', 0, place) + 1


def lines(pattern):
    """Each line, or run of lines, that the pattern fits."""
    rule = re.compile(pattern, re.M)
    return [f'{f}:{at(text, m.start())}: {" ".join(m.group().split())}' for f, text in FILES.items() for m in rule.finditer(text)]


def structs(test):
    return [f'{f}:{at(text, m.start())}: {m.group(1)}' for f, text in FILES.items() for m in STRUCT.finditer(text) if test(m.group(2))]


def has_buffer_and_length(body):
    return re.search(r'(\[\w+; \d+\]|Vec<)', body) and re.search(r'(used|held|spent|length|count|over): (usize|bool),', body)


def repeated_clauses():
    """Clauses, word for word, in the contracts of three or more functions."""
    seen = {}
    for f, text in FILES.items():
        for m in CLAUSE.finditer(text):
            seen.setdefault(' '.join(m.group(1).split()), []).append(f'{f}:{at(text, m.start())}')
    return [f'{len(v)} times: {k}: {v[0]}' for k, v in seen.items() if len(v) > 2]


def travelling():
    """Pairs of parameters, by name and type, that three or more functions of one crate take."""
    seen = {}
    for f, text in FILES.items():
        crate = f.split('/')[1]
        for m in FUNCTION.finditer(text):
            head = m.group().split('->')[0]
            names = re.findall(r'(\w+): ((?:&(?:\'\w+ )?(?:mut )?)?[\w<>\[\]; ]+)', head)
            for pair in itertools.combinations(names, 2):
                seen.setdefault((crate,) + pair, []).append(m.group(1))
    return [f'{k[0]}: {k[1][0]}: {k[1][1]}, {k[2][0]}: {k[2][1]}: {" ".join(v)}' for k, v in seen.items() if len(v) > 2]


def same_name():
    """Functions of one name in two files of one crate or of two."""
    seen = {}
    for f, text in FILES.items():
        for m in FUNCTION.finditer(text):
            seen.setdefault(m.group(1), set()).add(f)
    return [f'{k}: {" ".join(sorted(v))}' for k, v in sorted(seen.items()) if len(v) > 1]


def pairs():
    """What the command `duplicates` finds; it passes the ending .rt over, so it reads copies under another."""
    with tempfile.TemporaryDirectory() as top:
        for f, text in FILES.items():
            copy = pathlib.Path(top, f + '.rs')
            copy.parent.mkdir(parents=True, exist_ok=True)
            copy.write_text(text, encoding='utf-8')
        found = subprocess.run(['duplicates', '--repo', top, '--most', '200'], capture_output=True, text=True).stdout
    return [row.replace('.rt.rs', '.rt') for row in found.split('\n') if re.match(r'D\d+ ', row)]


def answers():
    found = []
    for f in sorted(glob.glob('crates/*/proofs/**/Answers.antt', recursive=True)):
        found += [f'{f}: {m}' for m in re.findall(r'^pub ([\w-]+) : goal', open(f, encoding='utf-8').read(), re.M)]
    return found


ROWS = [
    ('1 a flag among a struct\'s or a variant\'s fields', lambda: lines(r'^\s+(pub(\(crate\))? )?(over|owed|response|passing|out|last): bool,$')),
    ('1 a bool that says whether a call was refused', lambda: lines(r'fn (append|push|pop|print|print_block)\([^{]*?-> bool')),
    ('1 an Option of a bool or of an Option', lambda: lines(r'-> Option<(bool|Option<.*>)>')),
    ('1 numbers for kinds', lambda: lines(r'(number: u8\b|numbers: &\[u8\]|fn first_bad\(&self\) -> Option<u8>|fn refusal<.*-> u8)')),
    ('1 tables in which 0 and 0 stand for none', lambda: lines(r'^pub\(crate\) const \w+: \[(Case|Length); \d+\]')),
    ('2 pairs of places that share six or more lines', pairs),
    ('2 functions of one name in two files', same_name),
    ('3 a loop over a range', lambda: lines(r'\bfor \w+ in [^{]*\.\.')),
    ('3 a loop that counts with enumerate', lambda: lines(r'\bfor \(\w+, \w+\) in .*enumerate\(\)')),
    ('3 a while loop', lambda: lines(r'^\s*while .*')),
    ('3 a step written out for each element', lambda: lines(r'let \[a, b, c.*\] = \*\w+;')),
    ('3 a loop that only copies or folds', lambda: lines(r'\bfor (octet|x) in \w+ \{')),
    ('3 a range test by two comparisons', lambda: lines(r'[\w\']+ <= \w+(\.0)? && \w+(\.\w+)? <=? [\w\'().]+|\b(\w+) < [\w\'().]+ \|\| \3 > [\w\'().]+')),
    ('4 an arm for None', lambda: lines(r'^\s*None => .*')),
    ('4 let-else that hands None on, or a refusal', lambda: lines(r'let Some\(.*\) = .* else \{\s*return (None|Err\(.*\));')),
    ('4 an arm that answers false', lambda: lines(r'=> false,')),
    ('4 conversions by functions of their own', lambda: lines(r'fn (from_number|letter_of|heading_of|value_of|mark_of|acknowledgment_character|add_decimal|named|carry|same)\b')),
    ('4 a struct written again field by field', lambda: lines(r'number: (found\.)?cell\.number,')),
    ('5 clauses that stand in three or more contracts', repeated_clauses),
    ('5 the rules of a direction written out in a clause', lambda: lines(r'record \{ own = [^}]*\}')),
    ('5 parameters that travel together', travelling),
    ('6 structs with a buffer and a length or a flag beside it', lambda: structs(has_buffer_and_length)),
    ('6 structs with two or more lists', lambda: structs(lambda b: len(re.findall(r'Vec<', b)) > 1)),
    ('6 an array filled in part', lambda: lines(r'(= \[0(u8)?; \d+\];|-> \[u8; 10\]|\[u8; 511\]\))')),
    ('7 a switch by a number', lambda: lines(r'match (number|index|n) \{')),
    ('7 function pointers and dyn', lambda: lines(r'\b(dyn |fn\()')),
    ('8 answers in proof files', answers),
]

for name, find in ROWS:
    found = find()
    print(f'{len(found):4} {name}')
    if '--list' in sys.argv:
        for row in found:
            print('       ' + row)
