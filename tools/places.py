#!/usr/bin/env python3
"""Lists the places in src/ (and the answers in proofs/) that read like the older language, by pattern.

Use: tools/places.py [ROOT] [-v]. With -v each place, else the counts. It reads text and decides nothing: which of the
lines is a place, and which stays, docs/DESIGN-PASS.md says.
"""
import collections, glob, os, re, sys

root = next((a for a in sys.argv[1:] if not a.startswith('-')), '.')
verbose = '-v' in sys.argv

LINES = [
    ('1a enums of two cases, one of them empty', None),
    ('1b results whose error is a number', r'-> Result<.*, *(u8|u16|u32|u64|usize)>'),
    ('1c an Err, Ok or None handed on by hand',
     r'(Err\(\w+\) => (return )?Err\()|(Err\(_\) => (return )?Err)|(None => (return )?None)|(None => (return )?Err\()'
     r'|(Ok\((\w+|\(\))\) => Ok\()|(Some\(\w+\) => Err\()'),
    ('1d flags in structs', r'^\s+(pub(\(crate\))? )?\w+: bool,'),
    ('1e zero that stands for no number', r'NoMemory => 0,'),
    ('1f numbers for kinds', r'\bkind: u8|\bturn: usize|\bkind > 3|kinds\[place\] >= 2|% 2 == 1 \{$'),
    ('1g a test that gives up by a false assert', r'assert!\(rt; false\)'),
    ('3a loops without for', r'^\s*(\'\w+: )?(while|loop)\b'),
    ('3b for over a range', r'^\s*for \w+ in .*\.\.'),
    ('3c for over items', r'^\s*for (?!\w+ in .*\.\.)'),
    ('5b the fields of a run, a finished table or a joining, listed in a clause',
     r'state self\.\w+\.live|accepted then|\bJoining\.neutral [A-Z]\.Joining\.joined'),
    ('7 switches on a kind, a player, an order or a mark', r'match (self|player|order|kind|mark|at\.turn|self\.turn)\b|match \(kind'),
]

def sources():
    for path in sorted(glob.glob(os.path.join(root, 'crates/*/src/**/*.rt'), recursive=True)):
        yield os.path.relpath(path, root), open(path).read()

def two_cases(text):
    for m in re.finditer(r'(?ms)^\s*(?:pub(?:\(crate\))? )?enum (\w+)[^{]*\{(.*?)^\}', text):
        body = re.sub(r'//.*', '', m.group(2))
        cases = re.findall(r'(?m)^    (\w+)\s*([({,])', body)
        if len(cases) == 2 and sum(kind == ',' for _, kind in cases) == 1:
            yield text.count('\n', 0, m.start(1)) + 1, m.group(1)

found = collections.OrderedDict((name, []) for name, _ in LINES)
clauses = collections.Counter()
for path, text in sources():
    for line, name in two_cases(text):
        found['1a enums of two cases, one of them empty'].append((path, line, 'enum ' + name))
    for number, line in enumerate(text.split('\n'), 1):
        for name, pattern in LINES:
            if pattern and re.search(pattern, line):
                found[name].append((path, number, line.strip()))
        asked = re.search(r'^\s*requires(?: \w+)? (\{.*\})', line)
        if asked:
            clauses[asked.group(1)] += 1

for name, places in found.items():
    print(f'{len(places):4} {name}')
    if verbose:
        for place in places:
            print('     ', *place)
thrice = [(n, c) for c, n in clauses.most_common() if n >= 3]
print(f'{sum(n for n, _ in thrice):4} 5a requires clauses that stand in three functions or more ({len(thrice)} facts)')
if verbose:
    for n, clause in thrice:
        print('     ', n, clause)
answers = 0
for path in glob.glob(os.path.join(root, 'crates/*/proofs/**/Answers.antt'), recursive=True):
    answers += len(re.findall(r'(?m)^pub ', open(path).read()))
lines = sum(len(open(p).read().split('\n')) - 1 for p in glob.glob(os.path.join(root, 'crates/*/proofs/**/*.antt'), recursive=True))
print(f'{answers:4} 8a answers in proofs/')
print(f'{lines:4} 8b lines in proofs/')
