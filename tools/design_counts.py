#!/usr/bin/env python3
"""The places of docs/DESIGN-PASS.md, counted in crates/*/src of the tree that this is run in: python3 tools/design_counts.py [-v]

Each count is of a form that can be seen in the text; which of the places stay, and why, the page says. -v lists the places."""
import collections
import glob
import re
import sys

verbose = '-v' in sys.argv
files = sorted(glob.glob('crates/*/src/**/*.rt', recursive=True))
texts = {f: open(f).read() for f in files}


def show(name, places):
    print(f'{name}: {len(places)}')
    if verbose:
        for place in places:
            print('    ' + place)


def short(f):
    return f.removeprefix('crates/').replace('/src/', '::').removesuffix('.rt')


# the functions: file, name, parameters, clauses, body
functions = []
for f, text in texts.items():
    for m in re.finditer(r'^( *)(?:pub(?:\([a-z]+\))? )?(?:const )?(?:unsafe )?(?:extern "C" )?fn (\w+)(<[^(]*>)?\((.*?)\)(.*?)^\1\{\n(.*?)^\1\}$', text, re.S | re.M):
        functions.append((f, m[2], m[4], m[5], m[6]))

# ---- 1
enums = []
for f, text in texts.items():
    for m in re.finditer(r'^(?:pub )?enum (\w+)(?:<[^>]*>)? \{\n(.*?)^\}', text, re.S | re.M):
        body = re.sub(r'//.*', '', m[2])
        body = re.sub(r'\{[^}]*\}', '{}', body)
        variants = [v.strip() for v in body.split(',') if v.strip()]
        bare = [v for v in variants if re.fullmatch(r'\w+', v)]
        enums.append((f, m[1], len(variants), len(bare)))
shaped = [f'{short(f)} {n}' for f, n, all_, bare in enums if 0 < all_ - bare < 3 and all_ <= 4 and (bare or all_ == 2)]
show('1 enums of one or two variants with values and a few without, or of two with values', shaped)
flags = []
for f, text in texts.items():
    for m in re.finditer(r'^(?:pub )?struct (\w+)(?:<[^>]*>)? \{\n(.*?)^\}', text, re.S | re.M):
        if re.search(r': bool,', m[2]):
            flags.append(f'{short(f)} {m[1]}')
show('1 structs with a flag among their fields', flags)
codes = []
for f, text in texts.items():
    for m in re.finditer(r'^(?:pub )?const (\w+): u8 = ', text, re.M):
        codes.append(f'{short(f)} {m[1]}')
show('1 constants of a byte', codes)
numbers = []
for f, text in texts.items():
    for m in re.finditer(r'numbered\(\d+\)|numbered\(order::\w+\)|Number\(\d+\)', text):
        numbers.append(f'{short(f)} {m[0]}')
show('1 refusals by a number', numbers)

# ---- 2
shapes = collections.defaultdict(list)
for f, name, parameters, clauses, body in functions:
    shape = re.sub(r'//.*', '', parameters + clauses.split('requires')[0].split('ensures')[0] + '{' + body)
    names = {}
    shape = re.sub(r'"(?:[^"\\]|\\.)*"|b\'.\'|\b\w+\b', lambda m: names.setdefault(m[0], f'n{len(names)}'), shape)
    if body.count('\n') > 2:
        shapes[re.sub(r'\s+', '', shape)].append(f'{short(f)}::{name}')
twins = [' '.join(v) for v in shapes.values() if len(v) > 1]
show('2 groups of functions of three lines or more that are one text but for their names and numbers', twins)
print(f'2 functions in them: {sum(len(v) for v in shapes.values() if len(v) > 1)}')

# ---- 3
loops = [f'{short(f)} {line.strip()}' for f, text in texts.items() for line in text.splitlines() if re.search(r'^\s*(\'\w+: )?while\b', line)]
show('3 loops by while', loops)

# ---- 4
hand = [f'{short(f)}::{name}' for f, name, *_ in functions if re.fullmatch(r'same|is_pair|alike|copy\w*|fill|paint|say\w*|least|less|cut|digit|wide|joined|stored|cleared', name)]
show('4 functions that compare, copy, convert or print by hand', hand)
plain = [f'{short(f)} {m[2]}' for f, text in texts.items() for m in re.finditer(r'#\[derive\(Clone, Copy\)\]\n(?:pub )?(struct|enum) (\w+)', text)]
show('4 types that derive a copy and no equality', plain)

# ---- 5
facts = collections.defaultdict(list)
for f, name, parameters, clauses, body in functions:
    for m in re.finditer(r'requires(?: \w+)? \{ (.*?) \}(?=\n|$)', clauses):
        for fact in m[1].split(' × '):
            facts[re.sub(r'\.(now|old)\b', '', fact.strip('() '))].append(f'{short(f)}::{name}')
many = {k: v for k, v in facts.items() if len(v) >= 3}
show('5 facts in the requires of three functions or more', [f'{len(v)} times {k}' for k, v in sorted(many.items(), key=lambda x: -len(x[1]))])
print(f'5 clauses with them: {sum(len(v) for v in many.values())}')
groups = collections.defaultdict(set)
for f, name, parameters, clauses, body in functions:
    names = tuple(p.split(':')[0].strip().removeprefix('mut ') for p in re.sub(r'\s+', ' ', parameters).split(', ') if ':' in p)
    if len(names) >= 6:
        groups[short(f) + '::' + name] = set(names)
show('5 functions of six parameters or more', [f'{len(v)} {k}' for k, v in groups.items()])

# ---- 6
buffers = [f'{short(f)} {m[0]}' for f, text in texts.items() for m in re.finditer(r'let mut \w+ = \[0\w*; [^\]]*\]', text)]
show('6 local arrays', buffers)

# ---- 7
chains = [f'{len(re.findall(r"if [a-z_.]+ == [a-z_]*:*[A-Z_]+ ", body))} {short(f)}::{name}' for f, name, p, c, body in functions if len(re.findall(r'if [a-z_.]+ == [a-z_]*:*[A-Z_]+ ', body)) >= 3]
show('7 functions that choose by three comparisons with constants or more', chains)

# ---- 8
proofs = 0
for f in glob.glob('crates/*/proofs/**/*.antt', recursive=True):
    if not f.startswith(('crates/rules/', 'crates/promises/')):
        proofs += sum(1 for _ in open(f))
answers = len([f for f in glob.glob('crates/*/proofs/**/*.antt', recursive=True) if f.endswith(('Answers.antt', 'Invariants.antt'))])
print(f'8 lines of proofs outside rules and promises: {proofs}, files of answers and invariants: {answers}')
