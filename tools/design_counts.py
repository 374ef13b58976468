#!/usr/bin/env python3
"""Counts, in crates/*/src, the places of each point of docs/DESIGN-PASS.md.

tools/design_counts.py [-l] [ROOT]     -l lists the places
"""
import collections
import re
import subprocess
import sys

ARGS = [a for a in sys.argv[1:] if a != '-l']
LIST = '-l' in sys.argv
ROOT = ARGS[0] if ARGS else '.'
FILES = subprocess.run(['git', 'ls-files', 'crates/*/src/*.rt'], capture_output=True, text=True, cwd=ROOT).stdout.split()
KEYWORDS = set('fn pub let mut if else while for in return match as usize u8 u16 u32 u64 bool true false loop use self'.split())


def short(f):
    return f.replace('crates/', '').replace('/src', '')


TEXTS = {f: open(f'{ROOT}/{f}').read() for f in FILES}
LINES = [(f, i + 1, l) for f in FILES for i, l in enumerate(TEXTS[f].split('\n')) if not l.lstrip().startswith('//')]
# name, parameters, result, body of each function
FUNCTIONS = []
for f in FILES:
    for m in re.finditer(r'(?:^|\n)( *)((?:pub(?:\(crate\))? )?(?:extern "C" )?fn (\w+)(?:<[^>]*>)?\(([^)]*)\)(?:\s*->\s*([^\n{]+?))?\s*(?:\n\s*(?:requires|ensures)[^\n]*(?:\n        [ (][^\n]*)*)*\s*\{\n(.*?)\n\1\}\n)', TEXTS[f], re.S):
        FUNCTIONS.append((f, m.group(3), re.sub(r'\s+', ' ', m.group(4)), (m.group(5) or '').strip(), m.group(6)))


def show(point, what, places):
    print(f'{point:3} {len(places):4}  {what}')
    if LIST:
        for p in places:
            print('           ', p)


def by_line(pattern):
    return [f'{short(f)}:{i}: {l.strip()[:110]}' for f, i, l in LINES if re.search(pattern, l) and not re.match(r'\s*(requires|ensures|ghost)\b', l)]


def by_function(test):
    return [f'{short(f)}: {n}({p})' for f, n, p, r, b in FUNCTIONS if test(n, p, r, b)]


print(f'    {len(FUNCTIONS):4}  functions')
show('1a', 'functions that return `Answer`, refusal 0 for none', by_function(lambda n, p, r, b: r == 'Answer'))
show('1b', 'functions that return a refusal\'s number, 0 for none', by_function(lambda n, p, r, b: r == 'usize' and (n.endswith('fault') or n == 'enter') and 'slots' not in p))
show('1c', 'parameters `mode: u8`, the kind of a file', by_line(r'\bmode: u8'))
show('1d', 'structs with a flag beside the value that it tells of', by_line(r'^ *pub \w+: bool'))
show('1e', 'a kind, class or role compared with a literal number', by_line(r'(?:word_at\([^)]*, 0\)|kind_at\([^)]*\)|tree_kind\([^)]*\)|kind_of\([^)]*\)|class_of\([^)]*\)|role_of\([^)]*\)|role_at\([^)]*\)|\bkind|\bk|\brole|\br) *(?:==|!=|<|<=) *(?:[1-9]|1[0-9]|2[0-3])\b(?!\d)|\b(?:[1-9]|1\d|2[0-3]) <= (?:k|role)\b'))
show('1f', 'a rule\'s number compared with a literal', by_line(r'\b(?:k|kind|x\.kind|rule|node\.kind) *(?:==|!=|<|<=) *(?:3[2-9]|4[0-6]|6[4-9]|7\d|80)\b|\b(?:46|80) < k\b'))
show('1g', '`match` on a number of a kind, rule or role', [f'{short(f)}: {n}' for f, n, p, r, b in FUNCTIONS if re.search(r'match (k|w|role|kind|x\.kind|self|.*word_at\([^)]*, 0\)) \{\n\s*\d', b)])


def twins():
    same = collections.defaultdict(list)
    for f, n, p, r, b in FUNCTIONS:
        ids = {}

        def norm(x):
            w = x.group(0)
            if w in KEYWORDS:
                return w
            if w[0].isdigit():
                return 'N'
            return ids.setdefault(w, f'v{len(ids)}')
        t = re.sub(r'\b\w+\b', norm, re.sub(r'//.*', '', b))
        t = re.sub(r'\b(usize|u8|u16|u32)\b', 'T', re.sub(r'\s+', ' ', t))
        if len(t) > 45:
            same[t].append(f'{short(f)}:{n}')
    return ['; '.join(l) for l in same.values() if len(l) > 1]


T = twins()
show('2', f'groups of functions whose bodies differ in names, types and constants alone ({sum(len(t.split(";")) for t in T)} functions)', T)
W = [(f, i, l) for f, i, l in LINES if re.match(r' *while ', l)]
counted, other = [], []
for f, i, l in W:
    indent = len(l) - len(l.lstrip())
    body = []
    for m in TEXTS[f].split('\n')[i:]:
        if m.startswith(' ' * indent + '}'):
            break
        body.append(m)
    names = re.findall(r'\b[a-z_]+\b', l)
    hit = any(re.search(rf'\b{n} [+-]= 1;', '\n'.join(body)) for n in names)
    (counted if hit else other).append(f'{short(f)}:{i}: {l.strip()}')
show('3a', '`while` loops that count an index by hand', counted)
show('3b', 'other `while` loops (chains of links, digits, reading)', other)
show('3c', '`for` loops', by_line(r'^ *for '))
show('4', 'equality, order, copying or conversion written by hand for a struct', by_function(lambda n, p, r, b: r == 'bool' and (lambda t: len(t) == 2 and t[0] == t[1] and t[0][0].isupper())(re.findall(r': &?(\w+)', p))))
show('5a', 'functions with the parameters `obligation, second, m`', by_function(lambda n, p, r, b: bool(re.search(r'obligation: &\[u8\], \w+: &\[u8\], m: usize', p))))
groups = collections.Counter()
for f, n, p, r, b in FUNCTIONS:
    names = [x.split(':')[0].strip().replace('mut ', '') for x in p.split(',') if ':' in x]
    for k in (2, 3):
        for j in range(len(names) - k + 1):
            groups[', '.join(names[j:j + k])] += 1
show('5b', 'groups of two or three parameters that stand together in 15 functions or more, but files', [f'{c} {g}' for g, c in groups.most_common(40) if c >= 15 and 'files' not in g and 'obligation' not in g])
show('6', 'functions with a table of fixed size or a buffer with its length or place beside it', by_function(lambda n, p, r, b: bool(re.search(r'\[\w+; \d+\]|area: &mut \[u8\], (at|end): usize|out: &mut \[u8\], end: usize', p))))
show('7', 'parameters that say which step to run', by_line(r'\b(types|reading|wanted|again): bool'))
answers = subprocess.run(['git', 'ls-files', 'crates/*/proofs/*Answers.antt'], capture_output=True, text=True, cwd=ROOT).stdout.split()
N = sum(len(re.findall(r'(?m)^pub ', open(f'{ROOT}/{f}').read())) for f in answers)
print(f'8   {N:4}  answers of proofs, in {len(answers)} files')
