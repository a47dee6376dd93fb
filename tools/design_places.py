#!/usr/bin/env python3
"""Counts, in crates/*/src, the places that docs/DESIGN-PASS.md speaks of: with a commit as the argument as they stood there, else as they lie
here. Each point is found from the functions, types and loops as they are parsed, not from the words that the page's commands look for."""
import collections
import glob
import re
import subprocess
import sys

COMMIT = sys.argv[1] if len(sys.argv) > 1 else None
CODES = {'kind', 'role', 'owner', 'mark', 'marks', 'state', 'round', 'answer', 'status', 'question', 'tag', 'asked'}
INTEGERS = {'u8', 'u32', 'u64', 'usize', 'i64', 'isize'}


def files():
    if COMMIT is None:
        for path in sorted(glob.glob('crates/*/src/*.rt')):
            with open(path, encoding='utf-8') as f:
                yield path, f.read()
        return
    names = subprocess.run(['git', 'ls-tree', '-r', '--name-only', COMMIT, 'crates'], check=True, capture_output=True, text=True)
    for path in names.stdout.split('\n'):
        if re.fullmatch(r'crates/[^/]*/src/[^/]*\.rt', path):
            text = subprocess.run(['git', 'show', f'{COMMIT}:{path}'], check=True, capture_output=True, text=True).stdout
            yield path, text


def code(text):
    """The text without comments."""
    return '\n'.join(re.sub(r'//.*', '', line) for line in text.split('\n'))


def matching(text, start, left, right):
    depth = 0
    for i in range(start, len(text)):
        if text[i] == left:
            depth += 1
        elif text[i] == right:
            depth -= 1
            if depth == 0:
                return i
    return len(text) - 1


class Function:
    def __init__(self, path, text, found):
        self.path = path
        self.name = found.group(1)
        start = text.index('(', found.end() - 1)
        end = matching(text, start, '(', ')')
        self.line = text.count('\n', 0, found.start()) + 1
        self.parameters = []
        for part in re.split(r',\s*(?![^<(]*[>)])', text[start + 1:end]):
            if ':' in part:
                name, kind = part.split(':', 1)
                self.parameters.append((name.strip().removeprefix('mut '), ' '.join(kind.split())))
        indent = re.match(r'[ ]*', found.group(0).lstrip('\n')).group(0)
        head = re.compile('^' + indent + r'\{|\{$', re.M).search(text, end)
        body = head.start() if head else text.find('{', end)
        close = re.compile('^' + indent + r'\}', re.M).search(text, body)
        self.clauses = text[end + 1:body]
        self.body = text[body:close.end() if close else len(text)]
        result = re.match(r'\s*->\s*([^\n{]*)', self.clauses)
        self.result = result.group(1).strip() if result else '()'


def functions(path, text):
    return [Function(path, text, m) for m in re.finditer(r'^\s*(?:pub )?(?:const )?fn (\w+)(?:<[^\n(]*>)?\(', text, re.M)]


def shape(function):
    """The signature and body with every name but the words of the language turned into the number of its first use."""
    words = {'let', 'mut', 'if', 'else', 'while', 'for', 'in', 'match', 'return', 'true', 'false', 'as', 'pub', 'fn'}
    seen = {}
    out = []
    signature = ' '.join(f'{n}: {k},' for n, k in function.parameters) + ' -> ' + function.result
    for token in re.findall(r'\w+|[^\w\s]', signature + ' ' + function.body):
        if token in words or not re.match(r'\w', token):
            out.append(token)
        else:
            out.append(str(seen.setdefault(token, len(seen))))
    return ' '.join(out)


def say(title, places):
    print(f'{title}: {len(places)}')
    for place in places:
        print(f'    {place}')


everything = []
enums, flags, codes, loops, twins = [], [], [], [], collections.defaultdict(list)
for path, text in files():
    plain = code(text)
    for m in re.finditer(r'^\s*(?:pub )?enum (\w+)[^{]*\{', plain, re.M):
        body = plain[m.end():matching(plain, m.end() - 1, '{', '}')]
        flat = re.sub(r'\{[^{}]*\}|\([^()]*\)', '@', body)
        variants = [v.strip() for v in flat.split(',') if v.strip()]
        full = sum('@' in v for v in variants)
        if 1 <= full <= 2 and len(variants) <= 3 or any(v in ('Accepted', 'None', 'Unknown') for v in variants):
            enums.append(f'{path}: enum {m.group(1)}')
    for m in re.finditer(r'^\s*(?:pub )?struct (\w+)[^{;]*\{', plain, re.M):
        body = plain[m.end():matching(plain, m.end() - 1, '{', '}')]
        fields = re.findall(r'(\w+):\s*([^,]+),', body)
        if len(fields) > 1:
            flags += [f'{path}: {m.group(1)}.{n}' for n, k in fields if k == 'bool']
        codes += [f'{path}: {m.group(1)}.{n}' for n, k in fields if n in CODES and k in INTEGERS]
    for f in functions(path, plain):
        everything.append(f)
        codes += [f'{path}: {f.name}({n}: {k})' for n, k in f.parameters if n in CODES and k in INTEGERS]
        for m in re.finditer(r'\bwhile\b', f.body):
            loops.append(f'{path}: {f.name}')
        if len(f.body) > 40:
            twins[shape(f)].append(f'{path}: {f.name}')
say('1 enums of the shape of Option or Result', enums)
say('1 flags beside values', flags)
say('1 numbers for kinds or refusals', codes)
say('2 functions of one shape', [' = '.join(t) for t in twins.values() if len(t) > 1])
say('3 loops with `while`', loops)
together = collections.Counter()
for f in everything:
    together[len(f.parameters)] += 1
say('5 functions with seven or more parameters', [f'{f.path}: {f.name} ({len(f.parameters)})' for f in everything if len(f.parameters) >= 7])
facts = collections.defaultdict(set)
for f in everything:
    for clause in re.findall(r'(?:requires|ensures)[^{]*\{\s*(.*?)\s*\}\s*$', f.clauses, re.M):
        for fact in clause.split(' × '):
            fact = re.sub(r'\.(now|old|new)\b', '', fact.strip('() '))
            facts[fact].add(f'{f.path}: {f.name}')
say('5 facts in the contracts of three or more functions', [f'{fact} [{len(where)}]' for fact, where in facts.items() if len(where) >= 3])
say('6 a buffer and its length or place', [f'{f.path}: {f.name}' for f in everything
    if any(n in ('used', 'have', 'held') and k == 'usize' for n, k in f.parameters) and any('[' in k for _, k in f.parameters)
    or any(n in ('at', 'from', 'place') and k == 'usize' for n, k in f.parameters) and any(n in ('out', 'numbers') for n, k in f.parameters)])
say('6 parallel arrays', [f'{f.path}: {f.name}' for f in everything if {'quantities', 'amounts'} <= {n for n, _ in f.parameters}])
