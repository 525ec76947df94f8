#!/usr/bin/env python3
"""Where src/ has forms of the older language: forms.py [--at COMMIT] [--list POINT] [--by-crate].

Counts, for the tree or a commit, the places of each point of docs/DESIGN-PASS.md, by these rules over crates/*/src/*.rt:
 1 enums of the shape of Option or Result: two cases or three, one of them Refused(..), or one with a value beside one without;
   structs with a flag, a count or a check beside values; numbers for kinds or refusals (a match on a number, a literal refusal)
 2 functions whose bodies are the same but for names and numbers, in pairs; structs whose fields are; functions NAME and NAME_with or NAME_both
 3 while loops that count a variable up or down by a constant
 4 functions that compare, order, copy or convert by hand, known by name or by their one-line bodies
 5 requires that three functions or more have, word for word; signatures with the three buffers of a set; with a table beside a flag
 6 arrays of a fixed size beside a count, parallel arrays, texts and tables as bytes
 7 matches on a number that choose a function, and flags that choose a step
 8 lines of Answers.antt and Invariants.antt, and their files"""
import argparse, collections, re, subprocess, sys

p = argparse.ArgumentParser()
p.add_argument('--at')
p.add_argument('--list', type=int)
p.add_argument('--by-crate', action='store_true')
a = p.parse_args()


def git(*args):
    return subprocess.run(['git', *args], capture_output=True, text=True, check=True).stdout


top = git('rev-parse', '--show-toplevel').strip()
if a.at:
    names = git('-C', top, 'ls-tree', '-r', '--name-only', a.at, 'crates').split('\n')
    def text(name):
        return git('-C', top, 'show', f'{a.at}:{name}')
else:
    names = git('-C', top, 'ls-files', '-co', '--exclude-standard', 'crates').split('\n')
    def text(name):
        try:
            return open(f'{top}/{name}', encoding='utf-8').read()
        except FileNotFoundError:
            return ''
sources = {n: text(n) for n in names if re.match(r'crates/\w+/src/.*\.rt$', n)}
found = collections.defaultdict(list)


def plain(source):
    return re.sub(r'(?m)//.*$', '', source)


def block(source, at):
    """From the brace at or after `at` to its end."""
    start = source.index('{', at)
    depth = 0
    for i in range(start, len(source)):
        depth += {'{': 1, '}': -1}.get(source[i], 0)
        if depth == 0:
            return source[start + 1:i]
    return source[start + 1:]


def functions(source):
    for m in re.finditer(r'(?m)^\s*(?:pub(?:\(crate\))? )?(?:extern "C" )?fn (\w+)', source):
        head_end = re.search(r'(?m)^\s*\{\s*$|\{$', source[m.start():])
        no_body = re.search(r'(?m);$', source[m.start():])
        if not head_end or no_body and no_body.start() < head_end.start():
            continue
        # the body's brace stands alone in its line behind clauses, or ends the signature's line
        at = m.start() + head_end.start()
        yield m.group(1), source[m.start():at], block(source, at)


bodies, structs, requires = collections.defaultdict(list), collections.defaultdict(list), collections.defaultdict(set)
for name, source in sources.items():
    crate = name.split('/')[1]
    code = plain(source)
    for m in re.finditer(r'enum (\w+)[^{;]*\{', code):
        cases = [c.strip() for c in re.split(r',\s*\n', block(code, m.start())) if c.strip()]
        has = [bool(re.search(r'[({]', c)) for c in cases]
        if any(c.startswith('Refused(') for c in cases) or (len(cases) == 2 and has[0] != has[1]):
            found[1].append((name, f'enum {m.group(1)}'))
    for m in re.finditer(r'struct (\w+)[^{;(]*\{', code):
        fields = [f.strip() for f in block(code, m.start()).split(',') if f.strip()]
        kinds = [f.split(':')[-1].strip() for f in fields]
        structs[' '.join(sorted(kinds))].append((name, m.group(1)))
        flags = [f for f in fields if re.search(r': (Check|Result<\(\), Refusal>)$|\b(status|count|refusal)\b: ', f)]
        if flags and len(fields) > 1:
            found[1].append((name, f'struct {m.group(1)}: {flags[0]}'))
    for m in re.finditer(r'match (\w*(?:number|kind|status|value)) \{', code):
        if re.search(r'(?m)^\s*\d+ =>', block(code, m.start())):
            found[1].append((name, m.group(0)))
            found[7].append((name, m.group(0)))
    for m in re.finditer(r'return \d+;|refused\(\d+\)|_refusal\(block, \d+\)', code):
        if 'refus' in m.group(0) or re.search(r'-> u8', code) and crate.startswith('exports'):
            found[1].append((name, m.group(0)))
    for m in re.finditer(r'(?m)^( *)while ', code):
        body = block(code, m.start())
        if re.search(r'\w+(?:\[\w+\])? [+-]= \d+;|(\w+) = \1 [+-] \d+;', body):
            found[3].append((name, code[m.start():].split('\n')[0].strip()))
    for fn, head, body in functions(code):
        lines = [l.strip() for l in body.split('\n') if l.strip()]
        shape = re.sub(r'\b\d[\w.]*\b', '0', re.sub(r'\b[a-zA-Z_]\w*\b(?!\()', 'v', re.sub(r'\b(?:if|let|mut|while|return|match|else|for|in)\b', lambda k: k.group(0).upper(), ' '.join(lines))))
        if len(lines) > 1:
            bodies[shape].append((name, fn))
        if re.search(r'_with$|_both$|^(?:lesser|smaller|least_of)$', fn):
            found[2].append((name, f'fn {fn}'))
        if re.fullmatch(r'(?:same|agree|agrees|alike|equal|lesser|smaller|greater|saturating_sub|wide|either|number|status|copy|clear|of_four|four)\w*', fn):
            found[4].append((name, f'fn {fn}'))
        for r in re.findall(r'requires(?: \w+)? \{(.*?)\}\s*$', head, re.M):
            requires[re.sub(r'\s+', ' ', r.strip())].add((name, fn))
        if all(w in head for w in ('frame: &', 'face_store: &', 'sphere_store: &')):
            found[5].append((name, f'fn {fn}: a set'))
        if 'built_in: bool' in head:
            found[5].append((name, f'fn {fn}: a table beside a flag'))
            found[7].append((name, f'fn {fn}: built_in'))
        arrays = re.findall(r'(\w+): (?:&mut |&)?\[\w+; \w+\]', head)
        if len(arrays) > 1 or arrays and re.search(r'\b(?:n|m|count|used|kept): (?:usize|u\d+)', head):
            found[6].append((name, f'fn {fn}: {", ".join(arrays)}'))
        if re.search(r'names: &\[u8\]|takes: &\[u8\]', head):
            found[6].append((name, f'fn {fn}: texts as bytes'))
for shape, at in bodies.items():
    if len(at) > 1:
        found[2] += [(n, f'fn {f}, as {at[0][1]}') for n, f in at[1:]]
for kinds, at in structs.items():
    if len(at) > 1 and kinds:
        found[2] += [(n, f'struct {s}, as {at[0][1]}') for n, s in at[1:]]
for r, at in requires.items():
    if len(at) > 2:
        found[5].append((sorted(at)[0][0], f'{len(at)} functions: {r[:110]}'))
proofs = {n: text(n) for n in names if re.match(r'crates/\w+/proofs/.*(Answers|Invariants)\.antt$', n)}
lines = sum(t.count('\n') for t in proofs.values())
if a.list:
    for name, what in found[a.list]:
        print(f'{name}: {what}')
    sys.exit()
for point in range(1, 8):
    print(f'{point}: {len(found[point])}')
    if a.by_crate:
        for crate, n in sorted(collections.Counter(n.split('/')[1] for n, _ in found[point]).items()):
            print(f'   {crate} {n}')
print(f'8: {lines} lines in {len(proofs)} files')
