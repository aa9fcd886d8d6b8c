#!/usr/bin/env python3
"""respell.py [--list]: turns the repository's own names to today's spelling: what is no type, fact or module is in snake case.

Run it once, at the top, after the kit's port.py and before any edit by hand. It goes by words, in crates/ (not in out/), gen/, scripts/, docs/ (not in
CHANGES.md, whose names are those of their time) and *.md: a word that begins small and has a capital behind a small letter or digit is turned, part by
part between dashes; so are the names that a `ghost use` of src/ gives with `as`. Functions of src/ have such names already, and a word of specs/ may
have the name of the function that it is about. Where a lemma has the name that its function now gets, the lemma gets `_lem`. It stops where two words of
antt would still fall together."""
import collections, os, re, shutil, sys
KIT = os.path.dirname(os.path.dirname(os.path.realpath(shutil.which('rt')))) + '/rattle'  # the kit's library
WORD = re.compile(r"[^\s(){}\[\],;:.@\"`|/\\<>=+*!?&%$#^~«»⌜⌝]+")
HUMP = re.compile(r"^[a-zα-ωμℓκ'][^A-Z]*[A-Z]|[-_][a-zα-ωμℓκ][a-z0-9]*[A-Z]|^is_[A-Z]")

def files():
    for top in ('crates', 'gen', 'scripts', 'docs'):
        for folder, dirs, names in os.walk(top):
            dirs[:] = [d for d in dirs if d not in ('out', '.git', 'target')]
            for n in names:
                p = os.path.join(folder, n)
                if not (p.endswith(('.svg', '.png', '/CHANGES.md')) or os.path.islink(p)): yield p
    for n in os.listdir('.'):
        if n.endswith('.md'): yield n

def snake(part):
    if not part or part[0].isupper(): return part
    part = part.replace('getD', 'get_or')
    return re.sub(r"(_?)([A-Z]+)(?=[A-Z][a-z])|(_?)([A-Z]+)", lambda m: '_' + (m.group(2) or m.group(4)).lower(), part)

def turned(word): return '-'.join(snake(p) for p in word.split('-'))
def text_of(p): return open(p, encoding='utf-8').read()
def bare(t): return re.sub(r'--.*', '', t)

def kit_words():
    out = set()
    for folder, dirs, names in os.walk(KIT):
        dirs[:] = [d for d in dirs if d != 'out']
        for n in names:
            if n.endswith('.antt') and ('/specs' in folder or '/proofs' in folder): out.update(w for w in WORD.findall(text_of(os.path.join(folder, n))) if HUMP.search(w))
    return out

own, antt = set(), set()
for p in files():
    if p.startswith('crates/') and p.endswith('.antt'):
        ws = set(WORD.findall(bare(text_of(p)))); antt |= ws
        own |= {w for w in ws if HUMP.search(w) and not w.startswith(('-', '_'))}
for p in files():
    if p.endswith('.rt'): own |= {w for l in text_of(p).split('\n') if l.startswith('ghost use ') for w in re.findall(r'\bas (\w+)', l) if HUMP.search(w)}
kit = kit_words()
table = {w: turned(w) for w in own if w not in kit and turned(w) != w}
source = set()
for p in files():
    if p.endswith('.rt'): source |= set(re.findall(r'\bfn (\w+)', text_of(p)))
# a declaration of that name in antt: at a line's start behind its words, or below a `where` or `record`
texts = [bare(text_of(p)) for p in files() if p.startswith('crates/') and p.endswith('.antt')]
lem = {}
for w, t in table.items():
    if t in antt:
        names = re.compile(r"(?m)^\s*(?:(?:pub|abbrev|unfoldable) )*" + re.escape(t) + r" (?::|{|\()")
        if t not in source or any(names.search(x) for x in texts): lem[t] = t + '_lem'
back = collections.defaultdict(list)
for w, t in table.items(): back[t].append(w)
falls = [(ws, t) for t, ws in back.items() if len(ws) > 1] + [(t, l) for t, l in lem.items() if l in antt]
if '--list' in sys.argv or falls:
    for w in sorted(table): print(w, table[w])
    for t in sorted(lem): print('lemma', t, lem[t], 'also a function of src/' if t in source else '')
    print('the kit has:', *sorted(own & kit)); print('fall together:', *falls, sep='\n  ')
    sys.exit(1 if falls else 0)
LEM = re.compile(r"(?<![\w.'-])(" + '|'.join(map(re.escape, sorted(lem, key=len, reverse=True))) + r")(?![\w.'-])") if lem else None
n = 0
for p in list(files()):
    try: t = text_of(p)
    except UnicodeDecodeError: continue
    new = t
    if LEM and p.startswith('crates/') and p.endswith('.antt'): new = LEM.sub(lambda m: lem[m.group(1)], new)
    new = WORD.sub(lambda m: table.get(m.group(0), m.group(0)), new)
    if new != t: open(p, 'w', encoding='utf-8').write(new); n += 1
print(len(table), 'names,', len(lem), 'lemmas, in', n, 'files')
