#!/usr/bin/env python3
"""port_lists.py: writes the lists of docs/PORT.md anew, each between its lines '<!-- NAME: begin -->' and '<!-- NAME: end -->'; all else there stays.

Run it at the top of the repository. The two commits that docs/PORT.md begins with, LANDED and the one in which the scripts ran (SPELLED), and the last
commit of the port, ENDED, are read from git. All goes by text (tools/declarations.py). An edit's change is what is left of each old and new text when their common
beginning and end are taken away; two changes are the same if they are one when names have today's spelling and brackets are taken away."""
import collections, os, re
from declarations import all_of, declarations, of_commit
PAGE, ENDED = 'docs/PORT.md', '2f08c2dcb851890563c403e20f2789c336e19627'  # the last commit of the port
def pairs(text):
    out, path, old = [], None, None
    for l in text.split('\n'):
        if l.startswith('file: '): path = l[6:].strip()
        elif l.startswith('old: '): old = l[5:]
        elif l.startswith('new:') and not re.search(r'^\s*(pub |ghost )?use |^[\w·.]*\.\{[^}]*\}$|^[\w, ]+\}$', old): out.append((path, old.strip(), l[5:].strip()))
    return out  # without those that only bring names in

def change(old, new, names):
    """What an edit's pair takes away and puts in its place, by words in today's spelling."""
    a, b = ([names.get(w, w) for w in re.findall(r"[^\s(){}⌜⌝.,;:&\[\]]+|[.,;:&\[\]]", re.sub(r'\b(option_)?map\b', 'map', re.sub(r'Option·', '', t.replace('′', "'"))))] for t in (old, new))
    while a and b and a[0] == b[0]: a, b = a[1:], b[1:]
    while a and b and a[-1] == b[-1]: a, b = a[:-1], b[:-1]
    return ' '.join(a), ' '.join(b)

def fenced(*rows): return ['```'] + [f'{w}: {t.strip()}' for w, t in rows] + ['```', '']

page = open(PAGE, encoding='utf-8').read()
landed, spelled = (of_commit(c) for c in re.findall(r'\b[0-9a-f]{40}\b', page)[:2])
now, lists, names = of_commit(ENDED), collections.defaultdict(list), {'getD': 'get_or'}
by_crate = collections.defaultdict(dict)
for p in landed:  # SPELLED has the same declarations in the same order
    if p.endswith('.antt') and '/specs/' in p:
        for d, e in zip(*(declarations(t[p]) for t in (landed, spelled)), strict=True):
            for x, y in zip([d['name'], *d['parts']], [e['name'], *e['parts']], strict=True):
                if x != y: by_crate[p.split('/')[1]][x] = names[x] = y
lists['names'] = [f'- {c}: ' + ', '.join(f'`{x}` `{y}`' for x, y in sorted(by_crate[c].items())) for c in sorted(by_crate)]

was, stands = all_of(spelled, ('specs',)), all_of(now, ('specs', 'proofs'))
anywhere, moved, other, same = collections.defaultdict(list), collections.defaultdict(lambda: collections.defaultdict(list)), 0, 0
for k in stands: anywhere[k[1]] += stands[k]
below = lambda d: d['file'].split('/', 3)[3]
for (c, name), olds in sorted(was.items()):
    left = list(stands.get((c, name)) or anywhere.get(name, []))
    for d in olds:
        fits = [x for x in left if x['says'] == d['says']]
        e = next((x for x in fits if below(x) == below(d)), None) or next((x for x in fits if x['by'] == d['by']), None) or next(iter(fits), None)
        e = e or next((x for x in left if below(x) == below(d)), None) or next(iter(left), None)
        if not e: lists['gone'].append(f"- {c}: `{name}` of {d['file'].split('/', 2)[2]}"); continue
        left.remove(e)
        if '/proofs/' in e['file'] or e['file'].split('/')[1] != c: moved[c][d['file'], e['file']].append(name)
        if e['says'] != d['says']: lists['statements'] += fenced(*((f'{w} ({x["file"]})', ' '.join((*x['says'][0], x['says'][1]))) for w, x in (('old', d), ('new', e))))
        elif e['by'] != d['by'] and d['defines']: lists['definitions'] += fenced(*((f'{w} ({x["file"]})', x['by']) for w, x in (('old', d), ('new', e))))
        elif e['by'] != d['by']: other += 1
        else: same += 1
lists['counts'] = [f'Of {sum(map(len, was.values()))} declarations in specs/ {same} have the same words, statement and equations or proof; {other} more have the same statement with another proof.']
for c in sorted(moved):
    lists['moved'] += ['', f'### {c}', ''] + [f'- {a.split("/", 2)[2]}, {b.split("/", 2)[2] if b.startswith(f"crates/{c}/") else b}: ' + ', '.join(f'`{n}`' for n in ns) for (a, b), ns in sorted(moved[c].items())]

for p in sorted(x for x in landed if x.endswith('.edit')):
    label = p[7:-5].replace('/must-fail/', '/')
    if p not in now: lists['edits'] += [f'### {label}', '', 'is gone', '']; continue
    if landed[p] == now[p]: lists['untouched edits'].append(f'- {label}'); continue
    reasons = '; '.join(dict.fromkeys(re.sub(r'^proofs/|/?\.antt|\s\.\.|error: ', '', l[8:]).replace('/ `', ' `') for l in now[p].split('\n') if l.startswith('reason: ')))
    was_of, now_of = ([(f, o, n, change(o, n, names)) for f, o, n in x] for x in (pairs(landed[p]), pairs(now[p])))
    lost, places = list(was_of), {}
    for exact in True, False:  # first those that stand in the same file but for its folder
        for y in list(now_of):
            x = next((x for x in lost if x[3] == y[3] and (not exact or x[0].split('/', 1)[1] == y[0].split('/', 1)[1])), None)
            if x:
                lost.remove(x); now_of.remove(y)
                if x[0] != y[0]: places[x[0], y[0]] = f'{x[0]}, {y[0]}'
    place = f' ({"; ".join(places.values())})' if places else ''
    if not lost and not now_of: lists['spelled edits'].append(f'- {label}{place}: {reasons}')
    else: lists['edits'] += [f'### {label}', '', f'Refused by {reasons}.' + ('' if now_of else ' Only the pairs below are gone; all others are the same.'), ''] + fenced(*(
        (f'{w} ({f})', f'{o}\n  =>  {n}') for w, x in (('old', lost), ('new', now_of)) for f, o, n, _ in x))
lists['new edits'] = [f'- {p[7:-5].replace("/must-fail/", "/")}' for p in sorted(now) if p.endswith('.edit') and p not in landed]

for name in re.findall(r'<!-- (.+): begin -->', page):
    text = '\n'.join(lists[name] or ['None.']).strip('\n')
    page = re.sub(rf'(<!-- {name}: begin -->\n).*?(<!-- {name}: end -->)', lambda m: m[1] + text + '\n' + m[2], page, flags=re.S)
with open(PAGE, 'w', encoding='utf-8') as f: f.write(page)
print(', '.join(f'{k} {len(v)}' for k, v in sorted(lists.items())))
