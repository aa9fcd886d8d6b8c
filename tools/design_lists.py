#!/usr/bin/env python3
"""Writes the lists of docs/DESIGN-PASS.md anew, each between its lines '<!-- NAME: begin -->' and '<!-- NAME: end -->'; all else there stays.

Run it at the top of the repository. The commit that the page begins with is read from git, today's files from the folder. Listed are, old and new, each
public function whose signature or clause changed, each public type and constant, and each definition, lemma and theorem of specs/ and proofs/ whose statement, or as a
definition whose equations, changed. What is gone has to stand in the page's tables, which say what states its promise now; what is missing there is
printed, and the status is 1."""
import collections, io, os, re, subprocess, sys, tarfile
from declarations import all_of, of_commit, of_folder
from design_places import functions
PAGE = 'docs/DESIGN-PASS.md'
SOURCE = re.compile(r'crates/[^/]+/src/.*\.rt$')

def sources_of_commit(commit):
    data = subprocess.run(['git', 'archive', commit, 'crates'], capture_output=True, check=True).stdout
    with tarfile.open(fileobj=io.BytesIO(data)) as t:
        return {m.name: t.extractfile(m).read().decode() for m in t if m.isfile() and SOURCE.match(m.name)}

def sources_of_folder():
    names = [os.path.join(at, f) for at, _, fs in os.walk('crates') if 'out' not in at.split('/') for f in fs]
    return {n: open(n, encoding='utf-8').read() for n in names if SOURCE.match(n)}

def told(sources):
    """of each function and type, by crate and name: what it says, and whether it is public"""
    found = {}
    for path in sorted(sources):
        crate, module = path.split('/')[1], re.sub(r'^(lib|main)$', '', path.split('/')[-1][:-3])
        public, kind = set(), ''
        for line in sources[path].splitlines():
            if it := re.match(r'impl(?:<.*?>)? (.*?) \{', line): kind = it[1]
            elif line == '}': kind = ''
            if it := re.match(r'\s*(pub )?fn (\w+)', line):
                if it[1]: public.add((kind, it[2]))
        impls = re.findall(r'^impl(?:<.*?>)? (.*?) \{\n(.*?)^\}', sources[path], re.M | re.S)
        bodies = [('', re.sub(r'^impl.*?^\}\n', '', sources[path], flags=re.M | re.S)), *impls]
        for kind, body in bodies:
            for name, head, clauses, _ in functions(body):
                name_ = '::'.join(x for x in (module, re.sub(r'<.*?>', '', kind), name) if x)
                head = re.sub(r'^(pub )?(fn )', r'\2', head).rstrip(' {')
                found[crate, name_] = ([head, *clauses], (kind, name) in public or kind.startswith('From'))
        for it in re.finditer(r'^(#\[derive[^\n]*\n)?pub (struct|enum) (\w+)[^\n]*\{\n(.*?)^\}', sources[path], re.M | re.S):
            said = ' '.join(re.sub(r'//[^\n]*', '', it[0]).split())
            found[crate, '::'.join(x for x in (module, it[3]) if x)] = ([said], True)
        for it in re.finditer(r'^pub const (\w+): [^\n]*', sources[path], re.M):
            found[crate, '::'.join(x for x in (module, it[1]) if x)] = ([it[0].removeprefix('pub ').rstrip(';')], True)
    return found

def fenced(*rows): return ['```'] + [f'{w}: {t.strip()}' for w, t in rows] + ['```', '']

def same_words(lines): return [re.sub(r'[\s,]+', ' ', x.replace('( ', '(').replace(' )', ')')) for x in lines]

def main():
    page = open(PAGE, encoding='utf-8').read()
    begun = re.search(r'\b[0-9a-f]{40}\b', page)[0]
    lists, gone = collections.defaultdict(list), []
    was, now = told(sources_of_commit(begun)), told(sources_of_folder())
    for (crate, name), (old, public) in sorted(was.items()):
        new = now.get((crate, name))
        if new is None:
            if public: gone.append((crate, name))
            else: lists['private'].append(f'`{crate}::{name}`')
        elif public and same_words(old) != same_words(new[0]):
            lists['functions'] += fenced((f'{crate}::{name}, old', '\n    '.join(old)), ('new', '\n    '.join(new[0])))
    lists['new'] = [', '.join(f'`{c}::{n}`' for (c, n), (_, public) in sorted(now.items()) if public and (c, n) not in was) + '.']
    lists['private'] = [', '.join(lists['private']) + '.']
    was, now = all_of(of_commit(begun), ('specs', 'proofs')), all_of(of_folder(), ('specs', 'proofs'))
    for (c, name), olds in sorted(was.items()):
        left = list(now.get((c, name), []))
        for d in olds:
            e = next((x for x in left if x['says'] == d['says'] and x['by'] == d['by']), None) or next((x for x in left if x['says'] == d['says']), None) \
                or next((x for x in left if x['file'] == d['file']), None) or next(iter(left), None)
            if e is None:
                gone.append((c, name))
                continue
            left.remove(e)
            of = lambda x: ' '.join((*x['says'][0], x['says'][1]))
            if d['defines'] and (e['says'] != d['says'] or e['by'] != d['by']):
                lists['definitions'] += fenced((f'{d["file"][7:]}, old', of(d) + ' = ' + d['by']), (f'{e["file"][7:]}, new' if e['file'] != d['file'] else 'new', of(e) + ' = ' + e['by']))
            elif e['says'] != d['says']:
                lists['lemmas'] += fenced((f'{d["file"][7:]}, old', of(d)), ('new', of(e)))
    missing = [f'{c}: {n}' for c, n in gone if not re.search(rf'^\| {c} \|.*`{re.escape(n)}`', page, re.M)]
    for name in re.findall(r'<!-- (.+): begin -->', page):
        text = '\n'.join(lists[name] or ['None.']).strip('\n')
        page = re.sub(rf'(<!-- {name}: begin -->\n).*?(<!-- {name}: end -->)', lambda m: m[1] + text + '\n' + m[2], page, flags=re.S)
    with open(PAGE, 'w', encoding='utf-8') as file: file.write(page)
    print(', '.join(f'{k} {len(v)}' for k, v in sorted(lists.items())), f'gone {len(gone)}')
    for it in missing: print('gone, and in no table:', it)
    return 1 if missing else 0

if __name__ == '__main__':
    sys.exit(main())
