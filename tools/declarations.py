"""The declarations of specs/ and proofs/, read from a commit or from the folder, for the scripts that set two of these side by side.

All goes by text: a declaration's statement is what stands between its name and its first equation, with the parameters of the modules around it; white
space, comments and `pub` count for nothing."""
import collections, io, os, re, subprocess, tarfile
WORDS = {'pub', 'abbrev', 'unfoldable', 'opaque', 'private'}
WANTED = re.compile(r'crates/[^/]+/(specs/.*\.antt|proofs/.*\.antt|must-fail/.*\.edit)$')

def of_commit(commit):
    data = subprocess.run(['git', 'archive', commit, 'crates'], capture_output=True, check=True).stdout
    with tarfile.open(fileobj=io.BytesIO(data)) as t:
        return {m.name: t.extractfile(m).read().decode() for m in t if m.isfile() and WANTED.match(m.name)}

def of_folder():
    names = [os.path.join(at, f) for at, _, fs in os.walk('crates') if 'out' not in at.split('/') for f in fs]
    return {n: open(n, encoding='utf-8').read() for n in names if WANTED.match(n)}

def items(lines):
    """Groups lines by the least indent; a closing bracket belongs to what it closes."""
    out, base = [], min((i for i, _ in lines), default=0)
    for i, t in lines:
        if (i == base and t[0] not in '})]') or not out: out.append([])
        out[-1].append((i, t))
    return out

def outside(s):
    """The places of the first ':' and the first '=' outside brackets."""
    deep, colon, equal = 0, None, None
    for m in re.finditer(r'[(\[{]|[)\]}]|[^\s(){}\[\]]+', s):
        if m[0] in '([{': deep += 1
        elif m[0] in ')]}': deep -= 1
        elif not deep and m[0] == ':' and colon is None and equal is None: colon = m.start()
        elif not deep and m[0] == '=' and equal is None: equal = m.start()
    return colon, equal

def plain(s): return re.sub(r'\s+', ' ', re.sub(r"Iff[·.]rfl(?![\w'-])", 'rfl', s)).strip()

def declarations(text):
    lines = [re.sub(r'(^|\s)--.*', '', l).rstrip() for l in text.split('\n')]
    out = []
    def go(lines, around):
        cur = None
        for it in items(lines):
            head, whole = it[0][1], ' '.join(t for _, t in it)
            w = head.split()
            if re.match(r'(pub )?module\s', head):
                k = next(n for n, (_, t) in enumerate(it) if t.endswith('where'))
                cur = go(it[k + 1:], around + (plain(' '.join(t for _, t in it[:k + 1])),))
            elif re.match(r'(pub )?(use|mod|open|infix[lr]?)\s', head): cur = None
            else:
                words = [w.pop(0) for _ in list(w) if w[0] in WORDS]
                colon, _ = outside(whole)
                if w[0] in ('record', 'data') or (colon is not None and w[0] != 'unfolding'):
                    said = whole.split(' ', len(words))[-1]
                    name = re.match(r'[^\s:({]+', w[1] if w[0] in ('record', 'data') else said)[0]
                    parts = [m[1] for _, t in it[1:] if (m := re.match(r'(?:pub )?([^\s:(){}]+)\s+:', t))] if w[0] in ('record', 'data') else []
                    cur = {'name': name, 'parts': parts, 'defines': bool(parts or {'abbrev', 'unfoldable'} & set(words)), 'says': (around, re.sub(r'\bpub ', '', plain(said))), 'by': ''}
                    out.append(cur)
                elif cur: cur['by'] = plain(cur['by'] + '\n' + whole) if not cur['by'] else cur['by'] + ' ; ' + plain(whole)
    go([(len(l) - len(l.lstrip()), l.strip()) for l in lines if l.strip()], ())
    return out

def all_of(tree, folders):
    out = collections.defaultdict(list)
    for p in sorted(tree):
        c, folder = p.split('/')[1:3]
        of_function = re.search(r'/(Answers|Invariants|Proof)\.antt$', p) and folder == 'proofs' and os.path.dirname(p) + '.antt' not in tree
        if folder in folders and p.endswith('.antt') and not of_function:
            for d in declarations(tree[p]): out[c, d['name']].append(d | {'file': p})
    return out
