#!/usr/bin/env python3
"""The places that docs/DESIGN-PASS.md counts, point by point, found in src/ by their form; which of them are places is said there.

usage: tools/design_places.py [--count] [TOP]     each place, or with --count how many of each form"""
import re
import sys
from collections import defaultdict
from pathlib import Path

NUMBER = r'(?:usize|u8|u16|u32|u64)'
FUNCTION = re.compile(r'^[ ]*(?:pub(?:\([a-z]+\))? )?fn (\w+)[^\n]*?(?=\n\s*(?:requires|ensures|\{)|\()', re.M)
KEYWORDS = set('if else while for in let mut return match as break fn true false loop self Self'.split())


def functions(text):
    """of each function: its name, its signature, its clauses, its body"""
    found, lines, k = [], text.splitlines(), 0
    while k < len(lines):
        head = re.match(r'( *)(?:pub(?:\([a-z]+\))? )?fn (\w+)', lines[k])
        if not head:
            k += 1
            continue
        end = next(i for i in range(k, len(lines)) if lines[i] == head[1] + '}')
        whole = lines[k:end + 1]
        start = next((i for i, line in enumerate(whole) if line == head[1] + '{' or (i == 0 and line.endswith('{'))), 0)
        heads = [i for i, line in enumerate(whole[:start or 1]) if re.match(r' *(requires|ensures)', line)]
        clauses = heads[0] if heads else start
        found.append((head[2], ' '.join(' '.join(whole[:clauses or 1]).split()), [line.strip() for line in whole[clauses:start]], whole[start + 1:-1]))
        k = end + 1
    return found


def shape(body):
    """the body with each name and number taken for any other"""
    text = re.sub(r'//[^\n]*', '', '\n'.join(body))
    tokens = re.findall(r"[A-Za-z_]\w*(?:::\w+)*|\d\w*|b'.'|[^\sA-Za-z_0-9]", text)
    return ' '.join(it if it in KEYWORDS or not re.match(r"[A-Za-z_0-9]", it) else 'x' for it in tokens)


def conjuncts(clause):
    """the facts of a requires clause"""
    text = re.sub(r'^requires (\w+ )?\{ | \}$', '', clause)
    depth, part, parts = 0, '', []
    for it in text.split(' × '):
        part = part + ' × ' + it if part else it
        depth = part.count('(') - part.count(')')
        if depth == 0:
            parts.append(part.strip('() ') if part.startswith('(') and part.endswith(')') else part)
            part = ''
    return parts


def places(top):
    found = defaultdict(list)
    shapes, facts, pairs = defaultdict(list), defaultdict(list), defaultdict(list)
    for path in sorted(top.glob('crates/*/src/**/*.rt')):
        text = path.read_text(encoding='utf-8')
        at = str(path.relative_to(top / 'crates')).replace('/src/', '/').removesuffix('.rt')
        for it in re.finditer(r'^(?:pub )?enum (\w+) \{\n(.*?)^\}', text, re.M | re.S):
            found['1 enums'].append(f'{at} {it[1]}: ' + ' '.join(re.findall(r'^    (\w+[^,\n]*),', it[2], re.M)))
        for it in re.finditer(rf'^(?:pub )?const (\w+): {NUMBER} = (\d);', text, re.M):
            found['1 numbers for kinds'].append(f'{at} {it[1]} = {it[2]}')
        for it in re.finditer(rf'^\s*(?:pub )?(kind|number|row|found): {NUMBER}', text, re.M):
            found['1 numbers for kinds'].append(f'{at} {it[0].strip()}')
        for name, head, clauses, body in functions(text):
            me = f'{at}::{name}'
            code = re.sub(r'//[^\n]*', '', '\n'.join(body))
            if re.search(rf'-> {NUMBER}$', head) and re.search(r'return \d+;|=> \d+,|\{\s*\d+\s*\}|^\s*\d+$|return \w+ \+ 1;', code, re.M):
                found['1 a number among the answers'].append(me)
            if re.search(r'\((?:[^()]*, )?(kind|row|number): usize', head):
                found['1 numbers for kinds'].append(f'{me} takes ' + re.search(r'(kind|row|number): usize', head)[1])
            if len(code.strip()) > 0:
                shapes[shape(body)].append(me)
            for _ in re.findall(r'^\s*while .*', code, re.M):
                found['3 while loops'].append(me)
            for it in re.findall(rf'[\w.)\]]+ as {NUMBER}', code):
                found['4 conversions by as'].append(f'{me} {it}')
            if re.fullmatch(r'wide|copy|zeros|is_kind|letter|decode|encode', name):
                found['4 conversions and copies by hand'].append(me)
            for clause in clauses:
                if clause.startswith('requires'):
                    for fact in conjuncts(clause):
                        facts[at.split('/')[0] + ': ' + fact].append(me)
            for it in re.findall(r'(\w+: [^,()]+), (\w+: [^,()]+)', re.sub(r'^[^(]*\(|\)[^)]*$', '', head)):
                pairs[', '.join(it)].append(me)
            if re.search(r'\b(buffer|out|list): &mut \[\w+\], (\w+: &?\w+, )*?(at|k): usize', head):
                found['6 a buffer and a place in it'].append(me)
            for it in re.findall(r'let mut \w+ = \[\d+\w+; \w+\]', code):
                found['6 arrays on the stack'].append(f'{me} {it}')
            for it in re.findall(r'^\s*match (.*) \{', code, re.M):
                found['7 matches'].append(f'{me} match {it}')
    for k, them in shapes.items():
        if len(them) > 1 and len(k.split()) > 12:
            found['2 functions of one shape'].append(' '.join(them))
    for fact, them in sorted(facts.items()):
        if len(them) > 2:
            found['5 facts in three contracts of a crate or more'].append(f'{fact}: {len(them)}')
    for pair, them in sorted(pairs.items(), key=lambda x: -len(x[1])):
        if len(them) > 4:
            found['5 parameters that travel together'].append(f'{pair}: {len(them)}')
    for path in sorted(top.glob('crates/*/proofs/**/Answers.antt')):
        if (path.parent.parent.parent / 'src').exists() or '/proofs/' in str(path):
            for it in re.findall(r'^pub ([^\s:]+) : goal\.', path.read_text(encoding='utf-8'), re.M):
                found['8 answers'].append(f'{path.relative_to(top / "crates")} {it}')
    return found


if __name__ == '__main__':
    arguments = [it for it in sys.argv[1:] if not it.startswith('--')]
    top = Path(arguments[0]) if arguments else Path(__file__).resolve().parent.parent
    for form, them in sorted(places(top).items()):
        print(f'{form}: {len(them)}')
        if '--count' not in sys.argv:
            for it in them:
                print('   ', it)
