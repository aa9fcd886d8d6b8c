"""A copy of some crates in which texts are changed and checked; the repository itself stays as it is."""
import re, shutil, subprocess, sys, tempfile
from pathlib import Path

TOP = Path(__file__).resolve().parent.parent
PARTS = 'specs', 'proofs'  # of a crate; a theorem stands in either
FOLLOWS = re.compile(r'(`[^`]*`: )?`[^`]*` was not admitted|\d+ declarations? that depends? on |.*cannot be unfolded because')
SLIP = re.compile(r'.*(is not in scope|can be named from here|parse error|unexpected|expected the end|cannot continue)')


def listed(top):
    """of each crate in crates.txt: what stands before the colon, and the libraries that it uses"""
    found = {}
    for line in (top / 'crates.txt').read_text(encoding='utf-8').splitlines():
        head, _, libraries = line.partition('#')[0].partition(':')
        if head.split():
            found[head.split()[0]] = head, libraries.split()
    return found


class Copy:
    """crates of this repository in a folder of its own, lowest first"""

    def __init__(self, crates, source=TOP):
        self.crates, self.source, self.room = crates, source, tempfile.TemporaryDirectory(prefix='copy-of-crates-')
        self.edited = {}  # the file of a module in which a text was changed last
        self.top = Path(self.room.name)
        (self.top / '.git').mkdir()
        (self.top / 'crates').mkdir()
        lines = [f'{head}: {" ".join(it for it in uses if it in crates)}\n' for crate, (head, uses) in listed(source).items() if crate in crates]
        (self.top / 'crates.txt').write_text(''.join(lines), encoding='utf-8')
        self.fresh()

    def folder(self, crate):
        return self.top / 'crates' / crate

    def fresh(self, crates=None):
        """takes the files of these crates, or of all, anew; what checks left in out/ stays"""
        for crate in crates or self.crates:
            for part in ('src', *PARTS):
                to, source = self.folder(crate) / part, self.source / 'crates' / crate / part
                shutil.rmtree(to, ignore_errors=True)
                if source.is_dir():
                    shutil.copytree(source, to)

    def rt(self, verb, crate):
        """runs a command of rt in a crate's folder"""
        how = {'stdin': subprocess.DEVNULL, 'stdout': subprocess.PIPE, 'stderr': subprocess.STDOUT, 'text': True, 'errors': 'replace'}
        return subprocess.run(['rt', verb], cwd=self.folder(crate), **how)

    def files(self, crate):
        """the files with definitions and theorems, and the module of each"""
        for part in PARTS:
            top = self.folder(crate) / part
            for path in sorted(top.rglob('*.antt')):
                yield path, '.'.join(path.relative_to(top).with_suffix('').parts)

    def modules(self, crate):
        return {module for _, module in self.files(crate) if module != 'Lib'}

    def leave_out(self, crate, modules):
        """removes modules, with those inside them, and the lines that declare them"""
        for path, module in list(self.files(crate)):
            if any((module + '.').startswith(out + '.') for out in modules):
                path.unlink()
        for path, module in self.files(crate):
            inside = '' if module == 'Lib' else module + '.'
            text = path.read_text(encoding='utf-8')
            kept = re.sub(r'(?m)^(?:pub )?mod (\w+)\n', lambda m: '' if inside + m[1] in modules else m[0], text)
            if kept != text:
                path.write_text(kept, encoding='utf-8')

    def file(self, crate, module, text):
        """the file of a module, or of any with None, that has this text"""
        found = [path for path, name in self.files(crate) if module in (name, None) and text in path.read_text(encoding='utf-8')]
        if not found:
            sys.exit(f'no file {module or ""} of {crate} has the text\n{text}')
        return found[0]

    def name(self, path):
        """how other modules name a file's module"""
        return 'Rattle.' + '.'.join(path.relative_to(self.top / 'crates').with_suffix('').parts)

    def edit(self, crate, module, old, new):
        """changes a text, which stands there once"""
        path = self.file(crate, module, old)
        text = path.read_text(encoding='utf-8')
        if text.count(old) != 1:
            sys.exit(f'{path.relative_to(self.top)}: {text.count(old)} times: {old}')
        path.write_text(text.replace(old, new), encoding='utf-8')
        self.edited[crate, module] = path

    def bring_in(self, crate, module, source, names):
        """has the file in which a text was changed use these names of a module"""
        path = self.edited[crate, module]
        text = path.read_text(encoding='utf-8')
        line = re.search(r'(?m)^use %s\.\{(.*)\}$' % re.escape(source), text)
        if line:
            have = line[1].split(', ')
            text = text[:line.start(1)] + ', '.join(have + [name for name in names if name not in have]) + text[line.end(1):]
        else:
            first = re.search(r'(?m)^use ', text).start()
            text = text[:first] + 'use %s.{%s}\n' % (source, ', '.join(names)) + text[first:]
        path.write_text(text, encoding='utf-8')

    def check(self):
        """None and nothing if all is proved, else the crate that is refused first, and the file, lemma and text of each of its errors that follow from no other"""
        for crate in self.crates:
            ran = self.rt('check' if crate == self.crates[-1] else 'lib', crate)
            if ran.returncode:
                errors = re.findall(r'(?m)^(?:\./)?((?:specs|proofs)/\S+?):\d+:\d+: error: (.*)', ran.stdout)
                own = [(file, *re.match(r'(?:`([^`]+)`: )?(.*)', text).groups()) for file, text in errors if not FOLLOWS.match(text)]
                return crate, own or [('', '', ran.stdout[-600:])]
        return None, []
