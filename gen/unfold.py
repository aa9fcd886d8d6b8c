"""Writes Unfold.antt of crate rules: one name that unfolds all definitions, for proofs by computation."""
import re
from pathlib import Path

CRATES = Path(__file__).resolve().parent.parent / 'crates'
FILE = CRATES / 'rules/specs/Unfold.antt'

# folder: its files with definitions
FILES = {
    'lists/specs': 'Tests Search Tables Totals',
    'rules/specs': '''
        Shape State Ranges Memory Draws Levels Jobs Blocks Open Request Reader Rebuild Turn Completion Collect
        Form/Numbers Form/Sums Form/Payload Form/Longest Form/Reading Form/Loading Questions Run Figures''',
}

HEAD = '''-- One name under which all definitions unfold: a proof by computation says `unfolding model`. Written by gen/unfold.py.
use Rattle.std.specs.Prelude.{List, [], ◌∷◌, ◌++◌, ℕ, replicate}
'''

TAIL = '''use Rattle.rules.specs.Shape.{Shape}
use Rattle.rules.specs.State.{Command, Found, found_nowhere}
use Rattle.rules.specs.Questions.{Ask, Call}
use Rattle.rules.specs.Run.{Outcome}

unfoldable pub model : Unit {0}
unfolding %s
model = tt

-- short forms, for sessions and the table of edges
abbrev pub shape : ℕ → ℕ → ℕ → ℕ → ℕ → ℕ → Shape
shape n p l b e w = record { N = n; P = p; L = l; B = b; E = e; W = w }

abbrev pub call : Ask → ℕ → List ℕ → ℕ → Call
call a m ws n = record { ask = a; memory = m; words = ws; buffer = n }

abbrev pub out : ℕ → ℕ → Command → List ℕ → Outcome
out n k c bs = record { number = n; taken = k; command = c; bytes = bs; found = found_nowhere }

-- n zeros in front of a list
abbrev pub zeros_then : ℕ → List ℕ → List ℕ
zeros_then n xs = replicate n 0 ++ xs

abbrev pub out_found : ℕ → ℕ → Command → List ℕ → Found → Outcome
out_found n k c bs x = record { number = n; taken = k; command = c; bytes = bs; found = x }
'''

text, names = HEAD, []
for folder, files in FILES.items():
    for file in files.split():
        source = (CRATES / folder / f'{file}.antt').read_text(encoding='utf-8')
        found = re.findall(r'^\s*unfoldable pub (\S+) :', source, re.M)
        if found:
            module = f'{folder}/{file}'.replace('/', '.')
            text += f'use Rattle.{module}.{{{", ".join(found)}}}\n'
            names += found
text += TAIL % ' '.join(names)
FILE.write_text(text, encoding='utf-8')
