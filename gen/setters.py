"""Writes Setters.antt of crate rules: one setter for each field of a state, since antt has no record update."""
from pathlib import Path

TOP = Path(__file__).resolve().parent.parent
FILE = TOP / 'crates/rules/specs/Setters.antt'

FIELDS = {
    'shape': 'Shape',
    'partition': 'ℕ → ℕ',
    'place': 'ℕ → Place',
    'bytes': 'ℕ → List ℕ',
    'waiting': 'List ℕ',
    'counter': 'ℕ → ℕ',
    'order': 'ℕ → ℕ',
    'mark': 'ℕ → ℕ',
    'holds': 'ℕ → ℕ',
    'queue': 'List ℕ',
    'begun': 'ℕ',
    'cursor': 'ℕ',
    'sent': 'ℕ',
    'outstanding': 'List Command',
    'request': 'Option Request',
}

HEAD = '''-- A state with one field changed. WRITTEN BY gen/setters.py: antt has no record update.
use Rattle.std.specs.Prelude.{List, ℕ}
use Rattle.std.proofs.Math.Option.{Option}
use Rattle.rules.specs.Shape.{Shape}
use Rattle.rules.specs.State.{Command, Place, Request, State}

infixl 5 ◌▷◌
-- `s ▷ f ▷ g` is s, then f, then g
abbrev pub ◌▷◌ : State → (State → State) → State
s ▷ f = f s
'''


def setter(field, kind):
    name = 'set_' + field
    argument = f'({kind})' if '→' in kind else kind
    values = '; '.join(f'{other} = x' if other == field else f'{other} = s.{other}' for other in FIELDS)
    return f'''
abbrev pub {name} : {argument} → State → State
{name} x s = record {{ {values} }}
'''


text = HEAD + ''.join(setter(field, kind) for field, kind in FIELDS.items())
FILE.write_text(text, encoding='utf-8')
