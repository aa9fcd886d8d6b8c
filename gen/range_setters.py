"""Writes RangeSetters.antt of crate rules: a state with one field changed is in range if the new field is."""
from pathlib import Path

TOP = Path(__file__).resolve().parent.parent
FILE = TOP / 'crates/rules/proofs/Laws/RangeSetters.antt'

# the fields of InRange
FACTS = 'shape partitions places counters orders marks holds waiting queue outstanding begun cursor sent free request jobs cache'.split()

# what is said of each slot of the shape, x being the new table
EACH_SLOT = '(q ℓ i : ℕ) → q < s.shape.P → ℓ < s.shape.L → i < slots ℓ → x (cell s.shape q ℓ i)'

# setter: the type of the new field x, and those facts that speak of the field, said of x; all others stay
SETTERS = {
    'partition': ('ℕ → ℕ', {
        'partitions': '(b : ℕ) → b < s.shape.N → x b < s.shape.P',
    }),
    'place': ('ℕ → Place', {
        'places': '(b : ℕ) → b < s.shape.N → PlaceIn s.shape.L (x b)',
    }),
    'bytes': ('ℕ → List ℕ', {}),
    'counter': ('ℕ → ℕ', {
        'counters': '(q : ℕ) → q < s.shape.P → x q < 2 ^ s.shape.L',
    }),
    'order': ('ℕ → ℕ', {
        'orders': EACH_SLOT + ' < slots ℓ',
    }),
    'mark': ('ℕ → ℕ', {
        'marks': EACH_SLOT + ' ≤ 1',
    }),
    'holds': ('ℕ → ℕ', {
        'holds': EACH_SLOT + ' ≤ s.shape.N',
    }),
    'waiting': ('List ℕ', {
        'waiting': 'All (λ b. b < s.shape.N) x',
        'cache': 'Waits s.shape.E x s.request',
    }),
    'queue': ('List ℕ', {
        'queue': 'All (λ q. q < s.shape.P) x',
        'jobs': 'JobsIn x s.request',
    }),
    'begun': ('ℕ', {
        'begun': 'x ≤ 64',
    }),
    'cursor': ('ℕ', {
        'cursor': 'x ≤ slots s.shape.L - 2',
    }),
    'sent': ('ℕ', {
        'sent': 'x ≤ slots s.shape.L - 2',
    }),
    'outstanding': ('List Command', {
        'outstanding': 'All (CommandIn s.shape) x',
        'free': 'length x ≤ s.shape.W',
    }),
    'request': ('Option Request', {
        'request': 'IfSome (RequestIn s.shape) x',
        'jobs': 'JobsIn s.queue x',
        'cache': 'Waits s.shape.E s.waiting x',
    }),
}

HEAD = '''-- A state with one field changed is in range if the new field is. WRITTEN BY gen/range_setters.py.
use Rattle.std.specs.Prelude.{List, ℕ, ◌-◌, ◌^◌, ◌≤◌, ◌<◌, length}
use Rattle.std.proofs.Math.Option.{Option}
use Rattle.rules.specs.Shape.{cell, slots}
use Rattle.rules.specs.State.{State, Command, Place, Request}
use Rattle.rules.specs.Setters.{%s}
use Rattle.lists.specs.All.{All, IfSome}
use Rattle.rules.specs.Laws.Waiting.{Waits}
use Rattle.rules.specs.Laws.Range.{PlaceIn, CommandIn, RequestIn, JobsIn, InRange}

module _ (s : State) (f : InRange s) where
''' % ', '.join('set_' + name for name in SETTERS)


def law(name, kind, new):
    premises = ''.join(f'({fact}) → ' for fact in new.values())
    proofs = dict(zip(new, 'abc'))
    arguments = ' '.join(['x', *proofs.values()])
    values = '; '.join(f'{fact} = ' + proofs.get(fact, 'f.' + fact) for fact in FACTS)
    return f'''  pub in_{name} : (x : {kind}) → {premises}InRange (set_{name} x s)
  in_{name} {arguments} = record {{ {values} }}
'''


text = HEAD + '\n'.join(law(name, kind, new) for name, (kind, new) in SETTERS.items())
FILE.write_text(text, encoding='utf-8')
