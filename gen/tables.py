"""Writes Tables.antt of crate memory: the tables that lie in the lent memory, by name and as one record."""
from pathlib import Path

TOP = Path(__file__).resolve().parent.parent
FILE = TOP / 'crates/memory/specs/Tables.antt'

# name, in the order in which they lie: how many entries it has, what they are below as they are read, and what an entry is
TABLES = {
    'queue': ('64', 'h.P', 'partitions of the jobs, front first'),
    'kinds': ('32', '65536', 'partition and kind of the outstanding commands'),
    'spots': ('32', '65536', 'level and slot of the outstanding commands'),
    'counter': ('64', '2 ^ h.L', 'of a partition'),
    'partition': ('h.N', 'h.P', 'of a block'),
    'place': ('h.N', 'slots h.L', 'of a block'),
    'waiting': ('h.N', 'h.N', 'the waiting blocks, longest waiting first'),
    'order': ('cells h', '65536', "slot of an item, by the item's cell"),
    'holds': ('cells h', 'h.N + 1', "block in a slot, by the slot's cell"),
    'mark': ('cells h', '2', 'whether a slot is unread, by its cell'),
}

# the fields of Tables, with their types
FIELDS = {name: 'ℕ → ℕ' for name in TABLES} | {'blocks': 'ℕ → List ℕ', 'tail': 'List ℕ'}

HEAD = f'''-- The tables that lie in the lent memory, one after the other, then the blocks; what is past them is the tail. Written by gen/tables.py.
use Rattle.std.specs.Prelude.{{◌≡◌, refl, List, [], ◌∷◌, ℕ, ◌+◌, ◌^◌, eqb, drop, if◌then◌else◌}}
use Rattle.rules.specs.Shape.{{Shape, slots}}
use Rattle.rules.specs.Memory.{{needed}}
use Rattle.memory.specs.Words.{{window}}
use Rattle.memory.specs.Blocks.{{cells, block_table}}
use Rattle.memory.specs.Layout.{{starts_at, size_at}}
use Rattle.memory.specs.declared.tables.Table.{{Table}}
use Rattle.memory.specs.declared.tables.Table.TheVariants.{{{', '.join(name.capitalize() for name in TABLES)}}}
'''

# what is the same whatever the tables are
LAYOUT = '''-- where a table starts, and how many entries it has, in numbers of two bytes
abbrev pub start_of : Shape → Table → ℕ
start_of h t = starts_at 0 (index t) (sizes h)

abbrev pub size_of : Shape → Table → ℕ
size_of h t = size_at (index t) (sizes h)
'''

CHANGED = '''-- the tables of the memory
unfoldable pub tables_of : Shape → List ℕ → Tables
tables_of h m = tables_by (λ t. window (start_of h t) (size_of h t) m) (block_table h m) (drop (needed h) m)

-- x where it stands for table t, y where it stands for another
abbrev pub pick : Table → Table → (ℕ → ℕ) → (ℕ → ℕ) → ℕ → ℕ
pick t u x y = if eqb (index t) (index u) then x else y

-- the tables with table t changed
abbrev pub with_table : Table → (ℕ → ℕ) → Tables → Tables
with_table t x y = tables_by (λ u. pick t u x (table_at u y)) y.blocks y.tail
'''


def variant(name):
    """the table as the code names it"""
    return name.capitalize()


def by_table(name, kind, case):
    """a definition by cases: case(table) is what stands for the table"""
    return f'{name} : {kind}\n' + ''.join(case(table) + '\n' for table in TABLES)


def record():
    entries = ''.join(f'  pub {name} : {FIELDS[name]}  -- {what}\n' for name, (_, _, what) in TABLES.items())
    return f'''pub record Tables : Type 0 where
{entries}  pub blocks : {FIELDS['blocks']}  -- contents of a block; entry N has those of a request in hand
  pub tail : {FIELDS['tail']}
'''


def tables_by():
    entries = ''.join(f'  {name} = f {variant(name)};\n' for name in TABLES)
    return f'''abbrev pub tables_by : (Table → ℕ → ℕ) → (ℕ → List ℕ) → List ℕ → Tables
tables_by f b l = record {{
{entries}  blocks = b;
  tail = l;
}}
'''


def changed(field, kind):
    setter = 'with_' + field
    argument = f'({kind})' if '→' in kind else kind
    values = '; '.join(f'{other} = x' if other == field else f'{other} = t.{other}' for other in FIELDS)
    return f'''abbrev pub {setter} : {argument} → Tables → Tables
{setter} x t = record {{ {values} }}
'''


def start(name):
    return f'''abbrev pub {name}_at : Shape → ℕ
{name}_at h = start_of h {variant(name)}
'''


def titled(title, parts):
    """declarations with a blank line between them, below a comment"""
    return title + '\n' + '\n'.join(parts)


places = {name: place for place, name in enumerate(TABLES)}
text = '\n'.join([
    HEAD,
    titled('-- the sizes of the tables, in the order in which they lie, and the place of a table in that order', [
        f'abbrev pub sizes : Shape → List ℕ\nsizes h = {" ∷ ".join(size for size, _, _ in TABLES.values())} ∷ []\n',
        by_table('abbrev pub index', 'Table → ℕ', lambda name: f'index {variant(name)} = {places[name]}'),
    ]),
    LAYOUT,
    titled('-- what the entries of a table are below: one that is not reads as 0. Where a number has two values, or the bound is that of a level, it is what each\n-- number of two bytes is below', [
        by_table('abbrev pub bound_of', 'Shape → Table → ℕ', lambda name: f'bound_of h {variant(name)} = {TABLES[name][1]}'),
    ]),
    record(),
    titled('-- all tables at once, and one of them', [
        tables_by(),
        by_table('abbrev pub table_at', 'Table → Tables → ℕ → ℕ', lambda name: f'table_at {variant(name)} x = x.{name}'),
        by_table('pub table-by', '(f : Table → ℕ → ℕ) (b : ℕ → List ℕ) (l : List ℕ) (t : Table) → table_at t (tables_by f b l) ≡ f t',
                 lambda name: f'table-by f b l {variant(name)} = refl'),
    ]),
    CHANGED,
    titled('-- a table changed to what it is', [
        by_table('pub table-own', '(t : Table) (x : Tables) → with_table t (table_at t x) x ≡ x', lambda name: f'table-own {variant(name)} x = refl'),
    ]),
    titled('-- where each table starts, and the tables with one of them changed, by its own name', [
        *(start(name) for name in TABLES),
        *(changed(*field) for field in FIELDS.items()),
    ]),
])
FILE.write_text(text, encoding='utf-8')
