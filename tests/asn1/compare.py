#!/usr/bin/env python3
"""Compares the type table with the types that an ASN.1 compiler read from the module LteV2x.asn.

Use: compare.py DUMP     compares crates/types/specs/Rows.antt with DUMP (its format stands at its
                         top; tests/asn1/run makes it), and DUMP with the stored types.txt
     compare.py --list   prints every type with its section and its row, for docs/TYPES.md

Each difference is a line; the last line is 'N compared, M differ'. The exit status is 1 if
anything differs or isn't understood.
"""
import difflib
import re
import sys
from pathlib import Path

HERE = Path(__file__).resolve().parent
SPECS = HERE.parent.parent / 'crates' / 'types' / 'specs'
KINDS = ['integer', 'enumerated', 'sequence', 'choice', 'list', 'component']
# by type number (document 01, "The type table")
NAMED = ['MessageFrame', 'Description', 'PositionOffsetLLV']


def text_of(path):
    return path.read_text(encoding='utf-8')


# ---- the table: the rows are worked out by the definitions of Row.antt, so that these are held against the module too

WORD = re.compile(r'[()-]|\.?[A-Za-z_]+|\d+')


def value_of(expression, names):
    """A number, a name, a field of a row, a subtraction, or a name applied to what follows it."""
    words = WORD.findall(expression)
    if ''.join(words) != re.sub(r'\s', '', expression):
        raise ValueError(expression)

    def whole():
        value = applied()
        while words and words[0] == '-':
            words.pop(0)
            value = max(0, value - applied())  # these are natural numbers
        return value

    def applied():
        value, arguments = single(), []
        while words and words[0] not in (')', '-'):
            arguments.append(single())
        return value(*arguments) if arguments else value

    def single():
        word = words.pop(0)
        if word == '(':
            value = whole()
            if words.pop(0) != ')':
                raise ValueError(expression)
        else:
            value = int(word) if word.isdigit() else names[word]
        while words and words[0].startswith('.'):
            value = value[words.pop(0)[1:]]
        return value

    value = whole()
    if words:
        raise ValueError(expression)
    return value


def words_of_rows():
    """What the words of a row mean, from Row.antt: functions that give its six numbers."""
    kinds = {name: int(number) for name, number in re.findall(r'^(\w+) = (\d+)$', text_of(SPECS / 'Kinds.antt'), re.M)}
    known = {'pos': lambda n: n, 'minus': lambda n: -n, 'kinds': kinds}

    def defined(parameters, fields):
        def row(*arguments):
            if len(arguments) != len(parameters):
                raise ValueError(arguments)
            inside = dict(zip(parameters, arguments), **known)
            return {name: value_of(expression, inside) for name, expression in fields}
        return row

    names = dict(known)
    for word, parameters, body in re.findall(r'^(\w+)((?: \w+)*) = record \{(.*?)\}', text_of(SPECS / 'Row.antt'), re.M | re.S):
        fields = [tuple(side.strip() for side in part.split('=')) for part in body.split(';') if part.strip()]
        names[word] = defined(parameters.split(), fields)
    return names


# a line of the table: name, row, name of the type that it refers to; as comments its number, and its section unless it's a component
LINE = re.compile(r'\s+"(?P<name>[^"]+)" is (?P<row>[^"]+?)(?: of "(?P<refers>[^"]+)")? ∷\s+-- (?P<place>\d+)(?:, (?P<section>5\.2\.[0-9.]+|X\.691, \d+))?')


def read_table():
    """Every row: its six numbers, and what its line says beside them."""
    names, table, inside = words_of_rows(), [], False
    for number, line in enumerate(text_of(SPECS / 'Rows.antt').split('\n'), 1):
        try:
            if line == 'table =':
                inside = True
            elif inside and line.strip() == '[]':
                return table
            elif inside and line.strip():
                said = LINE.fullmatch(line).groupdict()
                row = value_of(said.pop('row'), names)
                if (row['kind'] == 5) != (said['section'] is None):
                    raise ValueError(line)
                table.append(dict(row, said=said))
        except (AttributeError, KeyError, TypeError, ValueError, IndexError):
            sys.exit(f'Rows.antt, line {number}: not understood: {line.strip()}')
    sys.exit('Rows.antt: the table has no end')


def read_named(table):
    """The names of the types that have a type number, in that order."""
    line = re.search(r'^named = (.*) ∷ \[\]$', text_of(SPECS / 'Named.antt'), re.M)
    return [table[int(part)]['said']['name'] for part in line.group(1).split(' ∷ ')]


# ---- the module

def read_types(path):
    """The types of a dump by name; each has its kind, its numbers, and its parts in order."""
    types = {}
    for number, line in enumerate(text_of(path).split('\n'), 1):
        words = line.split()
        try:
            if not words or line.startswith('#'):
                continue
            if line.startswith('  '):
                parts.append(words[1:])
                continue
            kind, name, parts = words[0], words[1], []
            if kind not in KINDS or name in types:
                raise ValueError(name)
            types[name] = {'kind': kind, 'mark': 0, 'parts': parts, 'size': 0}
            if kind == 'integer':
                types[name]['lowest'], types[name]['highest'] = map(int, words[2:])
            else:
                types[name]['mark'] = ['closed', 'extensible'].index(words[2])
                if kind == 'list':
                    types[name].update(lowest=int(words[3]), highest=int(words[4]), item=words[5])
                else:
                    types[name]['size'] = int(words[3])
        except (NameError, ValueError, IndexError):
            sys.exit(f'{path.name}, line {number}: not understood: {line}')
    for name, entry in types.items():
        if len(entry['parts']) != entry['size']:
            sys.exit(f'{path.name}: {name} says {entry["size"]} parts and has {len(entry["parts"])}')
    return types


def read_sections():
    """The section of each type, from the comment before it: only there does the module tell it."""
    found = re.findall(r'^-- (5\.2\.[0-9.]+) \S+, line \d+\n([A-Z][A-Za-z0-9-]*) ::=', text_of(HERE / 'LteV2x.asn'), re.M)
    return {name: section for section, name in found}


# ---- the comparison

class Comparison:
    def __init__(self):
        self.counts, self.differences = {}, 0

    def same(self, sort, place, table, module):
        """Counts one comparison of a sort; prints a line where the two sides differ."""
        self.counts[sort] = self.counts.get(sort, 0) + 1
        if table != module:
            self.differences += 1
            print(f'DIFFERENT {place}: {sort}: {table}, wanted {module}')
        return table == module

    def finish(self):
        for sort, count in self.counts.items():
            print(f'{count:5} {sort}')
        print(f'{sum(self.counts.values())} compared, {self.differences} differ')
        return 1 if self.differences else 0


# the table's name for a type that stands inside another without a name of its own; the dump has the component's name for it
INSIDE = 'type of '


def name_of(row):
    """The name that the dump has for the type in a row."""
    return row['said']['name'].removeprefix(INSIDE)


def name_at(table, row):
    """The name of the type in a row; None where that row is a component or doesn't exist."""
    return name_of(table[row]) if row < len(table) and table[row]['kind'] != 5 else None


def refers_to(row):
    """The name that the line of a row says for the type that the row refers to; None where it says none."""
    said = row['said']['refers']
    return said and said.removeprefix(INSIDE)


def parts_of(row):
    """The rows of its components or alternatives."""
    if row['kind'] == 2:
        return range(row['first'], row['first'] + row['count'])
    if row['kind'] == 3:
        return range(row['first'], row['first'] + row['highest'] - row['lowest'] + 1)
    return range(0)


def compare_type(check, table, row, place, entry):
    if not check('kind', place, KINDS[row['kind']], entry['kind']):
        return
    check('extension mark', place, row['mark'], entry['mark'])
    item = name_at(table, row['first']) if entry['kind'] == 'list' else None
    check("name of a list's item", place, refers_to(row), item)
    if entry['kind'] == 'integer':
        check('lowest value', place, row['lowest'], entry['lowest'])
        check('highest value', place, row['highest'], entry['highest'])
    elif entry['kind'] == 'enumerated':
        check('lowest index', place, row['lowest'], 0)
        check('number of enumeration items', place, row['highest'] + 1, len(entry['parts']))
    elif entry['kind'] == 'list':
        check('least size', place, row['lowest'], entry['lowest'])
        check('most size', place, row['highest'], entry['highest'])
        check("type of a list's item", place, item, entry['item'])
    else:
        check('number of components', place, len(parts_of(row)), len(entry['parts']))
        for number, wanted in zip(parts_of(row), entry['parts']):
            compare_part(check, table, number, name_of(row), wanted, entry['kind'])


def compare_part(check, table, number, parent, wanted, kind):
    """A component or alternative: in the dump its name, its type, and of a component whether it's optional."""
    place = f'row {number}, {parent}.{wanted[0]}'
    part = table[number] if number < len(table) else None
    if not check('row of a component', place, part and KINDS[part['kind']], 'component'):
        return
    said = part['said']
    check('name of a component, in order', place, said['name'], f'{parent}.{wanted[0]}')
    check('type of a component', place, name_at(table, part['first']), wanted[1])
    check("name of a component's type", place, refers_to(part), name_at(table, part['first']))
    check('OPTIONAL', place, part['mark'], int(kind == 'sequence' and wanted[2] == 'optional'))


def compare(path):
    comparison = Comparison()
    check = comparison.same
    table = read_table()
    named = read_named(table)
    types = read_types(path)
    sections = read_sections()
    rows = [(number, row) for number, row in enumerate(table) if row['kind'] != 5]

    for number, row in enumerate(table):
        check("row number in a row's comment", f'row {number}', int(row['said']['place']), number)
    all_names = [row['said']['name'] for row in table]
    for number, name in enumerate(all_names):
        check('rows of this name', f'row {number}, {name}', all_names.count(name), 1)

    for name in types:
        found = sum(name_of(row) == name for _, row in rows)
        check('type of the module, rows in the table', name, found, 1)
    for number, row in rows:
        name = name_of(row)
        place = f'row {number}, {name}'
        if check('type of the table, in the module', place, name in types, True):
            compare_type(check, table, row, place, types[name])
            check('type without a name of its own', place, row['said']['name'].startswith(INSIDE), '.' in name)
        # a type without a name of its own stands in the section of its parent
        if not row['said']['section'].startswith('X.691'):
            check('section', place, row['said']['section'], sections.get(name.split('.')[0]))

    owners = [number for _, row in rows for number in parts_of(row)]
    for number, row in enumerate(table):
        if row['kind'] == 5:
            check('sequences and choices that a component belongs to', f'row {number}', owners.count(number), 1)

    check('types with a type number, in order', 'Named.antt', named, NAMED)

    # the table shall hold what the frame reaches, and nothing else
    reached, left = set(), ['MessageFrame']
    while left:
        name = left.pop()
        if name in types and name not in reached:
            reached.add(name)
            entry = types[name]
            if entry['kind'] == 'list':
                left.append(entry['item'])
            elif entry['kind'] in ('sequence', 'choice'):
                left += [part[1] for part in entry['parts']]
    for name in types:
        check('type that MessageFrame reaches', name, name in reached, True)

    stored = HERE / 'types.txt'
    old = text_of(stored).splitlines() if stored.exists() else []
    new = text_of(path).splitlines()
    if not check('stored copy types.txt, equal to what the compiler understood', 'types.txt', old == new, True):
        print('\n'.join(difflib.unified_diff(old, new, 'types.txt', 'the compiler', lineterm='', n=0)))
    return comparison.finish()


# ---- the list for docs/TYPES.md

def list_types():
    table = read_table()

    def order(entry):
        # by section; in a section the type itself, then the types inside it
        number, said = entry
        digits = [int(part) for part in re.findall(r'\d+', said['section'])]
        return said['section'].startswith('X'), digits, said['name'].startswith(INSIDE), number

    entries = [(number, row['said']) for number, row in enumerate(table) if row['kind'] != 5]
    print('## Every type, its section and its row\n')
    print('In the order of the sections of source 000. A type that stands inside another without a name of its own is called '
          '"type of" and the name of the component. The last three are the items of strings; they come from X.691. '
          'Made by `tests/asn1/compare.py --list` from the table.\n')
    print('| Type | Section | Row |\n|---|---|---|')
    for number, said in sorted(entries, key=order):
        print(f'| {said["name"]} | {said["section"]} | {number} |')
    return 0


def main(arguments):
    if arguments == ['--list']:
        return list_types()
    if len(arguments) == 1:
        return compare(Path(arguments[0]))
    sys.exit(__doc__)


if __name__ == '__main__':
    sys.exit(main(sys.argv[1:]))
