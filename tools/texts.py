#!/usr/bin/env python3
"""Writes the texts of kinds, refusals and findings, which stand in texts.txt, into every file that has them.

usage: tools/texts.py [--check]        --check writes nothing, says which files are not as the table has them, and exits 1 if any is not

A file is written whole (crates/wordings), or between a line `tools/texts.py writes PART` and a line `tools/texts.py ends PART`.
"""
import os
import re
import sys

FIELDS = {
    'kinds': ('number', 'name', 'rust', 'what', 'example'),
    'refusals': ('number', 'name', 'what', 'cure', 'example', 'span', 'note'),
    'findings': ('number', 'name', 'c', 'rust', 'what', 'cure', 'note'),
}
MAY_BE_EMPTY = ('c', 'rust', 'example', 'note')
LAST_PRINTED = 19  # a file is refused with no later number
TEMPLATE = 100     # a template's finding has its code and this


class Wrong(Exception):
    pass


class Row:
    def __init__(self, group, fields):
        self.group = group
        self.__dict__.update(fields)
        self.number = int(self.number)

    def c_name(self):
        return getattr(self, 'c', '') or self.name.upper().replace('-', '_')

    def rust_name(self):
        return getattr(self, 'rust', '') or ''.join(word.capitalize() for word in self.name.split('-'))

    def said(self):
        return f'{self.what}; {self.cure}'


# The table.

def row_of(section, group, line, before):
    names = FIELDS[section]
    fields = line.split(' | ')
    if len(fields) != len(names):
        raise Wrong(f'{len(fields)} fields, and a row of {section} has {len(names)}: {" | ".join(names)}')
    if not fields[0].isdigit():
        raise Wrong(f'a row begins with its number, and not with {fields[0]!r}')
    if '=' in fields and before is None:
        raise Wrong('= in the first row of a section: there is no row before it')
    for name, field in zip(names, fields):
        if field in ('', '-') and name not in MAY_BE_EMPTY:
            raise Wrong(f'the field {name} is empty, and every row of {section} has one')
    fields = [getattr(before, name) if field == '=' else field for name, field in zip(names, fields)]
    return Row(group, {name: '' if field == '-' else field for name, field in zip(names, fields)})


def add_line(table, heading, line):
    """Adds a line to the table; answers the section and the group that the next line belongs to."""
    found = re.fullmatch(r'\[(\w+)(?:: (.*))?\]', line)
    if found:
        if found.group(1) not in FIELDS:
            raise Wrong(f'there is no section of this name; there are {", ".join(FIELDS)}')
        return found.groups()
    if line and not line.startswith('#'):
        if heading is None:
            raise Wrong('a row before the first section')
        section, group = heading
        rows = table[section]
        row = row_of(section, group, line, rows[-1] if rows else None)
        if row.number in [other.number for other in rows]:
            raise Wrong(f'a second row for {row.number}')
        rows.append(row)
    return heading


def read_table(lines):
    table = {section: [] for section in FIELDS}
    heading = None
    for place, line in enumerate(lines, 1):
        try:
            heading = add_line(table, heading, line.strip())
        except Wrong as wrong:
            raise Wrong(f'texts.txt:{place}: {wrong}') from None
    for section, rows in table.items():
        if not rows:
            raise Wrong(f'texts.txt: no row of {section}: it begins with a line [{section}]')
    for row in printed(table):
        for text in (row.name, row.what, row.cure):
            if not re.fullmatch(r'[ -~]+', text) or re.search(r'["\\]', text):
                raise Wrong(f'texts.txt, row {row.number}: the program prints {text!r}: write it in ASCII without double quotes and backslashes')
    return table


def printed(table):
    return [row for row in table['refusals'] if row.number <= LAST_PRINTED] + table['findings']


def groups(rows):
    found = {}
    for row in rows:
        found.setdefault(row.group, []).append(row)
    return found.items()


# The program.

def wordings(table):
    rows = ''.join(f'''    Wording {{
        number: {row.number},
        name: "{row.name}",
        what: "{row.what}",
        cure: "{row.cure}",
    }},
''' for row in printed(table))
    return f'''// What the refusals of a source and the findings are called, mean and ask for; 160 and 161 are the findings 60 and 61 of a template.
// Written by tools/texts.py from texts.txt: change that table. Every function is safe and ends; what it puts no contract says.
#![tactic(auto)]

use buffer::Page;

// By number, as the rows of texts.txt are.
#[derive(Clone, Copy)]
struct Wording {{
    number: u32,
    name: &'static str,
    what: &'static str,
    cure: &'static str,
}}

const UNKNOWN: Wording = Wording {{
    number: 0,
    name: "unknown",
    what: "unknown",
    cure: "unknown",
}};

const WORDINGS: [Wording; {len(printed(table))}] = [
{rows}];

fn row_of(number: u32) -> Wording {{
    WORDINGS
        .iter()
        .find(|wording| wording.number == number)
        .copied()
        .unwrap_or(UNKNOWN)
}}

pub fn put_name(out: &mut Page, number: u32) {{
    out.put_bytes(row_of(number).name.as_bytes());
}}

pub fn put_what(out: &mut Page, number: u32) {{
    out.put_bytes(row_of(number).what.as_bytes());
}}

pub fn put_cure(out: &mut Page, number: u32) {{
    out.put_bytes(row_of(number).cure.as_bytes());
}}
'''


# The header.

NO_TEXT = 'a number that this header has no text for; use the puffsatchel.h that stands beside the archive'


def c_string(text):
    return '"' + text.replace('\\', '\\\\').replace('"', '\\"') + '"'


def c_comment(row, text):
    if '/*' in text or '*/' in text:
        raise Wrong(f'texts.txt, row {row.number}: {text!r} stands in a comment of the header, so it cannot have `/*` or `*/`')
    return f'/* {text} */'


def c_enum(prefix, rows, text=lambda row: row.what):
    left = [f'    {prefix}{row.c_name()} = {row.number},' for row in rows]
    width = max(map(len, left))
    return [f'{name:{width}} {c_comment(row, text(row))}' for name, row in zip(left, rows)]


def c_kinds(table):
    return c_enum('PUFFSATCHEL_KIND_', table['kinds'])


def c_refusals(table):
    out = []
    for group, rows in groups(table['refusals']):
        out += ['', f'    /* {group}. */'] + c_enum('PUFFSATCHEL_', rows)
    return out


def c_findings(table):
    rows = [row for row in table['findings'] if row.number < TEMPLATE]
    return c_enum('PUFFSATCHEL_', rows, lambda row: row.what + (row.note and f'; {row.note[0].lower()}{row.note[1:].rstrip(".")}'))


def c_switch(name, parameters, on, cases):
    return [f'static inline const char *{name}({parameters})', '{', f'    switch ({on}) {{'] + cases + [
        f'    default: return {c_string(NO_TEXT)};', '    }', '}']


def c_cases(prefix, rows, text):
    return [f'    case {prefix}{row.c_name()}: return {c_string(text(row))};' for row in rows]


def c_finding_cases(rows):
    templates = {row.number - TEMPLATE: row for row in rows if row.number >= TEMPLATE}
    codes = {}
    for row in rows:
        if row.number < TEMPLATE:
            said = c_string(row.said())
            if row.number in templates:
                said = f"first == '`'\n            ? {c_string(templates[row.number].said())}\n            : {said}"
            codes.setdefault(said, []).append(f'    case PUFFSATCHEL_{row.c_name()}:\n')
    return [''.join(cases) + f'        return {said};' for said, cases in codes.items()]


def c_texts(table):
    return c_switch('puffsatchel_kind_text', 'uint32_t kind', 'kind', c_cases('PUFFSATCHEL_KIND_', table['kinds'], lambda row: row.what)) + [''] + \
        c_switch('puffsatchel_refusal_text', 'uint32_t refusal', 'refusal',
                 ['    case PUFFSATCHEL_ACCEPTED: return "nothing was refused";'] + c_cases('PUFFSATCHEL_', table['refusals'], Row.said)) + [''] + \
        c_switch('puffsatchel_finding_text', 'uint32_t code, uint8_t first', 'code', c_finding_cases(table['findings']))


# The Rust wrapper. Its strings are escaped as C's are.

def rust_kinds(table):
    return [f'    {row.number} [{row.rust_name()}] {c_string(row.what)}' for row in table['kinds']]


def rust_variants(first, last):
    def variants(table):
        out = []
        for row in table['kinds']:
            if first <= row.number <= last and not row.rust:
                out += [f'    /// {row.what}', f'    {row.rust_name()},']
        return out
    return variants


def rust_reasons(table):
    out = []
    for _, rows in groups(table['refusals']):
        out += [''] * bool(out) + [f'    {row.number} {row.rust_name()}: {c_string(row.what)}, {c_string(row.cure)};' for row in rows]
    return out


def rust_codes(table):
    out = []
    # A template's row is the narrower pattern, so it comes first.
    for row in sorted(table['findings'], key=lambda row: row.number < TEMPLATE):
        first = "b'`'" if row.number >= TEMPLATE else '_'
        out.append(f'    {row.number % TEMPLATE} {first} => {row.rust_name()} {c_string(row.name)}: {c_string(row.what)}, {c_string(row.cure)};')
    return out


# The manual.

def cell(text):
    # A bar would end the cell, also between backticks.
    return re.sub(r'`([^`]*\|[^`]*)`', lambda code: '<code>' + code.group(1).replace('|', '&#124;') + '</code>', text)


def sentences(texts, note):
    return ' '.join([text[0].upper() + text[1:] + '.' for text in texts] + [note] * bool(note))


def md_table(heads, rows):
    return ['', f'| {" | ".join(heads)} |', '|---' * len(heads) + '|'] + [f'| {" | ".join(map(cell, row))} |' for row in rows] + ['']


def md_kinds(table):
    named = [row for row in table['kinds'] if row.number <= 16]
    cells = [(str(row.number), row.what + (row.example and f', {row.example}')) for row in named]
    half = len(cells) // 2
    return md_table(('No', 'Kind', 'No', 'Kind'), [left + right for left, right in zip(cells[:half], cells[half:])])


def numbers_of(rows):
    first, last = rows[0].number, rows[-1].number
    return str(first) if first == last else f'{first}{", " if last == first + 1 else " to "}{last}'


def md_operators(table):
    def fives(rows):
        parts = [rows[i:i + 5] for i in range(0, len(rows), 5)]
        return [(numbers_of(part), ' '.join(row.what for row in part)) for part in parts]
    operators = [row for row in table['kinds'] if 17 <= row.number <= 66]
    end = table['kinds'][-1]
    short = fives([row for row in operators if len(row.what) == 3])
    long = fives([row for row in operators if len(row.what) > 3]) + [(str(end.number), f'{end.what}; {end.example}')]
    return md_table(('No', 'One character', 'No', 'Two, three'), [left + right for left, right in zip(short, long)])


def md_refusals(table):
    rows = [(str(row.number), row.name, row.example, row.span, sentences((row.what, row.cure), row.note)) for row in table['refusals']]
    return md_table(('No', 'Name', 'Input', 'Span', 'What it means, what to do'), rows)


def md_findings(table):
    rows = [(str(row.number % TEMPLATE), row.name, sentences((row.what,), row.note), sentences((row.cure,), '')) for row in table['findings']]
    return md_table(('No', 'Name', 'What it means', 'What to do'), sorted(rows, key=lambda row: row[0]))


WHOLE = {'crates/wordings/src/lib.rt': wordings}
PARTS = {
    'include/puffsatchel.h': {'kinds': c_kinds, 'refusals': c_refusals, 'findings': c_findings, 'texts': c_texts},
    'rust/puffsatchel/src/kind.rs': {'operators 17 to 21': rust_variants(17, 21), 'operators 24 to 66': rust_variants(24, 66), 'kinds': rust_kinds},
    'rust/puffsatchel/src/refusal.rs': {'refusals': rust_reasons},
    'rust/puffsatchel/src/code.rs': {'findings': rust_codes},
    'docs/MANUAL.md': {'kinds': md_kinds, 'operators': md_operators, 'refusals': md_refusals, 'findings': md_findings},
}


def with_part(path, text, part, lines):
    place = re.compile(rf'(^[^\n]*tools/texts\.py writes {part}\b[^\n]*\n).*?(^[^\n]*tools/texts\.py ends {part}\b[^\n]*\n)', re.S | re.M)
    if len(place.findall(text)) != 1:
        raise Wrong(f'{path}: no lines `tools/texts.py writes {part}` and `tools/texts.py ends {part}`: put them where it is to stand')
    return place.sub(lambda found: found.group(1) + ''.join(line + '\n' for line in lines) + found.group(2), text)


def wanted(table):
    """Each file with its text as it is and as it should be."""
    for path, write in WHOLE.items():
        yield path, read_file(path), write(table)
    for path, parts in PARTS.items():
        text = now = read_file(path)
        for part, write in parts.items():
            text = with_part(path, text, part, write(table))
        yield path, now, text


def read_file(path):
    with open(path, encoding='utf-8') as file:
        return file.read()


def could_not_run(why):
    print(f'tools/texts.py: {why}', file=sys.stderr)
    sys.exit(2)


def main():
    words = sys.argv[1:]
    if words == ['--help']:
        print(__doc__.strip())
        return
    if words not in ([], ['--check']):
        could_not_run('usage: tools/texts.py [--check]')
    os.chdir(os.path.join(os.path.dirname(os.path.abspath(__file__)), '..'))
    try:
        stale = [(path, text) for path, now, text in wanted(read_table(read_file('texts.txt').split('\n'))) if now != text]
    except Wrong as wrong:
        could_not_run(wrong)
    except OSError as error:
        could_not_run(f'{error.filename}: {error.strerror}')
    for path, text in stale:
        if words:
            print(f'tools/texts.py: {path} is not as texts.txt has it: change the table, and run python3 tools/texts.py', file=sys.stderr)
        else:
            with open(path, 'w', encoding='utf-8') as file:
                file.write(text)
    sys.exit(1 if words and stale else 0)


if __name__ == '__main__':
    main()
