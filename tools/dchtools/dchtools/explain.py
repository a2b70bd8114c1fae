"""Tells in words what a refusal, a line of a report or a status of `dch` says, from the tables of docs/FORMATS.md."""
from __future__ import annotations

import argparse
import re
from collections.abc import Iterator
from pathlib import Path

from .faults import BadInput, read_text, run_command
from .values import End, EndFull, EndPduBad, EndTook, EndWrong, IubBad, Leg, PduBad, Plain, Told, line_of, value_of

HELP = """
Each LINE is explained, or without one each line of standard input:

  dch-explain 'refused 20 bearer=4' 'iubbad down 0 6'
  dch check < config.toml | dch-explain

A number alone is a status of the program. --formats names another page than docs/FORMATS.md of this tree.
"""
Rows = list[list[str]]


class Tables:
    """The tables of the page, by the cells of their first rows and the part in which they stand."""

    def __init__(self, text: str) -> None:
        self.found: list[tuple[str, Rows]] = []
        part, table = '', Rows()
        for line in [*text.split('\n'), '']:
            if line.startswith('#'):
                part = line.lstrip('# ')
            if line.startswith('|'):
                table.append([plain(cell) for cell in re.split(r'(?<!\\)\|', line.strip().strip('|'))])
            elif table:
                self.found.append((part, [row for row in table if not set(''.join(row)) <= set('-')]))
                table = Rows()

    def rows(self, part: str, first: str) -> Rows:
        """The rows of the table of a part whose first cell begins so, without the row of names."""
        for at, table in self.found:
            if at == part and table[0][0].startswith(first):
                return table[1:]
        raise BadInput(f'the page has no table {first!r} under {part!r}')

    def row(self, part: str, first: str, key: str) -> list[str]:
        """The row whose first cell has this key."""
        for row in self.rows(part, first):
            if row[0] == key:
                return row
        raise BadInput(f'the table {first!r} under {part!r} has no row {key!r}')


def plain(cell: str) -> str:
    """A cell without the marks of the page."""
    return re.sub(r'\[([^\]]*)\]\([^)]*\)', r'\1', cell).replace('`', '').strip()


def find_page() -> Path:
    for above in Path(__file__).resolve().parents:
        if (above / 'docs/FORMATS.md').exists():
            return above / 'docs/FORMATS.md'
    raise BadInput('docs/FORMATS.md is not there; name it by --formats')


def explain(tables: Tables, line: str) -> list[str]:
    """What a line says, in one or several sentences without full stops."""
    words = line.split(' ')
    if words[0] == 'refused':
        return refusal(tables, words[1:])
    if words[0] == 'accepted':
        which = 'the second configuration' if 'second' in words else 'the configuration'
        return [f'{which} is accepted', f'{words[-1].partition("=")[2]} code blocks may be punctured']
    if len(words) == 1 and line.isdigit():
        _, happened, written = tables.row('Statuses', 'Status', line)
        return [happened, f'written: {written}']
    return told(tables, value_of(line, lambda bearer: not is_hex(words[-1])))


def is_hex(text: str) -> bool:
    """Whether an SDU is octets. Bits may look so too, and nothing else tells."""
    return len(text) % 2 == 0 and set(text) - set('01') != set()


def refusal(tables: Tables, words: list[str]) -> list[str]:
    number, *rest = words or ['']
    if number == '50':
        fields = dict(word.split('=', 1) for word in rest if '=' in word)
        why = fields.get('why', '')
        _, where, change = tables.row('Refusals of a line', 'W', why)
        return [f'line {fields.get("line", "?")} of the input is malformed ({why})', where, f'to change: {change}']
    for form, wrong, change in tables.rows('Refusals of a configuration', 'Line'):
        if form.split(' ')[:2] == ['refused', number]:
            which = ['of the second configuration'] if rest[:1] == ['second'] else []
            about = [place(word) for word in rest if word not in ('second', '...')]
            return [wrong, *which, *([' '.join(about)] if about else []), f'to change: {change}']
    raise BadInput(f'there is no refusal {number!r}')


def place(word: str) -> str:
    """A word behind the number of a refusal."""
    name, is_pair, value = word.partition('=')
    if not is_pair:
        return {'up': 'uplink', 'down': 'downlink'}.get(word, word)
    return f'{name} {value}'


def told(tables: Tables, it: Told) -> list[str]:
    """What a value of a report says."""
    if isinstance(it, Leg):
        return [f'leg {it.leg}', *told(tables, it.told)]
    if isinstance(it, End):
        return [f'all went well: {it.count} {"radio frames passed" if it.of == "frames" else "lines were read"}']
    found = [tables_text(tables, it), *fields_of(it)]
    if isinstance(it, IubBad):
        _, wrong, change = tables.row('Refusals of an Iub frame', 'N', str(it.number))
        found += [wrong, f'to change: {change}']
    elif isinstance(it, (PduBad, EndPduBad)):
        found.append(tables.row('Lines of a report', 'N of', str(it.number))[1])
    return found


def tables_text(tables: Tables, it: Plain) -> str:
    """The row of a line in the tables of reports."""
    word = line_of(it).split(' ')[0]
    of_pair = hasattr(it, 'end') and not isinstance(it, (EndTook, EndFull, EndWrong))
    for part, table in tables.found:
        if part != 'Lines of a report' or table[0][0] != 'Line':
            continue
        for row in table[1:]:
            forms = [form.strip().split(' ') for form in row[0].split(',')]
            named = [form for form in forms if form[0] == word and ('none' in form) == line_of(it).endswith(' none')]
            if named and ('END' in named[0]) == of_pair:
                return alone(row[1])
    raise BadInput(f'the page tells nothing of {word!r}')


def alone(text: str) -> str:
    """The text of a row as it can be read without the rows around it."""
    text = re.sub(r'[,;] N as (above|below)$', '', text)
    return text.replace("it isn't,", "an SDU isn't accepted,").replace('none is sent:', 'no radio frame is sent:')


def fields_of(it: Plain) -> Iterator[str]:
    """The fields of a value, with their names."""
    for name, value in vars(it).items():
        if name == 'direction':
            yield {'up': 'uplink', 'down': 'downlink'}[value]
        elif isinstance(value, bytes):
            yield f'{len(value)} octet{"s" if len(value) != 1 else ""}'
        elif name in ('bits', 'cells'):
            yield f'{len(value)} bit{"s" if len(value) != 1 else ""}'
        elif name == 'tfci':
            yield f'{len(value)} TFCI bits'
        else:
            yield f'{name} {value}'


def main() -> None:
    words = argparse.ArgumentParser('dch-explain', description=__doc__, epilog=HELP,
                                    formatter_class=argparse.RawDescriptionHelpFormatter)
    words.add_argument('line', metavar='LINE', nargs='*')
    words.add_argument('--formats', metavar='PAGE', type=Path, help='the page with the tables')
    given = words.parse_args()
    tables = Tables(read_text(given.formats or find_page()))
    for line in given.line or read_text('-').rstrip('\n').split('\n'):
        print(f'{line[:60]}{".." if len(line) > 60 else ""}\n  {"; ".join(explain(tables, line))}.')


def command() -> None:
    run_command('dch-explain', main)


if __name__ == '__main__':
    command()
