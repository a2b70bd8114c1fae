"""Makes an SVG picture of text, as a terminal shows it: standard input to standard output."""
from __future__ import annotations

import argparse
import sys
from xml.sax.saxutils import escape

from .faults import BadInput, read_text, run_command

WIDE, HIGH, MARGIN = 7.23, 16, 12
FONT = 'font-family="DejaVu Sans Mono, Menlo, Consolas, monospace" font-size="12" fill="#222222"'


def picture(lines: list[str]) -> str:
    width = f'{2 * MARGIN + WIDE * max(map(len, lines)):.0f}'
    height = 2 * MARGIN + HIGH * len(lines)
    rows = ''.join(f'<text x="{MARGIN}" y="{MARGIN + HIGH * i + 12}" xml:space="preserve">{escape(line)}</text>\n'
                   for i, line in enumerate(lines) if line)
    return (f'<svg xmlns="http://www.w3.org/2000/svg" width="{width}" height="{height}" '
            f'viewBox="0 0 {width} {height}">\n'
            '<rect width="100%" height="100%" rx="6" fill="#fbfbf8" stroke="#cccccc"/>\n'
            f'<g {FONT}>\n{rows}</g>\n</svg>\n')


def main() -> None:
    argparse.ArgumentParser('dch-picture', description=__doc__).parse_args()
    lines = read_text('-').rstrip('\n').split('\n')
    if lines == ['']:
        raise BadInput('there is no text')
    sys.stdout.write(picture(lines))


def command() -> None:
    run_command('dch-picture', main)


if __name__ == '__main__':
    command()
