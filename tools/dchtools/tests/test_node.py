"""The program over pipes tells the values of the lines that it writes, on all cases of its commands."""
from __future__ import annotations

import shutil
import unittest

from dchtools import BadInput, Ended, Node, Refused
from dchtools.config import transparency
from dchtools.events import event_of
from dchtools.interface import Teller
from dchtools.node import program_of
from dchtools.values import line_of

from .cases import Case, cases_of, top

FRAMES = ('iubdown', 'iubup', 'phydown', 'phyup')


def opened(case: Case) -> Teller:
    match case.command:
        case 'pair':
            return Node('pair', case.text)
        case 'soft':
            return Node('soft', case.text, legs=int(case.words[1]), start=case.start)
        case 'rnc':
            return Node('rnc', case.text, start=case.start)
        case 'ue':
            return Node('ue', case.text, start=case.start)
        case 'nodeb':
            return Node('nodeb', case.text, start=case.start)
        case _:
            return Node('link', case.text, start=case.start)


def is_frame(line: str) -> bool:
    words = line.split(' ')
    return words[2 if words[0] == 'leg' else 0] in FRAMES


def drive(case: Case) -> list[str]:
    """The lines of what a node tells of a case; the last one is `refused ..` where it ends so, and `malformed` where a
    line of the script is no event."""
    found: list[str] = []
    try:
        with opened(case) as node:
            found.append('open')
            is_transparent = transparency(getattr(node, 'configuration', None))
            for line in case.script:
                found += map(line_of, node.tell(event_of(line, is_transparent)))
    except Refused as fault:
        found.append(' '.join(['refused', str(fault.number), *fault.words]))
    except BadInput:
        found.append('malformed')
    return found


def wanted_of(case: Case) -> list[str]:
    """The answer without the closing line and the number of a refused line."""
    return [' '.join(word for word in line.split(' ') if not word.startswith('line=')) for line in case.answer
            if not line.startswith('end ')]


@unittest.skipUnless(shutil.which(program_of()), 'there is no program dch')
class OnTheCases(unittest.TestCase):
    def check(self, *commands: str) -> None:
        count = 0
        for case in cases_of(*commands):
            if case.answer and case.answer[-1].endswith(' why=cut'):
                continue  # The input ends within a line, and an event is a whole one.
            got, wanted = drive(case), wanted_of(case)
            if case.is_quiet:
                got = [line for line in got if not is_frame(line)]
            if got[-1:] == ['malformed']:
                got, wanted = got[:-1], [line for line in wanted if not line.startswith('refused ')]
            with self.subTest(case.name):
                self.assertEqual(got, wanted)
            count += 1
        self.assertGreater(count, 10)

    def test_controllers(self) -> None:
        self.check('rnc')

    def test_terminals(self) -> None:
        self.check('ue')

    def test_node_bs(self) -> None:
        self.check('nodeb')

    def test_links(self) -> None:
        self.check('link')

    def test_soft_handovers(self) -> None:
        self.check('soft')

    def test_pairs(self) -> None:
        self.check('pair')

    def test_refusals(self) -> None:
        speech = (top / 'examples/speech.toml').read_text()
        with self.assertRaises(Refused) as fault:
            Node('rnc', speech.replace('crc = 16', 'crc = 0'))
        self.assertEqual((fault.exception.number, fault.exception.words), (20, ('bearer=3',)))
        with Node('rnc', speech) as rnc, self.assertRaises(Refused) as fault:
            rnc.block(128)
        self.assertEqual((fault.exception.number, fault.exception.words), (50, ('why=number',)))
        with self.assertRaises(BadInput):
            rnc.tick()
        with self.assertRaises(BadInput):
            Node('rnc', speech + '---\ntick\n')
        with Node('rnc', speech) as rnc, self.assertRaises(BadInput):
            rnc.unit(0, '01\ntick')
        with self.assertRaises(BadInput):
            Node('pair', '')
        with self.assertRaises(Ended):
            Node('rnc', speech, program='missing')
