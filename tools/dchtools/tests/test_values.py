"""Values and events are written as the lines from which they were read."""
from __future__ import annotations

import unittest
from collections.abc import Callable

from dchtools import BadInput
from dchtools.config import read_configuration, transparency
from dchtools.events import event_of
from dchtools.values import GotBits, Leg, Took, line_of, value_of

from .cases import Case, cases_of

COMMANDS = ('rnc', 'ue', 'nodeb', 'link', 'soft', 'pair')


def transparent_of(case: Case) -> Callable[[int], bool]:
    """Which bearers of a case are transparent."""
    return transparency(None if case.command == 'pair' else read_configuration(case.text, case.name))


class Lines(unittest.TestCase):
    def test_reports(self) -> None:
        count = 0
        for case in cases_of(*COMMANDS):
            if case.answer[:1] != ['open']:
                continue
            is_transparent = transparent_of(case)
            lines = [line for line in case.answer if not line.startswith('refused ')]
            self.assertEqual([line_of(value_of(line, is_transparent)) for line in lines], lines)
            count += len(lines)
        self.assertGreater(count, 1000)

    def test_scripts(self) -> None:
        for case in cases_of(*COMMANDS):
            if case.answer[-1:] and case.answer[-1].startswith('refused '):
                continue
            is_transparent = transparent_of(case)
            for line in case.script:
                again = event_of(line, is_transparent).line
                self.assertEqual(again.lower(), 'frame 1' if line == 'frame' else line.lower())

    def test_bits_and_octets(self) -> None:
        self.assertEqual(value_of('got up 2 0101', lambda bearer: bearer == 2), GotBits('up', 2, '0101'))
        self.assertEqual(value_of('leg 3 took down 1'), Leg(3, Took('down', 1)))

    def test_what_is_no_line(self) -> None:
        for line in ('', 'took', 'took up', 'took left 1', 'took up 01', 'got up 3 0', 'leg up', 'end', 'end frames=x',
                     'phyup 01', 'phyup 01 2', 'iubup 1', 'badtti up 0', 'sent up 00', 'opened'):
            with self.subTest(line), self.assertRaises(BadInput):
                value_of(line)
        for line in ('', 'unit', 'unit up 1', 'leg 1 tick', 'flip up d', 'flip left d 1', 'flip up x 1', 'lose left',
                     'spoil iubup 0 1', 'spoil iubup 0 1 0102', 'ends 1 2', 'build c', 'offer up 00', 'tick 1', 'jump'):
            with self.subTest(line), self.assertRaises(BadInput):
                event_of(line)
