"""A node over pipes and the same node in process tell the same values, event by event, on all cases of their
commands."""
from __future__ import annotations

import shutil
import unittest
from collections.abc import Callable

from dchtools import BadInput, Node, NodeB, Refused, Rnc, Ue, library
from dchtools.config import read_configuration, transparency
from dchtools.events import Event, event_of
from dchtools.interface import Teller
from dchtools.node import program_of
from dchtools.values import Told

from .cases import Case, cases_of, top

WAYS: dict[str, tuple[Callable[[str, int], Teller], Callable[[str, int], Teller]]] = {
    'rnc': (lambda text, start: Node('rnc', text, start=start), Rnc),
    'ue': (lambda text, start: Node('ue', text, start=start), Ue),
    'nodeb': (lambda text, start: Node('nodeb', text, start=start), NodeB)}


def events_of(case: Case) -> list[Event]:
    """The events of a case, up to a line that is none."""
    found: list[Event] = []
    try:
        is_transparent = transparency(read_configuration(case.text, case.name))
        for line in case.script:
            found.append(event_of(line, is_transparent))
    except BadInput:
        pass
    return found


def told_of(opened: Callable[[str, int], Teller], case: Case) -> list[list[Told] | None]:
    """What a node tells of each event; None at last where it is refused."""
    found: list[list[Told] | None] = []
    try:
        with opened(case.text, case.start) as node:
            for event in events_of(case):
                found.append(node.tell(event))
    except Refused:
        found.append(None)
    return found


def refusal_of(opened: Callable[[str, int], Teller], text: str) -> tuple[int, tuple[str, ...]] | None:
    """The number and the words with which a configuration is refused."""
    try:
        opened(text, 0).close()
    except Refused as fault:
        return fault.number, fault.words
    return None


@unittest.skipUnless(shutil.which(program_of()), 'there is no program dch')
@unittest.skipUnless(library.library_path(), 'libdch.so is not found')
class BothWays(unittest.TestCase):
    def test_cases(self) -> None:
        count = 0
        for case in cases_of(*WAYS):
            over_pipes, in_process = WAYS[case.command]
            told = told_of(over_pipes, case)
            with self.subTest(case.name):
                self.assertEqual(told_of(in_process, case), told)
            count += sum(len(values or []) for values in told)
        self.assertGreater(count, 200)

    def test_refused_configurations(self) -> None:
        speech = (top / 'examples/speech.toml').read_text()
        for text in (speech.replace('crc = 16', 'crc = 0'), speech.replace('crc = 12', 'crc = 13', 1), '', 'x = 1'):
            for over_pipes, in_process in WAYS.values():
                refused = refusal_of(over_pipes, text)
                self.assertIsNotNone(refused)
                self.assertEqual(refusal_of(in_process, text), refused)

    def test_what_neither_way_takes(self) -> None:
        speech = (top / 'examples/speech.toml').read_text()
        for opened in WAYS['rnc']:
            for text, start in ((speech + '---\ntick\n', 0), (speech, 32), (speech, -1)):
                with self.assertRaises(BadInput):
                    opened(text, start)
