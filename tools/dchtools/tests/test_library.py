"""The calls of the library in process are those of the header, and give worked values."""
from __future__ import annotations

import ctypes
import re
import unittest

from dchtools import BadInput, BadTti, Blocks, Channel, Coder, NodeB, Refused, Rnc, Status, Took, Ue, library
from dchtools.config import read_configuration, transparency
from dchtools.events import event_of
from dchtools.values import line_of

from .cases import Case, cases_of, top

HEADER = top / 'include/dch.h'
STRUCTURES = {
    'dch_handle': library.Handle, 'dch_cut': library.Cut, 'dch_vote': library.Vote, 'dch_refusal': library.Refusal,
    'dch_format': library.Format, 'dch_tti': library.Tti, 'dch_told': library.Kind}
TYPES = {'uint8_t': ctypes.c_uint8, 'uint16_t': ctypes.c_uint16, 'uint32_t': ctypes.c_uint32,
         'size_t': ctypes.c_size_t, 'bool': ctypes.c_bool, 'void *': ctypes.c_void_p}


def type_of(text: str) -> object:
    """The type of a parameter of the header. Octets are behind `uint8_t *`, and a single number behind others."""
    text = text.strip().removeprefix('const ').strip()
    stem, name = re.fullmatch(r'(.*?)(\w+)', text).groups()  # type: ignore[union-attr]
    stem = stem.strip()
    if stem == 'uint8_t *':
        return ctypes.POINTER(ctypes.c_uint8) if name == 'is_good' else ctypes.c_char_p
    if stem.endswith('*') and stem != 'void *':
        behind = stem[:-1].strip()
        return ctypes.POINTER(STRUCTURES.get(behind) or TYPES[behind])  # type: ignore[type-var]
    return TYPES[stem]


@unittest.skipUnless(HEADER.exists(), 'there is no header include/dch.h')
class OfTheHeader(unittest.TestCase):
    def setUp(self) -> None:
        self.text = re.sub(r'/\*.*?\*/', '', HEADER.read_text(), flags=re.S)

    def test_calls(self) -> None:
        found = re.findall(r'uint8_t (dch_\w+)\(([^)]*)\);', self.text)
        self.assertEqual({name: [type_of(part) for part in parts.split(',')] for name, parts in found},
                         library.ARGUMENTS)

    def test_structures(self) -> None:
        for name, body in re.findall(r'typedef struct (\w+) \{(.*?)\}', self.text, re.S):
            fields = [part.strip() for part in body.split(';') if part.strip()]
            self.assertEqual([(re.split(r'[ *]+', part)[-1], type_of(part)) for part in fields],
                             STRUCTURES[name]._fields_)

    def test_statuses(self) -> None:
        statuses = {int(number) for number in re.findall(r'DCH_[A-Z_]+ = (\d+)',
                                                         self.text.split('enum dch_status')[1].split('}')[0])}
        self.assertEqual(statuses, {0, *library.STATUSES})


@unittest.skipUnless(library.library_path(), 'libdch.so is not found')
class Coding(unittest.TestCase):
    def test_coder(self) -> None:
        with Coder() as coder:
            attached = coder.attach(8, '1' * 40)
            self.assertTrue(coder.fits(8, attached))
            self.assertFalse(coder.fits(8, attached[:-1] + '01'[attached[-1] == '0']))
            self.assertEqual(coder.code('half', '1'), '110111111001000111')
            for code in ('half', 'third'):
                votes = [(3, 0) if bit == '0' else (0, 3) for bit in coder.code(code, attached)]
                votes[5] = votes[5][::-1]
                self.assertEqual(coder.nearest(code, votes), (attached, 3))
            cut = coder.cut('half', '10' * 300)
            self.assertEqual((cut.blocks, cut.size, cut.filler), (2, 300, 0))
            self.assertEqual(coder.join('half', cut.bits, 600), '10' * 300)
            self.assertEqual(coder.tfci_nearest(coder.tfci_word(77)[:30]), (77, 0))
            with self.assertRaises(Status):
                coder.attach(7, '1')

    def test_channels(self) -> None:
        text = (top / 'examples/speech.toml').read_text()
        with Channel(text) as channel:
            self.assertEqual(channel.format('up', 0, 2).size, 81)
            sent = '10' * 40 + '1'
            for number, (format, bits) in enumerate([(2, sent), (1, '1' * 103), (1, '0' * 60), (0, '')]):
                channel.load('up', number, format, bits)
            with self.assertRaises(Status):
                channel.write('up', 0, 1)
            for cfn in range(2):
                tfci, cells = channel.write('up', cfn, 2)
                channel.take('up', cfn, tfci, cells[:7] + '01'[cells[7] == '0'] + cells[8:])
            self.assertEqual(channel.read('up', 0), Blocks(2, (sent,), (True,)))
            channel.miss('up', 2)
            channel.take('up', 3, tfci, cells)
            self.assertEqual(channel.read('up', 0), BadTti('up', 0, 0))
        with self.assertRaises(Refused) as caught:
            Channel(text.replace('crc = 12', 'crc = 13', 1))
        self.assertEqual(caught.exception.number, 12)


FRAMES = ('iubdown', 'iubup', 'phydown', 'phyup')
NODES: dict[str, type[Rnc] | type[Ue] | type[NodeB]] = {'rnc': Rnc, 'ue': Ue, 'nodeb': NodeB}


def drive(case: Case) -> list[str]:
    """The lines of what a node in process tells of a case; the last one is `refused` where it ends so."""
    found: list[str] = []
    try:
        with NODES[case.command](case.text + '\n', case.start) as node:
            found.append('open')
            is_transparent = transparency(read_configuration(case.text, 'the configuration'))
            for line in case.script:
                found += map(line_of, node.tell(event_of(line, is_transparent)))
    except (Refused, BadInput):
        found.append('refused')
    return found


@unittest.skipUnless(library.library_path(), 'libdch.so is not found')
class Nodes(unittest.TestCase):
    def test_cases(self) -> None:
        count = 0
        for case in cases_of(*NODES):
            if case.answer and case.answer[-1].endswith(' why=cut'):
                continue  # The input ends within a line, and an event is a whole one.
            got = drive(case)
            if case.is_quiet:
                got = [line for line in got if line.split(' ')[0] not in FRAMES]
            wanted = [line.split(' ')[0] if line.startswith('refused ') else line for line in case.answer
                      if not line.startswith('end ')]
            with self.subTest(case.name):
                self.assertEqual(got, wanted)
            count += 1
        self.assertGreater(count, 50)

    def test_refusals(self) -> None:
        text = (top / 'examples/speech.toml').read_text()
        with Rnc(text) as rnc:
            with self.assertRaises(Status) as caught:
                rnc.block(999)
            self.assertEqual(caught.exception.status, 5)
            with self.assertRaises(Status) as caught:
                rnc.change()
            self.assertEqual(caught.exception.status, 14)
            self.assertEqual(rnc.unit(4, b'hello'), [Took('down', 4)])
        with self.assertRaises(Status) as caught:
            rnc.tick()
        self.assertEqual(caught.exception.status, 3)
        with self.assertRaises(Refused) as refused:
            Ue(text.replace('crc = 12', 'crc = 13', 1))
        self.assertEqual(refused.exception.number, 12)
