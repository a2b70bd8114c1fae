"""The page of `dch-rates`: sizes before rate matching against those of TS 25.101, and the parts of its page."""
from __future__ import annotations

import unittest
from unittest import mock

from dchtools import rates
from dchtools.config import TransportChannel, parts_of, read_configuration

from .cases import top

FOLDER = top / 'examples/radio_bearers'


class Sizes(unittest.TestCase):
    def test_measurement_channel(self) -> None:
        """The reference measurement channel of 12.2 kbit/s (TS 25.101 A.3.1): 244 bits are coded to 804, and 100 bits
        to 360, both at rate 1/3."""
        data = TransportChannel(20, 16, 0, [(0, 0), (1, 244)], 'third', 256)
        control = TransportChannel(40, 12, 1, [(0, 0), (1, 100)], 'third', 256)
        self.assertEqual([rates.coded(channel, 1) for channel in (data, control)], [804, 360])
        self.assertEqual([rates.coded(channel, 0) for channel in (data, control)], [0, 0])

    def test_code_blocks(self) -> None:
        """Above 504 bits a TTI is cut into the fewest code blocks, with filler where they aren't equal."""
        for bits, cut, coded in ((504, (1, 504), 1024), (505, (2, 253), 1044), (1009, (3, 337), 2070)):
            channel = TransportChannel(10, 0, 0, [(1, bits)], 'half', 1)
            self.assertEqual((rates.cut(channel, 0), rates.coded(channel, 0)), (cut, coded))
            self.assertEqual(rates.has_filler(channel, 0), cut[0] * cut[1] != bits)
        self.assertEqual(rates.coded(TransportChannel(10, 0, 0, [(2, 900)], 'none', 1), 0), 1800)


def counted(it: rates.Counting, way: str, combination: int) -> rates.Counted:
    """In place of runs: each channel that sends has ten bits in a radio frame for each of its blocks' bits."""
    frames = max(channel.tti for channel in it.configuration.channels[way]) // 10
    return rates.Counted(len(it.configuration.channels[way]), {at: [10] * frames
                                                               for at in it.senders(way, combination)})


class Pages(unittest.TestCase):
    def page(self, text: str, name: str) -> list[str]:
        with mock.patch.object(rates, 'count', counted):
            return list(rates.page(parts_of(text)[0], read_configuration(text, name), name, 'none'))

    def test_two(self) -> None:
        """The page of two configurations is that of the first, and that of the second under headings one lower."""
        first, second = ((FOLDER / f'{name}.toml').read_text() for name in ('signalling_3.4', 'signalling_13.6'))
        below = ['#' + line if line.startswith('#') else line for line in self.page(second, 'From radio frame 16')]
        both = self.page(f'{first}--- 16\n{second}', 'both')
        self.assertEqual(both, self.page(first, 'both') + below)
        self.assertEqual([line for line in both if line.startswith('#')],
                         ['# both', '## Channels', '## Uplink', '## Downlink', '## From radio frame 16', '### Channels',
                          '### Uplink', '### Downlink'])

    def test_runs_that_are_made(self) -> None:
        """The downlink of a page needs one run for each combination that is the first to have a format."""
        text, runs = (FOLDER / 'speech_12.2.toml').read_text(), mock.Mock(side_effect=counted)
        with mock.patch.object(rates, 'count', runs):
            list(rates.page([text], read_configuration(text, 'speech'), 'speech', 'none'))
        asked = [call.args[1:] for call in runs.call_args_list]
        self.assertEqual(len(asked), len(set(asked)))
