"""The transport channels of a configuration in process, by the library libdch (TS 25.212 4.2)."""
from __future__ import annotations

import ctypes
from ctypes import byref, c_size_t
from dataclasses import dataclass
from types import TracebackType

from .library import BAD_TTI, DONE, SHORT, Format, Handle, Status, Tti, answer, call, letters_of, library, open_text
from .values import BadTti

DIRECTIONS = {'up': 0, 'down': 1}


@dataclass(frozen=True)
class TransportFormat:
    """A format of a channel: the radio frames of a TTI, its transport blocks, and the bits of each."""
    frames: int
    blocks: int
    size: int


@dataclass(frozen=True)
class Blocks:
    """The transport blocks of a TTI that was read: the number of their format, the bits of each, and whether its parity
    fits."""
    format: int
    blocks: tuple[str, ...]
    good: tuple[bool, ...]


class Channel:
    """The transport channels of a configuration in both directions, `'up'` and `'down'`: the blocks of a TTI become the
    channel bits of its radio frames, and are read of them again. Bits are text of `0` and `1`, channel bits of `0`, `1`
    and `-`. A call that is refused raises `Status`, and a configuration `Refused`."""

    def __init__(self, text: str) -> None:
        self.handle = Handle()
        open_text('dch_channels_open', self.handle, text)

    def __enter__(self) -> Channel:
        return self

    def __exit__(self, kind: type[BaseException] | None, fault: BaseException | None,
                 trace: TracebackType | None) -> None:
        self.close()

    def close(self) -> None:
        """Gives the memory back; a second call does nothing."""
        library().dch_close(byref(self.handle))

    def __del__(self) -> None:
        if self.handle.is_open:
            self.close()

    def format(self, direction: str, channel: int, format: int) -> TransportFormat:
        """A format of a channel."""
        told = Format()
        call('dch_channels_format', byref(self.handle), DIRECTIONS[direction], channel, format, byref(told))
        return TransportFormat(told.frames, told.blocks, told.size)

    def load(self, direction: str, channel: int, format: int, blocks: str = '') -> None:
        """Loads the blocks of a channel for its next TTI, one block after another."""
        call('dch_channels_load', byref(self.handle), DIRECTIONS[direction], channel, format, *letters_of(blocks))

    def write(self, direction: str, cfn: int, combination: int) -> tuple[str, str]:
        """The radio frame of a CFN in a combination: its TFCI bits, and its channel bits."""
        way, bits, cells = DIRECTIONS[direction], c_size_t(), c_size_t()
        call('dch_channels_frame_size', byref(self.handle), way, combination, byref(bits), byref(cells))
        tfci, out = ctypes.create_string_buffer(bits.value + 1), ctypes.create_string_buffer(cells.value + 1)
        call('dch_channels_write', byref(self.handle), way, cfn, combination, tfci, bits.value, out, cells.value)
        return tfci.raw[:bits.value].decode(), out.raw[:cells.value].decode()

    def take(self, direction: str, cfn: int, tfci: str, cells: str) -> None:
        """Takes the radio frame of a CFN that was received. The last 8 are held."""
        call('dch_channels_take', byref(self.handle), DIRECTIONS[direction], cfn, *letters_of(tfci), *letters_of(cells))

    def miss(self, direction: str, cfn: int) -> None:
        """Takes that the radio frame of a CFN is missing."""
        call('dch_channels_miss', byref(self.handle), DIRECTIONS[direction], cfn)

    def read(self, direction: str, channel: int) -> Blocks | BadTti:
        """Reads the TTI of a channel that the last radio frame ends."""
        tti, room, most = Tti(), 5000, 64
        while True:
            bits, good = ctypes.create_string_buffer(room), ctypes.create_string_buffer(most)
            status = answer('dch_channels_read', byref(self.handle), DIRECTIONS[direction], channel, bits, room, good,
                            most, byref(tti))
            if status != SHORT:
                break
            room, most = max(room, tti.blocks * tti.size), max(most, tti.blocks)
        if status == BAD_TTI:
            return BadTti(direction, channel, tti.bad_frame)
        if status != DONE:
            raise Status(status, 'dch_channels_read')
        letters = bits.raw.decode('ascii', 'replace')
        blocks = tuple(letters[b * tti.size:(b + 1) * tti.size] for b in range(tti.blocks))
        return Blocks(tti.format, blocks, tuple(mark == 1 for mark in good.raw[:tti.blocks]))
