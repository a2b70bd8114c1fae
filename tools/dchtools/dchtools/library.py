"""The calls of the library libdch by ctypes, and of them the coder and the decoder.

The header `include/dch.h` says what each call of the library takes and answers."""
from __future__ import annotations

import ctypes
import ctypes.util
import functools
import os
from collections.abc import Sequence
from ctypes import POINTER, Structure, byref, c_bool, c_char_p, c_size_t, c_uint8, c_uint16, c_uint32, c_void_p
from dataclasses import dataclass
from types import TracebackType
from typing import Any

from .faults import BadInput, Refused

STATUSES = {
    1: 'there is no memory', 2: 'the handle is open', 3: 'the handle is closed', 4: 'the handle is of another kind',
    5: 'a number stands for nothing', 6: 'a length does not fit the other arguments',
    7: "a bit is neither '0' nor '1', or a channel bit neither of them nor '-'", 8: 'the configuration is refused',
    9: 'a buffer is too short', 10: 'a channel is not loaded in the format of the combination',
    11: 'a radio frame of the TTI is missing, or has another format',
    12: 'what the node told before is not pulled yet', 13: 'all that the node told is pulled',
    14: 'no second configuration is to become active now'}
DONE, REFUSED, SHORT, BAD_TTI, NOTHING = 0, 8, 9, 11, 13
OUTPUTS = {'none': 1, 'half': 2, 'third': 3}


class Status(Refused):
    """A call of the library was refused by this status of `dch.h`, and nothing has changed."""

    def __init__(self, status: int, call: str) -> None:
        super().__init__(status, (STATUSES.get(status, 'a status that the header does not name'),), call)
        self.status = status


class Handle(Structure):
    _fields_ = [('is_open', c_bool), ('at', c_void_p)]


class Cut(Structure):
    _fields_ = [('blocks', c_size_t), ('size', c_size_t), ('filler', c_size_t)]


class Vote(Structure):
    _fields_ = [('zeros', c_uint32), ('ones', c_uint32)]


class Refusal(Structure):
    _fields_ = [('number', c_uint16), ('length', c_size_t)]


class Format(Structure):
    _fields_ = [('frames', c_uint8), ('blocks', c_uint16), ('size', c_uint16)]


class Tti(Structure):
    _fields_ = [('format', c_uint8), ('bad_frame', c_uint8), ('blocks', c_size_t), ('size', c_size_t)]


class Kind(Structure):
    _fields_ = [('kind', c_uint8), ('direction', c_uint8), ('number', c_uint8), ('more', c_uint8), ('tfci', c_size_t),
                ('length', c_size_t)]


HANDLE = POINTER(Handle)
TEXT = [c_char_p, c_size_t]  # octets or letters, and how many there are
ARGUMENTS: dict[str, list[Any]] = {
    'dch_parity_attach': [c_uint8, *TEXT, *TEXT], 'dch_parity_check': [c_uint8, *TEXT, POINTER(c_uint8)],
    'dch_blocks_cut': [c_uint8, *TEXT, *TEXT, POINTER(Cut)], 'dch_blocks_join': [c_uint8, *TEXT, *TEXT],
    'dch_code': [c_uint8, *TEXT, *TEXT], 'dch_tfci_word': [c_uint16, POINTER(c_uint32)],
    'dch_tfci_nearest': [*TEXT, POINTER(c_uint16), POINTER(c_uint16)], 'dch_decoder_open': [HANDLE, c_size_t],
    'dch_decoder_nearest': [HANDLE, c_uint8, POINTER(Vote), c_size_t, c_size_t, *TEXT, POINTER(c_uint32)],
    'dch_channels_open': [HANDLE, *TEXT, *TEXT, POINTER(Refusal)],
    'dch_channels_format': [HANDLE, c_uint8, c_uint8, c_uint8, POINTER(Format)],
    'dch_channels_frame_size': [HANDLE, c_uint8, c_uint16, POINTER(c_size_t), POINTER(c_size_t)],
    'dch_channels_load': [HANDLE, c_uint8, c_uint8, c_uint8, *TEXT],
    'dch_channels_write': [HANDLE, c_uint8, c_uint8, c_uint16, *TEXT, *TEXT],
    'dch_channels_take': [HANDLE, c_uint8, c_uint8, *TEXT, *TEXT], 'dch_channels_miss': [HANDLE, c_uint8, c_uint8],
    'dch_channels_read': [HANDLE, c_uint8, c_uint8, *TEXT, *TEXT, POINTER(Tti)],
    **{f'dch_{node}_open': [HANDLE, *TEXT, c_uint8, *TEXT, POINTER(Refusal)] for node in ('rnc', 'ue', 'nodeb')},
    'dch_node_unit': [HANDLE, c_uint8, *TEXT], 'dch_node_unit_bits': [HANDLE, c_uint8, *TEXT],
    'dch_node_block': [HANDLE, c_uint16, c_uint8], 'dch_node_iub': [HANDLE, c_uint8, *TEXT],
    'dch_node_phy': [HANDLE, *TEXT, *TEXT],
    **{f'dch_node_{event}': [HANDLE] for event in ('miss', 'down', 'tick', 'change')},
    'dch_next': [HANDLE, POINTER(Kind), *TEXT]}


def library_path() -> str | None:
    """The shared library: that of the variable LIBDCH, or the one that the system finds; None where there is none."""
    return os.environ.get('LIBDCH') or ctypes.util.find_library('dch')


@functools.cache
def library() -> ctypes.CDLL:
    path = library_path()
    if path is None:
        raise BadInput('libdch.so is not found; tools/install makes it, and the variable LIBDCH names it')
    try:
        found = ctypes.CDLL(path)
    except OSError as fault:
        raise BadInput(f'{path}: {fault}') from None
    for name, arguments in ARGUMENTS.items():
        function = getattr(found, name)
        function.argtypes, function.restype = arguments, c_uint8
    found.dch_close.argtypes, found.dch_close.restype = [HANDLE], None
    return found


def answer(name: str, *arguments: Any) -> int:
    """Calls the library, and answers its status."""
    return int(getattr(library(), name)(*arguments))


def call(name: str, *arguments: Any) -> None:
    """Calls the library, and raises its status where it isn't DCH_DONE."""
    status = answer(name, *arguments)
    if status != DONE:
        raise Status(status, name)


def open_text(opening: str, handle: Handle, text: str, *behind: int) -> None:
    """Opens a handle for the text of a configuration. One that isn't accepted raises `Refused`."""
    octets, refusal, room = text.encode(), Refusal(), 200
    while True:
        why = ctypes.create_string_buffer(room)
        status = answer(opening, byref(handle), octets, len(octets), *behind, why, room, byref(refusal))
        if status != SHORT:
            break
        room = refusal.length
    if status == REFUSED:
        raise Refused.of_line(why.raw[:refusal.length].decode().rstrip('\n'))
    if status != DONE:
        raise Status(status, opening)


def letters_of(text: str) -> tuple[bytes, int]:
    """Letters as the library takes them. Whatever is no letter of it is refused there."""
    octets = text.encode('ascii', 'replace')
    return octets, len(octets)


class Opened:
    """A handle that is open until it is closed."""

    def __init__(self, opening: str, *arguments: Any) -> None:
        self.handle = Handle()
        call(opening, byref(self.handle), *arguments)

    def close(self) -> None:
        library().dch_close(byref(self.handle))

    def __del__(self) -> None:
        if self.handle.is_open:
            self.close()


@dataclass(frozen=True)
class CodeBlocks:
    """Code blocks one behind another: how many there are, the bits of each, and the filler in front of the first."""
    bits: str
    blocks: int
    size: int
    filler: int


class Coder:
    """Parity, code blocks, convolutional codes and TFCI words (TS 25.212 4.2.1 to 4.2.3, 4.3.3). A code is `'none'`,
    `'half'` or `'third'`. The decoder's memory is taken when the coder is made."""

    def __init__(self, most: int = 504) -> None:
        """A coder whose decoder takes code blocks of up to `most` bits."""
        self.decoder = Opened('dch_decoder_open', most)

    def __enter__(self) -> Coder:
        return self

    def __exit__(self, kind: type[BaseException] | None, fault: BaseException | None,
                 trace: TracebackType | None) -> None:
        self.close()

    def close(self) -> None:
        self.decoder.close()

    def attach(self, parity: int, block: str) -> str:
        """A transport block with its parity of 0, 8, 12, 16 or 24 bits behind it."""
        return filled('dch_parity_attach', [parity, *letters_of(block)], len(block) + parity)

    def fits(self, parity: int, attached: str) -> bool:
        """Whether a block ends with the parity of the bits before it."""
        is_good = c_uint8()
        call('dch_parity_check', parity, *letters_of(attached), byref(is_good))
        return is_good.value == 1

    def cut(self, code: str, joined: str) -> CodeBlocks:
        """Cuts the joined bits of a TTI into code blocks."""
        cut, none = Cut(), ctypes.create_string_buffer(1)
        answer('dch_blocks_cut', OUTPUTS[code], *letters_of(joined), none, 0, byref(cut))
        length = cut.blocks * cut.size
        out = ctypes.create_string_buffer(length + 1)
        call('dch_blocks_cut', OUTPUTS[code], *letters_of(joined), out, length, byref(cut))
        return CodeBlocks(out.raw[:length].decode(), cut.blocks, cut.size, cut.filler)

    def join(self, code: str, blocks: str, length: int) -> str:
        """Joins code blocks again to so many bits."""
        return filled('dch_blocks_join', [OUTPUTS[code], *letters_of(blocks)], length)

    def code(self, code: str, block: str) -> str:
        """The coded bits of a code block of 1 to 504 bits."""
        return filled('dch_code', [OUTPUTS[code], *letters_of(block)], OUTPUTS[code] * (len(block) + 8))

    def nearest(self, code: str, votes: Sequence[tuple[int, int]], filler: int = 0) -> tuple[str, int]:
        """The code block whose coded bits disagree with the fewest received copies, and with how many. A vote has the
        copies of a coded bit that came as 0 and as 1."""
        length = max(len(votes) // OUTPUTS[code] - 8, 0)
        out, copies = ctypes.create_string_buffer(length + 1), c_uint32()
        call('dch_decoder_nearest', byref(self.decoder.handle), OUTPUTS[code], (Vote * len(votes))(*votes), len(votes),
             filler, out, length, byref(copies))
        return out.raw[:length].decode(), copies.value

    def tfci_word(self, index: int) -> str:
        """The 32 bits of a TFCI word, b_0 first."""
        word = c_uint32()
        call('dch_tfci_word', index, byref(word))
        return f'{word.value:032b}'[::-1]

    def tfci_nearest(self, received: str) -> tuple[int, int]:
        """The index whose 30 or 120 bits are nearest to the received ones, and how many bits differ."""
        index, distance = c_uint16(), c_uint16()
        call('dch_tfci_nearest', *letters_of(received), byref(index), byref(distance))
        return index.value, distance.value


def filled(name: str, arguments: list[Any], length: int) -> str:
    """The letters that a call writes, of which there are so many."""
    out = ctypes.create_string_buffer(length + 1)
    call(name, *arguments, out, length)
    return out.raw[:length].decode()
