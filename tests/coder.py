"""The physical layer of a dedicated channel as TS 25.212 section 4.2 tells it, stage by stage: lists of bits in, lists of bits out. It was written from
the standard, apart from the program and its tools, and knows nothing of them but the form of a configuration. `X` is a cell in which nothing is sent."""
import functools
from math import floor, gcd

X = '-'

# ---- 4.2.1 error detection

POLYNOMIALS = {8: [8, 7, 4, 3, 1, 0], 12: [12, 11, 3, 2, 1, 0], 16: [16, 12, 5, 0], 24: [24, 23, 6, 5, 1, 0]}


def parity(bits, size):
    """The parity bits p1..pL, by division of polynomials."""
    if size == 0:
        return []
    divisor = [int(size - at in POLYNOMIALS[size]) for at in range(size + 1)]
    rest = bits + [0] * size
    for at in range(len(bits)):
        if rest[at]:
            for j, term in enumerate(divisor):
                rest[at + j] ^= term
    return rest[len(bits):]


def with_crc(bits, size):
    return bits + parity(bits, size)[::-1]


# ---- 4.2.2 concatenation and segmentation

def code_blocks(bits, code):
    """Code blocks of one size, of which the first begins with filler."""
    most = 504 if code != 'none' else None
    if not bits:
        return []
    count = 1 if most is None else -(-len(bits) // most)
    size = -(-len(bits) // count)
    filled = [0] * (count * size - len(bits)) + bits
    return [filled[size * r:size * (r + 1)] for r in range(count)]


# ---- 4.2.3 channel coding

GENERATORS = {'half': [0o561, 0o753], 'third': [0o557, 0o663, 0o711]}


def convolved(bits, code):
    if code == 'none':
        return bits
    register, out = 0, []
    for bit in bits + [0] * 8:
        register = (bit << 8) | (register >> 1)
        out += [bin(register & generator).count('1') % 2 for generator in GENERATORS[code]]
    return out


@functools.cache
def coded_bits(number, size, crc, code):
    """How many coded bits a TTI has."""
    return sum(len(convolved(block, code)) for block in code_blocks([0] * (number * (size + crc)), code))


# ---- 4.2.4 to 4.2.6: equalisation, first interleaver, segmentation

FIRST = {1: [0], 2: [0, 1], 4: [0, 2, 1, 3], 8: [0, 4, 2, 6, 1, 5, 3, 7]}


def equalised(bits, frames):
    return bits + [0] * (-len(bits) % frames)


def first_interleaved(cells, frames):
    rows = [cells[at:at + frames] for at in range(0, len(cells), frames)]
    return [row[column] for column in FIRST[frames] for row in rows]


def segments(cells, frames):
    length = len(cells) // frames
    return [cells[length * n:length * (n + 1)] for n in range(frames)]


# ---- 4.2.7 rate matching

def matched(cells, e_ini, e_plus, e_minus, change):
    """4.2.7.5: puncturing for a negative change, repetition for a positive one."""
    error, out = e_ini, []
    for cell in cells:
        error -= e_minus
        if change < 0:
            if error <= 0:
                error += e_plus
            else:
                out.append(cell)
        else:
            out.append(cell)
            while change > 0 and error <= 0:
                out.append(cell)
                error += e_plus
    return out


def shares(weights, total):
    """Z(i), rounded down, and the differences."""
    whole, below, z = sum(weights), 0, [0]
    for weight in weights:
        below += weight
        z.append(below * total // whole if whole else 0)
    return [b - a for a, b in zip(z, z[1:])]


SIZES = [150, 300, 600, 1200, 2400, 4800, 9600, 19200, 28800, 38400, 48000, 57600]


def uplink_size(lengths, attributes, largest, limit):
    """Ndata (4.2.7.1.1)."""
    if not sum(lengths):
        return 0
    least, weight = min(attributes), sum(rm * n for rm, n in zip(attributes, lengths))
    allowed = [size for size in SIZES if size <= largest]
    codes = {size: -(-size // 9600) for size in allowed}
    set1 = [size for size in allowed if least * size >= weight]
    if set1 and codes[set1[0]] == 1:
        return set1[0]
    set2 = [size for size in allowed if 100 * least * size >= limit * weight]
    at = 0
    while at + 1 < len(set2) and codes[set2[at + 1]] <= codes[set2[at]]:
        at += 1
    return set2[at]


def uplink_e_ini(n, change, frames, frame):
    """The start of the counter in a radio frame of a TTI (4.2.7.1.2.1)."""
    remainder = change % n
    if remainder != 0 and 2 * remainder <= n:
        q = -(-n // remainder)
    else:
        q = -(n // (n - remainder))  # ceil(n / (remainder - n)), of a negative number
    twisted = q + gcd(abs(q), frames) / frames if q % 2 == 0 else q  # exact: frames is 1, 2, 4 or 8
    shift = {}
    for x in range(frames):
        turn = abs(floor(x * twisted))
        shift[turn % frames] = turn // frames
    return (2 * shift[FIRST[frames][frame]] * abs(change) + 1) % (2 * n)


def uplink_matched(segment, after, frames, frame):
    n = len(segment)
    if n == 0 or after == n:
        return segment
    change = after - n
    return matched(segment, uplink_e_ini(n, change, frames, frame), 2 * n, 2 * abs(change), change)


def downlink_matched(cells, pattern_of, after):
    """A TTI in the downlink: the pattern is made for so many bits, and cut where the TTI is shorter."""
    if pattern_of == 0 or after == pattern_of:
        return cells
    change = after - pattern_of
    return matched(cells, 1, 2 * pattern_of, 2 * abs(change), change)


# ---- 4.2.11 second interleaver

SECOND = [0, 20, 10, 5, 15, 25, 3, 13, 23, 8, 18, 28, 1, 11, 21, 6, 16, 26, 4, 14, 24, 19, 9, 29, 12, 2, 7, 22, 27, 17]


def second_interleaved(cells):
    rows = [cells[at:at + 30] for at in range(0, len(cells), 30)]
    return [row[column] for column in SECOND for row in rows if column < len(row)]


# ---- 4.3.3 TFCI

def tfci_word(index):
    """The (32,10) code word: the sum of masks M0..M9."""
    masks = '''1 0 0 0 0 1 0 0 0 0|0 1 0 0 0 1 1 0 0 0|1 1 0 0 0 1 0 0 0 1|0 0 1 0 0 1 1 0 1 1|1 0 1 0 0 1 0 0 0 1|0 1 1 0 0 1 0 0 1 0|1 1 1 0 0 1 0 1 0 0
0 0 0 1 0 1 0 1 1 0|1 0 0 1 0 1 1 1 1 0|0 1 0 1 0 1 1 0 1 1|1 1 0 1 0 1 0 0 1 1|0 0 1 1 0 1 0 1 1 0|1 0 1 1 0 1 0 1 0 1|0 1 1 1 0 1 1 0 0 1|1 1 1 1 0 1 1 1 1 1
1 0 0 0 1 1 1 1 0 0|0 1 0 0 1 1 1 1 0 1|1 1 0 0 1 1 1 0 1 0|0 0 1 0 1 1 0 1 1 1|1 0 1 0 1 1 0 1 0 1|0 1 1 0 1 1 0 0 1 1|1 1 1 0 1 1 0 1 1 1|0 0 0 1 1 1 0 1 0 0
1 0 0 1 1 1 1 1 0 1|0 1 0 1 1 1 1 0 1 0|1 1 0 1 1 1 1 0 0 1|0 0 1 1 1 1 0 0 1 0|1 0 1 1 1 1 1 1 0 0|0 1 1 1 1 1 1 1 1 0|1 1 1 1 1 1 1 1 1 1|0 0 0 0 0 1 0 0 0 0|0 0 0 0 1 1 1 0 0 0'''
    rows = [list(map(int, row.split())) for row in masks.replace('\n', '|').split('|')]
    return [sum((index >> n & 1) * row[n] for n in range(10)) % 2 for row in rows]


# ---- a configuration, as its table of TOML

def channels(table, way):
    return table[way + 'link']['channel']


def frames_of(channel):
    return channel['tti'] // 10


def tti_bits(channel, form):
    return coded_bits(*channel['formats'][form], channel['crc'], channel['code'])


def frame_cells(table):
    """The cells of a downlink radio frame."""
    return 15 * table['downlink']['slot_bits'] * table['downlink']['codes']


def uplink_lengths(table, formats):
    return [-(-tti_bits(channel, form) // frames_of(channel)) for channel, form in zip(channels(table, 'up'), formats)]


def uplink_amounts(table, formats):
    """Ndata, and the bits of each channel before and after rate matching."""
    lengths = uplink_lengths(table, formats)
    attributes = [channel['rm'] for channel in channels(table, 'up')]
    size = uplink_size(lengths, attributes, table['uplink']['largest'], table['uplink']['pl'])
    return size, lengths, shares([rm * n for rm, n in zip(attributes, lengths)], size)


def fixed_places(table):
    """Of each channel the greatest TTI and the places in a radio frame, at fixed positions (4.2.7.2.1)."""
    most = [max(tti_bits(channel, form) for form in range(len(channel['formats']))) for channel in channels(table, 'down')]
    weights = [channel['rm'] * (8 * bits // frames_of(channel)) for channel, bits in zip(channels(table, 'down'), most)]
    return most, shares(weights, frame_cells(table))


def flexible_places(table):
    """Of each channel and format the places in a radio frame, at flexible positions (4.2.7.2.2)."""
    side, data = channels(table, 'down'), frame_cells(table)
    combinations = table['downlink']['combinations']

    def weights(formats):
        return [channel['rm'] * (8 * tti_bits(channel, form) // frames_of(channel)) for channel, form in zip(side, formats)]
    greatest = max(sum(weights(formats)) for formats in combinations)
    places = {}
    for i, channel in enumerate(side):
        for form in range(len(channel['formats'])):
            bits = tti_bits(channel, form)
            used = any(formats[i] == form for formats in combinations)
            weight = channel['rm'] * (8 * bits // frames_of(channel))
            places[i, form] = -(-data * weight // greatest) if used and greatest else -(-bits // frames_of(channel))
    for formats in combinations:
        if sum(places[i, form] for i, form in enumerate(formats)) > data:
            for i, (form, share) in enumerate(zip(formats, shares(weights(formats), data))):
                places[i, form] = min(places[i, form], share)
    return places


def downlink_amounts(table, i, form):
    """The bits that the pattern is made for, and the places of a radio frame."""
    if table['downlink']['positions'] == 'fixed':
        most, places = fixed_places(table)
        return most[i], places[i]
    return tti_bits(channels(table, 'down')[i], form), flexible_places(table)[i, form]


# ---- the stages of a TTI and of a radio frame, as (name, list) pairs

def load(table, way, i, form, bits):
    """The stages of a TTI of channel i, from its transport blocks, which are joined."""
    channel = channels(table, way)[i]
    number, size = channel['formats'][form]
    attached = [with_crc(bits[size * at:size * (at + 1)], channel['crc']) for at in range(number)]
    blocks = code_blocks(sum(attached, []), channel['code'])
    coded = [convolved(block, channel['code']) for block in blocks]
    stages = [(f'crc {at}', it) for at, it in enumerate(attached)] + [(f'block {at}', it) for at, it in enumerate(blocks)]
    stages += [(f'coded {at}', it) for at, it in enumerate(coded)]
    cells, frames = sum(coded, []), frames_of(channel)
    if way == 'up':
        cells = equalised(cells, frames)
        stages.append(('equalised', cells))
    else:
        made_for, places = downlink_amounts(table, i, form)
        cells = downlink_matched(cells, made_for, places * frames)
        stages.append(('matched', cells))
        cells = cells + [X] * (places * frames - len(cells))
        stages.append(('dtx', cells))
    return stages + [('interleaved', first_interleaved(cells, frames))]


def places(table, way, i, form):
    """Of each place of the interleaved cells of a TTI of channel i the coded bit that it shows, and the transport block bit that came in where that
    was put out, each None where there is none."""
    channel = channels(table, way)[i]
    number, size = channel['formats'][form]
    frames, code = frames_of(channel), channel['code']
    # bits are marked by their numbers, from 1, and what is none of them by 0
    attached = [mark for at in range(number) for mark in [*range(size * at + 1, size * (at + 1) + 1), *[0] * channel['crc']]]
    tail, outputs = (0, 1) if code == 'none' else (8, len(GENERATORS[code]))
    inputs = [mark for block in code_blocks(attached, code) for mark in block + [0] * tail for _ in range(outputs)]
    cells = list(range(1, len(inputs) + 1))
    if way == 'up':
        cells = equalised(cells, frames)
    else:
        made_for, room = downlink_amounts(table, i, form)
        cells = downlink_matched(cells, made_for, room * frames)
        cells = cells + [0] * (room * frames - len(cells))
    marks = [(cell, inputs[cell - 1] if cell else 0) for cell in first_interleaved(cells, frames)]
    return [tuple(mark - 1 if mark else None for mark in pair) for pair in marks]


def radio_frame(table, way, combination, cfn, loaded):
    """The stages of a radio frame, where `loaded` has of each channel the interleaved cells of its TTI."""
    side, formats = channels(table, way), table[way + 'link']['combinations'][combination]
    numbers = [cfn % frames_of(channel) for channel in side]
    parts = [segments(cells, frames_of(channel))[n] for channel, cells, n in zip(side, loaded, numbers)]
    stages = [(f'segment {i} {n}', part) for i, (n, part) in enumerate(zip(numbers, parts))]
    if way == 'up':
        size, _, after = uplink_amounts(table, formats)
        parts = [uplink_matched(part, many, frames_of(channel), n) for part, many, channel, n in zip(parts, after, side, numbers)]
        stages += [(f'matched {i} {n}', part) for i, (n, part) in enumerate(zip(numbers, parts))]
    cells = sum(parts, [])
    stages.append(('multiplexed', cells))
    code = min(len(cells), 9600)
    if way == 'down':
        code = 15 * table['downlink']['slot_bits']
        cells = cells + [X] * (frame_cells(table) - len(cells))
        stages.append(('dtx', cells))
    codes = [cells[at:at + code] for at in range(0, len(cells), code or 1)]
    stages += [(f'code {u}', it) for u, it in enumerate(codes)]
    codes = [second_interleaved(it) for it in codes]
    stages += [(f'interleaved {u}', it) for u, it in enumerate(codes)]
    word = tfci_word(combination)
    tfci = word[:30] if way == 'up' or table['downlink']['sf'] >= 128 else (word * 4)[:120]
    return stages + [('tfci', tfci), ('phy' + way, tfci, sum(codes, []))]
