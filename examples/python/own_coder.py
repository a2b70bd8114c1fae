#!/usr/bin/env python3
"""own_coder.py BITS: a coder of one's own, for the uplink of signalling_3.4.toml alone. Of a block of 148 bits it
writes the stages that dch_stages shows (TS 25.212 4.2). It has one fault, which the tutorial finds."""
import sys

P1 = [0, 2, 1, 3]
P2 = [0, 20, 10, 5, 15, 25, 3, 13, 23, 8, 18, 28, 1, 11, 21, 6, 16, 26, 4, 14, 24, 19, 9, 29, 12, 2, 7, 22, 27, 17]
G = 0o557, 0o663, 0o711
TFCI = '101010101010101101010101010101'


def show(stage, bits):
    print(stage, ''.join(map(str, bits)))
    return bits


block = [int(letter) for letter in sys.argv[1]]
rest = block + [0] * 16
for k in range(148):
    if rest[k]:
        for power in 16, 12, 5, 0:
            rest[k + 16 - power] ^= 1
block = show('block 0', show('crc 0', block + rest[:-17:-1]))
line = [0] * 8 + block + [0] * 8
coded = [sum(line[k - d] for d in range(9) if g >> 8 - d & 1) % 2 for k in range(8, 180) for g in G]
show('equalised', show('coded 0', coded))
tti = show('interleaved', [bit for column in P1 for bit in coded[column::4]])

S = {x * 7 % 4: x * 7 // 4 for x in range(4)}  # 4.2.7.1.2.1: 129 bits become 150, so q is 129 / 21 rounded up
for frame in range(4):
    segment = show(f'segment 0 {frame}', tti[129 * frame:129 * frame + 129])
    error, sent = 2 * S[frame] * 21 + 1, []
    for bit in segment:
        error -= 2 * 21
        sent.append(bit)
        while error <= 0:
            sent.append(bit)
            error += 2 * 129
    show('code 0', show('multiplexed', show(f'matched 0 {frame}', sent)))
    sent = show('interleaved 0', [bit for column in P2 for bit in sent[column::30]])
    show('tfci', TFCI)
    show(f'phyup {TFCI}', sent)
