#!/usr/bin/env python3
"""Makes what the programs of the gate about a report over a box of cards read, and what they must print.

Everything here follows document 01's "Frames", document 02's Ticket 12 and docs/LAYOUT.md's "A report", and nothing else: no code of the port is read or run.
CRC-32 is Python's zlib.crc32.

    python3 make.py        writes stdin and stdout of crates/test_report, and data/, args and stdout of crates/boxreport
"""
import os, zlib

BLOCK, HEADER = 32768, 7
FULL, FIRST, MIDDLE, LAST = 1, 2, 3, 4

# ---- a log's bytes: "Frames"

def le(n, k): return n.to_bytes(k, 'little')

def frame(kind, data, right=True, length=None):
    """checksum (4), length (2), type (1), then the data"""
    sum = zlib.crc32(bytes([kind]) + data) ^ (0 if right else 1)
    return le(sum, 4) + le(len(data) if length is None else length, 2) + bytes([kind]) + data

def wrong(kind, data): return frame(kind, data, right=False)

def log(*blocks, tail=0):
    """each block's frames one behind the other, then zeros"""
    return b''.join(b''.join(b) + bytes(BLOCK - sum(map(len, b))) for b in blocks) + bytes(tail)

# ---- what is read of it: "Frames", frames alone, up to the first end of log

def frames(log):
    """(type, outcome, length of data); the outcomes are right, wrong, unreadable, over-long"""
    blocks, block, cursor, spoilt, out = len(log) // BLOCK, 0, 0, False, []
    while True:
        if spoilt or BLOCK - cursor < HEADER:
            if block + 1 == blocks: return out
            block, cursor, spoilt = block + 1, 0, False
        at = block * BLOCK + cursor
        head = log[at:at + HEADER]
        if head == bytes(HEADER): return out
        kind, length = head[6], head[4] + 256 * head[5]
        if kind not in (FULL, FIRST, MIDDLE, LAST):
            out.append((kind, 'unreadable', 0)); spoilt = True; continue
        if cursor + HEADER + length > BLOCK:
            out.append((kind, 'over-long', 0)); spoilt, cursor = True, cursor + HEADER; continue
        data = log[at + HEADER:at + HEADER + length]
        cursor += HEADER + length
        right = zlib.crc32(bytes([kind]) + data) == int.from_bytes(head[:4], 'little')
        out.append((kind, 'right' if right else 'wrong', length if right else 0))

# ---- a report: twelve numbers of 8 bytes, little-endian

def numbers(report): return [int.from_bytes(report[8 * i:8 * i + 8], 'little') for i in range(len(report) // 8)]

def packed(ns): return b''.join(le(n, 8) for n in ns)

EMPTY = [0] * 12

def arranged(report):
    """docs/LAYOUT.md: 96 bytes; at most 65,535 logs; each count of frames and the bytes of data no more than so many logs can have"""
    if len(report) != 96: return False
    ns = numbers(report)
    return ns[0] <= 65535 and all(n <= ns[0] * 4096 * 4681 for n in ns[1:11]) and ns[11] <= ns[0] * 4096 * BLOCK

def fed(report, log):
    """the number of the refusal or 0, and the report left"""
    if not 1 <= len(log) // BLOCK <= 4096: return 1, report
    if not arranged(report): return 6, report
    ns = numbers(report)
    if ns[0] == 65535: return 17, report
    ns[0] += 1
    for kind, outcome, length in frames(log):
        if outcome == 'right': ns[2 * kind - 1] += 1; ns[11] += length
        elif outcome == 'wrong': ns[2 * kind] += 1
        elif outcome == 'unreadable': ns[9] += 1
        else: ns[10] += 1
    return 0, packed(ns)

def mean(report):
    """a whole number and a remainder over the count of sound frames, or None"""
    ns = numbers(report)
    count = ns[1] + ns[3] + ns[5] + ns[7]
    return (ns[11] // count, ns[11] % count, count) if count else None

# ---- the program over the edges

class Edges:
    def __init__(self): self.stdin, self.stdout, self.report = b'', '', b''

    def item(self, kind, run):
        stored = len(run.rstrip(b'\0'))
        self.stdin += bytes([kind]) + le(len(run), 3) + le(stored, 3) + run[:stored]

    def line(self, words): self.stdout += words + ''.join(' %d' % n for n in numbers(self.report)) + '\n'

    def start(self, report):
        self.report = report
        self.item(0, report)
        self.line('report of %d:' % len(report))

    def feed(self, log):
        refusal, self.report = fed(self.report, log)
        self.item(1, log)
        self.line('log of %d: %d' % (len(log), refusal))

    def mean(self):
        self.item(2, b'')
        if not arranged(self.report): self.stdout += 'mean refused 6\n'; return
        m = mean(self.report)
        self.stdout += 'mean none\n' if m is None else 'mean %d remainder %d over %d\n' % m

def edges():
    e = Edges()
    some = [frame(FULL, b'seven b'), frame(FULL, b''), frame(FIRST, bytes(range(100))), frame(MIDDLE, b'm'), frame(LAST, b'last')]
    whole = frame(FULL, bytes(BLOCK - HEADER))

    # from an empty report on: the mean of none, an empty log, one frame, all types, frames of no data
    e.start(packed(EMPTY)); e.mean()
    e.feed(log([])); e.mean()
    e.feed(log([frame(FULL, b'')])); e.mean()
    e.feed(log([frame(FULL, b'seven b')])); e.mean()
    e.feed(log(some)); e.mean()
    e.feed(log([frame(k, b'') for k in (FULL, FIRST, MIDDLE, LAST)])); e.mean()
    # a shorter tail is never touched; a log under a block is refused, also of no bytes
    e.feed(log(some, tail=5)); e.feed(log([])[:BLOCK - 1]); e.feed(b''); e.mean()
    # a whole block of data; seven zeros with a block behind; frames over a block's end; six bytes left
    e.feed(log([whole])); e.feed(log([], some)); e.feed(log([whole], some))
    e.feed(log([frame(FIRST, bytes(BLOCK - HEADER))], [frame(MIDDLE, bytes(BLOCK - HEADER))], [frame(LAST, b'end')]))
    for left in (6, 7, 1): e.feed(log([frame(FULL, bytes(BLOCK - HEADER - left))], some))
    e.feed(log([frame(FULL, bytes(BLOCK - HEADER - 7)), frame(LAST, b'')], some)); e.mean()

    # each corruption alone
    for kind in (FULL, FIRST, MIDDLE, LAST):
        e.start(packed(EMPTY)); e.feed(log([wrong(kind, b'hit')])); e.mean()
    for kind in (0, 5, 255):
        e.start(packed(EMPTY)); e.feed(log([frame(kind, b'hit')])); e.mean()
    for kind, length in ((FULL, BLOCK - HEADER + 1), (LAST, 65535)):
        e.start(packed(EMPTY)); e.feed(log([frame(kind, b'hit', length=length)])); e.mean()
    # what follows each: the next frame after a wrong checksum, the next block after the two others
    e.start(packed(EMPTY))
    for hit in (wrong(FIRST, b'hit'), wrong(MIDDLE, b''), frame(9, b''), frame(FULL, b'hit', length=BLOCK)):
        e.feed(log([some[0], hit] + some)); e.feed(log([some[0], hit] + some, some)); e.feed(log([hit], [hit], some))
    e.feed(log([frame(MIDDLE, bytes(BLOCK - HEADER), right=False)], [wrong(LAST, bytes(BLOCK - 2 * HEADER)), wrong(FULL, b'')], [wrong(FIRST, b'x')])); e.mean()
    # only wrong frames
    e.start(packed(EMPTY)); e.feed(log([wrong(k, b'hit') for k in (FULL, FIRST, MIDDLE, LAST, LAST)])); e.mean()

    # 65,534 logs by a report made by hand: one more, then one more, then a refused one
    full = [65534, 1000, 1, 2, 3, 4, 5, 6, 7, 8, 9, 70000]
    e.start(packed(full)); e.mean(); e.feed(log(some)); e.mean(); e.feed(log(some)); e.feed(b''); e.feed(log([])); e.mean()
    # a refused log is not counted
    e.start(packed(full)); e.feed(b''); e.feed(log([])[:9]); e.feed(log([])); e.feed(log([]))
    # each number at its bound, and one over it
    most = [3] + [3 * 4096 * 4681] * 10 + [3 * 4096 * BLOCK]
    e.start(packed(most)); e.mean(); e.feed(log(some)); e.mean()
    for i in range(1, 12):
        over = most[:]; over[i] += 1
        e.start(packed(over)); e.mean(); e.feed(log(some))
    e.start(packed([65535] + [65535 * 4096 * 4681] * 10 + [65535 * 4096 * BLOCK])); e.mean(); e.feed(log(some))
    for ns in ([65536] + [0] * 11, [2**64 - 1] * 12, [0] * 11 + [1], [0, 1] + [0] * 10, [0] * 10 + [1, 0], [1] + [2**63] * 10 + [0]):
        e.start(packed(ns)); e.mean(); e.feed(log(some)); e.feed(b'')
    # other lengths, with and without a log to refuse first
    for n in (0, 88, 95, 97, 104, 192):
        e.start(bytes(n)); e.mean(); e.feed(log(some)); e.feed(b'')
    return e

# ---- the tool over a box of cards

TYPES = 'full', 'first', 'middle', 'last'

def text(report):
    ns, m = numbers(report), mean(report)
    lines = ['logs %d' % ns[0]]
    lines += ['%s right %d wrong %d' % (TYPES[k], ns[2 * k + 1], ns[2 * k + 2]) for k in range(4)]
    lines += ['unreadable %d' % ns[9], 'over-long %d' % ns[10], 'data %d' % ns[11]]
    lines.append('mean none' if m is None else 'mean %d remainder %d over %d' % m)
    return '\n'.join(lines) + '\n'

def box(cards):
    """a line for each refused card, then the report; a card has one block or two (01, "Readout")"""
    out, report = '', packed(EMPTY)
    for name, card in cards:
        refusal, report = fed(report, card) if len(card) <= 2 * BLOCK else (1, report)
        if refusal: out += 'refused %d %s\n' % (refusal, name)
    return out + text(report)

def main():
    here = os.path.dirname(os.path.abspath(__file__))
    crates = os.path.join(here, '..', '..', 'crates')
    def write(path, what):
        os.makedirs(os.path.dirname(os.path.join(crates, path)), exist_ok=True)
        with open(os.path.join(crates, path), 'wb') as f: f.write(what if isinstance(what, bytes) else what.encode())
    e = edges()
    write('test_report/stdin', e.stdin)
    write('test_report/stdout', e.stdout)
    names = 'example.bin', 'bad-type.bin', 'wrong-checksum.bin'
    cards = [(n, open(os.path.join(here, '..', 'cards', n), 'rb').read()) for n in names]
    cards[1:1] = [('short.bin', bytes(100)), ('long.bin', bytes(2 * BLOCK + 1))]
    for name, card in cards: write('boxreport/data/' + name, card)
    write('boxreport/args', ''.join(n + '\n' for n, _ in cards))
    write('boxreport/stdout', box(cards))

main()
