#!/usr/bin/env python3
"""Makes eight scripts of calls in crates/replay_scripts/data: questions, adding, packing, far, opening, changes, rules and headset-edges.

The other scripts there came with documents 01 and 02. What all of them must print is what the twin prints: tests/twin/play.rs. The commands
are those of docs/replay.md.
"""

import os
import random
import struct

random.seed(20261115)
MOST = 2**32 - 1


def u32(*numbers):
    return b"".join(struct.pack(">I", n & MOST) for n in numbers)


# ---- commands


def new(capacity, words):
    return b"N" + u32(capacity, words)


def lists(capacity):
    """The words before the chains."""
    return 160 + 142 * capacity


def used(capacity):
    return lists(capacity) + 3840 + 15 * capacity


def fresh(capacity, spare=3):
    return new(capacity, used(capacity) + spare)


def add(file):
    return b"A" + u32(len(file)) + file


def voxel(scene, x, y, z):
    return b"V" + u32(scene, x, y, z)


def cell(scene, height, x, y, z):
    return b"C" + u32(scene, height, x, y, z)


def box(scene, low, high):
    return b"B" + u32(scene, *low, *high)


def anything(scene, low, high):
    return b"Y" + u32(scene, *low, *high)


def both(scene, low, high):
    """A box, counted and asked whether it holds anything."""
    return box(scene, low, high) + anything(scene, low, high)


def kept(height):
    return b"K" + u32(height)


def outline_out(scene, room):
    return b"O" + u32(scene, room)


def pack(scene, scratch, room):
    return b"P" + u32(scene, scratch, room)


def slim(scene, scratch, room):
    """Headset packing."""
    return b"Q" + u32(scene, scratch, room)


def load(file):
    return b"L" + u32(len(file)) + file


def change(at, byte):
    return b"X" + u32(at) + bytes([byte])


def check(scratch):
    return b"c" + u32(scratch)


def headset(scratch):
    """Headset check."""
    return b"h" + u32(scratch)


def packed(x, y, z):
    return b"v" + u32(x, y, z)


def opened(x, y, z):
    return b"q" + u32(x, y, z)


def word(at, n):
    return b"W" + u32(at, n)


STORE_SUM = b"H"

# ---- files


def record(voxels, height, x0, y0, z0):
    """The record of the cell with this low corner, for a list of voxels."""
    if height == 2:
        bits = 0
        for x, y, z in voxels:
            bits |= 1 << ((x - x0) + 4 * (y - y0) + 16 * (z - z0))
        return leaf(bits)
    half = 1 << (height - 1)
    children = [[] for _ in range(8)]
    for x, y, z in voxels:
        children[(x - x0) // half + 2 * ((y - y0) // half) + 4 * ((z - z0) // half)].append((x, y, z))
    mask = 0
    body = b""
    for i in range(8):
        if children[i]:
            mask |= 1 << i
            body += record(children[i], height - 1, x0 + (i & 1) * half, y0 + (i >> 1 & 1) * half, z0 + (i >> 2 & 1) * half)
    return bytes([mask]) + body


def raw(depth, body):
    return b"\x11" + u32(6 + len(body)) + bytes([depth]) + body


def outline(depth, voxels):
    voxels = sorted(set(voxels))
    return raw(depth, record(voxels, depth, 0, 0, 0) if voxels else b"")


def leaf(bits):
    return struct.pack(">Q", bits)


def mirror(voxels, t, edge):
    def turned(c, marked):
        return edge - 1 - c if marked else c

    return [(turned(x, t & 1), turned(y, t & 2), turned(z, t & 4)) for x, y, z in voxels]


def some_voxels(depth, count):
    edge = 1 << depth
    return [(random.randrange(edge), random.randrange(edge), random.randrange(edge)) for _ in range(count)]


def with_length(file):
    return file[:1] + u32(len(file)) + file[5:]


def packed_file(depth, root, lists):
    """lists: for each height its size and its bytes."""
    heights = range(depth, 1, -1)
    sizes = b"".join(u32(lists[h][0]) for h in heights)
    body = b"".join(lists[h][1] for h in heights)
    return with_length(b"\x22\0\0\0\0" + bytes([depth, root]) + sizes + body)


def leaf_list(*all_bits):
    return len(all_bits), b"".join(leaf(bits) for bits in all_bits)


def halves(*numbers):
    return b"".join(struct.pack(">H", n) for n in numbers)


def inner(*records):
    body = b"".join(records)
    return len(body) // 2, body


def links(*of):
    """A record: child, code, tag and place of each link."""
    header = 0
    body = b""
    for child, code, tag, place in of:
        header |= code << (2 * child)
        body += struct.pack(">H", tag << 13 | place) if code == 1 else struct.pack(">I", tag << 29 | place)
    return struct.pack(">H", header) + body


def deepened(file, depth):
    """A packed file of something under cells of one child each, up to a depth; proper where it was. The root's mirror becomes a tag."""
    old = file[5]
    if depth == old:
        return file
    tags = [0] * (depth - old - 1) + [file[6]]
    above = b"".join(links((5 * n % 8, 1, tag, 0)) for n, tag in enumerate(tags))
    lists = 7 + 4 * (old - 1)
    return with_length(file[:5] + bytes([depth, 0]) + u32(2) * len(tags) + file[7:lists] + above + file[lists:])


S1 = raw(3, b"\x03" + leaf(1) + leaf(8))
S1_PACKED = bytes.fromhex("220000001D0300" + "00000003" + "00000001" + "0005" + "0000" + "2000" + "0000000000000001")
ROOM_P = raw(3, b"\x03" + leaf(0x8001) + leaf(1))
ROOM_Q = raw(3, b"\x0c" + leaf(0x1008) + leaf(0x1000))

# ---- stores by hand


def pointer(tag, number):
    return tag << 29 | number + 1


def place(capacity, height, number):
    """Where the ten words of an inner cell are: eight pointers, then its solid count, high and low."""
    return 160 + 2 * capacity + 10 * ((height - 3) * capacity + number)


def counts_of(leaves, cells):
    """The solid count of each cell, by height and number; a pointer to no cell adds nothing."""
    counts = {(2, n): bits.bit_count() for n, bits in enumerate(leaves)}
    for h in sorted(cells):
        for n, pointers in enumerate(cells[h]):
            counts[h, n] = sum(counts.get((h - 1, (p & 2**29 - 1) - 1), 0) for p in pointers)
    return counts


def head(capacity, height, chain):
    """Where the head of a chain is."""
    return lists(capacity) + 256 * (height - 2) + chain


def following(capacity, height, number):
    """Where the next word of a cell is."""
    return lists(capacity) + 3840 + (height - 2) * capacity + number


def chain_of(pointers):
    """The chain of an inner cell."""
    return (sum((p & 2**29 - 1) * 2654435761 for p in pointers) & MOST) >> 24


def chained(capacity, chains_by_height):
    """The chain words of a store, by place: for each height the chains of its cells, by number."""
    words = {}
    for h, chains in chains_by_height.items():
        last = {}
        for n, chain in enumerate(chains):
            words[last.get(chain, head(capacity, h, chain))] = n + 1
            last[chain] = following(capacity, h, n)
    return words


def words_by_hand(capacity, scenes, leaves, cells):
    """The words of a store, by place, its counts true and its chains right; cells: for each height its cells."""
    words = {1: len(scenes), 2: len(leaves)}
    for h in cells:
        words[h] = len(cells[h])
    for i, (depth, root) in enumerate(scenes):
        words[32 + 2 * i], words[33 + 2 * i] = depth, root
    for i, bits in enumerate(leaves):
        words[160 + 2 * i], words[161 + 2 * i] = bits >> 32, bits & MOST
    counts = counts_of(leaves, cells)
    for h in cells:
        for n, pointers in enumerate(cells[h]):
            count = counts[h, n]
            for j, p in enumerate([*pointers, count >> 32, count & MOST]):
                if p:
                    words[place(capacity, h, n) + j] = p
    chains = {h: [chain_of(pointers) for pointers in cells[h]] for h in cells}
    chains[2] = [bits.bit_count() for bits in leaves]
    return words | chained(capacity, chains)


def by_hand(capacity, scenes, leaves, cells, spare=2):
    """A store written word by word."""
    words = words_by_hand(capacity, scenes, leaves, cells)
    return fresh(capacity, spare) + b"".join(word(at, n) for at, n in words.items())


def number(p):
    """The number of the cell that a pointer names."""
    return (p & 2**29 - 1) - 1


def popular(n, often):
    return -often[n], n


def packed_scene(depth, root, leaves, cells, order=popular):
    """The packed file of a scene of such a store; each list in an order of the cells' numbers and how often pointers name them."""
    lists = {depth: [number(root)]}
    for h in range(depth - 1, 1, -1):
        often = {}
        for n in lists[h + 1]:
            for p in filter(None, cells[h + 1][n]):
                often[number(p)] = often.get(number(p), 0) + 1
        lists[h] = sorted(often, key=lambda n: order(n, often))
    written = {2: leaf_list(*[leaves[n] for n in lists[2]])}
    below = {n: i for i, n in enumerate(lists[2])}
    for h in range(3, depth + 1):
        body = b""
        starts = {}
        for n in lists[h]:
            starts[n] = len(body) // 2
            named = [(i, p >> 29, below[number(p)]) for i, p in enumerate(cells[h][n]) if p]
            body += links(*[(i, 1 if at <= 8191 else 2, tag, at) for i, tag, at in named])
        written[h] = len(body) // 2, body
        below = starts
    return packed_file(depth, root >> 29, written)


# ---- the scripts


# Boxes in a room of edge 16 that hold something and that don't: small ones, whole cells, such with faces a voxel off.
WAYS = [((0, 0, 0), (16, 16, 16)), ((1, 1, 1), (15, 15, 15)), ((0, 0, 0), (8, 8, 8)), ((8, 8, 8), (16, 16, 16)), ((8, 0, 0), (16, 8, 8))]
WAYS += [((4, 4, 0), (8, 8, 4)), ((3, 3, 3), (5, 5, 5)), ((7, 7, 7), (9, 9, 9)), ((0, 8, 8), (8, 16, 16)), ((2, 2, 0), (16, 3, 16))]
WAYS += [((1, 0, 0), (3, 1, 16)), ((12, 12, 12), (16, 16, 16)), ((0, 0, 6), (16, 16, 8)), ((9, 1, 2), (10, 2, 3)), ((0, 0, 0), (16, 16, 1))]


def questions():
    """The store and its questions, nothing added: damaged words in each region, orders, odd arguments."""
    script = b""
    # before the first new store: a slice of no words
    script += voxel(0, 0, 0, 0) + cell(0, 0, 0, 0, 0) + both(0, (0, 0, 0), (0, 0, 0)) + kept(2) + outline_out(0, 10) + STORE_SUM
    for words in (0, 1, 31, 32, 159, 160, 302, 4156, 4157):
        script += new(1, words) + voxel(0, 0, 0, 0) + kept(2) + both(0, (0, 0, 0), (0, 0, 0)) + cell(0, 0, 0, 0, 0) + outline_out(0, 8)
    for c in (0, 1, 2, 1644, 1645, 65535, 65536, 65537, 27356481, MOST):
        script += new(c, 4300) + new(c, 262144) + new(c, min(262144, used(c))) + new(c, min(262144, used(c) - 1))
        script += new(c, min(262144, lists(c)))

    base = by_hand(
        2,
        [(3, pointer(0, 0)), (3, pointer(5, 1)), (2, pointer(3, 1)), (16, 0), (4, pointer(7, 0))],
        [0x8001, 2**64 - 1],
        {
            3: [[pointer(0, 0), 0, pointer(3, 1), 0, 0, pointer(7, 0), 0, 0], [pointer(2, 0)] * 8],
            4: [[pointer(6, 0), pointer(1, 1), 0, 0, 0, 0, 0, pointer(0, 0)]],
        },
    )
    asked = b""
    for s in range(6):
        for point in ((0, 0, 0), (3, 1, 2), (7, 7, 7), (8, 0, 0), (0, MOST, 0)):
            asked += voxel(s, *point)
        for height, point in ((0, (3, 0, 0)), (1, (1, 1, 1)), (2, (0, 0, 0)), (2, (1, 0, 0)), (3, (0, 0, 0)), (4, (0, 0, 0))):
            asked += cell(s, height, *point)
        asked += cell(s, 17, 0, 0, 0) + cell(s, MOST, 0, 0, 0)
        asked += both(s, (0, 0, 0), (8, 8, 8)) + both(s, (0, 0, 0), (4, 4, 4)) + both(s, (1, 2, 3), (3, 4, 4))
        asked += both(s, (8, 8, 8), (8, 8, 8)) + both(s, (0, 0, 0), (0, 9, 0)) + both(s, (2, 0, 0), (1, 0, 0))
        asked += both(s, (0, 0, 0), (16, 16, 16)) + both(s, (16, 16, 16), (16, 16, 16)) + both(s, (0, 5, 0), (0, 4, 0))
        for room in (0, 5, 6, 400):
            asked += outline_out(s, room)
    for h in (0, 1, 2, 3, 4, 16, 17, MOST):
        asked += kept(h)
    script += base + STORE_SUM + asked + STORE_SUM

    # damage in each region
    few = b""
    for s in (0, 1, 2, 4, 5):
        few += voxel(s, 0, 0, 0) + voxel(s, 9, 0, 0) + cell(s, 2, 0, 0, 0)
        few += both(s, (0, 0, 0), (4, 4, 4)) + both(s, (4, 4, 4), (8, 8, 8)) + both(s, (3, 3, 3), (2, 9, 9)) + outline_out(s, 300)
        few += both(s, (0, 0, 0), (8, 8, 8)) + both(s, (0, 0, 0), (16, 16, 16)) + both(s, (8, 8, 8), (16, 16, 16))
    few += kept(2) + kept(1)
    header = [(0, 0), (0, 1), (0, 3), (0, 65537), (1, 65), (1, MOST), (2, 3), (16, 3), (16, 2), (17, 1), (31, 1)]
    scenes = [(32, 1), (32, 17), (32, MOST), (33, 0x20000000), (33, pointer(0, 2)), (35, pointer(0, 5)), (36, 1), (37, pointer(1, 2))]
    unused = [(42, 1), (159, 1)]
    leaves = [(160, 0), (162, 0), (163, 0)]
    first, second, above, end = place(2, 3, 0), place(2, 3, 1), place(2, 4, 0), used(2)
    cells = [(first, 0x20000000), (first, pointer(0, 2)), (first + 1, pointer(0, 7)), (first + 3, pointer(0, 2**29 - 2))]
    cells += [(first + 7, 1), (second, 0), (above, pointer(0, 2)), (above, 0x40000000), (above + 7, pointer(0, 3))]
    cells += [(above + 10, 1), (lists(2) - 1, 1), (end - 1, 1), (end, 1), (end + 1, 77)]
    # counts: the first cell has 68, the second 16, the one above them 152
    counts = [(first + 9, 67), (first + 9, 69), (first + 9, 512), (first + 9, 513), (first + 8, 1), (second + 9, 0), (second + 8, MOST)]
    counts += [(above + 9, 151), (above + 9, 4096), (above + 9, 4097), (above + 8, 1), (above + 18, 1), (above + 19, 1), (lists(2) - 2, 1)]
    for at, n in header + scenes + unused + leaves + cells + counts:
        script += base + word(at, n) + few + STORE_SUM
    # chains: the leaves' are 2 and 64; a head gone, another's, one that is not kept; rings; cells that are not kept; heights that keep none
    own = [chain_of([pointer(0, 0), pointer(3, 1), pointer(7, 0)]), chain_of([pointer(2, 0)] * 8)]
    top = chain_of([pointer(6, 0), pointer(1, 1), pointer(0, 0)])
    chains = [(head(2, 2, 2), 0), (head(2, 2, 2), 2), (head(2, 2, 64), 3), (head(2, 2, 0), 1), (head(2, 2, 65), 1), (head(2, 2, 255), 2)]
    chains += [(head(2, 3, own[0]), 2), (head(2, 3, own[1]), 0), (head(2, 3, own[1]), pointer(1, 1)), (head(2, 4, top), MOST), (head(2, 5, 0), 1)]
    chains += [(head(2, 16, 255), 1), (following(2, 2, 0), 1), (following(2, 2, 0), 2), (following(2, 3, 1), 1), (following(2, 4, 0), 1)]
    chains += [(following(2, 4, 1), 1), (following(2, 4, 1), 2), (following(2, 5, 0), 1), (following(2, 16, 1), MOST)]
    brief = b"".join(voxel(s, 3, 1, 2) + cell(s, 2, 0, 0, 0) + both(s, (0, 0, 0), (8, 8, 8)) + outline_out(s, 300) for s in (0, 4))
    brief += pack(0, 120, 99) + add(S1) + add(b"") + kept(3) + STORE_SUM
    for at, n in chains:
        script += base + word(at, n) + brief
    # the damage of a cell or of a leaf, its chain with it
    script += base + word(162, 0) + word(163, 1) + word(head(2, 2, 64), 0) + word(head(2, 2, 1), 2) + brief
    script += base + word(first, pointer(0, 2)) + word(head(2, 3, own[0]), 0)
    script += word(head(2, 3, chain_of([pointer(0, 2), pointer(3, 1), pointer(7, 0)])), 1) + brief
    # the words of a count exchanged; a wrong count below, and the one above summed up from it; a sum that is right modulo 2^64 only
    pairs = [[(first + 8, 68), (first + 9, 0)], [(above + 8, 152), (above + 9, 0)], [(second + 9, 17), (above + 9, 153)]]
    pairs += [[(first + 8, 2**31), (first + 9, 0), (above + 9, 16)]]
    for words in pairs:
        script += base + b"".join(word(at, n) for at, n in words) + few + STORE_SUM
    # a bad pointer below a count taken
    script += base + word(above + 1, pointer(0, 3)) + word(second, pointer(0, 3)) + few + STORE_SUM
    # bad pointers beside boxes and in cells that are entered after an answer or never; the room that shows the cell above mirrored has its
    # children the other way round
    script += base + word(above + 6, pointer(0, 2)) + word(second + 5, pointer(0, 2))
    for s in (0, 1, 4):
        for low, high in WAYS:
            script += both(s, low, high)

    # empty used cells answer as empty in questions, and are damage for outline out
    script += by_hand(2, [(2, pointer(0, 0)), (3, pointer(0, 0))], [0], {3: [[0] * 8]})
    script += voxel(0, 0, 0, 0) + cell(0, 2, 0, 0, 0) + cell(0, 1, 0, 0, 0) + cell(0, 0, 0, 0, 0)
    script += voxel(1, 0, 0, 0) + cell(1, 3, 0, 0, 0) + cell(1, 2, 0, 0, 0) + both(1, (0, 0, 0), (8, 8, 8)) + outline_out(0, 99)
    script += both(0, (0, 0, 0), (4, 4, 4)) + both(0, (1, 1, 1), (2, 2, 2)) + both(1, (3, 3, 3), (5, 5, 5))
    # the 64-voxel leaf room, box 64
    script += by_hand(1, [(2, pointer(4, 0))], [2**64 - 1], {})
    script += both(0, (0, 0, 0), (4, 4, 4)) + both(0, (0, 0, 0), (4, 4, 3)) + voxel(0, 3, 3, 3) + outline_out(0, 14) + outline_out(0, 13)
    # a full room of depth 16 answers at once
    script += by_hand(1, [(16, pointer(1, 0))], [2**64 - 1], {h: [[pointer(h % 8, 0)] * 8] for h in range(3, 17)})
    script += both(0, (0, 0, 0), (65536, 65536, 65536)) + both(0, (1, 0, 0), (2, 65536, 1))
    script += both(0, (32768, 32768, 32768), (65536, 65536, 65536))
    script += voxel(0, 65535, 0, 1) + cell(0, 16, 0, 0, 0) + cell(0, 0, 65535, 65535, 65535) + outline_out(0, 65536)
    # rooms of zero leaves: every cell is entered, and one that is there eight times counts eight times
    hollow = {h: [[pointer(h % 8, 0)] * 8] for h in range(3, 17)}
    script += by_hand(1, [(d, pointer(d % 8, 0)) for d in range(2, 17)], [0], hollow)
    for s in range(15):
        edge = 4 << s
        script += both(s, (0, 0, 0), (edge, edge, edge)) + both(s, (0, edge // 2, 0), (edge // 2, edge, edge))
        script += both(s, (0, 0, 1), (edge, edge, 1)) + both(s, (edge - 1, edge - 1, 0), (edge, edge, 3))
    # a floor just below the box: many leaves entered that have nothing in it, then the last voxel, or not
    floor = outline(5, [(4 * i, 4 * j, 0) for i in range(8) for j in range(8)] + [(31, 31, 31)])
    script += fresh(9) + add(floor) + both(0, (0, 0, 1), (32, 32, 32)) + both(0, (0, 0, 1), (32, 32, 31)) + both(0, (0, 0, 0), (32, 32, 32))
    script += both(0, (29, 29, 29), (32, 32, 32)) + both(0, (29, 29, 29), (32, 31, 32)) + both(0, (1, 1, 0), (4, 4, 32))
    return script


def symmetric(height):
    """Shapes symmetric under one axis or more together."""
    shapes = []
    for t in (3, 5, 6, 7, 1, 2, 4):
        voxels = some_voxels(height, 3)
        shapes.append(voxels + mirror(voxels, t, 1 << height))
    return shapes


def adding():
    script = add(S1)  # no store yet
    # S8, then S9 with a full store that still accepts a room without new cells
    script += fresh(2) + add(ROOM_P) + add(ROOM_Q) + kept(3) + kept(2) + voxel(0, 0, 0, 0) + voxel(1, 3, 7, 0)
    script += both(0, (0, 0, 0), (8, 8, 8)) + both(1, (0, 0, 0), (8, 8, 8)) + outline_out(0, 99) + outline_out(1, 99) + STORE_SUM
    script += fresh(1) + add(ROOM_P) + STORE_SUM + add(S1) + add(ROOM_Q) + add(S1) + kept(2) + STORE_SUM
    script += fresh(2) + add(ROOM_P) + add(outline(2, [(0, 0, 0), (1, 1, 0), (0, 1, 1)])) + add(ROOM_P) + add(ROOM_Q) + STORE_SUM
    # 64 and 65 scenes; a broken file is 6 even then
    script += fresh(1) + b"".join(add(raw(2 + i % 15, b"")) for i in range(65))
    script += add(raw(3, b"\x00")) + add(S1) + add(b"") + kept(2) + voxel(63, 0, 0, 0) + voxel(64, 0, 0, 0) + STORE_SUM
    script += fresh(3) + b"".join(add(S1) for i in range(66)) + kept(2) + kept(3) + outline_out(63, 23)

    # broken outlines
    good = outline(4, [(0, 0, 0), (15, 15, 15), (5, 6, 7), (8, 0, 3)])
    script += fresh(9)
    files = [b"", b"\x11", b"\x12" + good[1:], b"\x22", b"\x11\0\0\0\x05", b"\x11\0\0\0\x06"]
    files += [raw(1, b""), raw(17, b""), raw(0, b"\x01"), raw(255, b"")]
    files += [good[:-1], with_length(good[:-1]), with_length(good + b"\0"), good + b"\0"]
    files += [raw(2, leaf(0)), raw(2, leaf(1)[:7]), raw(2, leaf(1) + b"\x01")]
    files += [raw(3, b"\0"), raw(3, b"\x01"), raw(3, b"\x01" + leaf(0)), raw(3, b"\x80" + leaf(5)), raw(3, b"\x81" + leaf(5))]
    files += [raw(4, b"\x01\x00"), raw(4, b"\x02\x01" + leaf(9)), raw(16, b"\x01" * 14 + leaf(9)), raw(16, b"\x01" * 13 + leaf(9))]
    files += [b"\x11\xff\xff\xff\xff\x03", b"\x11" + u32(len(good) + 1) + good[5:]]
    for file in files:
        script += add(file)
    script += STORE_SUM
    for i in range(len(good)):
        for byte in (0, 1, 0x80, 0xFF):
            script += fresh(4, 0) + add(good[:i] + bytes([byte]) + good[i + 1 :])

    # symmetric shapes at heights 2 to 4, under all mirrors, alone and eight together
    for h in (2, 3, 4):
        edge = 1 << h
        for voxels in symmetric(h):
            script += fresh(12) + add(outline(h, voxels))
            for t in range(1, 8):
                script += add(outline(h, mirror(voxels, t, edge)))
            script += kept(h) + kept(2) + outline_out(3, 400) + both(5, (0, 0, 0), (edge // 2, edge, edge)) + STORE_SUM
            eight = []
            for i in range(8):
                for x, y, z in mirror(voxels, (i * 3) % 8, edge):
                    eight.append((x + edge * (i & 1), y + edge * (i >> 1 & 1), z + edge * (i >> 2 & 1)))
            script += add(outline(h + 1, eight)) + kept(h + 1) + kept(h) + both(8, (0, 0, 0), (2 * edge, 2 * edge, 2 * edge)) + STORE_SUM

    # capacity refused at each height, words as they were; then a smaller room still fits
    for c in (1, 2, 3, 4, 5, 6, 8):
        script += fresh(c) + add(S1) + STORE_SUM
        for n in (2, 3, 5, 9, 14):
            script += add(outline(5, some_voxels(5, n))) + STORE_SUM
        script += add(ROOM_P) + add(S1) + kept(2) + kept(3) + kept(4) + kept(5)
    # noise beyond the used words stays; a store damaged beyond is not seen
    script += new(2, 4500) + add(S1) + word(4499, 7) + add(ROOM_P) + STORE_SUM
    # stores that no call wrote: cells that match, tags not lowest
    script += by_hand(4, [], [1, 8, 0x8001], {3: [[pointer(3, 2), 0, 0, 0, 0, 0, 0, 0], [pointer(0, 2), 0, 0, 0, 0, 0, 0, 0]]})
    script += add(S1) + add(ROOM_P) + add(raw(3, b"\x01" + leaf(0x8001))) + add(raw(3, b"\x80" + leaf(0x8001))) + STORE_SUM
    script += outline_out(0, 99) + outline_out(3, 99)
    # deep rooms
    for d in (2, 3, 7, 11, 16):
        voxels = some_voxels(d, 12)
        edge = 1 << d
        script += fresh(20) + add(outline(d, voxels)) + add(outline(d, mirror(voxels, 6, edge))) + STORE_SUM
        for h in range(2, d + 1):
            script += kept(h)
        for x, y, z in voxels[:4]:
            script += voxel(0, x, y, z) + voxel(1, x, edge - 1 - y, edge - 1 - z) + voxel(0, x ^ 1, y, z)
            script += cell(0, min(d, 3), x >> 3, y >> 3, z >> 3 if d >= 3 else 0)
        script += both(0, (0, 0, 0), (edge, edge, edge)) + both(1, (0, 0, 0), (edge, edge // 2, edge))
        script += outline_out(0, 65536) + outline_out(1, 65536)
    return script


def packing():
    script = pack(0, 0, 0)
    # S1 to S5
    script += fresh(2) + add(S1) + pack(0, 120, 29) + check(29) + check(28) + check(40)
    script += packed(7, 0, 0) + packed(4, 0, 0) + packed(0, 4, 0) + packed(8, 0, 0) + opened(7, 0, 0) + opened(8, 0, 0)
    script += pack(0, 120, 28) + pack(0, 119, 29) + pack(0, 119, 28) + pack(0, 130, 40) + pack(1, 0, 0) + pack(0, 0, 0)
    script += word(1, 2) + pack(0, 120, 29) + word(31, 5) + pack(7, 0, 0) + STORE_SUM
    # an empty scene, and depth 2
    script += fresh(1) + add(raw(7, b"")) + pack(0, 60, 7) + pack(0, 60, 6) + pack(0, 59, 7) + pack(0, 61, 9) + check(9)
    script += packed(0, 0, 0) + packed(127, 127, 127) + packed(128, 0, 0) + opened(3, 3, 3)
    script += fresh(2) + add(outline(2, [(1, 2, 3)])) + add(outline(2, [(2, 1, 0)])) + add(outline(2, [(0, 0, 0), (3, 3, 3)]))
    for i in range(3):
        script += pack(i, 120, 99) + check(99) + packed(1, 2, 3) + packed(2, 1, 0) + opened(0, 0, 0)
    # shared cells: only a scene's own are written
    script += fresh(40)
    rooms = []
    for i in range(6):
        voxels = some_voxels(5, 6 + 3 * i) + [(1, 1, 1), (2, 1, 1)]
        rooms.append(voxels)
        script += add(outline(5, voxels))
    for i in range(6):
        script += pack(i, 2400, 3000) + check(3000) + pack(i, 2405, 3100)
        for point in rooms[i][:3] + some_voxels(5, 3):
            script += packed(*point) + opened(*point) + voxel(i, *point)
        for h in range(2, 6):
            script += kept(h)
    # a cell named eight times by one record, one named by two
    row = [(4 * i, 4 * j, 4 * k + 1) for i in range(2) for j in range(2) for k in range(2)]
    named = outline(4, [(0, 0, 0)] + row + [(8, 0, 0), (12, 0, 1), (8, 8, 8), (12, 8, 9), (8, 8, 0)])
    script += fresh(9) + add(named) + pack(0, 540, 999) + check(999)
    for d in (3, 4, 6, 9, 16):
        voxels = some_voxels(d, 14)
        edge = 1 << d
        script += fresh(30) + add(outline(d, voxels)) + add(outline(d, mirror(voxels, 5, edge)))
        script += add(outline(d, voxels + mirror(voxels, 3, edge)))
        for i in range(3):
            script += pack(i, 1800, 60000) + check(60000) + check(10)
            for point in voxels[:3] + some_voxels(d, 2):
                script += packed(*point) + opened(*point)
    # stores that no call wrote: packing writes what is stored, and the check says what it is
    script += by_hand(
        3,
        [(3, pointer(3, 0)), (4, pointer(7, 0))],
        [0x8001, 0x8001, 0x1008],
        {
            3: [
                [pointer(3, 0), pointer(1, 1), 0, pointer(2, 2), 0, 0, 0, pointer(0, 0)],
                [0, pointer(5, 2)] + [0] * 6,
            ],
            4: [[pointer(1, 1), pointer(6, 0)] + [0] * 6],
        },
    )
    script += pack(0, 180, 200) + check(200) + packed(0, 0, 0) + packed(1, 1, 0)
    script += pack(1, 180, 200) + check(200) + packed(9, 1, 1) + opened(9, 1, 1)
    return script


def far():
    """A record at place 8,191 (named short), and in another room one at 8,192 (named long), at height 3."""
    random.seed(77)
    capacity = 920
    leaves = [random.getrandbits(64) | 1 for _ in range(60)]

    def part(n):
        return bytes([(1 << n) - 1]) + b"".join(leaf(random.choice(leaves)) for _ in range(n))

    def build(parts, height):
        if height == 3:
            return parts.pop() if parts else None
        mask = 0
        body = b""
        for i in range(8):
            child = build(parts, height - 1)
            if child is not None:
                mask |= 1 << i
                body += child
        return bytes([mask]) + body if mask else None

    script = b""
    for last in (2, 3):
        parts = [part(8) for _ in range(908)] + [part(7), part(7), part(last)] + [part(8) for _ in range(8)]
        script += new(capacity, used(capacity)) + add(raw(7, build(parts[::-1], 7))) + pack(0, 60 * capacity, 65536)
        for h in range(2, 8):
            script += kept(h)
        for point in some_voxels(7, 40):
            script += packed(*point) + voxel(0, *point)
        script += check(65536)
    return script


def opening():
    script = packed(0, 0, 0) + opened(0, 0, 0) + check(0)
    script += load(S1_PACKED) + packed(7, 0, 0) + opened(7, 0, 0) + check(29)
    # byte 6 from 0 to 10 at 7 bytes and at more
    for byte in range(0, 11):
        file = with_length(b"\x22\0\0\0\0\x05" + bytes([byte]))
        script += load(file) + packed(0, 0, 0) + packed(32, 0, 0) + opened(0, 0, 0) + opened(32, 0, 0) + check(7)
        file = with_length(file + b"\0")
        script += load(file) + packed(0, 0, 0) + packed(32, 0, 0) + opened(0, 0, 0) + check(8)
        script += load(S1_PACKED) + change(6, byte) + packed(0, 0, 0) + packed(7, 7, 7) + opened(1, 0, 0) + check(29)
    # depth 2 with 0, 1, 2, 3 leaves
    for n in range(4):
        for root in (0, 3, 8):
            file = packed_file(2, root, {2: (n, b"".join(leaf(0x8001 + i) for i in range(n)))})
            script += load(file) + packed(0, 0, 0) + packed(3, 3, 0) + packed(4, 0, 0) + opened(0, 0, 0) + opened(3, 3, 0)
            script += check(len(file))
    # sizes that overflow 32 bits
    sizes = [(MOST, MOST), (0x80000003, 1), (3, 0x20000001), (0x80000003, 0x20000001), (0, 1), (3, 0), (7, 0), (0x7FFFFFF3, 2)]
    for a, b in sizes:
        script += load(S1_PACKED[:7] + u32(a, b) + S1_PACKED[15:]) + packed(7, 0, 0) + opened(7, 0, 0) + packed(9, 0, 0) + check(29)
    # short files, lengths, versions, depths; a point outside on a broken file (10 before 6)
    files = [b"", b"\x22", b"\x11" + S1_PACKED[1:], b"\x21" + S1_PACKED[1:], S1_PACKED[:6], with_length(S1_PACKED[:6])]
    files += [S1_PACKED[:-1], with_length(S1_PACKED[:-1]), S1_PACKED + b"\0", with_length(S1_PACKED + b"\0")]
    files += [with_length(S1_PACKED[:n]) for n in (10, 14, 15)]
    files += [S1_PACKED[:5] + bytes([d]) + S1_PACKED[6:] for d in (0, 1, 2, 4, 16, 17, 255)]
    for file in files:
        script += load(file) + packed(7, 0, 0) + packed(8, 0, 0) + packed(MOST, 0, 0) + opened(7, 0, 0) + opened(8, 0, 0)
        script += check(len(file)) + check(max(0, len(file) - 1)) + check(len(file) + 9)
    return script


def changes():
    """Every single-byte change of S1's file: check, voxel, opened question."""
    script = load(S1_PACKED)
    for i in range(len(S1_PACKED)):
        for byte in range(256):
            if byte != S1_PACKED[i]:
                script += change(i, byte) + check(29) + packed(7, 0, 0) + (opened(0, 0, 0) if byte % 16 == 1 else b"")
        script += change(i, S1_PACKED[i])
    return script


def rule_files():
    """Two proper files, of depths 3 and 4, then files with each rule broken alone, and some that are proper again."""
    two = links((0, 1, 0, 0), (1, 1, 0, 1))
    one = links((0, 1, 0, 0))
    over = inner(links((0, 1, 0, 0), (1, 1, 0, 2)))
    good = packed_file(3, 0, {3: inner(two), 2: leaf_list(1, 3)})
    four = packed_file(
        4,
        0,
        {
            4: inner(links((0, 1, 0, 0), (1, 1, 0, 3))),
            3: inner(two, links((0, 1, 0, 0), (3, 1, 1, 0))),
            2: leaf_list(1, 3),
        },
    )

    def named(often, twice, all_leaves):
        """Leaf `often` named eight times by one record, `twice` once by each of two, leaf 2 once."""
        top = inner(links((0, 1, 0, 0), (1, 1, 0, 9), (2, 1, 0, 11)))
        eight = links(*[(i, 1, 0, often) for i in range(8)])
        below = inner(eight, links((0, 1, 0, twice)), links((0, 1, 0, twice), (1, 1, 0, 2)))
        return packed_file(4, 0, {4: top, 3: below, 2: all_leaves})

    return [
        good,
        four,
        packed_file(3, 0, {3: inner(one, links((1, 1, 0, 0))), 2: leaf_list(1)}),  # two records on top
        packed_file(3, 0, {3: (0, b""), 2: leaf_list(1)}),  # none
        packed_file(3, 0, {3: inner(one + b"\0\0"), 2: leaf_list(1)}),  # zero header after
        packed_file(3, 0, {3: inner(halves(3, 0)), 2: leaf_list(1)}),  # code 3
        packed_file(3, 0, {3: inner(halves(5, 0)), 2: leaf_list(1)}),  # record past its list
        packed_file(3, 0, {3: inner(two), 2: leaf_list(1, 0)}),  # a zero leaf
        packed_file(3, 0, {3: inner(links((0, 1, 0, 0), (1, 1, 0, 2))), 2: leaf_list(1, 3)}),  # outside
        packed_file(3, 0, {3: inner(links((0, 2, 0, 0), (1, 1, 0, 1))), 2: leaf_list(1, 3)}),  # long to a short place
        packed_file(4, 0, {4: inner(two), 3: inner(two), 2: leaf_list(1, 3)}),  # names no start
        packed_file(3, 0, {3: inner(one), 2: leaf_list(1, 3)}),  # not named
        packed_file(3, 0, {3: inner(two), 2: leaf_list(1, 8)}),  # two leaves that match
        packed_file(4, 0, {4: over, 3: inner(one, links((1, 1, 1, 0))), 2: leaf_list(1)}),  # two cells that match
        packed_file(3, 0, {3: inner(links((0, 1, 3, 0), (1, 1, 0, 1))), 2: leaf_list(0x8001, 3)}),  # tag 3 means 0
        packed_file(3, 0, {3: inner(links((0, 1, 2, 0), (1, 1, 0, 1))), 2: leaf_list(0x8001, 3)}),  # tag 2 means 1
        packed_file(3, 1, {3: inner(links((0, 1, 0, 0), (1, 1, 1, 0))), 2: leaf_list(1)}),  # the root's tag
        packed_file(3, 2, {3: inner(links((0, 1, 0, 0), (1, 1, 1, 0))), 2: leaf_list(1)}),
        packed_file(4, 0, {4: over, 3: inner(links((0, 1, 0, 1)), two), 2: leaf_list(3, 1)}),  # order rises
        packed_file(4, 0, {4: over, 3: inner(one, two), 2: leaf_list(3, 1)}),
        named(0, 1, leaf_list(7, 1, 3)),  # eight times by one record, once by each of two
        named(1, 0, leaf_list(1, 7, 3)),  # order rises
        packed_file(2, 1, {2: leaf_list(0x8001)}),
        packed_file(2, 3, {2: leaf_list(0x8001)}),
        packed_file(2, 0, {2: leaf_list(0x8001)}),
        packed_file(2, 0, {2: leaf_list(0)}),
        packed_file(2, 0, {2: leaf_list(1, 3)}),
    ]


def rules():
    """A proper file with each rule broken alone; every single-byte change of a file of depth 4."""
    files = rule_files()
    four = files[1]
    script = b""
    for file in files:
        n = len(file)
        script += load(file) + check(n) + check(n - 1) + check(n + 13) + packed(0, 0, 0) + packed(4, 0, 0) + opened(0, 0, 0)
    script += load(four)
    for i in range(len(four)):
        for byte in range(0, 256, 1 if i >= 5 else 16):
            if byte != four[i]:
                script += change(i, byte) + check(len(four))
        script += change(i, four[i])
    return script


def flipped(file):
    """Headset check after each change of one bit."""
    script = load(file)
    for i, byte in enumerate(file):
        for bit in range(8):
            script += change(i, byte ^ 1 << bit) + headset(len(file))
        script += change(i, byte)
    return script


def headset_small():
    """Depths around 10, each refusal with those that come after it, damaged stores, broken files."""
    script = slim(0, 0, 0) + headset(0) + headset(9)
    # S1: exact, one short, longer; a refusal leaves the current file
    script += fresh(2) + add(S1) + slim(0, 120, 28) + headset(9) + slim(0, 120, 29) + headset(29) + headset(28) + headset(0) + headset(40)
    script += slim(0, 119, 29) + slim(0, 119, 28) + slim(0, 130, 40) + slim(0, 0, 0) + slim(1, 120, 29) + slim(1, 0, 0) + headset(29)
    script += word(31, 5) + slim(0, 120, 29) + slim(7, 0, 0) + headset(29) + STORE_SUM

    # a voxel, and nothing, at each depth: one record a height of 4 bytes and a leaf, or 7 bytes
    script += fresh(16)
    for d in range(2, 17):
        script += add(outline(d, some_voxels(d, 1))) + add(raw(d, b""))
    for scene in range(30):
        n = 7 if scene % 2 else 8 * (2 + scene // 2) + 3
        for scratch, room in ((960, n), (960, n - 1), (959, n), (959, n - 1), (965, n + 4), (960, 0), (0, 0)):
            script += slim(scene, scratch, room)
        script += load(S1_PACKED) + slim(scene, 960, n) + headset(29)
        script += pack(scene, 960, n) + headset(n) + headset(n - 1) + headset(n + 6) + headset(0) + check(n)
    for scene in (30, 31, 63, 64, 2**31, MOST):
        script += slim(scene, 960, 99) + slim(scene, 959, 99) + slim(scene, 960, 0) + slim(scene, 0, 0)
    # rooms of depth 9 to 12, images of theirs and both together
    for d in (9, 10, 11, 12):
        voxels = some_voxels(d, 14)
        script += fresh(30) + add(outline(d, voxels)) + add(outline(d, mirror(voxels, 6, 1 << d)))
        script += add(outline(d, voxels + mirror(voxels, 3, 1 << d)))
        for scene in range(4):
            script += slim(scene, 1800, 3000) + slim(scene, 1800, 300) + pack(scene, 1800, 3000) + headset(3000) + headset(300)

    # stores by hand: a tag that is not the lowest, cells that match; then each of their words wrong, the other refusals behind 2
    low = [pointer(3, 0), 0, 0, pointer(0, 1), 0, 0, 0, 0]
    cells = {3: [low, low], 4: [[pointer(1, 0), pointer(2, 1)] + [0] * 6]}
    for h in range(5, 12):
        cells[h] = [[0, 0, pointer(h % 8, 0)] + [0] * 5]
    scenes = [(3, pointer(0, 1)), (4, pointer(0, 0)), (10, pointer(5, 0)), (11, pointer(6, 0)), (10, 0), (11, 0), (16, 0)]
    scenes += [(2, pointer(2, 1))]
    leaves = [0x8001, 0x0137]
    script += by_hand(3, scenes, leaves, cells)
    for scene in range(9):
        script += slim(scene, 180, 300) + slim(scene, 180, 6) + slim(scene, 179, 300) + slim(scene, 0, 0)
        script += pack(scene, 180, 300) + headset(300) + check(300)
    words = {0: 3} | words_by_hand(3, scenes, leaves, cells)
    first, last, end = place(3, 3, 0), place(3, 11, 0), used(3)
    wrong = [(0, 0), (0, 2), (0, 4), (0, 65537), (1, 7), (1, 9), (1, 65), (2, 1), (2, 4), (11, 0), (12, 1), (16, 4), (17, 1), (31, 1)]
    wrong += [(38, 0), (38, 17), (39, pointer(0, 1)), (39, 0x20000000), (41, pointer(7, 2)), (42, 1), (44, MOST), (48, 2), (159, 1)]
    wrong += [(161, 0), (163, 0), (164, 1), (first, 0), (first, pointer(0, 2)), (first + 1, 0xE0000000), (first + 9, 7), (first + 8, 1)]
    wrong += [(first + 20, 1), (first + 29, 1), (last + 2, 0), (last + 2, pointer(0, 1)), (last + 8, 1), (last + 9, 1), (last + 10, 1)]
    wrong += [(lists(3) - 1, 1), (head(3, 2, 2), 0), (head(3, 2, 3), 2), (head(3, 11, chain_of(cells[11][0])), 0), (head(3, 12, 0), 1)]
    wrong += [(following(3, 3, 0), 0), (following(3, 3, 1), 1), (following(3, 11, 1), 1), (end - 1, 1)]
    for at, n in wrong:
        script += word(at, n) + slim(2, 180, 300) + slim(3, 180, 300) + slim(3, 0, 0) + slim(9, 0, 0) + word(at, words.get(at, 0))
    # words past the store's are no damage; a slice a word too short is
    script += word(end, 9) + word(end + 1, 9) + slim(2, 180, 300) + slim(3, 180, 300) + STORE_SUM
    script += new(3, end - 1) + slim(0, 180, 300) + new(3, 4000) + slim(0, 180, 300) + new(0, 9000) + slim(0, 0, 0)

    # fronts: 0x21 and others, lengths, depths, the root's mirror
    for depth in (3, 10, 11, 16):
        file = deepened(S1_PACKED, depth)
        n = len(file)
        script += load(file) + headset(n) + headset(n - 1) + headset(n + 1) + headset(65536) + check(n) + headset(0)
        fronts = [(0, byte) for byte in (0x21, 0x23, 0x11, 0x31, 0)] + [(4, n ^ 1), (1, 1), (3, 0xFF)]
        fronts += [(5, d) for d in (0, 1, 2, 3, 9, 10, 11, 12, 16, 17, 255)] + [(6, byte) for byte in (1, 7, 8, 9, 255)] + [(7, 1), (10, 0)]
        for at, byte in fronts:
            script += change(at, byte) + headset(n) + headset(n - 1) + change(at, file[at])
        for m in (0, 1, 2, 5, 6, 7, 8, n - 2, n - 1):
            script += load(file[:m]) + headset(m) + load(with_length(file[:m]) if m > 4 else file[:m]) + headset(m) + headset(max(0, m - 1))
        script += load(with_length(file + b"\0\0")) + headset(n + 2) + load(file + b"\0\0") + headset(n + 2)
    for depth in range(0, 18):
        for byte in (0, 8, 9):
            file = with_length(b"\x22\0\0\0\0" + bytes([depth, byte]))
            script += load(file) + headset(7) + headset(6) + load(b"\x21" + file[1:]) + headset(7) + headset(6)
            script += load(with_length(file + b"\0")) + headset(8) + load(file + b"\0") + headset(8)
    # each rule broken alone, at depths 10, 11 and 16 too
    for file in rule_files():
        for depth in (file[5], 10, 11, 16):
            deep = deepened(file, depth)
            script += load(deep) + headset(len(deep)) + headset(len(deep) - 1) + (check(len(deep)) if depth > 10 else b"")
    # long pointers where no file can have one: in the topmost list, to a place that is short and to one outside; to a leaf that isn't there
    one = links((3, 1, 0, 0))
    for depth in (3, 4, 10, 11):
        for place_named in (0, 1, 8191, 8192, 2**29 - 1):
            for top, bottom in ((2, 1), (1, 2)):
                of = {h: inner(one) for h in range(3, depth + 1)}
                of[3] = inner(links((3, bottom, 0, place_named if bottom == 2 else 0)))
                if top == 2:
                    of[depth] = inner(links((3, top, 0, place_named)))
                of[2] = leaf_list(0x0137)
                file = packed_file(depth, 0, of)
                script += load(file) + headset(len(file)) + headset(len(file) - 1)
    return script + flipped(deepened(S1_PACKED, 10)) + flipped(deepened(S1_PACKED, 11))


def kept_once(kept, one):
    """The pointer to a cell among those kept, with it if it is new. No cell here has an image among the others."""
    if one not in kept:
        kept.append(one)
    return pointer(0, kept.index(one))


def grown(cells, row, low, high):
    """The pointer to the cell of the one height over a row of pointers to cells of the other, eight a cell."""
    for h in range(low + 1, high + 1):
        row = [kept_once(cells.setdefault(h, []), tuple(row[i : i + 8] + [0] * (8 - len(row[i : i + 8])))) for i in range(0, len(row), 8)]
    return row[0]


def record_under(leaves, cells, height, p):
    """The outline record of what a pointer without mirror names."""
    if height == 2:
        return leaf(leaves[number(p)])
    children = cells[height][number(p)]
    mask = sum(1 << i for i in range(8) if children[i])
    return bytes([mask]) + b"".join(record_under(leaves, cells, height - 1, q) for q in children if q)


def wide_rooms(low):
    """Two rooms with 912 cells of height `low`: one of a child, 910 of eight, and at the end one of seven, in 8,200 half-words.

    The first room has the last of them twice. So it stands first in the list there, and a record of eight children last, at 8,191. The
    second has it once, so it stands last, at 8,192.
    """
    leaves = [random.getrandbits(64) for _ in range(12)]
    cells = {}
    row = [pointer(0, n) for n in range(12)]
    for h in range(3, low):
        row = [kept_once(cells.setdefault(h, []), tuple([p] + random.sample(row, 3) + [0] * 4)) for p in row]

    def some(count):
        return kept_once(cells.setdefault(low, []), tuple(random.choices(row, k=count) + [0] * (8 - count)))

    parts = [some(1)] + [some(8) for _ in range(910)] + [some(7)]
    first = grown(cells, parts + [parts[-1]], low, low + 4)
    second = grown(cells, parts, low, low + 4)
    return leaves, cells, first, second


def headset_wide():
    """Places 8,191 and 8,192: in rooms added, under cells up to depths 10 and 11, in files.

    A script cannot have that many leaves: a store of 262,144 words keeps 1,644, and 65,536 bytes of a file hold fewer than 8,192.
    """
    script = b""
    capacity = 920
    scratch = 60 * capacity
    leaves, cells, first, second = wide_rooms(3)
    files = [packed_scene(7, root, leaves, cells) for root in (first, second)]
    script += fresh(capacity) + add(raw(7, record_under(leaves, cells, 7, first))) + add(raw(7, record_under(leaves, cells, 7, second)))
    # a small room of their cells
    small = grown(cells, [pointer(0, 0), pointer(0, 911)], 3, 4)
    script += add(raw(4, record_under(leaves, cells, 4, small))) + kept(3) + kept(4) + STORE_SUM
    # both rooms once more under cells of one child each, in words
    counts = counts_of(leaves, cells)
    scenes = [(7, first), (7, second), (4, small)]
    for h in range(8, 12):
        cells[h] = [tuple([0] * (h % 8) + [pointer(h % 8, n)] + [0] * (7 - h % 8)) for n in range(2)]
        script += word(h, 2)
        for n in range(2):
            at = place(capacity, h, n)
            script += word(at + h % 8, pointer(h % 8, n)) + word(at + 9, counts[7, n])
            script += word(head(capacity, h, chain_of(cells[h][n])), n + 1)
    scenes += [(depth, pointer(tag, n)) for depth, tag in ((10, 3), (11, 0)) for n in range(2)]
    for scene, (depth, root) in list(enumerate(scenes))[3:]:
        script += word(32 + 2 * scene, depth) + word(33 + 2 * scene, root)
    script += word(1, len(scenes)) + STORE_SUM
    for scene, (depth, root) in enumerate(scenes):
        n = len(packed_scene(depth, root, leaves, cells))
        for words, room in ((scratch, n), (scratch, n - 1), (scratch, 0), (scratch - 1, n), (scratch - 1, 0), (scratch + 9, n + 9)):
            script += slim(scene, words, room)
        script += pack(scene, scratch, n) + headset(n) + headset(n - 1) + check(n)
        # scenes that are not held, and damage: a root that no cell is, a wrong next word
        script += slim(len(scenes), scratch, n) + slim(len(scenes), 0, 0)
        for at, wrong, right in ((33 + 2 * scene, pointer(0, 2000), root), (following(capacity, 3, 912), 1, 0)):
            script += word(at, wrong) + slim(scene, scratch, n) + slim(scene, 0, 0) + word(at, right)
    # the rooms' own files, changed: the front, the depth, the root's mirror, the sizes; a leaf's bytes, one by one, until it is zero
    for scene, file in enumerate(files):
        n = len(file)
        script += pack(scene, scratch, n) + headset(65536)
        for at, byte in ((0, 0x21), (4, file[4] ^ 1), (5, 11), (5, 17), (6, 5), (6, 8), (10, 4)):
            script += change(at, byte) + headset(n) + change(at, file[at])
        for at in range(n - 8, n):
            script += change(at, 0) + (headset(n) if (n - at) % 2 else b"")
    # the long pointer of the second: another place, another tag, and short
    file = files[1]
    n = len(file)
    long = file.rindex(u32(8192))
    script += pack(1, scratch, n)
    for at, byte in ((long + 2, 0x1F), (long + 2, 0x21), (long + 3, 9), (long, 0x20), (long, 0xE0)):
        script += change(at, byte) + headset(n) + change(at, file[at])
    header = file.rindex(b"\x95\x55")
    script += change(header, 0x55) + headset(n)
    # the first room in the order of numbers alone: a record named twice stands last, at 8,192
    file = packed_scene(7, first, leaves, cells, order=lambda n, often: n)
    script += load(file) + headset(len(file)) + check(len(file))
    # a long pointer in the topmost list, to a record; but all others have no name
    body = b"".join(links(*[(i, 1, 0, number(p)) for i, p in enumerate(cells[3][n]) if p]) for n in range(912))
    file = packed_file(4, 0, {4: inner(links((0, 1, 0, 0), (7, 2, 0, 8192))), 3: inner(body), 2: leaf_list(*leaves)})
    script += load(file) + headset(len(file)) + headset(len(file) - 1)
    # the same two places one height up, at depth 10
    leaves, cells, first, second = wide_rooms(4)
    for root in (first, second):
        file = deepened(packed_scene(8, root, leaves, cells), 10)
        script += load(file) + headset(len(file)) + headset(len(file) - 1) + check(len(file))
    return script


def headset_edges():
    """Headset packing and headset check; at the end more scratch than there is."""
    random.seed(12)
    return headset_small() + headset_wide() + headset(65536) + headset(65537) + headset(0)


def main():
    folder = os.path.join(os.path.dirname(os.path.abspath(__file__)), "../../../crates/replay_scripts/data")
    # one row of random numbers serves all, so their order matters
    for make in (questions, adding, packing, far, opening, changes, rules, headset_edges):
        with open(os.path.join(folder, make.__name__.replace("_", "-") + ".script"), "wb") as file:
            file.write(make())


main()
