#!/usr/bin/env python3
"""Says what `nvpool` is to write of the image of a pool.

  maps.py map|text|info        of the image on standard input, what these words of `nvpool` write
  maps.py dump A R             and these, of a root that has a block
  maps.py gc                   of one of version 1 of the LOG variant, the image of the GC variant that has the same heap
  maps.py check NVPOOL FILE..  compares what this build writes of the image in each file, and of its heap in the GC variant

It is a second reading of docs/layout.md, docs/variants.md, docs/operators.md and, for the page, crates/map_svg/specs, and has nothing of
the program. An image is taken to be sound: no defect is looked for.
"""

import array
import bisect
import subprocess
import sys
from collections import namedtuple

GRANULE = 16384
LAYOUTS = {  # where the log begins, the bytes of a chunk, the lines of it that have entries, the first granule of the heap
    1: (49152, 1024, 15, 4),
    2: (147456, 4096, 63, 13),
}
SIZES = [16 * n for n in range(1, 9)] + [2**k * n // 4 for k in range(7, 14) for n in range(5, 9)]
LEGEND = "h header, r roots, l log, . free, #= large block, S7 slab and tenths of it live, T7 slab in transition, ! loose\n"

# An extent: where it begins, its granules, whether it is loose; of a slab its class, its blocks of the class, those of others by class, and
# whether it is in transition; the class of a large block is None.
Extent = namedtuple("Extent", "start granules loose cls live old turns", defaults=(None, 0, {}, False))


def capacity(cls):
    return 63488 // SIZES[cls]


class Arena:
    """What the words of an arena say."""

    def __init__(self, words):
        self.words = words
        self.gc = words[0].to_bytes(8, "little") == b"NVALGC01"
        self.version, self.granules = words[1] & 65535, words[1] >> 32 & 65535
        log, self.chunk, self.lines, self.first = LAYOUTS[self.version]
        self.log = log // GRANULE
        entries = [w for line in range(8) if (w := words[64 + 8 * line])] if not self.gc else []
        self.opened = bool(entries)
        roots = words[2048 : log // 8]
        if entries and entries[0] & 4 and roots[entries[0] >> 32 & 65535]:
            roots[entries[0] >> 16 & 65535] = 0
        self.roots = {root: word for root, word in enumerate(roots) if word}
        # the blocks that roots hold, by address, each with its class in the GC variant
        self.held = {word & 0xFFFFFFFF: (word >> 32) - 1 for word in self.roots.values()}
        self.stands = sorted(self.held)
        self.stray, self.olds, self.entry = 0, {}, entries[0] if entries else 0
        self.extents = [self.extent(start, granules) for start, granules in sorted(self.book().items())]
        self.cells = [None] * self.granules
        for extent in self.extents:
            self.cells[extent.start : extent.start + extent.granules] = [extent] * extent.granules
        self.rows = self.free_rows()
        self.longest = max(self.rows.values(), default=0)

    def book(self):
        """The live extents: granules by where they begin, 0 for a slab."""
        live = {}
        for number in self.words[2].to_bytes(8, "little").rstrip(b"\0"):
            line = (self.log * GRANULE + (number - 1) * self.chunk) // 8
            for entry in range(8 * self.lines):
                word = self.words[line + 8 * (1 + entry % self.lines) + entry // self.lines]
                start = word >> 8 & 65535
                if word & 255 == 3:
                    live.pop(start, None)
                elif word:
                    live[start] = word >> 24 & 65535
        return live

    def extent(self, start, granules):
        at = start * GRANULE
        if granules:
            return Extent(start, granules, at not in self.held)
        word = self.words[at // 8 : at // 8 + 256]
        kind, cls, was = word[0] & 255, word[0] >> 8 & 255, word[0] >> 16 & 255
        inside = self.stands[bisect.bisect_left(self.stands, at) : bisect.bisect_left(self.stands, at + 4 * GRANULE)]
        old = {}
        if self.gc:
            classes = [self.held[it] for it in inside]
            for it in classes:
                if it != cls:
                    old[it] = old.get(it, 0) + 1
            return Extent(start, 4, not inside, cls, classes.count(cls), old, bool(old))
        blocks = []
        if kind != 2:
            for i in range(capacity(cls)):
                if word[8 * (1 + i % 8) + i // 512] >> i // 8 % 64 & 1:
                    blocks.append(at + 2048 + i * SIZES[cls])
        live = len(blocks)
        if kind != 1:
            for place in range(word[0] >> 24 & 255):
                index = word[8 * (9 + place % 8) + place // 8]
                if index & 1:
                    blocks.append(at + 2048 + (index >> 16) * SIZES[was])
                    self.olds[blocks[-1]] = was
            old[was] = len(blocks) - live
        self.stray += sum(it not in self.held for it in blocks)
        empty, gone = not inside, kind == 3 and not old[was]
        loose = empty + (kind == 2) + gone
        return Extent(start, 4, loose, cls, live, old, kind != 1)

    def block(self, root):
        """Where the block of a root begins, and its bytes."""
        at = self.roots[root] & 0xFFFFFFFF
        it = self.cells[at // GRANULE]
        if it.cls is None:
            return at, it.granules * GRANULE
        if self.entry & 7 == 3 and self.entry >> 32 == at:
            return at, SIZES[self.words[it.start * 2048] >> 16 & 255]
        return at, SIZES[self.held[at] if self.gc else self.olds.get(at, it.cls)]

    def free_rows(self):
        """The rows of free granules: how long each is, by its last one."""
        rows, long = {}, 0
        for k in range(self.first, self.granules + 1):
            if k < self.granules and self.cells[k] is None:
                long += 1
            elif long:
                rows[k - 1], long = long, 0
        return rows

    def numbers(self):
        slabs = [it for it in self.extents if it.cls is not None]
        free = self.cells[self.first :].count(None)
        loose = self.opened + self.stray + sum(int(it.loose) for it in self.extents)
        request = GRANULE * self.longest if self.longest > 1 else 0
        return free, request, len(self.extents) - len(slabs), len(slabs), sum(it.turns for it in slabs), len(self.roots), loose

    def classes(self):
        """Of each class that has a slab or an old block: the slabs, the blocks in them, and those in others."""
        slabs = [it for it in self.extents if it.cls is not None]
        for cls in range(36):
            own, old = [it.live for it in slabs if it.cls == cls], sum(it.old.get(cls, 0) for it in slabs)
            if own or old:
                yield cls, f"slabs {len(own)}", f"live {sum(own)} of {len(own) * capacity(cls)}", f"old {old}"


def whole(extent):
    return capacity(extent.cls) * SIZES[extent.cls]


def old_bytes(extent):
    return sum(count * SIZES[cls] for cls, count in extent.old.items())


def tenths(extent):
    return min(9, 10 * (extent.live * SIZES[extent.cls] + old_bytes(extent)) // whole(extent))


def own_letter(arena, k):
    return "h" if k == 0 else "r" if k < arena.log else "l" if k < arena.first else ""


def letter(arena, k):
    it = arena.cells[k]
    if k == 0:
        return "!" if arena.opened else "h"
    if it is None:
        return own_letter(arena, k) or "."
    if it.start != k:
        return "=" if it.cls is None else str(tenths(it))
    return "!" if it.loose else "#" if it.cls is None else "T" if it.turns else "S"


def drawing(arena):
    letters = "".join(letter(arena, k) for k in range(arena.granules))
    lines = ((k, letters[k : k + 64]) for k in range(0, arena.granules, 64))
    return "".join(f"{k:4}  {' '.join(line[i : i + 16] for i in range(0, len(line), 16))}\n" for k, line in lines)


def facts(number, arena):
    free, request, large, slabs, turns, live, loose = arena.numbers()
    lines = [("variant", "gc")] if arena.gc else []
    lines += [("version", arena.version), ("granules", arena.granules), ("free", free), ("longest", arena.longest), ("request", request)]
    lines += [("large", large), ("slabs", slabs), ("transition", turns), ("live", live), ("loose", loose)]
    lines += [("class", " ".join([str(SIZES[cls]), *words])) for cls, *words in arena.classes()]
    return "".join(f"arena {number} {name} {value}\n" for name, value in lines)


def box(tone, x, y, width, height):
    return f"<rect class='k{tone}' x='{x}' y='{y}' width='{width}' height='{height}'/>\n"


def line(x, y, says, kind=""):
    return f"<text {kind}x='{x}' y='{y}'>{says}</text>\n"


def boxes(arena, k):
    x, y, it = 16 * (k % 64), 44 + 20 * (k // 64), arena.cells[k]
    own = {"h": 0, "r": 1, "l": 2, "": 3}[own_letter(arena, k)]
    text = box(own if it is None else 4 if it.cls is None else 5 + it.cls, x, y, 16, 18)
    if it is not None and it.cls is not None:
        high, old = 2 * tenths(it), 2 * min(9, -(-10 * old_bytes(it) // whole(it)))
        text += box(41, x, y, 16, 18) if it.turns else ""
        text += box(42, x, y + 18 - high, 16, high) if high else ""
        text += box(45, x + 9, y + 18 - old, 5, old) if old else ""
    text += box(43, x, y, 2, 18) if it is not None and it.start == k else ""
    return text + (box(44, x, y, 16, 18) if (it.loose if it is not None else k == 0 and arena.opened) else "")


def label(arena, k):
    it = arena.cells[k]
    says = own_letter(arena, k) if it is None else "" if it.start != k else "#" if it.cls is None else SIZES[it.cls]
    return line(16 * (k % 64) + 4, 57 + 20 * (k // 64), says, "class='m' ") if says else ""


def row_mark(arena, k):
    x, y = 16 * (k % 64), 44 + 20 * (k // 64)
    under = box(46, x, y + 16, 16, 2) if arena.rows[k] == arena.longest else ""
    return under + line(x + 14, y + 13, arena.rows[k], "class='n' ")


def picture(number, arena):
    rows = (arena.granules + 63) // 64
    free, request, large, slabs, turns, live, loose = arena.numbers()
    text = f"<g transform='translate(32,{96 + number * (20 * rows + 290)})'>\n"
    heading = f"arena {number}{', GC variant' if arena.gc else ''}: version {arena.version}; granules: {arena.granules}, free: {free}, "
    text += line(0, 14, heading + f"longest row of free ones: {arena.longest}; largest request of whole granules: {request} bytes")
    text += line(0, 32, f"roots that hold a block: {live}; large blocks: {large}; slabs: {slabs}, in transition: {turns}; loose things: {loose}")
    text += "".join(boxes(arena, k) for k in range(arena.granules)) + "".join(label(arena, k) for k in range(arena.granules))
    text += "".join(row_mark(arena, k) for k in sorted(arena.rows))
    for cls, *words in arena.classes():
        x, y = 340 * (cls // 12), 64 + 20 * rows + 16 * (cls % 12)
        text += box(5 + cls, x, y, 12, 12) + line(x + 18, y + 11, f"{SIZES[cls]} bytes: {', '.join(words)}")
    return text + "</g>\n"


def head(count, granules):
    high = 96 + count * (20 * ((granules + 63) // 64) + 290)
    subject = f"Map of a pool. Arenas: {count}. Granules of 16 KiB in each: {granules}"
    keys = [(0, "h header"), (1, "r roots"), (2, "l log"), (3, "free"), (4, "# large block"), (13, "slab, by class"), (41, "in transition"), (42, "live part")]
    keys += [(45, "old blocks"), (44, "loose")]
    text = f"<svg xmlns='http://www.w3.org/2000/svg' role='img' width='1088' height='{high}' viewBox='0 0 1088 {high}'>\n<title>{subject}</title>\n"
    text += (
        "<desc>Each field is a granule of 16 KiB, 64 a row. Its tone says what it is, and its label: h has the header line and the write-ahead lines, r root "
        "words, l chunks of the log. A dark edge is where a large block, labelled #, or a slab begins, labelled with the size of its blocks in bytes. A dark "
        "bar in a slab says how many tenths of it live, a white one how many have old blocks. A slab in transition between two classes is hatched. A red frame "
        "is around what is loose. A number among free granules is how many stand in the row that ends there, and the longest row is underlined there. nvpool "
        "text and nvpool info tell the same in letters and numbers.</desc>\n"
        "<style>text{font:12px sans-serif;fill:#111}text.m{font-size:11px;stroke:#fff;stroke-width:2px;paint-order:stroke}text.n{font-size:11px;"
        "text-anchor:end}.k0{fill:#334155}.k1{fill:#64748b}.k2{fill:#8b5cf6}.k3{fill:#f8fafc;stroke:#94a3b8;stroke-width:.5}.k4{fill:#f59e0b}.k41{fill:url(#t)}"
        ".k42{fill:#000;fill-opacity:.5}.k43{fill:#111}.k44{fill:none;stroke:#c00;stroke-width:3}.k45{fill:#fff;stroke:#111;stroke-width:1}.k46{fill:#111}\n"
    )
    text += "".join(f".k{5 + cls}{{fill:hsl({10 * cls},50%,80%)}}\n" for cls in range(36))
    text += (
        "</style>\n<pattern id='t' width='6' height='6' patternUnits='userSpaceOnUse' patternTransform='rotate(45)'><rect width='2' height='6' fill='#333'/>"
        "</pattern><rect width='100%' height='100%' fill='#fff'/>\n"
    )
    text += line(32, 30, subject) + "".join(box(tone, 32 + 104 * i, 44, 12, 12) + line(50 + 104 * i, 55, says) for i, (tone, says) in enumerate(keys))
    return text + line(32, 77, "A number among free granules: so many stand in the row that ends there. Underlined: the longest row.")


def of_gc(arena):
    """The words of the arena of the GC variant that has the heap of this one: roots say the classes, and slabs have states alone."""
    words = array.array("Q", arena.words)
    words[0], words[64:128] = int.from_bytes(b"NVALGC01", "little"), array.array("Q", bytes(512))
    slabs = {it.start: it for it in arena.extents if it.cls is not None}
    for root in range(4096):
        at = arena.roots.get(root, 0)
        start = next((it for it in (at // GRANULE - i for i in range(4)) if it in slabs and at), None)
        if start is not None:
            state, of = arena.words[start * 2048], (at - start * GRANULE - 2048)
            number, cls = divmod(of, SIZES[state >> 8 & 255]), state >> 8 & 255
            olds = [arena.words[start * 2048 + 8 * (9 + j % 8) + j // 8] for j in range(state >> 24 if state & 255 != 1 else 0)]
            if any(it & 1 and (it >> 16) * SIZES[state >> 16 & 255] == of for it in olds):
                cls = state >> 16 & 255
            at |= cls + 1 << 32
        words[2048 + root] = at
    for start in slabs:
        words[start * 2048] = 1 | arena.words[start * 2048] & 0xFF00
    return words.tobytes()


def dump(arena, root):
    at, size = arena.block(root)
    return "".join(f"{it:08x} {arena.words[it // 8]:016x} {arena.words[it // 8 + 1]:016x}\n" for it in range(at, at + size, 16))


def dumps_of(arenas):
    """The words of dumps of the first and the last block of each arena."""
    return [f"dump {i} {root}" for i, it in enumerate(arenas) for root in sorted({*list(it.roots)[:1], *list(it.roots)[-1:]})]


def arenas_of(image):
    words = array.array("Q", image)
    count, granules = words[1] >> 48, words[1] >> 32 & 65535
    return [Arena(words[i * 2048 * granules : (i + 1) * 2048 * granules]) for i in range(count)]


def gc_image(arenas):
    return b"".join(map(of_gc, arenas))


def said(word, arenas):
    if word == "map":
        pictures = (picture(i, it) for i, it in enumerate(arenas))
        return head(len(arenas), arenas[0].granules) + "".join(pictures) + "</svg>\n"
    if word.startswith("dump"):
        number, root = map(int, word.split()[1:])
        return dump(arenas[number], root)
    shown = word == "text"
    told = ((f"arena {i}\n{drawing(it)}" if shown else "") + facts(i, it) for i, it in enumerate(arenas))
    return (LEGEND if shown else "") + "".join(told)


def check(program, paths):
    """Prints of which images the program writes something else, and how many it was asked of."""
    images = wrong = 0
    for path in paths:
        with open(path, "rb") as file:
            image = file.read()
        arenas = arenas_of(image)
        seconds = [gc_image(arenas)] if arenas[0].version == 1 and not arenas[0].gc else []
        for variant in [image, *seconds]:
            images += 1
            for word in "map", "text", "info", *dumps_of(arenas_of(variant)):
                ran = subprocess.run([program, *word.split()], input=variant, stdout=subprocess.PIPE, stderr=subprocess.DEVNULL, check=False)
                if ran.stdout.decode() != said(word, arenas_of(variant)):
                    wrong += 1
                    print(f"{path}{' as GC' if variant is not image else ''}: {word} differs")
    print(f"images {images}, wrong {wrong}")
    return wrong > 0


def main(words):
    if words[0] == "check":
        sys.exit(check(words[1], words[2:]))
    arenas = arenas_of(sys.stdin.buffer.read())
    if words[0] == "gc":
        sys.stdout.buffer.write(gc_image(arenas))
    else:
        sys.stdout.write(said(" ".join(words), arenas))


if __name__ == "__main__":
    main(sys.argv[1:])
