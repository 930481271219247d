#!/usr/bin/env python3
"""A separate reading of docs/SHEET.md, for the stored expected outputs.

It shares nothing with the Rattle code. It makes the sheets of crates/sheets/data
that are ours, and writes or compares the expected output of crates/sheets.

    tools/judge.py make      write our own sheets and the argument list
    tools/judge.py compare   compare crates/sheets/stdout with this reading
    tools/judge.py tell FILE print what is told of one sheet
"""
import sys
from pathlib import Path

ROOT = Path(__file__).resolve().parent.parent
HOME = ROOT / "crates" / "sheets"
DATA = HOME / "data"


class Refused(Exception):
    pass


def tell(sheet):
    """The lines told of a sheet."""
    at = 0
    letter = "A"

    def take(size):
        nonlocal at
        if at + size > len(sheet):
            raise Refused(1, letter, len(sheet))
        part = sheet[at : at + size]
        at += size
        return part

    def need(good, number, place):
        if not good:
            raise Refused(number, letter, place)

    try:
        n = take(1)[0]
        need(1 <= n <= 64, 2, 0)
        links = []
        for s in range(n):
            place = at
            mask = int.from_bytes(take(8), "big")
            need(not mask >> s & 1 and mask < 1 << n, 3, place)
            links.append(mask)
        letter = "B"
        place = at
        f = take(1)[0]
        need(1 <= f <= 8, 4, place)
        for _ in range(f):
            place = at
            ends = take(2)
            need(ends[0] < n and ends[1] < n, 5, place)
        tables = []
        start_of_d = None
        for letter in "CD":
            if letter == "D":
                start_of_d = at
            place = at
            need(take(1)[0] == n, 6, place)
            rows = []
            for s in range(n):
                place = at
                row = take(f)
                need(all(h == 255 or links[s] >> h & 1 for h in row), 7, place)
                rows.append(row)
            tables.append(rows)
        letter = "E"
        place = at
        need(take(1)[0] == f, 6, place)
        for _ in range(f):
            place = at
            mask = int.from_bytes(take(8), "big")
            need(mask < 1 << n, 8, place)
        need(at == len(sheet), 9, at)
        movers = [s for s in range(n) if tables[0][s] != tables[1][s]]
        letter = "D"
        need(len(movers) <= 16, 10, start_of_d)
    except Refused as fault:
        number, where, place = fault.args
        return f"refused {number} {where} {place}\n"
    words = "".join(f" {s}" for s in movers)
    return f"switches {n}\nflows {f}\nmovers{words}\n"


def sheet_of(links, flows, old, new, needed, counts=None):
    """A sheet from its parts; `counts` overrides the five counts."""
    c = {"A": len(links), "B": len(flows), "C": len(old), "D": len(new), "E": len(needed)}
    c.update(counts or {})
    out = bytes([c["A"]]) + b"".join(m.to_bytes(8, "big") for m in links)
    out += bytes([c["B"]]) + b"".join(bytes(p) for p in flows)
    out += bytes([c["C"]]) + b"".join(bytes(r) for r in old)
    out += bytes([c["D"]]) + b"".join(bytes(r) for r in new)
    return out + bytes([c["E"]]) + b"".join(m.to_bytes(8, "big") for m in needed)


DIAMOND = dict(
    links=[0x06, 0x0C, 0x0A, 0x00],
    flows=[(0, 3)],
    old=[[1], [2], [3], [255]],
    new=[[2], [3], [1], [255]],
    needed=[0],
)


def diamond(**change):
    return sheet_of(**{**DIAMOND, **change})


def patched(sheet, place, value):
    return sheet[:place] + bytes([value]) + sheet[place + 1 :]


def large(n, f, movers):
    """Every switch is linked to every other; the first `movers` switches move, each at one place."""
    full = (1 << n) - 1
    links = [full & ~(1 << s) for s in range(n)]
    flows = [(j % n, (j + 1) % n) for j in range(f)]
    old = [[(s + 1 + j) % n if (s + 1 + j) % n != s else 255 for j in range(f)] for s in range(n)]
    new = [list(r) for r in old]
    for s in range(movers):
        j = s % f
        new[s][j] = 255 if old[s][j] != 255 else (s + 1) % n
    needed = [full if j % 2 else 0 for j in range(f)]
    return links, flows, old, new, needed


def our_sheets():
    """Our own sheets, by name: every fault at first, middle and last records, and the limits."""
    d = diamond()
    sheets = {"diamond": d}
    sheets["cut-54"] = d[:54]
    sheets["byte-37-is-3"] = patched(d, 37, 3)
    sheets["one-byte-more"] = d + b"\0"
    sheets["many-bytes-more"] = d + bytes(range(256)) * 16
    sheets["empty"] = b""
    sheets["no-switches"] = b"\0" + d[1:]
    sheets["switches-65"] = b"\x41" + d[1:]
    sheets["switches-255"] = b"\xff" + d[1:]
    for s in range(4):
        own = list(DIAMOND["links"])
        own[s] |= 1 << s
        sheets[f"links-{s}-own"] = diamond(links=own)
        high = list(DIAMOND["links"])
        high[s] |= 1 << 4
        sheets[f"links-{s}-to-4"] = diamond(links=high)
        top = list(DIAMOND["links"])
        top[s] |= 1 << 63
        sheets[f"links-{s}-to-63"] = diamond(links=top)
    sheets["no-flows"] = patched(d, 33, 0)
    sheets["flows-9"] = patched(d, 33, 9)
    three = dict(
        links=DIAMOND["links"],
        flows=[(0, 3), (1, 3), (2, 3)],
        old=[[1, 2, 1], [2, 3, 2], [3, 1, 3], [255] * 3],
        new=[[1, 2, 2], [2, 3, 2], [1, 1, 3], [255] * 3],
        needed=[0, 6, 15],
    )
    sheets["three-flows"] = sheet_of(**three)
    for j in range(3):
        for end in range(2):
            flows = [list(p) for p in three["flows"]]
            flows[j][end] = 4
            sheets[f"flow-{j}-end-{end}-is-4"] = sheet_of(**{**three, "flows": flows})
    for c in "CDE":
        for k in (0, 3, 5, 255):
            if not (c == "E" and k == 3):
                sheets[f"count-{c}-{k}"] = sheet_of(**three, counts={c: k})
    for part in ("old", "new"):
        for s, j, hop in ((0, 0, 3), (0, 1, 0), (1, 2, 64), (2, 1, 254), (3, 2, 0), (3, 0, 63)):
            rows = [list(r) for r in three[part]]
            rows[s][j] = hop
            sheets[f"{part}-row-{s}-hop-{j}-is-{hop}"] = sheet_of(**{**three, part: rows})
    for j in range(3):
        for bit in (4, 63):
            needed = list(three["needed"])
            needed[j] |= 1 << bit
            sheets[f"needed-{j}-bit-{bit}"] = sheet_of(**{**three, "needed": needed})
    two = [[3, 2, 1], [2, 3, 2], [3, 1, 3], [255] * 3]
    sheets["two-faults"] = sheet_of(**{**three, "old": two, "needed": [16, 0, 0]})
    sheets["short-row-with-a-bad-hop"] = sheet_of(**{**three, "old": two})[:43]
    sheets["same-tables"] = sheet_of(**{**three, "new": three["old"]})
    sheets["one-switch"] = sheet_of([0], [(0, 0)], [[255]], [[255]], [0])
    sheets["one-switch-needed"] = sheet_of([0], [(0, 0)], [[255]], [[255]], [1])
    for movers in (0, 16, 17, 64):
        sheets[f"largest-{movers}-movers"] = sheet_of(*large(64, 8, movers))
    sheets["largest-17-movers-and-a-byte"] = sheet_of(*large(64, 8, 17)) + b"\1"
    sheets["sixteen-of-sixteen"] = sheet_of(*large(16, 8, 16))
    sheets["seventeen-of-seventeen"] = sheet_of(*large(17, 1, 17))
    links, flows, old, new, needed = large(64, 8, 16)
    sheets["largest-last-link-own"] = sheet_of(links[:63] + [links[63] | 1 << 63], flows, old, new, needed)
    sheets["largest-last-ends"] = sheet_of(links, flows[:7] + [(0, 64)], old, new, needed)
    sheets["largest-last-old-hop"] = sheet_of(links, flows, old[:63] + [old[63][:7] + [63]], new, needed)
    sheets["largest-last-new-hop"] = sheet_of(links, flows, old, new[:63] + [new[63][:7] + [64]], needed)
    sheets["sixty-three-last-mask"] = sheet_of(*large(63, 8, 3)[:4], [0] * 7 + [1 << 63])
    sheets["rubbish"] = bytes((i * 167 + 41) % 256 for i in range(600))
    return sheets


def expected(words):
    """The expected output for a list of arguments."""
    text = ""
    cut = False
    for word in words:
        if word == "cut":
            cut = True
            continue
        sheet = (DATA / word).read_bytes()
        for size in range(0 if cut else len(sheet), len(sheet) + 1):
            text += f"{word} {size}\n" + tell(sheet[:size])
        cut = False
    return text


def main():
    command = sys.argv[1:2]
    if command == ["make"]:
        DATA.mkdir(exist_ok=True)
        for name, sheet in our_sheets().items():
            (DATA / f"{name}.sheet").write_bytes(sheet)
        given = sorted(p.name for p in DATA.glob("given-*.sheet"))
        words = [f"{name}.sheet" for name in our_sheets()] + given + ["cut", "three-flows.sheet"]
        (HOME / "args").write_text("".join(f"{w}\n" for w in words))
    elif command == ["compare"]:
        words = (HOME / "args").read_text().split()
        same = expected(words) == (HOME / "stdout").read_text()
        print("the stored output is what this reading tells" if same else "the stored output differs")
        sys.exit(0 if same else 1)
    elif command == ["tell"] and len(sys.argv) == 3:
        sys.stdout.write(tell(Path(sys.argv[2]).read_bytes()))
    else:
        sys.exit(__doc__)


if __name__ == "__main__":
    main()
