#!/usr/bin/env python3
"""Writes the cases of crates/sheet_cases: data/*.txt, args and stdout.

The expected output comes from the plain model below, which was written from the rules of docs/FORMATS.md and not
from the Rattle code, so that a fault of one shows as a difference from the other. Run it from the repository's root.
"""
import os, re, shutil

ROOM, BLOCK, DRAWS, BATCHES, BUFFERS = 1_048_560, 67_108_864, 1_024, 256, 256
MOST = 2**32 - 1


def binding_size(a, m, s):
    if s <= m:
        return s
    return m - m % a + s % a if s % a <= m % a else m - m % a - a + s % a


def split(a, m, s, o):
    b = binding_size(a, m, s)
    d = max(b - 20, 0) // a * a
    dynamic = 0 if d == 0 else min(s - b, o // d * d)
    return dynamic, o - dynamic


def place(current, size, room):
    """The place of `size` bytes and the current place after it."""
    if current is None:
        index, offset = 0, 0
    elif current[1] + size <= room:
        index, offset = current
    else:
        index, offset = current[0] + 1, 0
    return (index, offset), (index, offset + size)


def packed(kind, src, dst, first, instance):
    first, instance = min(first, 2 * MOST), min(instance, 2 * MOST)
    return (src // 4 | kind << 31, dst // 4 | (first >> 32) << 30 | (instance >> 32) << 31, first & MOST, instance & MOST)


def parse(text):
    """A sheet, or the number of the first bad line."""
    if len(text) > 65_536:
        return 0
    lines = text.split(b"\n")
    if lines[-1] == b"":
        lines.pop()
    sheet = {"sources": [], "draws": []}
    number = rb"[0-9]{1,20}"
    for at, line in enumerate(lines, 1):
        values = [int(v) for v in re.findall(rb"[0-9]+", line)]
        due = ("align" if "align" not in sheet else "binding" if "binding" not in sheet else "more")
        if max(values, default=0) >= 2**64:
            return at
        if due == "align" and re.fullmatch(rb"align=" + number, line):
            sheet["align"] = values[0]
        elif due == "binding" and re.fullmatch(rb"binding=" + number, line):
            sheet["binding"] = values[0]
        elif due == "more" and re.fullmatch(rb"source=" + number, line) and not sheet["draws"] and len(sheet["sources"]) < 64 and values[0] <= MOST:
            sheet["sources"].append(values[0])
        elif due == "more" and sheet["sources"] and re.fullmatch(rb"draw=" + rb",".join([number] * 5), line):
            sheet["draws"].append(values)
        else:
            return at
    return sheet if sheet["sources"] else len(lines) + 1


def answer(text):
    sheet = parse(text)
    if isinstance(sheet, int):
        return [f"bad={sheet}"]
    a, m = sheet["align"], sheet["binding"]
    if a not in (32, 64, 128, 256) or not 2 * a + 20 <= m <= MOST:
        return ["refused=1"]
    out, current, count, batches, held = [], None, 0, {}, 0
    for kind, source, offset, first, instance in sheet["draws"]:
        if kind > 1:
            out.append("refused=7"); continue
        if source >= len(sheet["sources"]):
            out.append("refused=11"); continue
        if offset % 4:
            out.append("refused=12"); continue
        bytes_, size = (16, 20)[kind], sheet["sources"][source]
        if offset + bytes_ > size:
            out.append("refused=13"); continue
        at, after = place(current, bytes_, ROOM)
        dynamic, window = split(a, m, size, offset)
        key = (source, dynamic, at[0])
        if count >= DRAWS or key not in batches and len(batches) >= BATCHES:
            out.append("refused=14"); continue
        if at[0] >= held:
            if held >= BUFFERS:
                out.append("refused=15"); continue
            held += 1
        current, count = after, count + 1
        batches.setdefault(key, []).append(packed(kind, window, at[1], first, instance))
        out.append(f"place={at[0]},{at[1]}")
    staging = metadata = None
    for key, entries in batches.items():
        s, staging = place(staging, 16 * len(entries), BLOCK)
        d, metadata = place(metadata, 16 * len(entries), ROOM)
        out.append("batch=" + ",".join(map(str, (*key, len(entries), *s, *d))))
        out += ["entry=" + ",".join(map(str, e)) for e in entries]
    return out


HEAD = "align=32\nbinding=84\nsource=200\n"
DRAW = "draw=0,0,0,3,1\n"


def full():
    """A sheet of exactly 65,536 bytes: leading zeros fill its last lines."""
    text = HEAD
    while len(text) + 2 * len(DRAW) < 65_536:
        text += DRAW
    left = 65_536 - len(text)
    fill = "draw=" + "0" * 18 + "0,0,0,3,1\n"
    for width in range(1, 20):
        for other in range(1, 20):
            line = "draw=" + "0".zfill(width) + "," + "0".zfill(other) + ",0,3,1\n"
            if len(line) == left:
                return text + line
    return text + fill


CASES = {
    "worked_example": HEAD + DRAW + "draw=1,0,180,4294967296,18446744073709551615\ndraw=0,0,198,3,1\n",
    "sixteen_bytes": "align=256\nbinding=1024\nsource=16\n" + DRAW,
    "both_kinds": "align=64\nbinding=148\nsource=36\nsource=1000\ndraw=0,0,0,1,1\ndraw=1,0,16,5,0\ndraw=0,1,900,7,7\ndraw=1,1,0,0,2\ndraw=0,0,0,2,2\n",
    "no_draws": HEAD,
    "no_final_newline": HEAD + DRAW[:-1],
    "leading_zeros": "align=00000000000000000032\nbinding=084\nsource=0200\ndraw=00,00,000,03,01\n",
    "largest_numbers": "align=32\nbinding=4294967295\nsource=4294967295\ndraw=0,0,4294967276,18446744073709551615,8589934591\ndraw=0,0,18446744073709551612,1,1\ndraw=4294967296,0,0,1,1\n",
    "empty": "",
    "one_newline": "\n",
    "align_missing": "binding=84\nsource=200\n",
    "binding_missing": "align=32\n",
    "binding_out_of_order": "align=32\nsource=200\nbinding=84\n",
    "source_missing": "align=32\nbinding=84\n",
    "draw_before_source": "align=32\nbinding=84\n" + DRAW,
    "source_after_draw": HEAD + DRAW + "source=200\n",
    "align_twice": "align=32\nalign=32\nbinding=84\nsource=200\n",
    "sources_64": "align=32\nbinding=84\n" + "source=16\n" * 64 + "draw=0,63,0,1,1\n",
    "sources_65": "align=32\nbinding=84\n" + "source=16\n" * 65,
    "source_too_large": "align=32\nbinding=84\nsource=4294967296\n",
    "empty_line": HEAD + "\n" + DRAW,
    "empty_line_at_end": HEAD + DRAW + "\n",
    "carriage_return": "align=32\r\nbinding=84\nsource=200\n",
    "space": "align= 32\nbinding=84\nsource=200\n",
    "sign": "align=32\nbinding=+84\nsource=200\n",
    "unknown_word": HEAD + "sink=0,0,0,3,1\n",
    "capital": "Align=32\nbinding=84\nsource=200\n",
    "no_digits": "align=\nbinding=84\nsource=200\n",
    "digits_21": "align=000000000000000000032\nbinding=84\nsource=200\n",
    "number_too_large": HEAD + "draw=0,0,0,18446744073709551616,1\n",
    "four_numbers": HEAD + "draw=0,0,0,3\n",
    "six_numbers": HEAD + "draw=0,0,0,3,1,1\n",
    "comma_at_end": HEAD + "draw=0,0,0,3,1,\n",
    "bytes_65536": full(),
    "bytes_65537": full() + "\n",
    "alignment_unlawful": "align=16\nbinding=84\nsource=200\n" + DRAW,
    "binding_too_small": "align=32\nbinding=83\nsource=200\n" + DRAW,
    "binding_too_large": "align=32\nbinding=4294967296\nsource=200\n" + DRAW,
    "bad_before_unlawful": "align=16\nbinding=84\nsource=200\ndraw=0\n",
    "kind_unknown": HEAD + "draw=2,9,1,3,1\n" + DRAW,
    "source_unknown": HEAD + "draw=0,1,1,3,1\n" + DRAW,
    "offset_unaligned": HEAD + "draw=0,0,2,3,1\ndraw=0,0,201,3,1\n" + DRAW,
    "offset_overrun": HEAD + "draw=0,0,184,3,1\ndraw=0,0,188,3,1\ndraw=1,0,180,3,1\ndraw=1,0,184,3,1\n",
    "draws_1025": HEAD + "".join(f"draw=0,0,{16 * (i % 8)},3,1\n" for i in range(1025)) + "draw=2,0,0,3,1\n",
    "batches_257": "align=32\nbinding=84\nsource=100000\n" + "".join(f"draw=0,0,{64 * i},3,1\n" for i in range(258)) + "draw=1,0,0,1,1\n",
}


def shown(lines):
    """As the program prints a case: of a long one the first and last five lines and every refusal."""
    if len(lines) <= 30:
        return lines
    kept = [l for i, l in enumerate(lines) if i < 5 or i + 5 >= len(lines) or l.startswith("refused")]
    return kept + [f"({len(lines) - len(kept)} lines not shown)"]


def main():
    crate = "crates/sheet_cases"
    shutil.rmtree(f"{crate}/data", ignore_errors=True)
    os.makedirs(f"{crate}/data")
    assert len(CASES["bytes_65536"]) == 65_536 and len(CASES["bytes_65537"]) == 65_537
    out = []
    for name, text in CASES.items():
        with open(f"{crate}/data/{name}.txt", "wb") as f:
            f.write(text.encode())
        out += [f"{name}:"] + ["  " + line for line in shown(answer(text.encode()))]
    with open(f"{crate}/args", "w") as f:
        f.write("".join(f"{name}.txt\n" for name in CASES))
    with open(f"{crate}/stdout", "w") as f:
        f.write("".join(line + "\n" for line in out))


main()
