"""A TrueType font of empty glyphs with the measures of a job's font, so that a browser measures texts as the job does."""
import struct

# of line-height: normal, the profile's 6/5 of the font size
NORMAL = (6, 5)


def packed(form, *numbers):
    return struct.pack(">" + form, *numbers)


def padded(data):
    return data + bytes(-len(data) % 4)


def checksum(data):
    return sum(struct.unpack(f">{len(padded(data)) // 4}L", padded(data))) & 0xFFFFFFFF


def character_map(codes):
    """The table cmap: the character at place k has the glyph k + 1."""
    near = [(code, at + 1) for at, code in enumerate(codes) if code < 0xFFFF] + [(0xFFFF, 0)]
    count = len(near)
    power = 1 << (count.bit_length() - 1)
    ends = b"".join(packed("H", code) for code, _ in near)
    deltas = b"".join(packed("H", (glyph - code) & 0xFFFF if glyph else 1) for code, glyph in near)
    search = packed("4H", 2 * count, 2 * power, power.bit_length() - 1, 2 * (count - power))
    body = search + ends + packed("H", 0) + ends + deltas + bytes(2 * count)
    four = packed("3H", 4, len(body) + 6, 0) + body
    groups = b"".join(packed("3L", code, code, at + 1) for at, code in enumerate(codes))
    twelve = packed("2H3L", 12, 0, len(groups) + 16, 0, len(codes)) + groups
    return packed("2H", 0, 2) + packed("2HL", 3, 1, 20) + packed("2HL", 3, 10, 20 + len(four)) + four + twelve


def names(family):
    texts = [(1, family), (2, "Regular"), (3, family), (4, family), (6, family)]
    records, data = b"", b""
    for number, text in texts:
        coded = text.encode("utf-16-be")
        records += packed("6H", 3, 1, 0x409, number, len(coded), len(data))
        data += coded
    return packed("3H", 0, len(texts), 6 + len(records)) + records + data


def font_of(font, characters):
    """The font's file. `characters` are all that the page has: those without an entry have the default advance."""
    times = -(-16 // font["upem"])
    entries = dict(map(tuple, font.get("advances", [])))
    codes = sorted(set(entries) | set(map(ord, characters)) | {32})
    widths = [font["default"] * times] + [entries.get(code, font["default"]) * times for code in codes]
    upem, ascent, descent = (min(font[name] * times, 32767) for name in ("upem", "ascent", "descent"))
    gap = max(0, upem * NORMAL[0] // NORMAL[1] - ascent - descent)
    most, count = min(max(widths), 65535), len(widths)
    right = min(most, 32767)
    glyph = packed("h4h", 0, 0, 0, 0, 0) + packed("H", 0)
    tables = {
        b"OS/2": packed("HhHHH11h", 4, most // 2, 400, 5, *[0] * 12) + bytes(26) + b"VIZL"
        + packed("3H", 0xC0, codes[0] if codes[0] < 0xFFFF else 0xFFFF, min(codes[-1], 0xFFFF))
        + packed("3h2H", ascent, -descent, gap, ascent, descent) + bytes(8) + packed("2h3H", upem // 2, upem // 2, 0, 32, 1),
        b"cmap": character_map(codes),
        b"glyf": glyph,
        b"head": packed("4L2H2Q4h2H3h", 0x10000, 0x10000, 0, 0x5F0F3CF5, 3, upem, 0, 0, 0, -descent, right, ascent, 0, 8,
                        2, 1, 0),
        b"hhea": packed("L3hH11hH", 0x10000, ascent, -descent, gap, most, 0, 0, 0, 1, 0, 0, 0, 0, 0, 0, 0, count),
        b"hmtx": b"".join(packed("Hh", min(width, 65535), 0) for width in widths),
        b"loca": packed(f"{count + 1}L", 0, *[len(glyph)] * count),
        b"maxp": packed("L14H", 0x10000, count, 0, 0, 0, 0, 2, *[0] * 8),
        b"name": names("Vizlog " + "".join(it for it in font["name"] if it.isalnum())),
        b"post": packed("2L2h5L", 0x30000, 0, -upem // 10, upem // 20, 0, 0, 0, 0, 0),
    }
    place, power = 12 + 16 * len(tables), 1 << (len(tables).bit_length() - 1)
    head = packed("L4H", 0x10000, len(tables), 16 * power, power.bit_length() - 1, 16 * (len(tables) - power))
    body = b""
    for tag, data in sorted(tables.items()):
        head += tag + packed("3L", checksum(data), place + len(body), len(data))
        body += padded(data)
    return head + body
