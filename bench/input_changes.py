"""Changes at random of the inputs that bench/random-inputs gives, and inputs that are aimed at a refusal that changes seldom meet.

Each change takes the draw (a `random.Random`), the bytes, their kind and the other samples of that kind, and gives bytes.
"""
import ipaddress
import re
import struct

FILE, INPUT, FRAMES = 4_194_304, 67_108_864, 65_536

WORDS = {
    "descriptions": """[[block]] [[node]] [[link]] [[route]] [[policy]] [[sid]] name address allow from to node table prefix via kind csid source
        segments traffic_class flow_label hop_limit behaviour flavours title links policy "plain" "next" "replace" "psp" "usp" "usd" "End"
        "End.X" "End.T" "End.DX6" "End.DX4" "End.DT6" "End.DT4" "End.DT46" "End.B6.Encaps" "End.B6.Encaps.Red" "A" "B" "ab" "bc1" "ce" "vpn"
        "fcbb:bb00:2::/48" "fcbb:bb00::/32" "::/0" "2001:db8::b" "10.0.0.0/8" = [ ] { } # , true 1.5 ["bc1","bc2"] ["psp"] [0,255] 1979-05-27""",
    "intents": """[[step]] headend source inner mode hop_limit max_containers traffic_class flow_label prefer step links function reach "ipv6" "ipv4"
        "full" "reduced" "need" "sids" "A" "B" "D" "ab" "bc1" "bc2" "cd" "ce" "vpn" ["ab"] ["bc1","bc2"] "2001:db8::a" = [ ] { } # , false 1e3""",
    "certificates": """srv6 certificate 1 potential path new stay none end # - @ @B 0 1 4294967295 fcbb:bb00:2::/48 fcbb:bb00:e001::/48
        fcbb:bb00:4::/48 fcbb:bb00:f001::/48 ::/0""",
    "traces": """srv6 trace 1 packet again hand send local drop stages end table through 0 100 6 4 A B C D N ab bc1 bc2 cd ce - NoRoute HopLimit
        UpperLayer BadSegments Other Truncated fcbb:bb00:2::/48 60 ff""",
    "captures": "", "events": "0 1 2 3 4 , 0,0 1,1 4294967295 4294967296 00 01 -1 +1 1.0 a",
}
WORDS = {kind: words.split() for kind, words in WORDS.items()}
WORDS["changes"] = WORDS["descriptions"]
NUMBERS = [0, 1, 2, 3, 4, 16, 32, 48, 64, 65, 127, 128, 255, 256, 257, 4096, 65535, 65536, 1048575, 1048576,
           2**31 - 1, 2**31, 2**32 - 1, 2**32, 2**63 - 1, 2**63, 2**64, 10**40]


def piece_of(draw, text):
    at = draw.randrange(len(text) + 1)
    return at, at + min(draw.choice((1, 2, 4, 16, 60)), len(text) - at)


def bytes_changed(draw, text, kind, others):
    text = bytearray(text)
    for _ in range(draw.randint(1, 4) if text else 0):
        text[draw.randrange(len(text))] = draw.choice((draw.getrandbits(8), draw.choice(b'0123456789abcdef"[]=-.:/ \n'), 0, 255))
    return bytes(text)


def bit_flipped(draw, text, kind, others):
    text = bytearray(text)
    if text:
        text[draw.randrange(len(text))] ^= 1 << draw.randrange(8)
    return bytes(text)


def cut(draw, text, kind, others):
    return text[:draw.randrange(len(text) + 1)]


def taken_out(draw, text, kind, others):
    start, end = piece_of(draw, text)
    return text[:start] + text[end:]


def doubled(draw, text, kind, others):
    start, end = piece_of(draw, text)
    return text[:end] + text[start:end] * draw.choice((1, 1, 2, 30)) + text[end:]


def spliced(draw, text, kind, others):
    other = draw.choice(others)
    start, end = piece_of(draw, other)
    at = draw.randrange(len(text) + 1)
    return text[:at] + other[start:end] + text[at:]


def lines_changed(draw, text, kind, others):
    lines = text.splitlines(keepends=True)
    if not lines:
        return text
    here, there = draw.randrange(len(lines)), draw.randrange(len(lines))
    how = draw.randrange(4)
    if how == 0:
        del lines[here]
    elif how == 1:
        lines.insert(there, lines[here])
    elif how == 2:
        lines[here], lines[there] = lines[there], lines[here]
    else:
        lines.insert(there, draw.choice(draw.choice(others).splitlines(keepends=True)))
    return b"".join(lines)


def number_changed(draw, text, kind, others):
    places = list(re.finditer(rb"[0-9]+", text))
    if not places:
        return text
    place = draw.choice(places)
    value = int(place[0][:100])
    other = draw.choice((value + 1, value - 1, value * 10, draw.choice(NUMBERS), f"0{value}", f"{value:x}", ""))
    return text[:place.start()] + str(other).encode() + text[place.end():]


def sort_of(word):
    return "a" if word[0].isalpha() else "0" if word[0].isdigit() else word[0]


def word_changed(draw, text, kind, others):
    places = list(re.finditer(rb'"[^"\n]*"|[^\s"]+', text))
    if not places:
        return text
    place = draw.choice(places)
    word = draw.choice([word for word in WORDS[kind] if sort_of(word) == sort_of(place[0].decode("latin-1"))] or WORDS[kind]).encode()
    if draw.random() < 0.2:
        word = draw.choice(WORDS[kind]).encode()
    if draw.random() < 0.1:
        word += draw.choice((b" ", b"\n", b"")) + place[0]
    return text[:place.start()] + word + text[place.end():]


def field_changed(draw, text, kind, others):
    """A number of 1, 2 or 4 bytes of a capture or a packet."""
    size, order = draw.choice((1, 2, 4)), draw.choice(("little", "big"))
    at = draw.randrange(max(1, min(len(text), draw.choice((24, 40, 80, 140, len(text) + 1)))))
    value = draw.choice((draw.choice(NUMBERS), draw.randrange(80), int.from_bytes(text[at:at + size], order) + draw.choice((-1, 1, -8, 8))))
    return text[:at] + (value % 256**size).to_bytes(size, order) + text[at + size:]


TABLE_OF_TEXT = re.compile(rb"(?m)^(?=\[\[)")
ENTRY = re.compile(rb"(?m)^([a-z_]+) = (.+)$")
PREFIX_IN_TEXT = re.compile(rb'"([0-9a-f:]+)/([0-9]+)"')


def tables_changed(draw, text, kind, others):
    """A table (`[[node]]` and what stands below it) dropped, doubled, moved or taken from another sample: the text stays TOML."""
    first, *tables = TABLE_OF_TEXT.split(text)
    if not tables:
        return text
    here, there = draw.randrange(len(tables)), draw.randrange(len(tables) + 1)
    how = draw.randrange(4)
    table = tables.pop(here) if how < 2 else tables[here]
    if how == 3:
        table = draw.choice(TABLE_OF_TEXT.split(draw.choice(others))[1:] or [table])
    if how:
        tables.insert(there, table.rstrip(b"\n") + b"\n\n")
    return first + b"".join(tables)


def entry_changed(draw, text, kind, others):
    """The value of a key taken from another entry of that key, or from any other key; or the entry dropped; the text stays TOML."""
    entries = list(ENTRY.finditer(text))
    if not entries:
        return text
    entry = draw.choice(entries)
    if draw.random() < 0.1:
        return text[:entry.start()] + text[entry.end() + 1:]
    values = [(other[1], other[2]) for one in others for other in ENTRY.finditer(one)]
    same = [value for key, value in values if key == entry[1]]
    value = draw.choice(same if same and draw.random() < 0.8 else [value for _, value in values])
    return text[:entry.start(2)] + value + text[entry.end(2):]


def list_changed(draw, text, kind, others):
    """An element of a list dropped, doubled or joined by one of another list; the text stays TOML."""
    lists = list(re.finditer(rb"(?m)^[a-z_]+ = \[(.*)\]$", text))
    if not lists:
        return text
    place, other = draw.choice(lists), draw.choice(lists)
    elements, more = (re.findall(rb'"[^"]*"|[0-9]+', it[1]) for it in (place, other))
    if elements and draw.random() < 0.3:
        elements.pop(draw.randrange(len(elements)))
    elif more:
        elements.insert(draw.randrange(len(elements) + 1), draw.choice(more + elements))
    return text[:place.start(1)] + b", ".join(elements) + text[place.end(1):]


def prefix_changed(draw, text, kind, others):
    """A prefix longer or shorter, another address in it, or another prefix of the text; the text stays TOML."""
    places = list(PREFIX_IN_TEXT.finditer(text))
    if not places:
        return text
    place, other = draw.choice(places), draw.choice(places)
    address, length = ipaddress.IPv6Address(place[1].decode()), int(place[2])
    how = draw.randrange(4)
    if how == 0:
        length = min(128, max(0, length + draw.choice((-16, -1, 1, 16, 64 - length, 128 - length))))
    elif how == 1:
        address, length = ipaddress.IPv6Address(other[1].decode()), int(other[2])
    bits = int(address) ^ ((1 << draw.randrange(128)) if how > 1 else 0)
    if how != 3:
        bits &= ~((1 << (128 - length)) - 1)
    return text[:place.start()] + f'"{ipaddress.IPv6Address(bits)}/{length}"'.encode() + text[place.end():]


def value_changed(draw, text, kind, others):
    """A number or a word between quotes in the place of another; the text stays TOML."""
    places = list(re.finditer(rb'(?<=[=\[, ])([0-9]+|"[^"\n]*")(?=[\],\n])', text))
    if not places:
        return text
    place = draw.choice(places)
    if place[0][:1] == b'"':
        value = draw.choice([word for word in WORDS[kind] if word[0] == '"'])
    else:
        value = str(draw.choice([number for number in NUMBERS if number < 2**63]))
    return text[:place.start()] + value.encode() + text[place.end():]


def head_changed(draw, text, kind, others):
    """The magic number of a capture, its link type, or a frame's lengths."""
    if draw.random() < 0.3:
        magic = draw.choice((b"\x0a\x0d\x0d\x0a", b"\xa1\xb2\xc3\xd4", b"\xd4\xc3\xb2\xa1", b"\x4d\x3c\xb2\xa1", b"\xa1\xb2\x3c\x4d"))
        return magic + text[4:]
    at = draw.choice((20, 32, 36))
    value = draw.choice((0, 1, 101, 228, 229, 276, 113, 65_535, 65_536, 65_574, 65_575, 65_576, 262_144, 262_145, 2**32 - 1, len(text) - 40))
    return text[:at] + (value % 2**32).to_bytes(4, draw.choice(("little", "little", "big"))) + text[at + 4:]


def sid_added(draw, text, kind, others):
    """One more SID: at a prefix of the text, or one that is longer or shorter, or with nothing after a block; the text stays TOML."""
    places = list(PREFIX_IN_TEXT.finditer(text))
    names = re.findall(rb'(?m)^node = "([^"\n]*)"$', text)
    if not places or not names:
        return text
    place = draw.choice(places)
    length = min(128, max(1, int(place[2]) + draw.choice((0, 0, 8, 16, 16, 32, -8, -16))))
    value = int(ipaddress.IPv6Address(place[1].decode())) | (draw.choice((0, 0, 1)) << (128 - length))
    prefix = f"{ipaddress.IPv6Address(value & ~((1 << (128 - length)) - 1))}/{length}"
    csid = draw.choice(("", 'csid = "next"\n', 'csid = "replace"\n'))
    sid = f'[[sid]]\nnode = "{draw.choice(names).decode()}"\nprefix = "{prefix}"\nbehaviour = "End"\n{csid}'
    return text.rstrip(b"\n") + b"\n\n" + sid.encode()


def root_set(draw, text, kind, others):
    """A number of an intent's root set to a small one or to its greatest; the text stays TOML."""
    key, most = draw.choice(((b"hop_limit", 255), (b"max_containers", 127), (b"traffic_class", 255), (b"flow_label", 1_048_575)))
    value = draw.choice((0, 1, 2, 3, 4, 5, 6, most, most + 1))
    return b"%s = %d\n" % (key, value) + re.sub(rb"(?m)^%s = .*\n" % key, b"", text)


def block_changed(draw, text, kind, others):
    """The type, a length, or one of the first words of the body of a block of a pcapng file; or a block left out."""
    starts, at = [], 0
    while at + 12 <= len(text) and text[:4] == b"\x0a\x0d\x0d\x0a":
        size = struct.unpack_from("<I", text, at + 4)[0]
        if size < 12 or at + size > len(text):
            break
        starts.append((at, size))
        at += size
    if not starts:
        return text
    start, size = draw.choice(starts)
    if draw.random() < 0.1:
        return text[:start] + text[start + size:]
    # A last block may be too short for the later places.
    at = min(start + draw.choice((0, 0, 4, 8, 12, 20, size - 4)), len(text) - 4)
    old = struct.unpack_from("<I", text, at)[0]
    value = draw.choice((0, 1, 2, 2, 3, 5, 6, 12, 13, 28, 32, old + 1, old + 4, old - 4, 2**32 - 1)) % 2**32
    return text[:at] + struct.pack("<I", value) + text[at + 4:]


def event_changed(draw, text, kind, others):
    """A number of a list left out, doubled, moved, put in another's place, or joined by some others."""
    numbers = text.split(b",")
    here, there = draw.randrange(len(numbers)), draw.randrange(len(numbers) + 1)
    how = draw.randrange(5)
    if how == 0 and len(numbers) > 1:
        del numbers[here]
    elif how == 1:
        numbers.insert(there, numbers[here])
    elif how == 2:
        numbers.insert(there, numbers.pop(here))
    elif how == 3:
        numbers[here] = str(draw.choice((0, 0, 1, 2, 3, 4, 5, draw.choice(NUMBERS)))).encode()
    else:
        numbers[there:there] = [str(draw.randrange(5)).encode() for _ in range(draw.choice((1, 3, 30)))]
    return b",".join(numbers)


# ---- one byte, one line, one number

def one_byte(draw, text, kind, others):
    at = draw.randrange(len(text))
    return text[:at] + bytes([draw.choice([value for value in range(256) if value != text[at]])]) + text[at + 1:]


def one_line(draw, text, kind, others):
    """A line left out, doubled, or put in another's place; of bytes that have no lines eight of them."""
    lines = [text[at:at + 8] for at in range(0, len(text), 8)] if kind == "captures" else text.splitlines(keepends=True)
    here = draw.randrange(len(lines))
    line = lines.pop(here)
    how = draw.randrange(3)
    if how == 1:
        lines[here:here] = [line, line]
    elif how == 2:
        lines.insert(draw.randrange(len(lines) + 1), line)
    return b"".join(lines)


def one_number(draw, text, kind, others):
    return (field_changed if kind == "captures" else number_changed)(draw, text, kind, others)


ONE = [one_byte, one_line, one_number]


ANY = [bytes_changed, bit_flipped, cut, taken_out, doubled, spliced]
OF_TEXT = [lines_changed, number_changed, word_changed]
OF_TOML = {
    kind: [tables_changed, entry_changed, list_changed, prefix_changed, value_changed, further]
    for kind, further in (("descriptions", sid_added), ("changes", sid_added), ("intents", root_set))}
OF_CAPTURE = [bit_flipped, cut, head_changed] + 3 * [field_changed]
OF_EVENTS = 12 * [event_changed] + [number_changed, word_changed, cut]


def changed(draw, text, kind, others):
    """A sample with one change or some, or bytes that come of none."""
    if draw.random() < 0.02:
        size = draw.choice((0, 1, 5, 24, 40, 100, 1000))
        return draw.randbytes(size) if draw.random() < 0.5 else bytes(draw.choice(b'abe019 \n"[]=./:#-') for _ in range(size))
    ways = OF_CAPTURE if kind == "captures" else OF_EVENTS if kind == "events" else OF_TEXT
    if kind in OF_TOML and draw.random() < 0.8:
        ways = OF_TOML[kind]
    elif text[:4] == b"\x0a\x0d\x0d\x0a" and draw.random() < 0.7:
        ways = [block_changed]
    elif draw.random() < (0.1 if kind == "events" else 0.4):
        ways = ways + ANY
    for _ in range(draw.choice((1, 1, 1, 1, 2, 2, 3, 6))):
        text = draw.choice(ways)(draw, text, kind, others)
    return text


# ---- aimed at what changes seldom meet

def filled(draw, text, kind):
    """A text with comments up to the limit of a file, or one byte more; a capture with zeros up to that of the input, or one more."""
    limit = INPUT if kind == "captures" else FILE
    size = limit + draw.choice((0, 1, 1)) - len(text)
    return text + bytes(size) if kind == "captures" else b"#" + b"x" * (size - 2) + b"\n" + text


def full_of_frames(draw, text, kind):
    """As many frames as a capture may have, none with a byte, and what follows them."""
    head = struct.pack("<IHHiIII", 0xA1B2C3D4, 2, 4, 0, 0, 0, draw.choice((1, 101)))
    return head + bytes(16) * FRAMES + draw.choice((b"", b"\0", b"\0", bytes(16)))


def at_one_prefix(draw, text, kind):
    """A SID more at another node on a prefix that is there, compressed in another way; the text has a block."""
    text = re.sub(rb'(?m)^kind = "replace"$', b'kind = "next"', text)
    places = re.findall(rb'(?m)^\[\[sid\]\]\nnode = "([^"\n]+)"\nprefix = "([^"\n]+)"\nbehaviour = "End"\n(csid = "next"\n)', text)
    nodes = re.findall(rb'(?m)^\[\[node\]\]\nname = "([^"\n]+)"', text)
    if not places or len(nodes) < 2:
        return text
    node, prefix, _ = draw.choice(places)
    other = draw.choice([name for name in nodes if name != node])
    return text.rstrip(b"\n") + b'\n\n[[sid]]\nnode = "%s"\nprefix = "%s"\nbehaviour = "End"\n' % (other, prefix)


def without_number(draw, text, kind):
    """A SID more whose bits after a block are all 0."""
    places = re.findall(rb'(?m)^\[\[block\]\]\nprefix = "([0-9a-f:]+)/([0-9]+)"\nkind = "next"\ncsid = ([0-9]+)$', text)
    nodes = re.findall(rb'(?m)^\[\[node\]\]\nname = "([^"\n]+)"', text)
    if not places or not nodes:
        return text
    address, length, csid = draw.choice(places)
    values = draw.choice(nodes), address, int(length) + int(csid)
    return text.rstrip(b"\n") + b'\n\n[[sid]]\nnode = "%s"\nprefix = "%s/%d"\nbehaviour = "End"\ncsid = "next"\n' % values


def of_another_length(draw, text, kind):
    """A plain SID more in a block, of a length that the block's SIDs don't have."""
    places = re.findall(rb'(?m)^\[\[block\]\]\nprefix = "([0-9a-f:]+)/([0-9]+)"', text)
    nodes = re.findall(rb'(?m)^\[\[node\]\]\nname = "([^"\n]+)"', text)
    if not places or not nodes:
        return text
    address, length = draw.choice(places)
    bits = int(length) + draw.choice((8, 24, 40))
    value = int(ipaddress.IPv6Address(address.decode())) | draw.randrange(1, 1 << (bits - int(length))) << (128 - bits)
    prefix = f"{ipaddress.IPv6Address(value)}/{bits}".encode()
    return text.rstrip(b"\n") + b'\n\n[[sid]]\nnode = "%s"\nprefix = "%s"\nbehaviour = "End"\n' % (draw.choice(nodes), prefix)


def reach_added(draw, text, kind):
    """A step more before all others, a loose one; or one in place of the first step, and what follows it as it was."""
    first, *steps = TABLE_OF_TEXT.split(text)
    return first + b'[[step]]\nreach = "%s"\n\n' % draw.choice((b"B", b"C")) + b"".join(steps[draw.randrange(2) if steps else 0:])


def most_events(draw, text, kind):
    """As many numbers as a word has room for, which is as many as there may be."""
    return b",".join(draw.choice(b"0012349").to_bytes() for _ in range(65_536))


OF_A_BLOCK = at_one_prefix, without_number, of_another_length
AIMED = {
    "descriptions": [filled, *OF_A_BLOCK], "changes": [filled, *OF_A_BLOCK], "intents": [filled, reach_added],
    "captures": [filled, full_of_frames], "certificates": [filled], "traces": [filled], "events": [most_events],
}
