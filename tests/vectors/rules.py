"""The rules of docs/FORMAT.md in Python, for the answers of the vectors that make_contents and make_base make and of stream.txt, from_stream.txt and
included.txt, and to compare those of salvage.txt and range.txt with.

Written from FORMAT.md alone (`stream`, `from_stream`, `rows`, `halved`, `ranged` and `salvaged` from requests [2] to [6] and [11] of document 02), plainly and not for speed. A refusal is
the exception No, with a number and a place. `named_by` finds the base by a scan, and not by `halved`.
"""
import re


class No(Exception):
    def __init__(self, number, place=0):
        super().__init__(number, place)
        self.number, self.place = number, place


def big(data, at, size):
    return int.from_bytes(data[at : at + size], "big")


class Bytes:
    """Bytes read front to back; what is not there is refused."""

    def __init__(self, data, cut):
        self.data, self.at, self.cut = data, 0, cut

    def take(self, size, place=0):
        if len(self.data) - self.at < size:
            raise No(self.cut, place)
        self.at += size
        return self.data[self.at - size : self.at]

    def number(self, size, place=0):
        return int.from_bytes(self.take(size, place), "big")

    def ended(self):
        return self.at == len(self.data)


# Configuration records


def sets(reader, count, types):
    for _ in range(count):
        length = reader.number(2)
        if length == 0:
            raise No(12)
        first = reader.take(length)[0]
        if first & 0x80 or first & 0x1F not in types:
            raise No(12)


def length_size(kind, record):
    """L of an accepted record."""
    reader = Bytes(record, 8)
    if reader.number(1) != 1:
        raise No(9)
    profile = reader.number(3) >> 16
    byte = reader.number(1)
    if byte & (0xFC if kind == 0 else 0x7C) != (0xFC if kind == 0 else 0x7C):
        raise No(10)
    size = (byte & 3) + 1
    if size == 3:
        raise No(11)
    byte = reader.number(1)
    if byte & (0xE0 if kind == 0 else 0x80) != (0xE0 if kind == 0 else 0):
        raise No(10)
    sets(reader, byte & (0x1F if kind == 0 else 0x7F), (7,) if kind == 0 else (7, 15))
    sets(reader, reader.number(1), (8,))
    if kind == 0 and profile in (100, 110, 122, 144) and not reader.ended():
        for fixed in (0xFC, 0xF8, 0xF8):
            if reader.number(1) & fixed != fixed:
                raise No(10)
        sets(reader, reader.number(1), (13,))
    if not reader.ended():
        raise No(13)
    return size


# The bundle


class Bundle:
    """An accepted bundle. tracks: kind, record start, record length, L. references: from, to. samples: track, time, start, length."""

    def __init__(self, data):
        if len(data) > 16_777_216:
            raise No(1)
        self.data, reader = data, Bytes(data, 2)
        self.tracks = [self.track(reader) for _ in range(count(reader, 1, 1, 16))]
        self.references = [self.reference(reader) for _ in range(count(reader, 1, 0, 64))]
        entries = []
        for _ in range(count(reader, 2, 0, 4096)):
            entries.append(self.entry(reader, entries[-1] if entries else None))
        place = reader.at
        total = reader.number(4, place)
        if total != sum(length for _, _, length in entries):
            raise No(7, place)
        start = reader.at
        reader.take(total, place)
        if not reader.ended():
            raise No(7, place)
        self.samples = []
        for track, time, length in entries:
            self.samples.append((track, time, start, length))
            start += length

    def track(self, reader):
        place = reader.at
        kind, length = reader.number(1, place), reader.number(2, place)
        record = reader.take(length, place)
        if kind not in (0, 1):
            raise No(4, place)
        try:
            return kind, reader.at - length, length, length_size(kind, record)
        except No as no:
            raise No(no.number, place)

    def reference(self, reader):
        place = reader.at
        source, target = reader.take(2, place)
        there = range(1, len(self.tracks) + 1)
        if source not in there or target not in there or source == target:
            raise No(5, place)
        if self.tracks[source - 1][3] != self.tracks[target - 1][3]:
            raise No(5, place)
        return source, target

    def entry(self, reader, last):
        place = reader.at
        data = reader.take(13, place)
        track, time, length = data[0], big(data, 1, 8), big(data, 9, 4)
        if not 1 <= track <= len(self.tracks) or last and (track, time) <= last[:2]:
            raise No(6, place)
        return track, time, length

    def one_of(self, things, number):
        if not 1 <= number <= len(things):
            raise No(30)
        return things[number - 1]

    def sample(self, number):
        """Its kind, L and bytes."""
        track, _, start, length = self.one_of(self.samples, number)
        kind, _, _, size = self.tracks[track - 1]
        return kind, size, self.data[start : start + length]


def count(reader, size, least, most):
    place = reader.at
    number = reader.number(size, place)
    if not least <= number <= most:
        raise No(3, place)
    return number


# Units in a sample


def unit_at(size, data, at, end):
    """Where the unit at this place ends. 14 to 18."""
    if end - at < size:
        raise No(14, at)
    length = big(data, at, size)
    if length > end - at - size:
        raise No(15, at)
    if length == 0:
        raise No(16, at)
    first = data[at + size]
    if first & 0x80:
        raise No(17, at)
    if length < {14: 4, 20: 4, 31: 4, 30: 4 + size}.get(first & 0x1F, 1):
        raise No(18, at)
    return at + size + length


def parts(size, data, at, end):
    """Place, end and type of each unit between two borders."""
    found = []
    while at < end:
        last = unit_at(size, data, at, end)
        found.append((at, last, data[at + size] & 0x1F))
        at = last
    return found


def included(size, data, unit):
    return parts(size, data, unit[0] + size + 4 + size, unit[1])


def covered(size, data, unit):
    """Where the bytes that an aggregator covers end."""
    return unit[1] + big(data, unit[0] + size + 4, size)


def covers_well(size, data, units, border, unit):
    """Whether additional_bytes end on a border, which the end is too, and cover no aggregator."""
    end = covered(size, data, unit)
    return end in [u[0] for u in units] + [border] and not any(u[2] == 30 and unit[1] <= u[0] < end for u in units)


def check(kind, size, data):
    """14 to 22."""
    units = parts(size, data, 0, len(data))
    for unit in units:
        if unit[2] == 30:
            at = unit[0] + size + 4 + size
            while at < unit[1]:
                last = unit_at(size, data, at, unit[1])
                inner = data[at + size] & 0x1F
                if inner == 30:
                    raise No(19, at)
                if kind == 0 and 1 <= inner <= 5:
                    raise No(20, at)
                if inner == 31 and last - at - size != 6 + 2 * size:
                    raise No(22, at)
                at = last
            if not covers_well(size, data, units, len(data), unit):
                raise No(21, unit[0])
        if unit[2] == 31 and unit[1] - unit[0] - size != 6 + 2 * size:
            raise No(22, unit[0])


def is_well_formed(kind, size, data):
    try:
        check(kind, size, data)
    except No:
        return False
    return True


def covering_nothing(size, data, unit):
    """The bytes of a unit, additional_bytes 0 in an aggregator."""
    at = unit[0] + size + 4
    return data[unit[0] : at] + bytes(size) + data[at + size : unit[1]] if unit[2] == 30 else data[unit[0] : unit[1]]


def salvaged(kind, size, data):
    """The new sample and the change list. A unit is dropped that is not well formed by itself, its additional_bytes 0."""
    fault = len(data)
    try:
        parts(size, data, 0, fault)
    except No as no:
        fault = no.place
    units = parts(size, data, 0, fault)
    dropped = [unit[0] for unit in units if not is_well_formed(kind, size, covering_nothing(size, data, unit))]
    new, changes = b"", []
    for unit in units:
        if unit[0] in dropped:
            changes.append((1, unit[0]))
            continue
        over_dropped = unit[2] == 30 and any(unit[1] <= place < covered(size, data, unit) for place in dropped)
        if unit[2] == 30 and (over_dropped or not covers_well(size, data, units, fault, unit)):
            changes.append((2, unit[0]))
            new += covering_nothing(size, data, unit)
        else:
            new += data[unit[0] : unit[1]]
    if fault < len(data):
        changes.append((1, fault))
    return new, b"".join(bytes([what]) + place.to_bytes(4, "big") for what, place in changes)


def flat(size, data, units):
    """Aggregators replaced by what they include."""
    return [inner for unit in units for inner in (included(size, data, unit) if unit[2] == 30 else [unit])]


def rows(size, data):
    """Units beside one another: the top-level ones of a well-formed sample, and those that each of its aggregators includes."""
    units = parts(size, data, 0, len(data))
    return [units] + [included(size, data, unit) for unit in units if unit[2] == 30]


def extractors(bundle, number):
    """The extractors of a well-formed sample, by place."""
    _, size, data = bundle.sample(number)
    return [unit for unit in flat(size, data, parts(size, data, 0, len(data))) if unit[2] == 31]


# Resolving


def halved(times, own):
    """The search of request [5]: the number of the base among the times, from 1, 0 for none; and its rounds."""
    found, rounds, left = 0, 0, range(len(times))
    while left:
        middle = left[(len(left) - 1) // 2]  # the earlier of two
        rounds += 1
        if times[middle] <= own:
            found, left = middle + 1, range(middle + 1, left.stop)
        else:
            left = range(left.start, middle)
    return found, rounds


def named_by(bundle, number, unit):
    """The sample that an extractor names. 23 and 24."""
    _, size, data = bundle.sample(number)
    own, time, _, _ = bundle.samples[number - 1]
    index, offset = data[unit[0] + size + 4], data[unit[0] + size + 5]
    links = [target for source, target in bundle.references if source == own]
    if not 1 <= index <= len(links):
        raise No(23, unit[0])
    linked = [n for n, sample in enumerate(bundle.samples, 1) if sample[0] == links[index - 1]]
    before = [at for at, n in enumerate(linked) if bundle.samples[n - 1][1] <= time]
    step = offset - 256 if offset > 127 else offset
    if not before or not 0 <= before[-1] + step < len(linked):
        raise No(24, unit[0])
    return linked[before[-1] + step]


def copied(bundle, number, unit):
    """The units that an extractor copies, as start and length in the bundle. 23 to 28."""
    place = unit[0]
    _, size, data = bundle.sample(number)
    source = named_by(bundle, number, unit)
    kind, size, linked = bundle.sample(source)
    try:
        check(kind, size, linked)
    except No:
        raise No(25, place)
    offset, length = big(data, place + size + 6, size), big(data, place + size + 6 + size, size)
    around = [row for row in rows(size, linked) if offset in [u[0] for u in row]]
    if not around:
        raise No(26, place)
    units = [u for u in around[0] if offset <= u[0]]
    end = offset + length
    if length == 0:
        end = covered(size, linked, units[0]) if units[0][2] == 30 else units[0][1]
    if end not in [u[1] for u in units]:
        raise No(27, place)
    found = flat(size, linked, [u for u in units if u[0] < end])
    if any(u[2] == 31 for u in found):
        raise No(28, place)
    start = bundle.samples[source - 1][2]
    return [(start + u[0] + size, u[1] - u[0] - size) for u in found]


def delivered(bundle, number):
    """What a sample delivers, as start and length in the bundle. 30, 14 to 28."""
    kind, size, data = bundle.sample(number)
    check(kind, size, data)
    start, spans = bundle.samples[number - 1][2], []
    for unit in flat(size, data, parts(size, data, 0, len(data))):
        if unit[2] == 31:
            spans += copied(bundle, number, unit)
        else:
            spans.append((start + unit[0] + size, unit[1] - unit[0] - size))
    return spans


def resolved(bundle, number):
    """The output of a sample. 30, 14 to 28."""
    return b"".join(length.to_bytes(4, "big") + bundle.data[start : start + length] for start, length in delivered(bundle, number))


def audit_line(bundle, number):
    """The line of an audit for a sample that is there."""
    try:
        return bytes(5) + len(delivered(bundle, number)).to_bytes(8, "big")
    except No as no:
        return bytes([no.number]) + no.place.to_bytes(4, "big") + bytes(8)


# The calls


def counts(data):
    bundle = Bundle(data)
    return [len(bundle.tracks), len(bundle.references), len(bundle.samples)]


def track(data, number):
    bundle = Bundle(data)
    return list(bundle.one_of(bundle.tracks, number)[:3])


def reference(data, number):
    bundle = Bundle(data)
    return list(bundle.one_of(bundle.references, number))


def sample(data, number):
    bundle = Bundle(data)
    return list(bundle.one_of(bundle.samples, number))


def units(data, number, room):
    spans = delivered(Bundle(data), number)
    if 2 * len(spans) > room:
        raise No(29)
    return [value for span in spans for value in span]


def stream(data, number, room):
    """The byte stream, in hexadecimal."""
    out = b""
    for start, length in delivered(Bundle(data), number):
        unit = data[start : start + length]
        if unit.endswith(b"\0") or any(three in unit for three in (b"\0\0\0", b"\0\0\1", b"\0\0\2")):
            raise No(32, len(out))
        out += b"\0\0\0\1" + unit
    if len(out) > room:
        raise No(29)
    return [out.hex() or "-"]


def from_stream(data, size, room):
    """The sample that a byte stream is read into, in hexadecimal."""
    if size not in (1, 2, 4):
        raise No(11)
    codes = [code.start() for code in re.finditer(b"\0\0\1", data)]
    before = data[: codes[0]] if codes else data
    if any(before):
        raise No(33, len(before) - len(before.lstrip(b"\0")))
    out = b""
    for code, end in zip(codes, codes[1:] + [len(data)]):
        start = code + 3
        unit = data[start:end].rstrip(b"\0")
        if not unit:
            raise No(33, start - 1)
        if len(unit) >= 256**size:
            raise No(34, start)
        fault = re.search(b"\0\0\2|\0{3,}[^\0\1]", unit)
        if fault:
            raise No(33, start + fault.end() - 1)
        out += len(unit).to_bytes(size, "big") + unit
    if len(out) > room:
        raise No(29)
    return [out.hex() or "-"]


def fitting(outputs, rooms):
    """What is written, in hexadecimal, where each fits its room."""
    if any(len(output) > room for output, room in zip(outputs, rooms)):
        raise No(29)
    return [output.hex() or "-" for output in outputs]


def ranged(data, first, last, *rooms):
    """Samples first to last: what they resolve to, joined, and a line for each. A refused one resolves to nothing."""
    bundle = Bundle(data)
    if first == 0 or last > len(bundle.samples) or first > last:
        raise No(30)
    output, lines = b"", b""
    for number in range(first, last + 1):
        try:
            output += resolved(bundle, number)
        except No:
            pass
        lines += audit_line(bundle, number)
    return fitting([output, lines], rooms)


def salvage(data, kind, size, *rooms):
    """A sample salvaged outside a bundle."""
    if kind not in (0, 1):
        raise No(4)
    if size not in (1, 2, 4):
        raise No(11)
    return fitting(salvaged(kind, size, data), rooms)


def named(data, number, place):
    bundle = Bundle(data)
    check(*bundle.sample(number))
    found = [unit for unit in extractors(bundle, number) if unit[0] == place]
    if not found:
        raise No(30)
    return [named_by(bundle, number, found[0])]


def times(data, number, track):
    """The times of a track's samples, and that of a sample. The time is 0 where there is no such sample; no such track has no samples."""
    bundle = Bundle(data)
    own = bundle.samples[number - 1][1] if 1 <= number <= len(bundle.samples) else 0
    return [time for of, time, _, _ in bundle.samples if of == track], own


def base(data, number, track):
    """What `halved` finds in a track, for a sample's time, and its rounds."""
    return list(halved(*times(data, number, track)))
