"""A second reading of the rules in docs/FORMAT.md, made apart from the proved code.

  python3 reference.py FILE..        prints for each file what the program `cases` must print of it
It shares nothing with the libraries, so that both are wrong together only where the rules were read wrongly twice.
"""
import os
import sys

LIMIT, SIDE, CELLS = 134_217_728, 16_384, 33_554_432


class Refused(Exception):
    def __init__(self, number, layer, place, field, cells=0):
        self.lines = f"refused={number}\nlayer={layer}\nplace={place}\nfield={field}\ncells={cells}\n"


def num(s, first, last):
    """Octets first to last, counted from 1."""
    return int.from_bytes(s[first - 1:last], "big")


def signed(raw, bits):
    top = 1 << (bits - 1)
    return -(raw - top) if raw & top else raw


def days(year, month):
    if month == 2:
        return 29 if year % 4 == 0 and (year % 100 != 0 or year % 400 == 0) else 28
    return 30 if month in (4, 6, 9, 11) else 31


def runs(string, v):
    """(place, level, cells) of each run; a leading digit belongs to none."""
    out, base = [], 255 - v
    for place, octet in enumerate(string):
        if octet <= v:
            out.append([place, octet, 1])
            weight = 1
        elif out:
            out[-1][2] += (octet - v - 1) * weight
            weight *= base
    return out


def check_string(string, v, cells, start, field):
    if string and string[0] > v:
        raise Refused(10, "string", start, field, 0)
    done = 0
    for place, _, n in runs(string, v):
        if done + n > cells:
            raise Refused(11, "string", start + place, field, done)
        done += n
    if done < cells:
        raise Refused(12, "string", start + len(string), field, done)


def joined(string, v):
    """The longest runs of equal cells: [level, cells]."""
    out = []
    for _, level, n in runs(string, v):
        if out and out[-1][0] == level:
            out[-1][1] += n
        else:
            out.append([level, n])
    return out


def shortest(string, v):
    all_runs = joined(string, v)
    base, octets = 255 - max(level for level, _ in all_runs), 0
    for _, n in all_runs:
        octets += 1
        n -= 1
        while n:
            octets += 1
            n //= base
    return octets


class Rules:
    """Checks of one section, told at its place."""

    def __init__(self, section, number, place, field):
        self.s, self.number, self.place, self.field = section, number, place, field

    def need(self, ok, number, octet):
        if not ok:
            raise Refused(number, f"section {self.number}", self.place + octet - 1, self.field)

    def length(self, ok):
        self.need(ok, 6, 1)

    def fixed(self, first, last, value):
        self.need(num(self.s, first, last) == value, 7, first)

    def within(self, first, last, low, high):
        self.need(low <= num(self.s, first, last) <= high, 9, first)


def section_1(r):
    s = r.s
    r.length(len(s) == 21)
    r.fixed(6, 7, 34)
    r.within(13, 14, 1, 9999)
    r.within(15, 15, 1, 12)
    r.need(1 <= s[15] <= days(num(s, 13, 14), s[14]), 9, 16)
    r.within(17, 17, 0, 23)
    r.within(18, 18, 0, 59)
    r.within(19, 19, 0, 59)
    return s[5:]


def section_3(r):
    s = r.s
    r.length(len(s) == 72)
    r.fixed(6, 6, 0)
    r.within(7, 10, 1, CELLS)
    r.fixed(11, 11, 0)
    r.fixed(12, 12, 0)
    r.need(num(s, 13, 14) == 0, 8, 13)
    r.fixed(15, 15, 4)
    r.fixed(16, 16, 255)
    r.fixed(17, 20, 0xFFFFFFFF)
    r.fixed(21, 21, 1)
    r.fixed(22, 25, 63781370)
    r.fixed(26, 26, 1)
    r.fixed(27, 30, 63567523)
    r.within(31, 34, 1, SIDE)
    r.within(35, 38, 1, SIDE)
    ni, nj = num(s, 31, 34), num(s, 35, 38)
    r.need(ni * nj == num(s, 7, 10), 9, 35)
    r.fixed(39, 42, 0)
    r.fixed(43, 46, 0xFFFFFFFF)
    la1 = signed(num(s, 47, 50), 32)
    r.need(abs(la1) <= 90_000_000, 9, 47)
    r.within(51, 54, 0, 360_000_000)
    lo1 = num(s, 51, 54)
    r.fixed(55, 55, 0x30)
    la2 = signed(num(s, 56, 59), 32)
    r.need(abs(la2) <= 90_000_000, 9, 56)
    r.need(la2 == la1 if nj == 1 else la2 < la1, 9, 56)
    r.within(60, 63, 0, 360_000_000)
    lo2 = num(s, 60, 63)
    r.need(lo2 == lo1 if ni == 1 else lo2 > lo1, 9, 60)
    r.fixed(72, 72, 0)
    return dict(ni=ni, nj=nj, la1=la1, lo1=lo1, la2=la2, lo2=lo2, di=num(s, 64, 67), dj=num(s, 68, 71))


def section_4(r):
    s = r.s
    r.length(len(s) >= 9)
    r.fixed(6, 7, 0)
    template = num(s, 8, 9)
    r.need(template in (0, 50008, 50009, 50011), 8, 8)
    if template == 0:
        r.length(len(s) == 34)
    elif template == 50009:
        r.length(len(s) >= 85 and len(s) == 85 + 2 * num(s, 83, 84))
    else:
        r.length(len(s) == 82)
    return s[5:]


def section_5(r, points):
    s = r.s
    r.length(len(s) >= 17)
    r.need(num(s, 6, 9) == points, 9, 6)
    r.need(num(s, 10, 11) == 200, 8, 10)
    r.fixed(12, 12, 8)
    v, m = num(s, 13, 14), num(s, 15, 16)
    r.need(v <= m, 9, 13)
    r.need(1 <= m <= 252, 9, 15)
    r.within(17, 17, 0, 6)
    r.length(len(s) == 17 + 2 * m)
    table = [signed(num(s, 18 + 2 * k, 19 + 2 * k), 16) for k in range(m)]
    return dict(v=v, scale=s[16], table=table)


def load(s):
    """Identification and fields, or Refused."""
    if len(s) < 16:
        raise Refused(1, "message", 0, 0)
    for first, last, value in ((1, 4, 0x47524942), (5, 6, 0xFFFF), (7, 7, 0), (8, 8, 2)):
        if num(s, first, last) != value:
            raise Refused(2, "message", first - 1, 0)
    if num(s, 9, 16) != len(s) or len(s) > LIMIT:
        raise Refused(3, "message", 8, 0)
    follows = {0: (1,), 1: (3,), 3: (4,), 4: (5,), 5: (6,), 6: (7,), 7: (3, 4)}
    place, last, fields, identification, frame, product, packing = 16, 0, [], None, None, None, None
    while True:
        n = len(fields)
        if last == 7 and s[place:place + 4] == b"7777":
            if len(s) > place + 4:
                raise Refused(5, "message", place + 4, n)
            return identification, fields
        if len(s) - place < 5:
            raise Refused(1, "message", place, n)
        number = s[place + 4]
        if number not in follows[last]:
            raise Refused(4, "message", place + 4, n)
        length = num(s, place + 1, place + 4)
        if length > len(s) - place:
            raise Refused(1, "message", place, n)
        r = Rules(s[place:place + length], number, place, n)
        if number == 1:
            identification = section_1(r)
        elif number == 3:
            frame = section_3(r)
        elif number == 4:
            product = section_4(r)
        elif number == 5:
            packing = section_5(r, frame["ni"] * frame["nj"])
        elif number == 6:
            r.length(length == 6)
            r.fixed(6, 6, 255)
        else:
            r.length(length >= 5)
            string = r.s[5:]
            check_string(string, packing["v"], frame["ni"] * frame["nj"], place + 5, n)
            fields.append((frame, product, packing, string))
        place, last = place + length, number


def along(span, count, k):
    if count == 1:
        return 0
    return (2 * span * k + count - 1) // (2 * (count - 1))


def position(frame, column, row):
    out = [("column", column), ("row", row)]
    if column < frame["ni"] and row < frame["nj"]:
        out.append(("latitude", frame["la1"] - along(frame["la1"] - frame["la2"], frame["nj"], row)))
        out.append(("longitude", frame["lo1"] + along(frame["lo2"] - frame["lo1"], frame["ni"], column)))
    return out


def value(packing, level):
    if level == 0 or level > len(packing["table"]):
        return [("level without value", level)]
    return [("level", level), ("value", packing["table"][level - 1]), ("scale", packing["scale"])]


def listing(s, fields):
    out = [("octets", len(s)), ("fields", len(fields))]
    for k, (frame, _, packing, string) in enumerate(fields):
        highest = max(level for _, level, _ in runs(string, packing["v"]))
        out += [("field", k), ("width", frame["ni"]), ("height", frame["nj"]), ("highest", highest)]
        out += [("string", len(string)), ("shortest", shortest(string, packing["v"]))]
    return out


def parts(identification, fields):
    i = identification
    out = [("centre", num(i, 1, 2)), ("subcentre", num(i, 3, 4)), ("tables", i[4]), ("local", i[5]), ("meaning", i[6]), ("year", num(i, 8, 9))]
    out += zip(("month", "day", "hour", "minute", "second", "status", "kind"), i[9:])
    for frame, product, packing, _ in fields:
        out += [(name, frame[name]) for name in ("ni", "nj", "la1", "lo1", "la2", "lo2", "di", "dj")]
        m, ni, nj = len(packing["table"]), frame["ni"], frame["nj"]
        out += [("product", len(product)), ("v", packing["v"]), ("m", m), ("e", packing["scale"])]
        for level in (0, 1, m // 2, m, m + 1):
            out += value(packing, level)
        for column, row in ((0, 0), (ni // 2, nj // 2), (ni - 1, nj - 1), (ni, 0), (0, nj)):
            out += position(frame, column, row)
    return out + [("refused", 13)]


def text(s):
    try:
        identification, fields = load(s)
    except Refused as e:
        return e.lines + "no message is held\n"
    return "".join(f"{name}={number}\n" for name, number in listing(s, fields) + parts(identification, fields))


if __name__ == "__main__":
    for name in sys.argv[1:]:
        with open(name, "rb") as f:
            print(f"== {os.path.basename(name)}\n{text(f.read())}", end="")
