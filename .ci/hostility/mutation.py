"""Random changes to a text, by a seed: the same seed gives the same bytes on every machine."""
import random

SEPARATORS = (b",", b"\n", b"\r", b"\r\n", b'"', b'""', b" ", b"\t", b"-", b"\xef\xbb\xbf")
STRANGE = (b"\0", b"\xff", b"\x80", b"\x1a", b"\x7f", "é".encode(), b"A", b"_")
NUMBERS = (b"0", b"1", b"2", b"3", b"7", b"8", b"9", b"00", b"01", b"-1", b"+1", b"1.0", b"4096", b"4097", b"20000", b"20001", b"1000000", b"1000001", b"4294967296", b"999999999", b"1000000000")
WORDS = (b"msrp", b"msrp-trace", b"cores", b"ticks", b"resource", b"task", b"listed", b"release", b"op", b"run", b"lock", b"unlock", b"idle", b"take", b"queue", b"spin", b"grant", b"-", b"a", b"b", b"g", b"")
CHANGE_COUNTS = (1, 1, 1, 2, 3)


def place(rng, text):
    return rng.randrange(len(text) + 1)


def span(rng, text, longest=24):
    """Two places, the first not after the second."""
    begin = place(rng, text)
    return begin, min(len(text), begin + rng.randint(0, longest))


def put(rng, text, what):
    at = place(rng, text)
    return text[:at] + what + text[at:]


def cut(rng, text):
    begin, end = span(rng, text)
    return rng.choice((text[:begin], text[:begin] + text[end:]))


def double(rng, text):
    begin, end = span(rng, text, 80)
    return text[:end] + text[begin:end] + text[end:]


def swap(rng, text):
    (a, b), (c, d) = sorted((span(rng, text), span(rng, text)))
    return text if c < b else text[:a] + text[c:d] + text[b:c] + text[a:b] + text[d:]


def flip(rng, text):
    at = place(rng, text)
    return text[:at] + bytes(byte ^ 1 << rng.randrange(8) for byte in text[at:at + 1]) + text[at + 1:]


def separate(rng, text):
    return put(rng, text, rng.choice(SEPARATORS))


def spoil(rng, text):
    return put(rng, text, rng.choice(STRANGE))


def lengthen(rng, text):
    return put(rng, text, rng.choice((b"a", b"9", b"0", b'"', b",", b"\n")) * rng.choice((8, 9, 10, 15, 16, 17, 300, 70_000)))


def records_of(text):
    return text.split(b"\n")


def move_record(rng, text):
    """One record left out, doubled, or put elsewhere."""
    records = records_of(text)
    record = records.pop(rng.randrange(len(records)))
    for _ in range(rng.randint(0, 2)):
        records.insert(rng.randint(0, len(records)), record)
    return b"\n".join(records)


def change_field(rng, text):
    """One field exchanged for a number, a word, or another field of the text."""
    records = records_of(text)
    at = rng.randrange(len(records))
    fields = records[at].split(b",")
    others = rng.choice(records).split(b",")
    fields[rng.randrange(len(fields))] = rng.choice(rng.choice((NUMBERS, WORDS, others)))
    return b"\n".join([*records[:at], b",".join(fields), *records[at + 1:]])


def near(number):
    """The number, one less or one more."""
    return [b"%d" % value for value in (number - 1, number, number + 1) if value >= 0]


def count_on(rng, text):
    """One number changed by one."""
    records = records_of(text)
    at = rng.randrange(len(records))
    fields = records[at].split(b",")
    numbers = [which for which, field in enumerate(fields) if field.isdigit() and len(field) < 12]
    if not numbers:
        return text
    which = rng.choice(numbers)
    fields[which] = rng.choice(near(int(fields[which])))
    return b"\n".join([*records[:at], b",".join(fields), *records[at + 1:]])


# Changes of records stand here more than once: changes of bytes alone are nearly all refused at
# once.
CHANGES = (cut, double, swap, flip, separate, spoil, lengthen) + 3 * (move_record, change_field, count_on)


def mutated(seed, text):
    rng = random.Random(seed)
    for _ in range(rng.choice(CHANGE_COUNTS)):
        text = rng.choice(CHANGES)(rng, text)
    return text
