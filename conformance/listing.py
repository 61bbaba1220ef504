"""What a listing is, by section 11 of docs/FORMAT.md, and how two are told apart. Used by run and compare.

Here a listing is judged by itself: each line, then the lines in their order. Whether it is the right one for an image
is what a comparison finds out, so nothing is asked here that the image would decide.
"""
import collections
import re

LONGEST_REGION = 32768
# Around its payload a record has 16 bytes, and at least one of a slot.
LEAST_AROUND = 17
MOST_SEQUENCE = 2 ** 32 - 1
# Kinds without a sequence of their own: a 0 stands in its place.
WITHOUT_SEQUENCE = (1, 7, 8)
REFUSALS = {b'clean': (0,), b'damaged': (4, 6, 7, 8, 9), b'unsealed': (10,)}
NUMBER = re.compile(rb'0|[1-9][0-9]*')
REFUSED = b'refused,1\n'
WIDTH = 200
# The backslash too, so that no line is shown as another one.
ESCAPES = {9: '\\t', 10: '\\n', 13: '\\r', 92: '\\\\'}

Record = collections.namedtuple('Record', 'offset kind sequence payload')
End = collections.namedtuple('End', 'ending offset refusal records size')


class NoListing(Exception):
    """Says why a line is none of a listing, or cannot stand where it does."""


def lines_of(printed):
    """The lines, each with its line feed if it has one."""
    *lines, last = printed.split(b'\n')
    return [line + b'\n' for line in lines] + ([last] if last else [])


def number(field, what, most):
    if not NUMBER.fullmatch(field):
        raise NoListing(f'the {what} is not a decimal number without leading zeros')
    # Python does not convert numbers of any length.
    if len(field) > len(str(most)) or int(field) > most:
        raise NoListing(f'the {what} is above {most}')
    return int(field)


def record(fields):
    offset, kind, sequence, payload = fields
    offset = number(offset, 'offset', LONGEST_REGION - LEAST_AROUND)
    kind = number(kind, 'kind', 9)
    sequence = number(sequence, 'sequence', MOST_SEQUENCE)
    payload = number(payload, 'payload length', LONGEST_REGION - LEAST_AROUND)
    if kind == 0:
        raise NoListing('the kind is 0, and kinds are 1 to 9')
    if kind in WITHOUT_SEQUENCE and sequence != 0:
        raise NoListing(f'kind {kind} has sequence 0')
    if offset + payload > LONGEST_REGION - LEAST_AROUND:
        raise NoListing(f'such a record ends behind the longest region, of {LONGEST_REGION} bytes')
    return Record(offset, kind, sequence, payload)


def end(fields):
    if len(fields) != 6:
        raise NoListing(f'an end line has 6 fields, and this has {len(fields)}')
    _, ending, offset, refusal, records, size = fields
    if ending not in REFUSALS:
        raise NoListing('the ending is not clean, damaged or unsealed')
    refusal = number(refusal, 'refusal', 15)
    if refusal not in REFUSALS[ending]:
        *most, last = map(str, REFUSALS[ending])
        allowed = f'{", ".join(most)} or {last}' if most else last
        raise NoListing(f'the refusal of an ending {ending.decode()} is {allowed}')
    return End(ending.decode(), number(offset, 'offset', LONGEST_REGION), refusal,
               number(records, 'number of records', LONGEST_REGION), number(size, 'number of bytes', LONGEST_REGION))


def line(text):
    """What a line says: a Record, an End or REFUSED; NoListing where it is no line of a listing."""
    if not text.endswith(b'\n'):
        raise NoListing('no line feed ends it')
    if text.endswith(b'\r\n'):
        raise NoListing('a carriage return stands before its line feed')
    fields = text[:-1].split(b',')
    if fields[0] == b'end':
        return end(fields)
    if len(fields) == 4:
        return record(fields)
    if text != REFUSED:
        raise NoListing('it is not the four numbers of a record, not an end line and not refused,1')
    return REFUSED


def placed(one, before):
    """NoListing if a line that is one of a listing cannot stand behind these records."""
    if one == REFUSED:
        if before:
            raise NoListing('refused,1 stands alone')
        return
    if before and one.offset <= before[-1].offset:
        raise NoListing(f'offsets rise, and the one before is {before[-1].offset}')
    if isinstance(one, End) and one.records != len(before):
        raise NoListing(f'it counts {one.records} records, and there are {len(before)} lines of records')


def fault(printed):
    """The number of the first line that makes it no listing, from 1, and why; none for a listing."""
    records, ended = [], False
    for at, text in enumerate(lines_of(printed), 1):
        try:
            if ended:
                raise NoListing('the listing has ended before this line')
            one = line(text)
            placed(one, records)
        except NoListing as why:
            return at, str(why)
        if isinstance(one, Record):
            records.append(one)
        else:
            ended = True
    if not ended:
        return len(records) + 1, 'an end line is missing here' if records else 'nothing was printed'
    return None


def parting(ours, theirs):
    """The number of the first line that differs, from 1, and both; none where all are equal."""
    ours, theirs = lines_of(ours), lines_of(theirs)
    for at in range(max(len(ours), len(theirs))):
        pair = [lines[at] if at < len(lines) else None for lines in (ours, theirs)]
        if pair[0] != pair[1]:
            return at + 1, *pair
    return None


def escaped(data, width=WIDTH):
    """Bytes as they are shown: unusual ones in escapes, a carriage return as \\r; cut to a width."""
    text = ''.join(ESCAPES.get(byte) or (chr(byte) if 32 <= byte < 127 else f'\\x{byte:02x}')
                   for byte in data[:width + 1])
    return text if len(text) <= width else text[:width] + '...'


def shown(text):
    """A line as it is shown, and whether its line feed is missing."""
    if text is None:
        return '(no such line)'
    if text.endswith(b'\n'):
        return escaped(text[:-1])
    return escaped(text) + ' (no line feed behind it)'
