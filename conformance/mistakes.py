"""Deliberate mistakes: each is the reader of reader.py with one rule bent. The first line of a class says what it does
wrong; its name, in small letters with hyphens, is the fault's. The last of them bend a place, which no listing shows.
"""
import re

from reader import ERASED, Announced, Reader, erased


def crc16_ccitt_false(data):
    crc = 0xFFFF
    for byte in data:
        crc ^= byte << 8
        for _ in range(8):
            crc = ((crc << 1) ^ 0x1021 if crc & 0x8000 else crc << 1) & 0xFFFF
    return crc


def moved(step, before):
    """The steps with one of them taken before another; before none: left out."""
    steps = [one for one in Reader.STEPS if one != step]
    if before:
        steps.insert(steps.index(before), step)
    return tuple(steps)


# Checks.


class HeaderCheckCcittFalse(Reader):
    """the header check is CRC-16/CCITT-FALSE"""
    def header_check(self, data):
        return crc16_ccitt_false(data)


class HeaderCheckPlain(Reader):
    """the header check lacks the final complement"""
    def header_check(self, data):
        return super().header_check(data) ^ 0xFFFF


class HeaderCheckUnread(Reader):
    """the header check is not compared"""
    STEPS = moved('header', None)


class FrameCheckPlain(Reader):
    """the frame check lacks the final complement"""
    def frame_check(self, data):
        return super().frame_check(data) ^ 0xFFFFFFFF


class FrameCheckUnread(Reader):
    """the frame check is not compared"""
    STEPS = moved('frame', None)


class FrameCheckOfPayload(Reader):
    """the frame check covers the payload alone"""
    def covered(self, at):
        return at.payload()


class FrameCheckLess(Reader):
    """the frame check leaves the header check's two bytes out"""
    def covered(self, at):
        return at.t[:10] + at.payload()


# Fields.


class MarkUnread(Reader):
    """the mark is not looked at"""
    STEPS = moved('mark', None)


class MarkSwapped(Reader):
    """the mark is taken in either order"""
    def step_mark(self, at):
        return None if at.t[:2] == b'\x4d\x57' else super().step_mark(at)


class SequenceBigEndian(Reader):
    """the sequence is read most significant byte first"""
    def sequence(self, data):
        return int.from_bytes(data, 'big')


class SequenceSigned(Reader):
    """the sequence is read as a signed number"""
    def sequence(self, data):
        return int.from_bytes(data, 'little', signed=True)


class SequenceOf16Bits(Reader):
    """the sequence has 16 bits"""
    def sequence(self, data):
        return int.from_bytes(data[:2], 'little')


class LengthBigEndian(Reader):
    """P is read most significant byte first"""
    def payload_length(self, data):
        return int.from_bytes(data, 'big')


class LengthOf15Bits(Reader):
    """P is read as 15 bits"""
    def payload_length(self, data):
        return int.from_bytes(data, 'little') & 0x7FFF


class LengthsOf16Bits(Reader):
    """lengths begin again at 0 past 65,535"""
    def lengths(self, P, a):
        return tuple(length & 0xFFFF for length in super().lengths(P, a))


class Unpadded(Reader):
    """no padding stands between frame and slot"""
    def lengths(self, P, a):
        return 16 + P, 16 + P, 16 + P + a


class PaddedAlways(Reader):
    """a frame of whole units is padded by one more"""
    def lengths(self, P, a):
        body = (16 + P) // a * a + a
        return 16 + P, body, body + a


class SlotOfFour(Reader):
    """every slot has four bytes"""
    def lengths(self, P, a):
        F, B, _ = super().lengths(P, a)
        return F, B, B + 4


# Kinds.


class VersionUnread(Reader):
    """every version is read"""
    STEPS = moved('version', None)


class VersionBeforeCheck(Reader):
    """the version is looked at before the header check"""
    STEPS = moved('version', 'header')


class VersionAfterLength(Reader):
    """the version is looked at after the record's length"""
    STEPS = moved('version', 'frame')


class LengthsAtLeast(Reader):
    """a payload may be longer than its kind has it"""
    def length_allowed(self, kind, P):
        return P >= self.NUMBERS[kind]


class LengthsUnread(Reader):
    """a payload may have any length"""
    def fits_kind(self, at):
        return at.kind not in self.RUNS or at.sequence == 0


class TimerFiredWithPayload(Reader):
    """timer fired may have a payload"""
    FREE = Reader.FREE | {6}


class RunStartedShort(Reader):
    """run started needs no numbers"""
    NUMBERS = {**Reader.NUMBERS, 1: 0}


class SequenceOfRuns(Reader):
    """kinds 1, 7 and 8 may have a sequence"""
    RUNS = set()


class SequenceOfRunFailed(Reader):
    """kind 8 may have a sequence"""
    RUNS = {1, 7}


class Clock3(Reader):
    """clock kind 3 is taken"""
    CLOCKS = {1, 2, 3}


class ClockUnread(Reader):
    """the clock kind is not looked at"""
    CLOCKS = set(range(256))


class Clock2Refused(Reader):
    """clock kind 2 is not taken"""
    CLOCKS = {1}


class Kind0Known(Reader):
    """kind 0 is known"""
    NUMBERS = {**Reader.NUMBERS, 0: 0}


class Kind10Known(Reader):
    """kind 10 is known"""
    NUMBERS = {**Reader.NUMBERS, 10: 0}


class KindOf4Bits(Reader):
    """a kind's high bits are not looked at"""
    def known(self, kind):
        return super().known(kind & 15)

    def fits_kind(self, at):
        at.kind &= 15
        return super().fits_kind(at)


class UnknownFound(Reader):
    """a sealed record of unknown kind is found"""
    def step_sealed(self, at):
        return ('found', at.L) if self.holds(at.slot(), at.check()) else None


class UnknownPassedOver(Reader):
    """a sealed record of unknown kind is passed over"""
    def step_sealed(self, at):
        outcome = super().step_sealed(at)
        return ('skipped', at.L) if outcome == ('damaged', 6) else outcome


class UnknownBeforeSeal(Reader):
    """an unknown kind is 6 under every slot"""
    def step_sealed(self, at):
        return super().step_sealed(at) if self.known(at.kind) else ('damaged', 6)


class UnknownMalformed(Reader):
    """an unknown kind is 8"""
    def step_allowed(self, at):
        return super().step_allowed(at) if self.known(at.kind) else ('damaged', 8)


class MalformedAfterSeal(Reader):
    """what its kind does not allow is looked at only under a seal"""
    def step_allowed(self, at):
        return super().step_allowed(at) if self.holds(at.slot(), at.check()) else None


class MalformedBeforeCheck(Reader):
    """what its kind does not allow is looked at before the frame check"""
    STEPS = moved('allowed', 'frame')


# Seals.


class SealUnmasked(Reader):
    """the seal lacks AND 0x7F"""
    def seal_byte(self, check, i):
        return (check >> 8 * (i % 4)) & 0xFF


class SealHighBitUnread(Reader):
    """bit 7 of a slot's bytes is not looked at"""
    def holds(self, slot, check):
        return super().holds(bytes(byte & 0x7F for byte in slot), check)


class SealReversed(Reader):
    """the seal has the check's most significant byte first"""
    def seal_byte(self, check, i):
        return super().seal_byte(check, 3 - i % 4)


class SealOnce(Reader):
    """only the first four bytes of a slot are compared"""
    def holds(self, slot, check):
        return super().holds(slot[:4], check)


class SealFirstByte(Reader):
    """only the first byte of a slot is compared"""
    def holds(self, slot, check):
        return super().holds(slot[:1], check)


class SealLastByteUnread(Reader):
    """the last byte of a slot is not compared"""
    def holds(self, slot, check):
        return super().holds(slot[:-1] or slot, check)


class ErasedSlotSealed(Reader):
    """an erased slot is taken as sealed"""
    def holds(self, slot, check):
        return erased(slot) or super().holds(slot, check)


class AnySlotSealed(Reader):
    """a slot that is not erased is taken as sealed"""
    def holds(self, slot, check):
        return not erased(slot)


class PaddingUnderSeal(Reader):
    """padding is looked at under a seal that holds"""
    def step_sealed(self, at):
        return super().step_sealed(at) if erased(at.padding()) else None


# Skipping.


class Kind2Skipped(Reader):
    """kind 2 is skipped like 3"""
    SKIPPED = {2, 3, 4, 6}


class TimersSkipped(Reader):
    """kind 5 is skipped like 6"""
    SKIPPED = {3, 4, 5, 6}


class EveryKindSkipped(Reader):
    """every known kind is skipped"""
    SKIPPED = set(range(1, 10))


class UnknownSkipped(Reader):
    """unknown kinds are skipped"""
    SKIPPED = {3, 4, 6, 0} | set(range(10, 256))


class Kind4NotSkipped(Reader):
    """kind 4 is not skipped"""
    SKIPPED = {3, 6}


class Kind6NotSkipped(Reader):
    """kind 6 is not skipped"""
    SKIPPED = {3, 4}


class NothingSkipped(Reader):
    """nothing is skipped"""
    SKIPPED = set()


class SlotUnreadWhenSkipping(Reader):
    """the slot is not read when skipping"""
    def may_skip(self, at):
        return at.kind in self.SKIPPED and erased(at.padding())


class PaddingUnreadWhenSkipping(Reader):
    """the padding is not read when skipping"""
    def may_skip(self, at):
        return at.kind in self.SKIPPED and erased(at.slot())


class FirstSlotByteWhenSkipping(Reader):
    """only the first byte of the slot is read when skipping"""
    def may_skip(self, at):
        return at.kind in self.SKIPPED and erased(at.padding()) and erased(at.slot()[:1])


class OneSkipOnly(Reader):
    """a second record in a row is not skipped"""
    skipping = False

    def stands(self, at):
        outcome = super().stands(at)
        again, self.skipping = self.skipping, outcome[0] == 'skipped'
        return ('unsealed', 10) if again and self.skipping else outcome


class SequencesRise(Reader):
    """a sequence below the one before is damage"""
    before = 0

    def stands(self, at):
        outcome = super().stands(at)
        if outcome[0] != 'found' or at.kind in self.RUNS:
            return outcome
        fallen, self.before = at.sequence < self.before, at.sequence
        return ('damaged', 8) if fallen else outcome


class SkipByBody(Reader):
    """a skipped record is passed by its body alone"""
    def step_skipped(self, at):
        return ('skipped', at.B) if self.may_skip(at) else None


class SkipEnds(Reader):
    """a skipped record ends the reading clean"""
    def step_skipped(self, at):
        return ('clean', 0) if self.may_skip(at) else None


class SkipFound(Reader):
    """a skipped record is found"""
    def step_skipped(self, at):
        return ('found', at.L) if self.may_skip(at) else None


class DeepSkips(Reader):
    """reading goes on by a call within a call, and the stack is short"""
    def onward(self, region, a, o, found):
        at = Announced(self, region[o:], a)
        what, number = self.stands(at)
        if what not in ('found', 'skipped'):
            return found, what, o, number
        return self.onward(region, a, o + number, found + [(o, at)] if what == 'found' else found)

    def walk(self, region, a):
        return self.onward(region, a, 0, [])


# Lengths against the region, and what follows the last record.


class LengthAfterCheck(Reader):
    """the record's length is compared after the frame check, where the frame lies in the region"""
    def step_fits(self, at):
        return ('damaged', 4) if at.F > at.m else None

    def step_allowed(self, at):
        return super().step_allowed(at) or super().step_fits(at)


class SlotPastTheEnd(Reader):
    """a slot may be cut off by the region's end"""
    def step_fits(self, at):
        return ('damaged', 4) if at.B >= at.m else None


class JustFitsRefused(Reader):
    """a record that just fits is cut off"""
    def step_fits(self, at):
        return ('damaged', 4) if at.L >= at.m else None


class OverlongIs9(Reader):
    """a record above the region is 9"""
    def step_fits(self, at):
        return ('damaged', 9) if at.L > at.m else None


class TailUnread(Reader):
    """an erased header ends the reading clean, whatever follows"""
    def step_blank(self, at):
        return ('clean', 0) if erased(at.t[:12]) else None


class TailBy4096(Reader):
    """of an erased tail only the first 4,096 bytes are looked at"""
    def step_blank(self, at):
        return super().step_blank(Announced(self, at.t[:4096], at.a))


class LastByteUnread(Reader):
    """the last byte of the region is not looked at in a tail"""
    def step_blank(self, at):
        if erased(at.t[:12]):
            return ('clean', 0) if erased(at.t[:-1]) else ('damaged', 9)


class HolesPassed(Reader):
    """erased units are passed over until a record comes"""
    def step_blank(self, at):
        return super().step_blank(at) if erased(at.t) or not erased(at.t[:12]) else ('skipped', at.a)


class ShortTailUnread(Reader):
    """a tail below 12 bytes ends the reading clean, whatever it holds"""
    def step_short(self, at):
        return ('clean', 0) if at.m < 12 else None


class ShortTailDamaged(Reader):
    """a tail below 12 bytes is damaged, even erased"""
    def step_short(self, at):
        return ('damaged', 4) if 0 < at.m < 12 else super().step_short(at)


class ShortTailIs9(Reader):
    """a short tail that is not erased is 9"""
    def step_short(self, at):
        outcome = super().step_short(at)
        return ('damaged', 9) if outcome == ('damaged', 4) else outcome


class TailOf12Short(Reader):
    """a tail of 12 bytes counts as short"""
    def step_short(self, at):
        if at.m < 13:
            return ('clean', 0) if erased(at.t) else ('damaged', 4)


class ShortTailByRecord(Reader):
    """a tail that no record fits ends the reading clean"""
    def step_short(self, at):
        return super().step_short(at) or (('clean', 0) if at.m < 16 + 2 * at.a and erased(at.t[:1]) else None)


# Endings.


class Resynchronises(Reader):
    """after damage reading goes on at the next mark"""
    def stands(self, at):
        outcome = super().stands(at)
        following = at.t.find(b'\x57\x4d', 1)
        return ('skipped', following) if outcome[0] == 'damaged' and following > 0 else outcome


class UnsealedPassed(Reader):
    """a record whose slot does not hold the seal is passed over"""
    def step_open(self, at):
        return ('skipped', at.L)


class UnsealedIsDamaged(Reader):
    """10 ends the reading damaged"""
    def step_open(self, at):
        return ('damaged', 10)


class Numbers6And7Swapped(Reader):
    """the refusals 6 and 7 are swapped"""
    def stands(self, at):
        what, number = super().stands(at)
        return what, {6: 7, 7: 6}.get(number, number) if what == 'damaged' else number


class Numbers8And9Swapped(Reader):
    """the refusals 8 and 9 are swapped"""
    def stands(self, at):
        what, number = super().stands(at)
        return what, {8: 9, 9: 8}.get(number, number) if what == 'damaged' else number


class EndBehindDamage(Reader):
    """an ending's offset is the region's end"""
    def walk(self, region, a):
        found, what, _, number = super().walk(region, a)
        return found, what, len(region), number


# The listing.


class BytesByOffset(Reader):
    """the last field is the ending's offset, skipped records included"""
    def end_line(self, found, ending, o, refusal):
        return f'end,{ending},{o},{refusal},{len(found)},{o}'


class BytesOfBodies(Reader):
    """the last field sums bodies"""
    def end_line(self, found, ending, o, refusal):
        return f'end,{ending},{o},{refusal},{len(found)},{sum(at.B for _, at in found)}'


class FreeBytesForP(Reader):
    """kind 1 shows its free bytes for P"""
    def record_line(self, o, at):
        return f'{o},{at.kind},{at.sequence},{at.P - 4 if at.kind == 1 else at.P}'


class UnitsSwapped(Reader):
    """the first line is taken as r,a"""
    def units(self, line):
        return super().units(b','.join(reversed(line.split(b','))))


class ReadUnitUpTo256(Reader):
    """a read unit above 256 is refused"""
    READ_UNITS = Reader.PROGRAM_UNITS


class ReadUnitUpToA(Reader):
    """a read unit above the program unit is refused"""
    def units(self, line):
        units = super().units(line)
        return units if units and units[1] <= units[0] else None


class AnyUnit(Reader):
    """every program unit up to 256 is taken"""
    PROGRAM_UNITS = set(range(1, 257))


class UnitsOf32Bits(Reader):
    """units are taken modulo 2 to the 32nd"""
    def number(self, text):
        number = super().number(text)
        return None if number is None else number % 2 ** 32


class UnitsOf64Bits(Reader):
    """units are taken modulo 2 to the 64th"""
    def number(self, text):
        number = super().number(text)
        return None if number is None else number % 2 ** 64


class LeadingZeros(Reader):
    """a zero may stand in front of a number"""
    def number(self, text):
        return super().number(text.lstrip(b'0') or text)


class BlanksTaken(Reader):
    """blanks may stand around a number"""
    def number(self, text):
        return super().number(text.strip())


class AnyInteger(Reader):
    """whatever the language takes as a number is taken"""
    def number(self, text):
        try:
            return int(text.decode())
        except ValueError:
            return None


class LineFeedNotNeeded(Reader):
    """the first line needs no line feed"""
    def listing(self, image):
        return super().listing(image if b'\n' in image else image + b'\n')


class EmptyRegionRefused(Reader):
    """a region of no bytes is refused"""
    def listing(self, image):
        return 'refused,1\n' if image.endswith(b'\n') and image.count(b'\n') == 1 else super().listing(image)


class LongerRegion(Reader):
    """a region above 32,768 bytes is listed"""
    LONGEST = 65536


class LongestRefused(Reader):
    """a region of 32,768 bytes is refused"""
    LONGEST = 32767


class CarriageReturns(Reader):
    """lines end in CR LF"""
    def listing(self, image):
        return super().listing(image).replace('\n', '\r\n')


class NoLastLineFeed(Reader):
    """the last line has no line feed"""
    def listing(self, image):
        return super().listing(image).rstrip('\n')


# The place in a refusal.


class Misplaced(Reader):
    """the place in a refusal is wrong, and the listing is not"""


class NoPlaceInTail(Misplaced):
    """a spoilt tail has no place"""
    def place_in_tail(self, at):
        return None


class NoPlaceBehindFrame(Misplaced):
    """a record that would be skipped has no place"""
    def place_behind_frame(self, at):
        return None


class PlaceIsLast(Misplaced):
    """the place is the last such byte's"""
    def first(self, at, start, end):
        return next((i for i in reversed(range(start, end)) if at.t[i] != ERASED), None)


class PlaceFromRecord(Misplaced):
    """the place counts from the offset at which reading ended"""
    def place(self, region, a):
        _, _, o, _ = self.walk(region, a)
        place = super().place(region, a)
        return None if place is None else place - o


class PlaceFromImage(Misplaced):
    """the place counts from the image's start"""
    def place_in(self, image):
        place = super().place_in(image)
        return None if place is None else place + image.index(b'\n') + 1


class PlaceBy4096(Misplaced):
    """the place in a tail counts from the chunk of 4,096 bytes in which it lies"""
    def place_in_tail(self, at):
        place = super().place_in_tail(at)
        return None if place is None else place % 4096


class PlaceOfHeader(Misplaced):
    """a damaged header has a place"""
    def place_in_tail(self, at):
        return self.first(at, 0, at.m)


class PlaceOfShortTail(Misplaced):
    """a tail below 12 bytes that is not erased has a place"""
    def place_at(self, at, refusal):
        return self.first(at, 0, at.m) if refusal == 4 and at.m < 12 else super().place_at(at, refusal)


class PlaceOfKind2(Misplaced):
    """an unsealed record of kind 2 has a place"""
    def place_behind_frame(self, at):
        return self.first(at, at.F, at.L) if at.kind in {2, 3, 4, 6} else None


class PlaceOfEveryKind(Misplaced):
    """an unsealed record of any kind has a place"""
    def place_behind_frame(self, at):
        return self.first(at, at.F, at.L)


class PlaceInFrame(Misplaced):
    """the place of a record is looked for from its start on"""
    def place_behind_frame(self, at):
        return self.first(at, 0, at.L) if at.kind in self.SKIPPED else None


class PlaceInSlot(Misplaced):
    """the place of a record is looked for in its slot alone"""
    def place_behind_frame(self, at):
        return self.first(at, at.B, at.L) if at.kind in self.SKIPPED else None


class PlaceInPadding(Misplaced):
    """the place of a record is looked for in its padding alone"""
    def place_behind_frame(self, at):
        return self.first(at, at.F, at.B) if at.kind in self.SKIPPED else None


def name_of(mistake):
    """Kind2Skipped is kind-2-skipped."""
    return re.sub(r'(?<!^)(?=[A-Z])|(?<=[a-z])(?=[0-9])', '-', mistake.__name__).lower()


def by_name(classes):
    return {name_of(one): one for one in classes}


def in_listings():
    return by_name(one for one in Reader.__subclasses__() if one is not Misplaced)


def in_places():
    return by_name(Misplaced.__subclasses__())


def all_mistakes():
    return {**in_listings(), **in_places()}
