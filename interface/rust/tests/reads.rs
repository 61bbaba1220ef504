//! How many reads a recovery makes, for all regions up to 64 bytes that are made here: none passes the bound, the
//! costliest one meets it, and all have as many as a plain walk over their bytes counts.

use jardolento::{
    costliest, decode, encode, frame_len_of, header_check, seal, Decoded, Ending, Geometry, RecordRef, Recovery,
    Refusal, PAGE_BYTES,
};

const LONGEST: usize = 64;
const ALIGNS: [usize; 3] = [1, 2, 4];
const READ_UNITS: [usize; 6] = [1, 2, 4, 16, 64, 4096];
const HEADER: usize = 12;
const SHORTEST: RecordRef = RecordRef::TimerFired { seq: 0 };

/// The length of the shortest record, with its seal.
fn shortest(align: usize) -> usize {
    16_usize.next_multiple_of(align) + align
}

/// No recovery of a region of so many bytes makes more reads, through a page that holds it in whole read units.
fn bound(align: usize, len: usize) -> u64 {
    let rest = match len % shortest(align) {
        0 => 0,
        1..HEADER => 1,
        _ => 2,
    };
    2 * (len / shortest(align)) as u64 + rest
}

/// Lengths of pages that hold a region of so many bytes in whole read units.
fn long_pages(len: usize, read: usize) -> [usize; 4] {
    let least = len.next_multiple_of(read);
    [least, least + 1, least + read, PAGE_BYTES]
}

/// The units, and the page that recoveries go through.
struct Through<'a> {
    align: usize,
    read: usize,
    page: &'a mut [u8],
}

impl Through<'_> {
    /// The reads after each record and after the step that ended it, and how that was; `see` gets each record.
    fn recover(&mut self, region: &[u8], mut see: impl FnMut(jardolento::Found)) -> (Vec<u64>, Option<Ending>) {
        let mut recovery = Recovery::new(Geometry::new(region.len(), self.align, self.read).unwrap());
        let mut reads = Vec::new();
        assert_eq!(recovery.reads(), 0);
        loop {
            let found = recovery.next(region, self.page).and_then(Result::ok).map(&mut see).is_some();
            reads.push(recovery.reads());
            if !found {
                break;
            }
        }
        let ended = recovery;
        assert_eq!(recovery.next(region, self.page), None);
        assert_eq!(recovery, ended);
        (reads, recovery.ending())
    }

    /// Those reads counted from the bytes alone.
    fn walk(&self, region: &[u8]) -> Vec<u64> {
        let capacity = self.page.len() / self.read * self.read;
        let (mut at, mut reads, mut counted) = (0, 0, Vec::new());
        loop {
            let rest = &region[at..];
            let (made, passed) = read_at(rest, self.align, HEADER.next_multiple_of(self.read), capacity);
            reads += made;
            if !matches!(passed, Some((_, false))) {
                counted.push(reads);
            }
            match passed {
                Some((len, _)) => at += len,
                None => return counted,
            }
        }
    }
}

/// The reads that these bytes take, and the length of the record that begins there and is found or skipped, with
/// whether it is found.
fn read_at(rest: &[u8], align: usize, header: usize, capacity: usize) -> (u64, Option<(usize, bool)>) {
    if rest.is_empty() || capacity < header.min(rest.len()) {
        return (0, None);
    }
    if rest.len() < HEADER {
        return (1, None);
    }
    if rest[..HEADER].iter().all(|byte| *byte == 0xFF) {
        let pages = rest.chunks(capacity);
        let spoiled = pages.clone().position(|page| page.iter().any(|byte| *byte != 0xFF));
        return (1 + spoiled.map_or(pages.len(), |at| at + 1) as u64, None);
    }
    let Ok(frame_len) = frame_len_of(&rest[..HEADER]) else { return (1, None) };
    let len = frame_len.next_multiple_of(align) + align;
    if len > rest.len().min(capacity) {
        return (1, None);
    }
    let record = &rest[..len];
    let Ok(frame) = decode(record) else { return (2, None) };
    let Decoded::Record(found) = frame.decoded else { return (2, None) };
    let mut slot = vec![0; align];
    seal(frame.frame_crc, &mut slot);
    let is_sealed = record.ends_with(&slot);
    let is_skipped = matches!(found.kind(), 3 | 4 | 6) && record[frame_len..].iter().all(|byte| *byte == 0xFF);
    (2, (is_sealed || is_skipped).then_some((len, is_sealed)))
}

#[test]
fn the_costliest_region_meets_the_bound() {
    let mut page = vec![0; PAGE_BYTES];
    let mut tried = 0;
    for (len, align, read) in all_settings() {
        // It held other bytes, and it becomes the shortest records one behind the other.
        let mut region: Vec<u8> = (0..len).map(|at| (at * 89 + align) as u8).collect();
        costliest(align, read, &mut region).unwrap();
        let records = len / shortest(align);
        let laid = vec![sealed(SHORTEST, align); records].concat();
        assert_eq!((region.len(), &region[..laid.len()]), (len, &laid[..]));
        assert!(region[laid.len()..].iter().all(|byte| *byte == 0xFF));
        for page_len in long_pages(len, read) {
            let mut through = Through { align, read, page: &mut page[..page_len] };
            let mut offsets = Vec::new();
            let (reads, ending) = through.recover(&region, |found| {
                assert_eq!((found.record, found.len, found.payload), (SHORTEST, shortest(align), &b""[..]));
                offsets.push(found.offset);
            });
            assert_eq!(*reads.last().unwrap(), bound(align, len), "{len} bytes, units {align} and {read}");
            assert_eq!(offsets, (0..records).map(|record| record * shortest(align)).collect::<Vec<_>>());
            assert_eq!(ending, Some(Ending::Clean { append_at: laid.len() as u32 }));
            tried += 1;
        }
    }
    assert_eq!(tried, 65 * 3 * 6 * 4);
}

fn all_settings() -> impl Iterator<Item = (usize, usize, usize)> {
    let lens_and_aligns = (0..=LONGEST).flat_map(|len| ALIGNS.map(|align| (len, align)));
    lens_and_aligns.flat_map(|(len, align)| READ_UNITS.map(|read| (len, align, read)))
}

#[test]
fn refused_settings_leave_the_region() {
    let refused = Err(Refusal::Settings);
    let too_long = vec![0xA5; 16_777_217];
    let mut region = too_long.clone();
    assert_eq!(costliest(4, 1, &mut region), refused);
    assert!(region == too_long);
    let wide = (1 << 32) + 4;
    let mut region = [0xA5; LONGEST];
    let outside = [(0, 1), (3, 1), (257, 1), (512, 1), (wide, 1), (4, 0), (4, 3), (4, 4097), (4, 8192), (4, wide)];
    for (align, read) in outside {
        assert_eq!(costliest(align, read, &mut region), refused, "units {align} and {read}");
        assert_eq!(region, [0xA5; LONGEST]);
    }
}

#[test]
fn no_region_passes_the_bound() {
    let mut page = vec![0; 2 * 4096];
    let (mut regions, mut long, mut met, mut other) = (0, 0, 0, 0);
    for (len, align) in (0..=LONGEST).flat_map(|len| ALIGNS.map(|align| (len, align))) {
        for region in made(len, align) {
            let most = bound(align, region.len());
            for (at, read) in READ_UNITS.into_iter().enumerate() {
                // Each read unit takes other pages: two that hold the region and two that may not.
                let least = region.len().next_multiple_of(read);
                for page_len in [least, least + 1 + at, HEADER + at, (regions + 11 * at) % (LONGEST + 8)] {
                    let mut through = Through { align, read, page: &mut page[..page_len] };
                    let reads = through.recover(&region, |_| ()).0;
                    assert_eq!(reads, through.walk(&region), "units {align}, {read}, page {page_len}: {region:02x?}");
                    let last = *reads.last().unwrap();
                    if page_len < least {
                        other += 1;
                        continue;
                    }
                    assert!(last <= most, "{last} reads, units {align}, {read}, page {page_len}: {region:02x?}");
                    long += 1;
                    met += usize::from(last == most);
                }
            }
            regions += 1;
        }
    }
    println!("{regions} regions: {long} recoveries within the bound, {met} of them at it; {other} by shorter pages");
    assert!(regions > 50_000 && long > 12 * regions && met > long / 4 && other > regions);
}

/// Regions of so many bytes, and shorter ones: the costliest with each byte changed and cut at each byte, and others.
fn made(len: usize, align: usize) -> Vec<Vec<u8>> {
    let mut whole = vec![0; len];
    costliest(align, 1, &mut whole).unwrap();
    let mut regions: Vec<_> = (0..=len).map(|cut| whole[..cut].to_vec()).collect();
    for at in 0..len {
        for byte in [0, 0xFF, 0x57, whole[at] ^ 1, whole[at] ^ 0x80, whole[at] & 0x3C] {
            let mut changed = whole.clone();
            changed[at] = byte;
            regions.push(changed);
        }
    }
    regions.extend([vec![0xFF; len], vec![0; len]]);
    let mut numbers = Numbers(len as u64 * 8 + align as u64);
    for _ in 0..8 {
        regions.push(numbers.bytes(len));
        regions.push(numbers.headers(len));
    }
    regions.extend(of_records(len, align));
    regions
}

/// Records that are sealed, unsealed, and with a bit of their slot programmed, in every order; then such with a
/// payload of each length.
fn of_records(len: usize, align: usize) -> Vec<Vec<u8>> {
    let fit = |records: &[Vec<u8>]| {
        let mut region = records.concat();
        region.resize(len, 0xFF);
        region
    };
    let mut regions = Vec::new();
    for order in 0..27 {
        let kinds = [order % 3, order / 3 % 3, order / 9];
        regions.push(fit(&kinds.map(|kind| slotted(SHORTEST, align, kind))));
    }
    let payload = [7; LONGEST];
    for (payload_len, slot) in (0..LONGEST).flat_map(|payload_len| [(payload_len, 0), (payload_len, 1)]) {
        let free = &payload[..payload_len];
        let kinds = [
            RecordRef::EffectCompleted { seq: 1, result: free },
            RecordRef::EffectFailed { seq: 1, error: free },
            RecordRef::RunCompleted { result: free },
        ];
        let record = slotted(kinds[payload_len % 3], align, slot);
        let behind = slotted(SHORTEST, align, (slot + payload_len) % 3);
        regions.push(fit(&[record.clone(), behind.clone(), behind.clone()]));
        regions.push(fit(&[behind, record]));
    }
    regions
}

fn sealed(record: RecordRef, align: usize) -> Vec<u8> {
    let mut bytes = vec![0; 2 * LONGEST];
    let len = encode(record, align, &mut bytes).unwrap();
    bytes.truncate(len);
    bytes
}

/// A record whose slot is sealed (0), erased (1) or torn (2).
fn slotted(record: RecordRef, align: usize, slot: usize) -> Vec<u8> {
    let mut bytes = sealed(record, align);
    let at = bytes.len() - align;
    match slot {
        0 => {}
        1 => bytes[at..].fill(0xFF),
        _ => bytes[at..].fill(0xFE),
    }
    bytes
}

/// Numbers that look random, by xorshift.
struct Numbers(u64);

impl Numbers {
    fn next(&mut self) -> u64 {
        self.0 ^= self.0 << 13;
        self.0 ^= self.0 >> 7;
        self.0 ^= self.0 << 17;
        self.0
    }

    fn bytes(&mut self, len: usize) -> Vec<u8> {
        (0..len).map(|_| (self.next() >> 40) as u8).collect()
    }

    /// Such bytes with headers that their checks agree with, for payloads of up to eight bytes, in every 17.
    fn headers(&mut self, len: usize) -> Vec<u8> {
        let mut bytes = self.bytes(len);
        for header in bytes.chunks_exact_mut(17) {
            header[..3].copy_from_slice(&[0x57, 0x4D, 1]);
            header[3] %= 11;
            header[8] %= 9;
            header[9] = 0;
            let check = header_check(&header[..10]);
            header[10..HEADER].copy_from_slice(&check.to_le_bytes());
        }
        bytes
    }
}
