// Reads a block, steps over its records, and posts its statistics reports to the ledger of a page; then posts a feed,
// which comes in two pieces, to a fresh one; then turns an old page into a new one.
//
//     ./libdoors
//     rustc --edition 2021 -O -L target/staticlib -o post examples/post.rs

/// The box, as include/wear.h has it: an answer is the refusal number, and 0 becomes Ok.
mod wear {
    #[link(name = "doors", kind = "static")]
    extern "C" {
        fn wear_version() -> u32;
        fn wear_read(octets: *const u8, n: usize, cells: *mut u64, k: usize) -> u32;
        fn wear_step(octets: *const u8, n: usize, start: u64, cells: *mut u64, k: usize) -> u32;
        fn wear_entry(octets: *const u8, n: usize, start: u64, number: u64, cells: *mut u64, k: usize)
            -> u32;
        fn wear_page_to_new(
            page: *const u8,
            n: usize,
            out: *mut u8,
            m: usize,
            length: *mut u64,
            one: usize,
        ) -> u32;
        fn wear_post(
            page: *const u8,
            n: usize,
            octets: *const u8,
            m: usize,
            number: u64,
            out: *mut u8,
            p: usize,
            length: *mut u64,
            one: usize,
        ) -> u32;
        fn wear_feed(
            page: *const u8,
            n: usize,
            octets: *const u8,
            m: usize,
            more: u32,
            out: *mut u8,
            p: usize,
            cells: *mut u64,
            k: usize,
        ) -> u32;
    }

    pub const VERSION: u32 = 3;

    pub const ACCEPTED: u32 = 0;

    pub const CATEGORY: usize = 0;
    pub const SAC: usize = 2;
    pub const SIC: usize = 3;
    pub const TYPE: usize = 4;
    pub const ENTRIES: usize = 32;
    pub const CELLS: usize = 37;

    pub const FEED_PAGE: usize = 0;
    pub const FEED_USED: usize = 1;
    pub const FEED_LEFT_OFF: usize = 2;
    pub const FEED_ACCEPTED: usize = 3;
    pub const FEED_REFUSED: usize = 4;
    pub const FEED_POSTED: usize = 5;
    pub const FEED_UNPOSTED: usize = 6;
    pub const FEED_CELLS: usize = 7;

    pub const ENDED: u64 = 0;
    pub const STOPPED: u64 = 1;
    pub const MORE: u64 = 2;

    pub const PAGE_MOST: usize = 10 + 20 * 256;
    pub const FRESH_OCTETS: usize = 10;
    pub const FRESH_PAGE: [u8; FRESH_OCTETS] = [0, 0, 0, 10, 0, 10, 0, 10, 0, 10];

    fn given<T>(refusal: u32, value: T) -> Result<T, u32> {
        if refusal == ACCEPTED {
            Ok(value)
        } else {
            Err(refusal)
        }
    }

    pub fn version() -> u32 {
        // SAFETY: nothing is lent.
        unsafe { wear_version() }
    }

    /// LEN and the count of records.
    pub fn read(block: &[u8]) -> Result<(u64, u64), u32> {
        let mut cells = [0; 3];
        // SAFETY, here and below: each pointer comes with the length of what it points to, and what is written is lent
        // for writing and overlaps nothing; the functions keep no pointer.
        let refusal = unsafe { wear_read(block.as_ptr(), block.len(), cells.as_mut_ptr(), cells.len()) };
        given(refusal, (cells[1], cells[2]))
    }

    /// The cells of the record that starts at an offset, and the next start.
    pub fn step(block: &[u8], start: u64) -> Result<([u64; CELLS], u64), u32> {
        let mut cells = [0; 2 + CELLS];
        let refusal =
            unsafe { wear_step(block.as_ptr(), block.len(), start, cells.as_mut_ptr(), cells.len()) };
        given(refusal, (std::array::from_fn(|i| cells[2 + i]), cells[1]))
    }

    /// TYPE, REF and count of an entry.
    pub fn entry(block: &[u8], start: u64, number: u64) -> Result<(u64, u64, u64), u32> {
        let mut cells = [0; 4];
        let refusal = unsafe {
            wear_entry(block.as_ptr(), block.len(), start, number, cells.as_mut_ptr(), cells.len())
        };
        given(refusal, (cells[1], cells[2], cells[3]))
    }

    /// An old page as a new one, with all times unknown.
    pub fn page_to_new(old: &[u8]) -> Result<Vec<u8>, u32> {
        let mut out = vec![0; PAGE_MOST];
        let mut length = 0;
        let refusal = unsafe {
            wear_page_to_new(old.as_ptr(), old.len(), out.as_mut_ptr(), out.len(), &mut length, 1)
        };
        out.truncate(length as usize);
        given(refusal, out)
    }

    /// The page after a record is posted to the ledger of a page.
    pub fn post(page: &[u8], block: &[u8], number: u64) -> Result<Vec<u8>, u32> {
        let mut out = vec![0; PAGE_MOST];
        let mut length = 0;
        let refusal = unsafe {
            wear_post(
                page.as_ptr(),
                page.len(),
                block.as_ptr(),
                block.len(),
                number,
                out.as_mut_ptr(),
                out.len(),
                &mut length,
                1,
            )
        };
        out.truncate(length as usize);
        given(refusal, out)
    }

    /// The page after the blocks at hand are posted to the ledger of a page, and the cells.
    pub fn feed(page: &[u8], octets: &[u8], more: u32) -> Result<(Vec<u8>, [u64; FEED_CELLS]), u32> {
        let mut out = vec![0; PAGE_MOST];
        let mut cells = [0; FEED_CELLS];
        let refusal = unsafe {
            wear_feed(
                page.as_ptr(),
                page.len(),
                octets.as_ptr(),
                octets.len(),
                more,
                out.as_mut_ptr(),
                out.len(),
                cells.as_mut_ptr(),
                cells.len(),
            )
        };
        out.truncate(cells[FEED_PAGE] as usize);
        given(refusal, (out, cells))
    }
}

/// One report of station 1/2, service 0x12: 100 messages transmitted since midnight.
const BLOCK: [u8; 19] = [
    0x17, 0x00, 0x13, 0xF1, 0x40, 0x01, 0x02, 0x03, 0x12, 0x00, 0x00, 0x80, 0x01, 0x04, 0x00, 0x00, 0x00,
    0x00, 0x64,
];

/// Four such blocks, with counts 100, 150 and 30 since midnight and 5 since the last report; behind the first is one of
/// a category that is refused. The first piece ends within the third block.
const FEED: [u8; 80] = [
    0x17, 0x00, 0x13, 0xF1, 0x40, 0x01, 0x02, 0x03, 0x12, 0x00, 0x00, 0x80, 0x01, 0x04, 0x00, 0x00, 0x00,
    0x00, 0x64, //
    0x30, 0x00, 0x04, 0x00, //
    0x17, 0x00, 0x13, 0xF1, 0x40, 0x01, 0x02, 0x03, 0x12, 0x00, 0x00, 0x80, 0x01, 0x04, 0x00, 0x00, 0x00,
    0x00, 0x96, //
    0x17, 0x00, 0x13, 0xF1, 0x40, 0x01, 0x02, 0x03, 0x12, 0x00, 0x00, 0x80, 0x01, 0x04, 0x00, 0x00, 0x00,
    0x00, 0x1E, //
    0x17, 0x00, 0x13, 0xF1, 0x40, 0x01, 0x02, 0x03, 0x12, 0x00, 0x00, 0x80, 0x01, 0x04, 0x80, 0x00, 0x00,
    0x00, 0x05,
];
const FIRST_PIECE: usize = 30;

/// The page of this feed as the versions before 3 gave it, without times.
const OLD_PAGE: [u8; 24] = [
    0x00, 0x01, 0x00, 0x08, 0x00, 0x0C, 0x00, 0x18, 0x01, 0x02, 0x12, 0x04, //
    0x00, 0x00, 0x00, 0x00, 0x00, 0x00, 0x00, 0xB9, 0x00, 0x00, 0x00, 0x1E,
];

fn number(octets: &[u8]) -> u64 {
    octets.iter().fold(0, |n, &octet| n << 8 | u64::from(octet))
}

fn print_time(time: u64) {
    if time == u64::from(u32::MAX) {
        println!(", time unknown");
    } else {
        println!(", time {time}/128 s");
    }
}

fn print_page(page: &[u8]) {
    println!("page of {} octets", page.len());
    let offset = |i: usize| number(&page[2 * i..2 * i + 2]) as usize;
    let (keys, counts) = (&page[offset(1)..offset(2)], &page[offset(2)..offset(3)]);
    let times = &page[offset(3)..];
    for ((key, row), time) in keys.chunks(4).zip(counts.chunks(12)).zip(times.chunks(4)) {
        print!("  row {:08X}: life {}, reading {}", number(key), number(&row[..8]), number(&row[8..]));
        print_time(number(time));
    }
}

fn post_block() -> Result<(), u32> {
    let mut page = wear::FRESH_PAGE.to_vec();
    let (len, records) = wear::read(&BLOCK)?;
    println!("LEN {len}, records {records}");
    let mut start = 3;
    for i in 0..records {
        let (record, next) = wear::step(&BLOCK, start)?;
        println!(
            "record {i}: SAC {}, SIC {}, type {}",
            record[wear::SAC],
            record[wear::SIC],
            record[wear::TYPE]
        );
        for k in 0..record[wear::ENTRIES] {
            let (typ, reference, count) = wear::entry(&BLOCK, start, k)?;
            println!("  entry {k}: TYPE {typ}, REF {reference}, count {count}");
        }
        if record[wear::CATEGORY] == 23 && record[wear::TYPE] == 3 {
            page = wear::post(&page, &BLOCK, i)?;
        }
        start = next;
    }
    print_page(&page);
    Ok(())
}

fn print_feed(octets: usize, cells: &[u64; wear::FEED_CELLS]) {
    let left_off = match cells[wear::FEED_LEFT_OFF] {
        wear::ENDED => "ended",
        wear::STOPPED => "stopped",
        wear::MORE => "more are needed",
        other => panic!("no way of leaving off has number {other}"),
    };
    println!("{octets} octets at hand, {} used, {left_off}", cells[wear::FEED_USED]);
    println!(
        "  accepted {}, refused {}, posted {}, unposted {}",
        cells[wear::FEED_ACCEPTED],
        cells[wear::FEED_REFUSED],
        cells[wear::FEED_POSTED],
        cells[wear::FEED_UNPOSTED]
    );
}

/// Puts each piece behind the octets that were not used yet, and posts the blocks at hand.
fn post_feed() -> Result<(), u32> {
    let mut page = wear::FRESH_PAGE.to_vec();
    let mut hand = Vec::new();
    let (first, second) = FEED.split_at(FIRST_PIECE);
    for (piece, more) in [(first, 1), (second, 0)] {
        hand.extend_from_slice(piece);
        let (after, cells) = wear::feed(&page, &hand, more)?;
        print_feed(hand.len(), &cells);
        page = after;
        hand.drain(..cells[wear::FEED_USED] as usize);
    }
    print_page(&page);
    Ok(())
}

/// A page that was kept from such a version is turned once, when it is read.
fn turn_old_page() -> Result<(), u32> {
    let page = wear::page_to_new(&OLD_PAGE)?;
    print!("an old page of {} octets is now a ", OLD_PAGE.len());
    print_page(&page);
    Ok(())
}

fn main() {
    if wear::version() != wear::VERSION {
        println!("the library is of version {}, this of {}", wear::version(), wear::VERSION);
        std::process::exit(1);
    }
    if let Err(refusal) = post_block().and_then(|()| post_feed()).and_then(|()| turn_old_page()) {
        println!("refused, {refusal}");
        std::process::exit(1);
    }
}
