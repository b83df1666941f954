// A firing over the C library, from Rust: the declarations of include/deck.h, and a log that lends its memory to each call.
use std::fmt::Debug;

#[repr(C)]
#[derive(Default)]
struct Sheet {
    capacity: usize,
    count: usize,
}

#[repr(C)]
#[derive(Clone, Copy, Debug, Default)]
struct Probe {
    margin: i32,
    number: u32,
}

#[repr(C)]
#[derive(Default)]
struct Clearance {
    count: usize,
    held: u32,
}

#[repr(C)]
#[derive(Default)]
struct Bake {
    start: usize,
    held: u32,
}

#[repr(C)]
#[derive(Debug, Default)]
struct Record {
    start: usize,
    last: usize,
    coldest: usize,
}

// A log's memory: DeckMemory where K is i32, and DeckProbeMemory where it is Probe.
#[repr(C)]
struct Memory<K> {
    readings: *mut K,
    readings_len: usize,
    shapes: *mut u16,
    shapes_len: usize,
    entries: *mut u16,
    entries_len: usize,
}

// A slice is a pointer and a length.
#[rustfmt::skip]
unsafe extern "C" {
    fn deck_masks_fill(cells: *mut u8, cells_len: usize) -> u32;
    fn deck_masks_open(cells: *const u8, cells_len: usize, number: &mut u16, end: &mut u8) -> u32;
    fn deck_cold_open(sheet: &mut Sheet, capacity: usize, memory: Memory<i32>) -> u32;
    fn deck_cold_append(sheet: &mut Sheet, memory: Memory<i32>, tenths: i32) -> u32;
    fn deck_cold_cut(sheet: &mut Sheet, memory: Memory<i32>, n: usize) -> u32;
    fn deck_cold_coldest(sheet: &Sheet, memory: Memory<i32>, from: usize, to: usize, place: &mut usize, tenths: &mut i32) -> u32;
    fn deck_cold_strip(sheet: &Sheet, memory: Memory<i32>, output: *mut u8, output_len: usize, length: &mut usize) -> u32;
    fn deck_cold_clear(sheet: &Sheet, memory: Memory<i32>, window: usize, set: i32, clearance: &mut Clearance) -> u32;
    fn deck_cold_unload(sheet: &Sheet, memory: Memory<i32>, bake: &mut Bake, record: &mut Record) -> u32;
    fn deck_probe_open(sheet: &mut Sheet, capacity: usize, memory: Memory<Probe>) -> u32;
    fn deck_probe_append(sheet: &mut Sheet, memory: Memory<Probe>, margin: i32, number: u32) -> u32;
    fn deck_probe_coldest(sheet: &Sheet, memory: Memory<Probe>, from: usize, to: usize, place: &mut usize, reading: &mut Probe) -> u32;
    fn deck_load(sheet: &Sheet, clearance: &mut Clearance, bake: &mut Bake) -> u32;
    fn deck_abandon(bake: &mut Bake, start: &mut usize) -> u32;
    fn deck_strip_open(bytes: *const u8, bytes_len: usize, count: &mut usize) -> u32;
    fn deck_strip_coldest(bytes: *const u8, bytes_len: usize, from: usize, to: usize, place: &mut usize) -> u32;
    fn deck_replay(bytes: *const u8, bytes_len: usize, capacity: usize, memory: Memory<i32>, sheet: &mut Sheet) -> u32;
}

// A log and the memory that belongs to it.
struct Log<K> {
    sheet: Sheet,
    readings: Vec<K>,
    shapes: Vec<u16>,
    entries: Vec<u16>,
}

impl<K: Clone + Default> Log<K> {
    fn with_room(capacity: usize) -> Self {
        let blocks = capacity.div_ceil(8);
        Log {
            sheet: Sheet::default(),
            readings: vec![K::default(); capacity],
            shapes: vec![0; blocks],
            entries: vec![0; 13 * blocks],
        }
    }

    fn memory(&mut self) -> Memory<K> {
        Memory {
            readings: self.readings.as_mut_ptr(),
            readings_len: self.readings.len(),
            shapes: self.shapes.as_mut_ptr(),
            shapes_len: self.shapes.len(),
            entries: self.entries.as_mut_ptr(),
            entries_len: self.entries.len(),
        }
    }
}

// Calls a function on a log: the sheet, its memory, and what else it takes.
macro_rules! on {
    ($log:expr, $call:ident, [$($before:expr),*], [$($after:expr),*]) => {{
        let log = &mut $log;
        let memory = log.memory();
        // SAFETY: the slices are whole and apart, and no other thread has them.
        unsafe { $call(&mut log.sheet, $($before,)* memory, $($after),*) }
    }};
}

// Prints what a call returned, and what it answered if it was done.
fn show(what: &str, returned: u32, answer: impl Debug) {
    if returned == 0 {
        println!("{what}: {answer:?}");
    } else {
        println!("{what}: refused {returned}");
    }
}

fn hexadecimal(bytes: &[u8]) -> String {
    bytes.iter().map(|b| format!("{b:02x}")).collect()
}

fn main() {
    // SAFETY of all calls below: each pointer is that of a slice with the length beside it.
    let mut masks = vec![0u8; 11_440];
    let (mut number, mut end) = (0, 0);
    show("fill masks", unsafe { deck_masks_fill(masks.as_mut_ptr(), masks.len()) }, ());
    show("open masks", unsafe { deck_masks_open(masks.as_ptr(), masks.len(), &mut number, &mut end) }, ());
    println!("row 1270: {}", hexadecimal(&masks[8 * 1270..8 * 1271]));

    let mut cold = Log::<i32>::with_room(64);
    show("open 32769", on!(cold, deck_cold_open, [32_769], []), ());
    show("open", on!(cold, deck_cold_open, [64], []), ());
    for tenths in [5, 3, 4, 1, 9, 2, 6, 8] {
        let returned = on!(cold, deck_cold_append, [], [tenths]);
        show("append", returned, cold.sheet.count);
    }
    println!("shape number {}", cold.shapes[0]);

    let (mut place, mut tenths) = (0, 0);
    let returned = on!(cold, deck_cold_coldest, [], [1, 5, &mut place, &mut tenths]);
    show("coldest 1 5", returned, (place, tenths));
    let returned = on!(cold, deck_cold_coldest, [], [4, 7, &mut place, &mut tenths]);
    show("coldest 4 7", returned, (place, tenths));
    let returned = on!(cold, deck_cold_coldest, [], [4, 8, &mut place, &mut tenths]);
    show("coldest 4 8", returned, (place, tenths));

    let (mut output, mut length) = (vec![0u8; 18], 0);
    let returned = on!(cold, deck_cold_strip, [], [output.as_mut_ptr(), output.len(), &mut length]);
    let strip = &output[..length];
    show("strip", returned, hexadecimal(strip));
    let mut count = 0;
    let returned = unsafe { deck_strip_open(strip.as_ptr(), strip.len(), &mut count) };
    show("open strip", returned, count);
    let returned = unsafe { deck_strip_coldest(strip.as_ptr(), strip.len(), 1, 5, &mut place) };
    show("strip coldest 1 5", returned, place);
    let returned = unsafe { deck_strip_open([0x00, 0x01, 0xa0].as_ptr(), 3, &mut count) };
    show("open strip 0001a0", returned, count);

    let mut played = Log::<i32>::with_room(8);
    let memory = played.memory();
    // SAFETY: as above.
    let returned = unsafe { deck_replay(strip.as_ptr(), strip.len(), 8, memory, &mut played.sheet) };
    show("replay", returned, &played.readings[..played.sheet.count]);

    let returned = on!(cold, deck_cold_cut, [], [2]);
    show("cut 2", returned, (cold.sheet.count, cold.shapes[0]));

    let (mut clearance, mut bake, mut record) = (Clearance::default(), Bake::default(), Record::default());
    show("clear 2 at 4", on!(cold, deck_cold_clear, [], [2, 4, &mut clearance]), ());
    show("clear 2 at 3", on!(cold, deck_cold_clear, [], [2, 3, &mut clearance]), ());
    let returned = unsafe { deck_load(&cold.sheet, &mut clearance, &mut bake) };
    show("load", returned, bake.start);
    let returned = unsafe { deck_load(&cold.sheet, &mut clearance, &mut bake) };
    show("load again", returned, bake.start);
    for tenths in [7, 6, 6] {
        let returned = on!(cold, deck_cold_append, [], [tenths]);
        show("append", returned, cold.sheet.count);
    }
    let returned = on!(cold, deck_cold_unload, [], [&mut bake, &mut record]);
    show("unload", returned, &record);
    let returned = on!(cold, deck_cold_unload, [], [&mut bake, &mut record]);
    show("unload again", returned, &record);
    show("clear 1 at 6", on!(cold, deck_cold_clear, [], [1, 6, &mut clearance]), ());
    let returned = unsafe { deck_load(&cold.sheet, &mut clearance, &mut bake) };
    show("load", returned, bake.start);
    let mut start = 0;
    let returned = unsafe { deck_abandon(&mut bake, &mut start) };
    show("abandon", returned, start);
    let returned = unsafe { deck_abandon(&mut bake, &mut start) };
    show("abandon again", returned, start);

    let mut probes = Log::<Probe>::with_room(8);
    show("open probes", on!(probes, deck_probe_open, [8], []), ());
    show("append -15/3", on!(probes, deck_probe_append, [], [-15, 3]), ());
    show("append -15/1", on!(probes, deck_probe_append, [], [-15, 1]), ());
    let mut reading = Probe::default();
    let returned = on!(probes, deck_probe_coldest, [], [0, 1, &mut place, &mut reading]);
    show("weakest 0 1", returned, (place, reading.margin, reading.number));
}
