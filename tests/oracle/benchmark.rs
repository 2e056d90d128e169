//! The crate and ours side by side, on the same bytes, in one run. Each reads words of four big-endian bytes and
//! writes such words to a buffer that is there already; reads a data packet, the crate from bytes that it need not copy, and
//! writes one; reads key material; and is asked whether a list has a number. Two lists are merged beside expanding, sorting and compressing them. The figures are the least time of many turns, taken by turns, in nanoseconds for a
//! number or a packet; a memcpy of as many bytes is the limit.

use std::mem::ManuallyDrop;
use std::sync::atomic::{compiler_fence, Ordering::SeqCst};
use std::time::Instant;

use bytes::Bytes;
use srt_protocol::loss::loss_compression::{compress_loss_list, decompress_loss_list};
use srt_protocol::packet::{DataPacket, KeyingMaterialMessage, SeqNumber};

extern "C" {
    fn xez_compress(input: *const u8, in_len: usize, out: *mut u8, out_len: usize) -> u64;
    fn xez_expand(input: *const u8, in_len: usize, out: *mut u8, out_len: usize) -> u64;
    fn xez_why_lost(list: *const u8, list_len: usize, number: u32) -> u64;
    fn xez_merge(oldest: u32, first: *const u8, first_len: usize, second: *const u8, second_len: usize, out: *mut u8, out_len: usize) -> u64;
    fn qsort(base: *mut u32, count: usize, size: usize, compare: extern "C" fn(*const u32, *const u32) -> i32);
    fn xez_read_data(packet: *const u8, packet_len: usize, fields: *mut u32, fields_len: usize) -> u64;
    fn xez_write_data(
        fields: *const u32,
        fields_len: usize,
        payload: *const u8,
        payload_len: usize,
        packet: *mut u8,
        packet_len: usize,
    ) -> u64;
    fn xez_read_key(message: *const u8, message_len: usize, fields: *mut u32, fields_len: usize) -> u64;
}

/// Hides a pointer or a number from the compiler: it is stored, and read again by a read that must be done, so that nothing can be
/// foreseen of it; and what it points to must have been written, since someone might look there. On either side that is a
/// store and a load. The standard library's own needs Rust 1.66, and Debian 12 has 1.63.
fn black_box<T>(value: T) -> T {
    let kept = ManuallyDrop::new(value);
    let read = unsafe { std::ptr::read_volatile(&*kept) };
    compiler_fence(SeqCst);
    read
}

fn words(bytes: &[u8]) -> impl Iterator<Item = u32> + '_ {
    bytes.chunks_exact(4).map(|b| u32::from_be_bytes(b.try_into().unwrap()))
}

fn write(numbers: impl Iterator<Item = u32>, out: &mut [u8]) -> usize {
    let mut count = 0;
    for (word, place) in numbers.zip(out.chunks_exact_mut(4)) {
        place.copy_from_slice(&word.to_be_bytes());
        count += 1;
    }
    count
}

fn crate_compress(input: &[u8], out: &mut [u8]) -> usize {
    write(compress_loss_list(words(input).map(SeqNumber::new_truncate)), out)
}

fn crate_expand(input: &[u8], out: &mut [u8]) -> usize {
    write(decompress_loss_list(words(input)).map(|n| n.as_raw()), out)
}

fn our_compress(input: &[u8], out: &mut [u8]) -> usize {
    unsafe { xez_compress(input.as_ptr(), input.len(), out.as_mut_ptr(), out.len()) as usize }
}

fn our_expand(input: &[u8], out: &mut [u8]) -> usize {
    unsafe { xez_expand(input.as_ptr(), input.len(), out.as_mut_ptr(), out.len()) as usize }
}

fn copy(input: &[u8], out: &mut [u8]) -> usize {
    out[..input.len()].copy_from_slice(input);
    input.len() / 4
}

/// The least time of one call, for each of the works, taken by turns so that a slow moment strikes all alike.
fn least<const N: usize>(mut works: [&mut dyn FnMut(); N], turns: usize, calls: usize) -> [f64; N] {
    let mut least = [f64::MAX; N];
    for _ in 0..turns {
        for (i, work) in works.iter_mut().enumerate() {
            let began = Instant::now();
            for _ in 0..calls {
                work();
            }
            least[i] = least[i].min(began.elapsed().as_nanos() as f64 / calls as f64);
        }
    }
    least
}

/// What was measured so far.
#[derive(Default)]
struct Table {
    ratios: Vec<f64>,
    slower: Vec<String>,
}

impl Table {
    /// A line of the table: a shape, the times of the crate, ours and a memcpy, and how many numbers they are for.
    fn line(&mut self, shape: String, [theirs, ours, copy]: [f64; 3], per: f64) {
        println!("| {shape} | {:.2} | {:.2} | {:.2} | {:.2} | {:.1} |", theirs / per, ours / per, theirs / ours, copy / per, ours / copy);
        self.ratios.push(theirs / ours);
        if ours > theirs {
            self.slower.push(shape);
        }
    }
}

type List = fn(&[u8], &mut [u8]) -> usize;

/// As many numbers as the limit allows, and an eighth of them: the time of one is the same where time is linear.
const COUNTS: [usize; 2] = [8192, 65536];

fn lists(table: &mut Table, turns: usize, all: usize) {
    println!("| {all} numbers | crate, ns a number | ours | crate / ours | memcpy | ours / memcpy |");
    println!("|---|---|---|---|---|---|");
    for expand in [false, true] {
        for (name, run) in [("lone numbers", 1), ("runs of 2", 2), ("runs of 8", 8), ("one run", all)] {
            let plain = if expand { low_numbers(all, run) } else { numbers(all, run) };
            let mut coded = vec![0u8; 4 * all];
            let count = crate_compress(&plain, &mut coded);
            coded.truncate(4 * count);
            let input = if expand { &coded } else { &plain };
            let (theirs, ours): (List, List) =
                if expand { (crate_expand, our_expand) } else { (crate_compress, our_compress) };

            // the two must have done the same before their times are compared
            let (mut a, mut b, mut c) = (vec![0u8; 4 * all], vec![0u8; 4 * all], vec![0u8; 4 * all]);
            assert_eq!(theirs(input, &mut a), ours(input, &mut b), "another count");
            if run == 2 && !expand {
                // two neighbours are a range to the crate, and themselves to us
                assert!(b == plain, "other words");
            } else {
                assert!(a == b, "other words");
            }

            let times = least(
                [
                    &mut || drop(black_box(theirs(black_box(input), black_box(&mut a)))),
                    &mut || drop(black_box(ours(black_box(input), black_box(&mut b)))),
                    &mut || drop(black_box(copy(black_box(&plain), black_box(&mut c)))),
                ],
                turns,
                20 * COUNTS[0] / all,
            );
            table.line(format!("{}, {name}", if expand { "expand" } else { "compress" }), times, all as f64);
        }
    }
}

/// What is asked of a list costs its words, and the crate, which has no such function, every number of its expansion: that is asked about a number which it lacks.
fn asked(turns: usize, all: usize) {
    println!("| asked about a number that {all} numbers lack | words | crate, ns | ours | ours, ns a word | crate / ours |");
    println!("|---|---|---|---|---|---|");
    for (name, run) in [("lone numbers", 1), ("runs of 8", 8), ("one run", all)] {
        let plain = low_numbers(all, run);
        let mut list = vec![0u8; 4 * all];
        let count = crate_compress(&plain, &mut list);
        list.truncate(4 * count);
        let theirs = |list: &[u8], number: u32| decompress_loss_list(words(list)).any(|n| n.as_raw() == number);
        let ours = |list: &[u8], number: u32| unsafe { xez_why_lost(list.as_ptr(), list.len(), number) };
        assert!(!theirs(&list, 0) && ours(&list, 0) == 0xFFFF_FFFF, "the number is there");
        let [crate_time, our_time] = least(
            [
                &mut || drop(black_box(theirs(black_box(&list), black_box(0)))),
                &mut || drop(black_box(ours(black_box(&list), black_box(0)))),
            ],
            turns,
            20 * COUNTS[0] / all,
        );
        println!("| {name} | {count} | {crate_time:.0} | {our_time:.0} | {:.2} | {:.1} |", our_time / count as f64, crate_time / our_time);
    }
}

fn our_merge(first: &[u8], second: &[u8], out: &mut [u8]) -> usize {
    unsafe { xez_merge(0, first.as_ptr(), first.len(), second.as_ptr(), second.len(), out.as_mut_ptr(), out.len()) as usize }
}

extern "C" fn by_number(a: *const u32, b: *const u32) -> i32 {
    let (a, b) = unsafe { (*a, *b) };
    (a > b) as i32 - (a < b) as i32
}

/// What a C program does without merging: both lists expanded, their numbers sorted from 0 on and compressed.
fn sorted(first: &[u8], second: &[u8], out: &mut [u8]) -> usize {
    let mut expanded = [vec![0u8; 4 * COUNTS[1]], vec![0u8; 4 * COUNTS[1]]];
    let mut numbers = vec![];
    for (list, room) in [first, second].iter().zip(&mut expanded) {
        let count = our_expand(list, room);
        numbers.extend(words(&room[..4 * count]));
    }
    unsafe { qsort(numbers.as_mut_ptr(), numbers.len(), 4, by_number) };
    numbers.dedup();
    let plain: Vec<u8> = numbers.iter().flat_map(|n| n.to_be_bytes()).collect();
    our_compress(&plain, out)
}

/// Words in an order of no rule, the same in every run.
fn shuffled(list: Vec<u8>) -> Vec<u8> {
    let mut words: Vec<u32> = words(&list).collect();
    let mut state = 1u64;
    for i in (1..words.len()).rev() {
        state = state.wrapping_mul(6364136223846793005).wrapping_add(1442695040888963407);
        words.swap(i, (state >> 33) as usize % (i + 1));
    }
    words.iter().flat_map(|w| w.to_be_bytes()).collect()
}

/// Two lists of half the numbers each. In disorder the time is that of all the words for each run of the result, so that many runs are asked only where the worst is wanted.
fn merged(turns: usize, all: usize, worst: bool) {
    println!("| two lists merged to {all} numbers | words given | expanded and sorted, ns a number | ours | sorted / ours |");
    println!("|---|---|---|---|---|");
    let every = |from: u32, step: u32| -> Vec<u8> { (0..all as u32 / 2).flat_map(|i| (from + step * i).to_be_bytes()).collect() };
    let mut shapes = vec![
        ("both in order, no two neighbours", every(0, 4), every(2, 4), turns),
        ("both in order, one run", every(0, 2), every(1, 2), turns),
        ("both in disorder, one run", shuffled(every(0, 2)), shuffled(every(1, 2)), turns / 20 + 1),
    ];
    if worst {
        shapes.push(("both in disorder, no two neighbours", shuffled(every(0, 4)), shuffled(every(2, 4)), 1));
        let one: Vec<u8> = [every(0, 4), every(2, 4)].concat();
        shapes.push(("one of them all in disorder, no two neighbours", shuffled(one), vec![], 1));
    }
    for (name, first, second, turns) in shapes {
        let (mut a, mut b) = (vec![0u8; 4 * all], vec![0u8; 4 * all]);
        if turns > 1 {
            assert_eq!(sorted(&first, &second, &mut a), our_merge(&first, &second, &mut b), "another count");
            assert!(a == b, "other words");
        }
        let [theirs, ours] = least(
            [
                &mut || drop(black_box(sorted(black_box(&first), black_box(&second), black_box(&mut a)))),
                &mut || drop(black_box(our_merge(black_box(&first), black_box(&second), black_box(&mut b)))),
            ],
            turns,
            1,
        );
        assert!(a == b, "other words");
        let given = (first.len() + second.len()) / 4;
        println!("| {name} | {given} | {:.2} | {:.2} | {:.4} |", theirs / all as f64, ours / all as f64, theirs / ours);
    }
}

const PAYLOAD: usize = 1316;
const DATA_FIELDS: usize = 11;
const KEY_FIELDS: usize = 6;

fn packets(table: &mut Table, turns: usize) {
    println!("| one packet | crate, ns | ours | crate / ours | memcpy | ours / memcpy |");
    println!("|---|---|---|---|---|---|");
    let mut packet = vec![0x12, 0x34, 0x56, 0x78, 0xE8, 0, 0, 9, 0, 1, 2, 3, 0x20, 0x66, 0xAA, 0xBB];
    packet.extend((0..PAYLOAD).map(|i| i as u8));
    let shared = Bytes::from(packet.clone());
    let record = DataPacket::parse(&mut shared.clone()).unwrap();
    let mut fields = [0u32; DATA_FIELDS];
    let read = |packet: &[u8], fields: &mut [u32]| unsafe { xez_read_data(packet.as_ptr(), packet.len(), fields.as_mut_ptr(), fields.len()) };
    assert_eq!(read(&packet, &mut fields), PAYLOAD as u64, "the packet is refused");
    assert_eq!((fields[0], fields[7]), (record.seq_number.as_raw(), record.message_number.as_raw()), "other fields");
    let mut copied = packet.clone();
    let mut again = fields;
    let times = least(
        [
            &mut || drop(black_box(&DataPacket::parse(&mut black_box(&shared).clone()).unwrap())),
            &mut || drop(black_box(read(black_box(&packet), black_box(&mut again)))),
            &mut || drop(black_box(copy(black_box(&packet), black_box(&mut copied)))),
        ],
        turns,
        1000,
    );
    table.line(format!("read a data packet with {PAYLOAD} bytes of payload"), times, 1.0);

    let (mut theirs, mut ours) = (vec![0u8; packet.len()], vec![0u8; packet.len()]);
    // as the crate's record has its payload with it
    let our_record = (fields, &packet[16..]);
    let write = |(fields, payload): &([u32; DATA_FIELDS], &[u8]), out: &mut [u8]| unsafe {
        xez_write_data(fields.as_ptr(), fields.len(), payload.as_ptr(), payload.len(), out.as_mut_ptr(), out.len())
    };
    assert_eq!(write(&our_record, &mut ours), packet.len() as u64, "the record is refused");
    record.serialize(&mut &mut theirs[..]);
    assert!(ours == packet && theirs == packet, "other bytes");
    let times = least(
        [
            &mut || black_box(&record).serialize(&mut black_box(&mut theirs[..])),
            &mut || drop(write(black_box(&our_record), black_box(&mut ours[..]))),
            &mut || drop(black_box(copy(black_box(&packet), black_box(&mut copied)))),
        ],
        turns,
        1000,
    );
    table.line(format!("write a data packet with {PAYLOAD} bytes of payload"), times, 1.0);

    let mut message = vec![0x12, 0x20, 0x29, 1, 0, 0, 0, 0, 2, 0, 2, 0, 0, 0, 4, 4];
    message.extend(0..40u8);
    let mut fields = [0u32; KEY_FIELDS];
    let read = |message: &[u8], fields: &mut [u32]| unsafe { xez_read_key(message.as_ptr(), message.len(), fields.as_mut_ptr(), fields.len()) };
    let key = KeyingMaterialMessage::parse(&mut &message[..]).unwrap();
    assert_eq!(read(&message, &mut fields), message.len() as u64, "the message is refused");
    assert_eq!((fields[4] as usize, fields[5] as usize), (key.salt.len(), key.wrapped_keys.len()), "other lengths");
    let times = least(
        [
            &mut || drop(black_box(&KeyingMaterialMessage::parse(&mut black_box(&message[..])).unwrap())),
            &mut || drop(black_box(read(black_box(&message), black_box(&mut fields)))),
            &mut || drop(black_box(copy(black_box(&message), black_box(&mut copied)))),
        ],
        turns,
        1000,
    );
    table.line("read key material of 56 bytes".into(), times, 1.0);
}

/// So many numbers in runs of a length, across the wrap.
fn numbers(all: usize, run: usize) -> Vec<u8> {
    let mut number = (1u32 << 31) - all as u32 / 2;
    let mut bytes = vec![];
    for i in 0..all {
        number = (number + if i % run == 0 { 2 } else { 1 }) % (1 << 31);
        bytes.extend(number.to_be_bytes());
    }
    bytes
}

/// The same below the wrap, where the crate's expander can follow.
fn low_numbers(all: usize, run: usize) -> Vec<u8> {
    words(&numbers(all, run)).flat_map(|n| (n.wrapping_add(1 << 30) % (1 << 31)).to_be_bytes()).collect()
}

fn main() {
    let turns = std::env::args().nth(1).and_then(|s| s.parse().ok()).unwrap_or(200);
    let mut table = Table::default();
    for all in COUNTS {
        lists(&mut table, turns, all);
        println!();
    }
    asked(turns, COUNTS[1]);
    println!();
    merged(turns, COUNTS[1], std::env::args().nth(2).as_deref() == Some("worst"));
    println!();
    packets(&mut table, turns);
    let mean = table.ratios.iter().product::<f64>().powf(1.0 / table.ratios.len() as f64);
    println!("\nGeometric mean of crate / ours: {mean:.2}");
    println!("Slower than the crate: {}", if table.slower.is_empty() { "no shape".into() } else { table.slower.join("; ") });

    let range: Vec<u8> = [1u32 << 31, (1 << 30) - 1].iter().flat_map(|w| w.to_be_bytes()).collect();
    let mut out = vec![0u8; 4 * COUNTS[1]];
    let [o] = least([&mut || drop(black_box(our_expand(black_box(&range), black_box(&mut out))))], turns, 1000);
    let began = Instant::now();
    let walked = decompress_loss_list(words(black_box(&range))).map(|n| n.as_raw() as usize).fold(0, |n, x| n ^ black_box(x) ^ 1);
    black_box(walked);
    println!(
        "Expanding a range of 2^30 numbers: ours refuses it in {o:.0} ns; the crate walks it, {:.2} s",
        began.elapsed().as_secs_f64()
    );
}
