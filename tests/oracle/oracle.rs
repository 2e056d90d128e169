//! The Rust crate as oracle: makes questions and answers them by the crate's own files. Its answers are in the
//! language of README.md.
//!
//!     oracle make KIND SEED COUNT QUESTIONS ANSWERS     questions of a kind, with the crate's answers to them
//!     oracle answer                                     the same for questions on standard input
//!     oracle outside                                    what the crate does where it is not asked to be our equal
//!
//! A question outside the domain on which we and the crate must be equal is answered with `outside`; `make` leaves
//! such questions out. Of two neighbours, which the crate codes as a range, the flag is taken off; where it reads on in a key
//! message that has no key, that counts as refusal 23; and where it takes half the ring for Less, that counts as Opposite, and as
//! refusal 16 of a list. Nothing else is touched.

use std::collections::BTreeSet;
use std::fmt::Write as _;
use std::fs::File;
use std::io::{self, BufRead, BufWriter, Write};
use std::panic::{catch_unwind, AssertUnwindSafe};

use srt_protocol::loss::loss_compression::{compress_loss_list, decompress_loss_list};
use srt_protocol::options::SrtVersion;
use srt_protocol::packet::{
    Auth, CipherType, DataEncryption, DataPacket, GroupFlags, GroupType, KeyFlags, KeyingMaterialMessage, MsgNumber, Packet,
    PacketLocation, PacketParseError, PacketType, SeqNumber, SocketId, SrtControlPacket, SrtHandshake, SrtShakeFlags,
    TimeStamp,
};

const LIMIT: usize = 65536;
const FLAG: u32 = 1 << 31;
const NO_KEY: &str = "refused 23 0";
const OPPOSITE: &str = "ok Opposite";

// ---- answers

fn words_of(hex: &str) -> Option<Vec<u32>> {
    if hex == "-" {
        return Some(vec![]);
    }
    if hex.len() % 8 != 0 {
        return None;
    }
    (0..hex.len() / 8).map(|i| u32::from_str_radix(&hex[8 * i..8 * i + 8], 16).ok()).collect()
}

fn accepted(words: &[u32], room: usize) -> String {
    if words.len() > room {
        return format!("refused 21 {}", words.len());
    }
    if words.is_empty() {
        return "ok -".into();
    }
    let mut line = String::with_capacity(3 + 8 * words.len());
    line.push_str("ok ");
    for word in words {
        write!(line, "{word:08x}").unwrap();
    }
    line
}

/// The crate's words, or the place whose number its assertion refuses.
fn crate_words(numbers: &[u32]) -> Result<Vec<u32>, usize> {
    let taken = std::cell::Cell::new(0);
    let given = numbers.iter().map(|n| {
        taken.set(taken.get() + 1);
        SeqNumber::new_truncate(*n)
    });
    catch_unwind(AssertUnwindSafe(|| compress_loss_list(given).collect())).map_err(|_| taken.get() - 1)
}

/// A list without the flags of its ranges of two: the one thing in which the crate's lists and ours differ.
fn pairs_plain(words: &[u32]) -> Vec<u32> {
    let mut plain = words.to_vec();
    for place in 1..words.len() {
        if words[place - 1] >= FLAG && words[place] == words[place - 1].wrapping_add(1) % FLAG {
            plain[place - 1] -= FLAG;
        }
    }
    plain
}

/// The first place whose number is half the ring after the one before it: the crate goes on there, and nothing that it then does is looked at.
fn half_the_ring_on(numbers: &[u32]) -> Option<usize> {
    (1..numbers.len()).find(|place| SeqNumber(numbers[*place]) - SeqNumber(numbers[place - 1]) == SeqNumber::MAX_DIFF)
}

fn compress(numbers: &[u32], room: usize) -> Option<String> {
    if numbers.len() > LIMIT || numbers.iter().any(|n| *n >= FLAG) {
        return None;
    }
    Some(match (crate_words(numbers), half_the_ring_on(numbers)) {
        (Err(place), Some(half)) if half < place => format!("refused 16 {half}"),
        (Err(place), _) => format!("refused 16 {place}"),
        (Ok(_), Some(half)) => format!("refused 16 {half}"),
        (Ok(words), None) => accepted(&pairs_plain(&words), room),
    })
}

/// "Domain for equality with the Rust: unflagged ends larger as plain numbers than their starts, total at most
/// 65,536", and a last word that opens a range, on which the crate panics.
fn expand(words: &[u32], room: usize) -> Option<String> {
    if words.len() > LIMIT {
        return None;
    }
    let (mut place, mut total, mut open) = (0, 0u64, None);
    while place < words.len() {
        if words[place] < FLAG {
            total += 1;
            place += 1;
        } else if place + 1 == words.len() {
            open = Some(place);
            place += 1;
        } else {
            let (start, end) = (words[place] - FLAG, words[place + 1]);
            if end >= FLAG || end <= start {
                return None;
            }
            total += u64::from(end - start) + 1;
            place += 2;
        }
    }
    if total > LIMIT as u64 {
        return None;
    }
    match catch_unwind(|| decompress_loss_list(words.iter().copied()).map(|n| n.as_raw()).collect::<Vec<u32>>()) {
        Ok(numbers) => Some(accepted(&numbers, room)),
        Err(_) => open.map(|place| format!("refused 17 {place}")),
    }
}

/// The items of a list whose ranges all have an end, each with its place.
fn items_of(words: &[u32]) -> impl Iterator<Item = (usize, &[u32])> {
    let mut next = 0;
    std::iter::from_fn(move || {
        let place = next;
        next += if *words.get(place)? < FLAG { 1 } else { 2 };
        Some((place, &words[place..next]))
    })
}

/// The first item whose numbers, by the crate's own expander, have the number.
fn lost(number: u32, words: &[u32]) -> Option<String> {
    if number >= FLAG {
        return None; // 15 is ours alone
    }
    let whole = expand(words, LIMIT)?;
    if whole.starts_with("refused") {
        return Some(whole);
    }
    let has = |item: &[u32]| decompress_loss_list(item.iter().copied()).any(|n| n.as_raw() == number);
    let found = items_of(words).find(|(_, item)| has(item));
    Some(found.map_or_else(|| "ok not".into(), |(place, _)| format!("ok lost {place}")))
}

/// The numbers of two lists, by the crate's own expander, each once and in the crate's own order, or why they are not merged. A number that comes before the oldest in
/// that order stands outside the window, and so does one half the ring after it, which is Less to the crate.
fn united(oldest: u32, first: &[u32], second: &[u32]) -> Option<Result<Vec<u32>, String>> {
    if oldest >= FLAG {
        return None; // 15 is ours alone
    }
    for list in [first, second] {
        let whole = expand(list, LIMIT)?;
        if whole.starts_with("refused") {
            return Some(Err(whole));
        }
    }
    let mut union = BTreeSet::new();
    for (place, item) in items_of(first).chain(items_of(second)) {
        for number in decompress_loss_list(item.iter().copied()) {
            if number < SeqNumber(oldest) {
                return Some(Err(format!("refused 29 {place}")));
            }
            union.insert(number);
        }
    }
    Some(Ok(union.iter().map(SeqNumber::as_raw).collect()))
}

/// What the crate compresses of these numbers. 20, of more than the limit, is ours alone.
fn merge(oldest: u32, room: usize, first: &[u32], second: &[u32]) -> Option<String> {
    match united(oldest, first, second)? {
        Ok(numbers) => compress(&numbers, room),
        Err(refused) => Some(refused),
    }
}

/// Both rings, as the crate's macro makes both types.
macro_rules! ring {
    ($ring:ident, $field:expr, $verb:expr, $a:expr, $b:expr) => {{
        let (a, b): (u32, u32) = ($a, $b);
        let inside = |n: u32| n < $ring::MAX;
        let opposite = a.abs_diff(b) == $ring::MAX_DIFF;
        match $verb {
            "truncate" => Some(format!("ok {}", $ring::new_truncate(a).as_raw())),
            "raw" if inside(a) => Some(format!("ok {}", $ring(a).as_raw())),
            // the crate lets 2^31 (2^26) itself through
            "new" if a == $ring::MAX => None,
            "new" => Some(match $ring::new(a) {
                Ok(n) => format!("ok {}", n.as_raw()),
                Err(_) => format!("refused 22 {}", $field),
            }),
            "add" if inside(a) => Some(format!("ok {}", ($ring(a) + b).as_raw())),
            // the crate's subtraction overflows above
            "sub" if inside(a) && u64::from(b) <= u64::from(a) + u64::from($ring::MAX) => {
                Some(format!("ok {}", ($ring(a) - b).as_raw()))
            }
            "distance" if inside(a) && inside(b) => Some(format!("ok {}", $ring(a) - $ring(b))),
            "compare" if inside(a) && inside(b) => Some(match $ring(a).cmp(&$ring(b)) {
                std::cmp::Ordering::Less if opposite => OPPOSITE.into(),
                order => format!("ok {order:?}"),
            }),
            "lt" if inside(a) && inside(b) => Some(format!("ok {}", u8::from($ring(a) < $ring(b) && !opposite))),
            "increment" if inside(a) => {
                let mut n = $ring(a);
                let before = n.increment();
                Some(format!("ok {} {}", before.as_raw(), n.as_raw()))
            }
            _ => None,
        }
    }};
}

/// The rules' number for the crate's error, with what it carries.
fn refused(error: PacketParseError) -> Option<String> {
    use PacketParseError::*;
    let (number, carried) = match error {
        NotEnoughData => (1, 0),
        BadDataEncryption(bits) => (3, u32::from(bits)),
        BadSrtExtensionMessage => (4, 0),
        BadKeyPacketType(bits) => (5, u32::from(bits)),
        BadKeySign(sign) => (6, u32::from(sign)),
        BadCipherKind(byte) => (7, u32::from(byte)),
        BadAuth(byte) => (8, u32::from(byte)),
        BadStreamEncapsulation(byte) => (9, u32::from(byte)),
        StreamEncapsulationNotSrt => (10, 0),
        BadCryptoLength(length) => (11, length),
        UnsupportedSrtExtensionType(kind) => (12, u32::from(kind)),
        _ => return None,
    };
    Some(format!("refused {number} {carried}"))
}

fn bytes_of(hex: &str) -> Option<Vec<u8>> {
    if hex == "-" {
        return Some(vec![]);
    }
    if hex.len() % 2 != 0 {
        return None;
    }
    (0..hex.len() / 2).map(|i| u8::from_str_radix(&hex[2 * i..2 * i + 2], 16).ok()).collect()
}

fn hex(bytes: &[u8]) -> String {
    if bytes.is_empty() {
        return "-".into();
    }
    let mut text = String::with_capacity(2 * bytes.len());
    for byte in bytes {
        write!(text, "{byte:02x}").unwrap();
    }
    text
}

fn written(bytes: &[u8], room: usize) -> String {
    if bytes.len() > room {
        return format!("refused 21 {}", bytes.len());
    }
    format!("ok {}", hex(bytes))
}

/// What the crate leaves out of the wire size of a packet that came by IPv6: it counts the 20 bytes of IPv4 always.
const NOT_COUNTED: usize = 20;

/// A control packet, and a payload past the limit, are read by the crate and refused by us.
fn read_data(bytes: &[u8], is_ipv6: bool) -> Option<String> {
    if (bytes.len() >= 16 && bytes[0] & 0x80 != 0) || bytes.len() > 16 + 65535 {
        return None;
    }
    match Packet::parse(&mut &bytes[..], is_ipv6) {
        Ok(Packet::Data(d)) => Some(format!(
            "ok {} {} {} {} {} {} {} {} {} {}",
            d.seq_number.as_raw(),
            d.message_loc.bits() >> 6,
            u8::from(d.in_order_delivery),
            d.encryption as u8 >> 3,
            u8::from(d.retransmitted),
            d.message_number.as_raw(),
            d.timestamp.as_micros(),
            d.dest_sockid.0,
            d.wire_size() + if is_ipv6 { NOT_COUNTED } else { 0 },
            hex(&d.payload)
        )),
        Ok(Packet::Control(_)) => None,
        Err(error) => refused(error),
    }
}

/// A message number of more than 26 bits spills over the flags in the crate's writer.
fn write_data(n: &[u32], room: usize, payload: Vec<u8>) -> Option<String> {
    if n[1] > 3 || n[2] > 1 || n[3] > 2 || n[4] > 1 || n[5] >= MsgNumber::MAX || payload.len() > 65535 {
        return None;
    }
    let packet = DataPacket {
        seq_number: SeqNumber(n[0]),
        message_loc: PacketLocation::from_bits_truncate((n[1] as u8) << 6),
        in_order_delivery: n[2] == 1,
        encryption: [DataEncryption::None, DataEncryption::Even, DataEncryption::Odd][n[3] as usize],
        retransmitted: n[4] == 1,
        message_number: MsgNumber(n[5]),
        timestamp: TimeStamp::from_micros(n[6]),
        dest_sockid: SocketId(n[7]),
        payload: payload.into(),
    };
    let mut out = vec![];
    match catch_unwind(AssertUnwindSafe(|| packet.serialize(&mut out))) {
        Ok(()) => Some(written(&out, room)),
        Err(_) => Some("refused 22 1".into()), // its assertion on the sequence number
    }
}

/// Whether the crate went past the sign of a key message that has no key: it looks at the flags there and reads on, to whatever end.
fn reads_on(kind: u16, bytes: &[u8], read: &Result<SrtControlPacket, PacketParseError>) -> bool {
    use PacketParseError::*;
    let stops = matches!(read, Err(BadSrtExtensionMessage | BadKeyPacketType(_) | BadKeySign(_)));
    (kind == 3 || kind == 4) && bytes.len() >= 16 && bytes[3] % 4 == 0 && !stops
}

/// Texts and filters are read by the crate and not yet by us; a version whose top byte is not 0 is cut by the crate.
fn read_extension(kind: u32, bytes: &[u8]) -> Option<String> {
    let kind = u16::try_from(kind).ok()?;
    if (5..=7).contains(&kind) || ((kind == 1 || kind == 2) && bytes.len() >= 12 && bytes[0] != 0) {
        return None;
    }
    let mut rest = bytes;
    let read = catch_unwind(AssertUnwindSafe(|| SrtControlPacket::parse(kind, &mut rest)));
    let used = bytes.len() - rest.len();
    use SrtControlPacket::*;
    Some(match read {
        Err(_) if kind == 8 && bytes.len() < 4 => "refused 1 0".into(), // it panics
        Err(_) => return None,
        Ok(ref read) if reads_on(kind, bytes, read) => NO_KEY.into(),
        Ok(Err(error)) => return refused(error),
        Ok(Ok(Reject)) => format!("ok 0 {used}"),
        Ok(Ok(HandshakeRequest(h) | HandshakeResponse(h))) => format!(
            "ok {kind} {} {} {} {} {used}",
            h.version.to_u32(),
            h.flags.bits(),
            h.send_latency.as_millis(),
            h.recv_latency.as_millis()
        ),
        Ok(Ok(KeyRefreshRequest(k) | KeyRefreshResponse(k))) => format!(
            "ok {kind} {} {} {} {} 16 {} {} {} {used}",
            k.pt as u8,
            k.key_flags.bits(),
            k.keki,
            k.cipher as u8,
            16 + k.salt.len(),
            hex(&k.salt),
            hex(&k.wrapped_keys)
        ),
        Ok(Ok(Group { ty, flags, weight })) => {
            let name = match ty {
                GroupType::Undefined => "undefined".into(),
                GroupType::Broadcast => "broadcast".into(),
                GroupType::MainBackup => "backup".into(),
                GroupType::Balancing => "balancing".into(),
                GroupType::Multicast => "multicast".into(),
                GroupType::Unrecognized(n) => format!("unrecognized {n}"),
            };
            format!("ok 8 {name} {} {weight} {used}", flags.bits())
        }
        Ok(Ok(_)) => return None,
    })
}

/// Why the crate refuses key material, found by trying: the last byte that it looked at is the last of which some other value makes another
/// answer of the refusal.
fn why_key(bytes: &[u8]) -> Option<String> {
    let said = read_extension(3, bytes)?;
    if said.starts_with("ok") {
        return Some("ok".into());
    }
    for at in (0..bytes.len()).rev() {
        let mut other = bytes.to_vec();
        for value in 0..=255 {
            other[at] = value;
            if read_extension(3, &other)? != said {
                return Some(format!("{said} at {at}"));
            }
        }
    }
    Some(format!("{said} nowhere"))
}

fn write_extension(packet: SrtControlPacket, room: usize) -> Option<String> {
    let mut out = vec![];
    packet.serialize(&mut out);
    Some(written(&out, room))
}

/// What the crate's types can hold: a version of 24 bits, flags of 8, latencies of 16.
fn write_handshake(n: &[u32], room: usize) -> Option<String> {
    if n[0] >= 1 << 24 || n[1] > 0xFF || n[2] > 0xFFFF || n[3] > 0xFFFF {
        return None;
    }
    let handshake = SrtHandshake {
        version: SrtVersion::parse(n[0]),
        flags: SrtShakeFlags::from_bits(n[1])?,
        send_latency: std::time::Duration::from_millis(n[2].into()),
        recv_latency: std::time::Duration::from_millis(n[3].into()),
    };
    write_extension(SrtControlPacket::HandshakeRequest(handshake), room)
}

fn write_group(n: &[u32], room: usize) -> Option<String> {
    let (ty, weight) = (u8::try_from(n[0]).ok()?, u16::try_from(n[3]).ok()?);
    let ty = if n[1] == 1 { GroupType::Unrecognized(ty) } else { ty.into() };
    let flags = GroupFlags::from_bits(u8::try_from(n[2]).ok()?)?;
    write_extension(SrtControlPacket::Group { ty, flags, weight }, room)
}

/// Where the parts have lengths that a reader could have given; elsewhere the crate writes what nobody reads.
fn write_key(n: &[u32], room: usize, salt: Vec<u8>, wrapped_keys: Vec<u8>) -> Option<String> {
    let key_flags = KeyFlags::from_bits(u8::try_from(n[1]).ok()?)?;
    let keys = key_flags.bits().count_ones() as usize;
    if keys == 0 || salt.len() % 4 != 0 || salt.len() > 1020 {
        return None;
    }
    if ![16, 24, 32].iter().any(|length| wrapped_keys.len() == 8 + keys * length) {
        return None;
    }
    let message = KeyingMaterialMessage {
        pt: PacketType::try_from(u8::try_from(n[0]).ok()?).ok()?,
        key_flags,
        keki: n[2],
        cipher: CipherType::try_from(u8::try_from(n[3]).ok()?).ok()?,
        auth: Auth::None,
        salt,
        wrapped_keys,
    };
    write_extension(SrtControlPacket::KeyRefreshRequest(message), room)
}

fn answer(question: &str) -> Option<String> {
    let parts: Vec<&str> = question.split(' ').collect();
    let number = |i: usize| parts.get(i)?.parse::<u32>().ok();
    let numbers = |n: usize| (1..=n).map(number).collect::<Option<Vec<u32>>>();
    let room = |i: usize| Some(number(i)? as usize);
    let bytes = |i: usize| bytes_of(parts.get(i)?);
    match *parts.first()? {
        "compress" => compress(&words_of(parts.get(2)?)?, room(1)? / 4),
        "expand" => expand(&words_of(parts.get(2)?)?, room(1)? / 4),
        "lost" => lost(number(1)?, &words_of(parts.get(2)?)?),
        "merge" => merge(number(1)?, room(2)?, &words_of(parts.get(3)?)?, &words_of(parts.get(4)?)?),
        "key.why" => why_key(&bytes(1)?),
        "data.read" => read_data(&bytes(1)?, false),
        "data.read6" => read_data(&bytes(1)?, true),
        "data.write" | "data.write6" => write_data(&numbers(8)?, room(9)?, bytes(10)?),
        "ext.read" => read_extension(number(1)?, &bytes(2)?),
        "handshake.write" => write_handshake(&numbers(4)?, room(5)?),
        "group.write" => write_group(&numbers(4)?, room(5)?),
        "key.write" => write_key(&numbers(4)?, room(5)?, bytes(6)?, bytes(7)?),
        verb => {
            let (ring, verb) = verb.split_once('.')?;
            let (a, b) = (number(1)?, number(2).unwrap_or(0));
            match ring {
                "seq" => ring!(SeqNumber, 1, verb, a, b),
                "msg" => ring!(MsgNumber, 2, verb, a, b),
                _ => None,
            }
        }
    }
}

/// What the crate does with a question that `answer` calls outside, by the same verbs and with none of our rules.
fn outside(question: &str) -> Option<String> {
    let parts: Vec<&str> = question.split(' ').collect();
    let number = |i: usize| parts.get(i)?.parse::<u32>().ok();
    let numbers = |n: usize| (1..=n).map(number).collect::<Option<Vec<u32>>>();
    let bytes = |i: usize| bytes_of(parts.get(i)?);
    let verb = *parts.first()?;
    Some(match verb {
        "compress" => {
            let list = words_of(parts.get(2)?)?.into_iter().map(SeqNumber::new_truncate);
            accepted(&compress_loss_list(list).collect::<Vec<u32>>(), usize::MAX)
        }
        "expand" => {
            let list = words_of(parts.get(2)?)?;
            let numbers: Vec<u32> = decompress_loss_list(list.into_iter()).map(|n| n.as_raw()).take(LIMIT + 2).collect();
            if numbers.len() > LIMIT + 1 {
                format!("goes on past 65,537 numbers: {} {} {} {} ..", numbers[0], numbers[1], numbers[2], numbers[3])
            } else {
                format!("ok, {} numbers", numbers.len())
            }
        }
        "seq.new" => format!("{:?}", SeqNumber::new(number(1)?).map(|n| n.as_raw())),
        "msg.new" => format!("{:?}", MsgNumber::new(number(1)?).map(|n| n.as_raw())),
        "seq.sub" => format!("ok {}", (SeqNumber(number(1)?) - number(2)?).as_raw()),
        "msg.sub" => format!("ok {}", (MsgNumber(number(1)?) - number(2)?).as_raw()),
        "seq.distance" => format!("ok {}", SeqNumber(number(1)?) - SeqNumber(number(2)?)),
        "seq.compare" => format!("ok {:?}", SeqNumber(number(1)?).cmp(&SeqNumber(number(2)?))),
        "msg.compare" => format!("ok {:?}", MsgNumber(number(1)?).cmp(&MsgNumber(number(2)?))),
        "seq.lt" => format!("ok {}", u8::from(SeqNumber(number(1)?) < SeqNumber(number(2)?))),
        "handshake.write" => write_handshake(&numbers(4)?, usize::MAX)?,
        "data.write" => {
            let n = numbers(8)?;
            let packet = DataPacket {
                seq_number: SeqNumber(n[0]),
                message_loc: PacketLocation::from_bits_truncate((n[1] as u8) << 6),
                in_order_delivery: n[2] == 1,
                encryption: DataEncryption::None,
                retransmitted: n[4] == 1,
                message_number: MsgNumber(n[5]),
                timestamp: TimeStamp::from_micros(n[6]),
                dest_sockid: SocketId(n[7]),
                payload: bytes(10)?.into(),
            };
            let mut out = vec![];
            packet.serialize(&mut out);
            format!("ok {}", hex(&out))
        }
        "data.read" => match Packet::parse(&mut &bytes(1)?[..], false) {
            Ok(Packet::Data(d)) => format!("a data packet with a payload of {}", d.payload.len()),
            Ok(Packet::Control(_)) => "a control packet".into(),
            Err(error) => format!("{error:?}"),
        },
        "data.read6" => match Packet::parse(&mut &bytes(1)?[..], true) {
            Ok(Packet::Data(d)) => format!("a data packet with a wire size of {}", d.wire_size()),
            other => format!("{other:?}"),
        },
        "ext.read" => format!("{:?}", SrtControlPacket::parse(number(1)? as u16, &mut &bytes(2)?[..])),
        "key.write" => {
            let n = numbers(4)?;
            let message = KeyingMaterialMessage {
                pt: PacketType::KeyingMaterial,
                key_flags: KeyFlags::from_bits_truncate(n[1] as u8),
                keki: n[2],
                cipher: CipherType::Ctr,
                auth: Auth::None,
                salt: bytes(6)?,
                wrapped_keys: bytes(7)?,
            };
            let mut out = vec![];
            SrtControlPacket::KeyRefreshRequest(message).serialize(&mut out);
            format!("ok {}", hex(&out))
        }
        _ => return None,
    })
}

// ---- questions

/// splitmix64
struct Draw(u64);

impl Draw {
    fn next(&mut self) -> u64 {
        self.0 = self.0.wrapping_add(0x9E37_79B9_7F4A_7C15);
        let mut z = self.0;
        z = (z ^ (z >> 30)).wrapping_mul(0xBF58_476D_1CE4_E5B9);
        z = (z ^ (z >> 27)).wrapping_mul(0x94D0_49BB_1331_11EB);
        z ^ (z >> 31)
    }
    fn below(&mut self, n: u64) -> u64 {
        self.next() % n
    }
    fn one_in(&mut self, n: u64) -> bool {
        self.below(n) == 0
    }
}

fn length(draw: &mut Draw) -> usize {
    match draw.below(8000) {
        0 => LIMIT - draw.below(3) as usize,
        1 => draw.below(LIMIT as u64) as usize,
        // about what the limit was once, where nothing happens now
        2..=5 => 8190 + draw.below(6) as usize,
        6..=160 => draw.below(300) as usize,
        _ => draw.below(14) as usize,
    }
}

fn start(draw: &mut Draw) -> u32 {
    match draw.below(5) {
        0 => draw.below(20) as u32,
        1 => FLAG - 1 - draw.below(20) as u32,
        2 => FLAG - 1 - draw.below(70_000) as u32,
        3 => (1 << 30) - 10 + draw.below(20) as u32,
        _ => draw.below(u64::from(FLAG)) as u32,
    }
}

fn step(draw: &mut Draw) -> u32 {
    match draw.below(60) {
        0 if draw.one_in(4) => 1 << 30,
        1 => (1 << 30) - 1,
        2 => 1 + draw.below((1 << 30) - 1) as u32,
        3 => (1 << 30) + 1 + draw.below(2) as u32,
        4 if draw.one_in(4) => 0,
        5..=20 => 2,
        21..=25 => 2 + draw.below(2000) as u32,
        _ => 1,
    }
}

fn numbers(draw: &mut Draw) -> Vec<u32> {
    let n = length(draw);
    let shape = draw.below(6);
    let mut number = start(draw);
    let mut list = vec![];
    for i in 0..n {
        list.push(number);
        let by = match shape {
            0 => 1,
            1 => 2,
            2 => 1 + (i as u32 & 1),
            _ if n > 100 => 1 + u32::from(draw.one_in(5)) * draw.below(9) as u32,
            _ => step(draw),
        };
        number = number.wrapping_add(by) % FLAG;
    }
    list
}

/// Mostly sound items, with plain ends above their starts; some across the wrap, which are outside the domain.
fn items(draw: &mut Draw) -> Vec<u32> {
    let words = length(draw);
    let mut list = vec![];
    let mut left = LIMIT as u64 + draw.below(2) * 40;
    while list.len() < words && left > 0 {
        let number = start(draw);
        if draw.one_in(2) {
            list.push(number);
            left -= 1;
            continue;
        }
        let long = match draw.below(2400) {
            0 => left,
            1..=7 => 9000.min(left),
            _ => 12.min(left),
        };
        let steps = 1 + draw.below(long) as u32;
        let first = if draw.one_in(40) { number } else { number.min(FLAG - 1 - steps) };
        list.push(first | FLAG);
        list.push((first + steps) % FLAG);
        left -= left.min(u64::from(steps) + 1);
    }
    list
}

fn damage(draw: &mut Draw, list: &mut Vec<u32>) {
    if list.is_empty() {
        return;
    }
    let at = draw.below(list.len() as u64) as usize;
    match draw.below(6) {
        0 => list[at] ^= 1 << draw.below(31),
        1 => list[at] = draw.next() as u32,
        2 if at > 0 => list.swap(at, at - 1),
        3 if at > 0 => list[at] = list[at - 1],
        4 => list.truncate(at + 1),
        _ => *list.last_mut().unwrap() |= FLAG,
    }
}

/// What a question asks to compress: the numbers that it gives, or those of the two lists that it asks to merge.
fn numbers_of(question: &str) -> Option<Vec<u32>> {
    match question.split(' ').collect::<Vec<&str>>()[..] {
        ["compress", _, list] => words_of(list),
        ["merge", oldest, _, first, second] => united(oldest.parse().ok()?, &words_of(first)?, &words_of(second)?)?.ok(),
        _ => None,
    }
}

/// Whether a question is to compress numbers that the crate codes with a range of two.
fn has_pair(question: &str) -> bool {
    let numbers = numbers_of(question).filter(|numbers| half_the_ring_on(numbers).is_none());
    numbers.and_then(|numbers| crate_words(&numbers).ok()).map_or(false, |words| pairs_plain(&words) != words)
}

/// Whether the answer is what counts for the crate's Less at half the ring.
fn is_opposite(question: &str, said: &str) -> bool {
    let half = numbers_of(question).and_then(|numbers| half_the_ring_on(&numbers));
    said == OPPOSITE || half.map_or(false, |place| said == format!("refused 16 {place}"))
}

/// A list as the crate codes it, with a range of two at least, for our expander, and the numbers that it was made of. Where the crate's
/// own expander can follow, both codings, with the flags of such ranges and without, must stand for these numbers in it.
fn crate_list(draw: &mut Draw) -> (String, String) {
    loop {
        let numbers = numbers(draw);
        let words = crate_words(&numbers).unwrap_or_default();
        let plain = pairs_plain(&words);
        if plain == words {
            continue;
        }
        let back = accepted(&numbers, numbers.len());
        for list in [&words, &plain] {
            if expand(list, numbers.len()).map_or(false, |said| said != back) {
                eprintln!("the crate expands {list:x?} to other numbers than {numbers:x?}");
                std::process::exit(1);
            }
        }
        return (question("expand", 4 * numbers.len(), &words), back);
    }
}

fn question(verb: &str, room: usize, list: &[u32]) -> String {
    let mut line = format!("{verb} {room} ");
    for word in list {
        write!(line, "{word:08x}").unwrap();
    }
    if list.is_empty() {
        line.push('-');
    }
    line
}

fn list_question(draw: &mut Draw) -> String {
    let (verb, mut list) = if draw.one_in(2) { ("compress", numbers(draw)) } else { ("expand", items(draw)) };
    if draw.one_in(3) {
        damage(draw, &mut list);
    }
    let most = match verb {
        "compress" => list.len(),
        _ => expand(&list, LIMIT).map_or(0, |a| if a.starts_with("ok ") { (a.len() - 3) / 8 } else { 0 }),
    };
    let room = match draw.below(6) {
        0 => most.saturating_sub(1) * 4 + draw.below(4) as usize,
        1 => draw.below(4 * most as u64 + 8) as usize,
        2 => 4 * most + draw.below(9) as usize,
        _ => 4 * most,
    };
    question(verb, room, &list)
}

/// A list, and a number that is one of its words or near one, or any.
fn lost_question(draw: &mut Draw) -> String {
    let mut list = items(draw);
    if draw.one_in(6) {
        damage(draw, &mut list);
    }
    let word = if list.is_empty() { start(draw) } else { list[draw.below(list.len() as u64) as usize] };
    let number = match draw.below(8) {
        0 => start(draw),
        1 => word.wrapping_sub(1),
        2 => word,
        _ => word.wrapping_add(draw.below(12) as u32),
    };
    question("lost", (number % FLAG) as usize, &list)
}

/// Items that begin within so many steps of the oldest number, in any order, in order, or as the crate codes their numbers; now and then with a number at the window's end,
/// past it or before the oldest.
fn near(draw: &mut Draw, oldest: u32, span: u64) -> Vec<u32> {
    let n = length(draw);
    let mut found: Vec<(u32, u32)> = vec![];
    for _ in 0..n {
        let step = draw.below(span) as u32;
        let steps = if n > 9000 || draw.one_in(2) { 0 } else { 1 + draw.below(12) as u32 };
        found.push((step, steps.min(FLAG - 1 - (oldest + step) % FLAG)));
    }
    // a long list in disorder takes its time
    if n > 300 || draw.one_in(2) {
        found.sort();
    }
    let mut list = vec![];
    for (step, steps) in &found {
        let first = (oldest + step) % FLAG;
        match steps {
            0 => list.push(first),
            _ => list.extend([first | FLAG, first + steps]),
        }
    }
    if draw.one_in(3) {
        let every: BTreeSet<u32> = found.iter().flat_map(|(step, steps)| *step..=step + steps).collect();
        let numbers: Vec<u32> = every.iter().map(|step| (oldest + step) % FLAG).collect();
        list = crate_words(&numbers).unwrap_or_default();
    }
    if draw.one_in(12) {
        let step = [(1 << 30) - 1, 1 << 30, (1 << 30) + 1, FLAG - 1][draw.below(4) as usize];
        let at = if draw.one_in(2) { 0 } else { list.len() };
        list.insert(at, (oldest + step) % FLAG);
    }
    list
}

/// Two lists near one another, and a room that is exact, short or plenty.
fn merge_question(draw: &mut Draw) -> String {
    let oldest = start(draw);
    let span = [10, 40, 40, 300, 70_000, (1 << 30) - 16][draw.below(6) as usize];
    let mut lists = [near(draw, oldest, span), near(draw, oldest, span)];
    if draw.one_in(8) {
        damage(draw, &mut lists[0]);
    }
    if draw.one_in(8) {
        damage(draw, &mut lists[1]);
    }
    let need = merge(oldest, LIMIT, &lists[0], &lists[1]).map_or(0, |a| if a.starts_with("ok ") { (a.len() - 3) / 8 } else { 0 });
    let room = some_room(draw, need);
    let [first, second] = lists.map(|list| hex(&list.iter().flat_map(|word| word.to_be_bytes()).collect::<Vec<u8>>()));
    format!("merge {oldest} {room} {first} {second}")
}

fn number(draw: &mut Draw, bits: u32) -> u32 {
    let whole = 1u64 << bits;
    let near = draw.below(5);
    (match draw.below(8) {
        0 => near,
        1 => whole + near - 2,
        2 => whole / 2 + near - 2,
        3 => (1 << 32) - 1 - near,
        4 => whole * 2 + near - 2,
        5 => draw.next(),
        _ => draw.below(whole),
    }) as u32
}

fn ring_question(draw: &mut Draw) -> String {
    let (ring, bits) = if draw.one_in(2) { ("seq", 31) } else { ("msg", 26) };
    let a = number(draw, bits);
    let b = if draw.one_in(4) {
        a.wrapping_add(number(draw, bits - 1)).wrapping_sub(draw.below(3) as u32)
    } else {
        number(draw, bits)
    };
    match draw.below(7) {
        0 => format!("{ring}.truncate {a}"),
        1 => format!("{ring}.new {a}"),
        2 => format!("{ring}.increment {a}"),
        3 => format!("{ring}.add {a} {b}"),
        4 => format!("{ring}.sub {a} {b}"),
        5 => format!("{ring}.distance {a} {b}"),
        _ => format!("{ring}.compare {a} {b}"),
    }
}

/// Every question on both rings at the ring's edges, for each operand. Beside it stands the same question of what the crate's `new_truncate`
/// makes of the operands: the one to ask the crate where it does not truncate an operand itself, as the rules do. What `new` is given is never truncated.
fn ring_edges() -> Vec<(String, String)> {
    let rings: [(&str, u32, fn(u32) -> u32); 2] = [
        ("seq", SeqNumber::MAX, |n| SeqNumber::new_truncate(n).as_raw()),
        ("msg", MsgNumber::MAX, |n| MsgNumber::new_truncate(n).as_raw()),
    ];
    let mut questions = vec![];
    for (ring, end, truncated) in rings {
        let half = end / 2;
        let edges = [0, 1, half - 1, half, half + 1, end - 1, end, end + 1, u32::MAX];
        for a in edges {
            questions.push((format!("{ring}.new {a}"), format!("{ring}.new {a}")));
            for verb in ["truncate", "raw", "increment"] {
                questions.push((format!("{ring}.{verb} {a}"), format!("{ring}.{verb} {}", truncated(a))));
            }
            for b in edges {
                for verb in ["add", "sub", "distance", "compare", "lt"] {
                    let asked = format!("{ring}.{verb} {} {}", truncated(a), truncated(b));
                    questions.push((format!("{ring}.{verb} {a} {b}"), asked));
                }
            }
        }
    }
    questions
}

fn random_bytes(draw: &mut Draw, n: usize) -> Vec<u8> {
    (0..n).map(|_| draw.next() as u8).collect()
}

fn payload(draw: &mut Draw) -> Vec<u8> {
    let n = match draw.below(2000) {
        0 => 65535 - draw.below(2),
        1..=4 => 1316,
        5..=100 => draw.below(100),
        _ => draw.below(9),
    };
    random_bytes(draw, n as usize)
}

/// A room that is exact, one byte short, longer, or any.
fn some_room(draw: &mut Draw, need: usize) -> usize {
    match draw.below(5) {
        0 => need.saturating_sub(1),
        1 => need + draw.below(9) as usize,
        2 => draw.below(need as u64 + 2) as usize,
        _ => need,
    }
}

fn data_question(draw: &mut Draw) -> String {
    let payload = payload(draw);
    let six = if draw.one_in(2) { "6" } else { "" };
    if draw.one_in(2) {
        let mut packet = random_bytes(draw, 16);
        if !draw.one_in(50) {
            packet[0] &= 0x7F;
        }
        if draw.one_in(3) {
            packet[4] &= 0xE7;
        }
        packet.extend(payload);
        if draw.one_in(12) {
            packet.truncate(draw.below(20) as usize);
        }
        return format!("data.read{six} {}", hex(&packet));
    }
    let (seq, msg) = (number(draw, 31), number(draw, 26));
    format!(
        "data.write{six} {seq} {} {} {} {} {msg} {} {} {} {}",
        draw.below(4),
        draw.below(2),
        draw.below(3),
        draw.below(2),
        draw.next() as u32,
        draw.next() as u32,
        some_room(draw, 16 + payload.len()),
        hex(&payload)
    )
}

/// Key material that the crate accepts, some of it with no key, with some bytes after it.
fn key_message(draw: &mut Draw) -> Vec<u8> {
    let salt = if draw.one_in(20) { draw.below(256) } else { draw.below(6) } as usize;
    let (flags, key) = (draw.below(4) as usize, 4 + 2 * draw.below(3) as usize);
    let keki = if draw.one_in(4) { 0 } else { draw.next() as u32 };
    let mut m = vec![0x11 + draw.below(2) as u8, 0x20, 0x29, flags as u8];
    m.extend(keki.to_be_bytes());
    m.extend([draw.below(4) as u8, 0, 2, 0, 0, 0, salt as u8, key as u8]);
    m.extend(random_bytes(draw, 4 * salt + 8 + 4 * key * flags.count_ones() as usize));
    if draw.one_in(3) {
        let more = draw.below(6) as usize;
        m.extend(random_bytes(draw, more));
    }
    m
}

/// Key material with one fault, several or none.
fn damaged_key(draw: &mut Draw) -> Vec<u8> {
    let mut m = key_message(draw);
    match draw.below(5) {
        0 => {
            let at = draw.below(16) as usize;
            m[at] = draw.next() as u8;
        }
        1 => {
            let at = draw.below(m.len() as u64) as usize;
            m[at] ^= 1 << draw.below(8);
        }
        2 => m.truncate(draw.below(m.len() as u64 + 1) as usize),
        3 => {
            m[3] = draw.next() as u8;
            m[11] = draw.next() as u8;
            m[12] = draw.next() as u8;
        }
        _ => {}
    }
    m
}

/// Faults in several bytes at once, so that each check is the first to fail of some.
fn reason_question(draw: &mut Draw) -> String {
    let mut m = damaged_key(draw);
    for _ in 0..draw.below(3) {
        if !m.is_empty() {
            let at = draw.below(m.len().min(16) as u64) as usize;
            m[at] = if draw.one_in(2) { draw.below(10) as u8 } else { draw.next() as u8 };
        }
    }
    format!("key.why {}", hex(&m))
}

fn extension_question(draw: &mut Draw) -> String {
    match draw.below(8) {
        0 => {
            let n = draw.below(16) as usize;
            let mut bytes = random_bytes(draw, n);
            if n > 0 && !draw.one_in(20) {
                bytes[0] = 0;
            }
            format!("ext.read {} {}", 1 + draw.below(2), hex(&bytes))
        }
        1 => {
            let n = draw.below(7) as usize;
            let mut bytes = random_bytes(draw, n);
            if n > 0 && draw.one_in(2) {
                bytes[0] %= 6;
            }
            format!("ext.read 8 {}", hex(&bytes))
        }
        2 | 3 => {
            let m = damaged_key(draw);
            format!("ext.read {} {}", 3 + draw.below(2), hex(&m))
        }
        4 => {
            let kind = if draw.one_in(2) { draw.below(12) } else { draw.below(1 << 16) };
            let n = draw.below(20) as usize;
            format!("ext.read {kind} {}", hex(&random_bytes(draw, n)))
        }
        5 => format!(
            "handshake.write {} {} {} {} {}",
            draw.below(1 << 24),
            if draw.one_in(10) { draw.next() as u32 } else { draw.below(256) as u32 },
            draw.below(1 << 16),
            draw.below(1 << 16),
            some_room(draw, 12)
        ),
        6 => format!(
            "group.write {} {} {} {} {}",
            if draw.one_in(2) { draw.below(6) } else { draw.below(256) },
            draw.below(2),
            if draw.one_in(10) { draw.below(256) } else { 0x40 * draw.below(2) },
            draw.below(1 << 16),
            some_room(draw, 4)
        ),
        _ => {
            let salt = 4 * if draw.one_in(20) { draw.below(256) } else { draw.below(6) } as usize;
            let flags = 1 + draw.below(3);
            let wrapped = 8 + flags.count_ones() as usize * (16 + 8 * draw.below(3) as usize);
            format!(
                "key.write {} {flags} {} {} {} {} {}",
                1 + draw.below(2),
                draw.next() as u32,
                draw.below(4),
                some_room(draw, 16 + salt + wrapped),
                hex(&random_bytes(draw, salt)),
                hex(&random_bytes(draw, wrapped))
            )
        }
    }
}

/// One byte of a header at a time, through all its values; and every length of the parts.
fn single_bytes() -> Vec<String> {
    let mut questions = vec![];
    let packet: Vec<u8> = (0..20).map(|i| [0, 0, 0, 5, 0xE4, 0, 0, 9, 0, 0, 1, 0, 0, 0, 0, 2, 0xAA, 1, 2, 3][i]).collect();
    let mut key = vec![0x12, 0x20, 0x29, 1, 0, 0, 0, 0, 2, 0, 2, 0, 0, 0, 4, 4];
    key.extend(0u8..44);
    let shake = [0u8, 1, 5, 1, 0, 0, 0, 0xBF, 5, 0x14, 6, 0xA4, 7];
    let group = [1u8, 0x40, 3, 4, 9];
    let verbs: [(&str, &[u8]); 8] = [
        ("data.read", &packet),
        ("data.read6", &packet),
        ("ext.read 1", &shake),
        ("ext.read 2", &shake),
        ("ext.read 3", &key),
        ("ext.read 4", &key),
        ("ext.read 8", &group),
        ("key.why", &key),
    ];
    for (verb, good) in verbs {
        for n in 0..=good.len() {
            questions.push(format!("{verb} {}", hex(&good[..n])));
        }
        for at in 0..good.len().min(16) {
            for value in 0..=255 {
                let mut bytes = good.to_vec();
                bytes[at] = value;
                questions.push(format!("{verb} {}", hex(&bytes)));
            }
        }
    }
    questions
}

/// Every list of up to three words over the words at the boundaries, in every room up to four words.
fn short_lists() -> Vec<String> {
    let words: [u32; 14] = [
        0, 1, 2, 3, 0x3FFF_FFFF, 0x4000_0000, 0x4000_0001, 0x7FFF_FFFE, 0x7FFF_FFFF, 0x8000_0000, 0x8000_0001,
        0x8000_0002, 0xC000_0000, 0xFFFF_FFFF,
    ];
    let mut lists = vec![String::new()];
    let mut from = 0;
    for _ in 0..3 {
        let to = lists.len();
        for i in from..to {
            for word in words {
                lists.push(format!("{}{word:08x}", lists[i]));
            }
        }
        from = to;
    }
    let mut questions = vec![];
    for list in lists {
        for room in 0..=4 {
            for verb in ["compress", "expand"] {
                let list = if list.is_empty() { "-" } else { &list };
                questions.push(format!("{verb} {} {list}", 4 * room));
            }
        }
    }
    questions
}

fn main() -> io::Result<()> {
    std::panic::set_hook(Box::new(|_| {}));
    let args: Vec<String> = std::env::args().skip(1).collect();
    let words: Vec<&str> = args.iter().map(|s| s.as_str()).collect();
    match words[..] {
        ["answer"] => {
            let mut out = BufWriter::new(io::stdout());
            for line in io::stdin().lock().lines() {
                writeln!(out, "{}", answer(line?.trim_end()).unwrap_or_else(|| "outside".into()))?;
            }
            out.flush()
        }
        ["outside"] => {
            for line in io::stdin().lock().lines() {
                let line = line?;
                let said = catch_unwind(|| outside(line.trim_end()));
                println!("{}", said.map_or_else(|_| "panics".into(), |s| s.unwrap_or_else(|| "not a question".into())));
            }
            Ok(())
        }
        ["make", kind, seed, count, questions, answers] => {
            let mut draw = Draw(seed.parse().expect("a seed"));
            let count: u64 = count.parse().expect("a count");
            let (mut q, mut a) = (BufWriter::new(File::create(questions)?), BufWriter::new(File::create(answers)?));
            let (mut inside, mut outside, mut refused, mut paired, mut keyless, mut opposite, mut larger) = (0u64, 0u64, 0u64, 0u64, 0u64, 0u64, 0u64);
            let mut keep = |question: String, said: Option<String>| -> io::Result<()> {
                match said {
                    Some(said) => {
                        inside += 1;
                        refused += u64::from(said.starts_with("refused"));
                        paired += u64::from(has_pair(&question));
                        keyless += u64::from(said.starts_with(NO_KEY));
                        opposite += u64::from(is_opposite(&question, &said));
                        larger += u64::from(question.starts_with("data.read6") && said.starts_with("ok"));
                        writeln!(q, "{question}")?;
                        writeln!(a, "{said}")
                    }
                    None => {
                        outside += 1;
                        Ok(())
                    }
                }
            };
            let mut put = |question: String| {
                let said = answer(&question);
                keep(question, said)
            };
            match kind {
                "short" => short_lists().into_iter().try_for_each(&mut put)?,
                "lists" => (0..count).try_for_each(|_| put(list_question(&mut draw)))?,
                "pairs" => (0..count).try_for_each(|_| {
                    let (question, said) = crate_list(&mut draw);
                    keep(question, Some(said))
                })?,
                "edges" => ring_edges().into_iter().try_for_each(|(question, truncated)| {
                    let said = answer(&question).or_else(|| answer(&truncated));
                    keep(question, said)
                })?,
                "ring" => (0..count).try_for_each(|_| put(ring_question(&mut draw)))?,
                "bytes" => single_bytes().into_iter().try_for_each(&mut put)?,
                "data" => (0..count).try_for_each(|_| put(data_question(&mut draw)))?,
                "lost" => (0..count).try_for_each(|_| put(lost_question(&mut draw)))?,
                "merges" => (0..count).try_for_each(|_| put(merge_question(&mut draw)))?,
                "reasons" => (0..count).try_for_each(|_| put(reason_question(&mut draw)))?,
                "extensions" => (0..count).try_for_each(|_| put(extension_question(&mut draw)))?,
                _ => panic!("no questions of this kind: {kind}"),
            }
            q.flush()?;
            a.flush()?;
            let pairs = if paired > 0 { format!("; the crate's flag taken off two neighbours in {paired}") } else { String::new() };
            let keys = if keyless > 0 { format!("; {keyless} with no key, where the crate reads on") } else { String::new() };
            let halves = if opposite > 0 { format!("; {opposite} at half the ring, which is Less to the crate") } else { String::new() };
            let sizes = if larger > 0 { format!("; {NOT_COUNTED} added to the crate's wire size in {larger}, which came by IPv6") } else { String::new() };
            println!("{inside} questions of kind {kind}, seed {seed}, {refused} refused; {outside} outside the domain{pairs}{keys}{halves}{sizes}");
            Ok(())
        }
        _ => {
            eprintln!("usage: oracle answer | oracle outside | oracle make KIND SEED COUNT QUESTIONS ANSWERS");
            std::process::exit(2);
        }
    }
}
