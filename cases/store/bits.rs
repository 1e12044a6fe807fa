// The stored cases of the bit layer: `r` reads a field, `z` counts zeros, `e` asks for the end of data, `p` puts.
//
// An answer is what the plain bit layer of the oracle does, with the limits of document 01 on it.
use cases::{asking::SEED, bytes::each, random::Random};
use model::bits;
use oracle_plain::{bitstream::BitWriter, layer};

use crate::{bad_lines, hex, refused, Stored};

pub fn add_to(stored: &mut Stored) {
    read_edges(stored);
    zero_prefix_edges(stored);
    end_of_data_edges(stored);
    put_edges(stored);
    stored.bad(&bad_lines::BITS);
    random_cases(stored);
}

impl Stored {
    fn read(&mut self, at: usize, n: u32, payload: &[u8]) {
        let answer = bits::read(payload, n, || layer::read_bits(payload, at, n));
        self.add(format!("r {} {} {}", at, n, hex(payload)), told(answer));
    }

    fn zero_prefix(&mut self, at: usize, cap: u32, payload: &[u8]) {
        let answer = bits::read(payload, 0, || layer::zero_prefix(payload, at, cap));
        self.add(format!("z {} {} {}", at, cap, hex(payload)), told(answer));
    }

    fn end_of_data(&mut self, at: usize, payload: &[u8]) {
        let ended = layer::end_of_data(payload, at);
        self.add(format!("e {} {}", at, hex(payload)), u32::from(ended).to_string());
    }

    fn put(&mut self, at: usize, n: u32, value: u64, old: &[u8]) {
        let answer = bits::put(old, at, n, || layer::put(old, at, n, value));
        let answer = answer.map_or_else(refused, |(next, bytes)| format!("{} {}", next, hex(&bytes)));
        self.add(format!("p {} {} {} {}", at, n, value, hex(old)), answer);
    }
}

fn told(answer: bits::Answer) -> String {
    answer.map_or_else(refused, |(value, next)| format!("{} {}", value, next))
}

/// `ones` 1 bits, `zeros` 0 bits, then a 1 and more 1s up to a byte if `closed`.
fn run_of_zeros(ones: u32, zeros: u32, closed: bool) -> Vec<u8> {
    let mut writer = BitWriter::new();
    for i in 0..(ones + zeros + u32::from(closed)).next_multiple_of(8) {
        writer.write_bit(u32::from(i < ones || closed && i >= ones + zeros));
    }
    writer.finish()
}

// ---- the edges

const FAR: [usize; 3] = [1 << 61, usize::MAX - 1, usize::MAX];

fn read_edges(stored: &mut Stored) {
    let widths = [0, 1, 7, 8, 9, 31, 32, 33];
    for payload in [&[0xa5, 0x3c, 0xff, 0x00, 0x81][..], &[0x01, 0x80, 0x7e, 0xc3, 0x55, 0xaa, 0x10, 0x0f, 0xf1][..]] {
        let end = 8 * payload.len();
        for n in widths {
            let last = end - n as usize;
            for at in [0, 3, 8, last, last + 1, end - 1, end, end + 1] {
                stored.read(at, n, payload);
            }
        }
    }
    for n in widths {
        stored.read(0, n, &[]);
        stored.read(1, n, &[]);
        stored.read(FAR[n as usize % 3], n, &[0xff]);
    }
    stored.read(0, u32::MAX, &[0xff; 6]);
}

fn zero_prefix_edges(stored: &mut Stored) {
    for cap in [0u32, 1, 31, 32, 33, 64, 65] {
        for ones in [0, 3] {
            // exactly `cap` zeros, one more, one fewer; then the 1 that ends them
            for zeros in [cap, cap + 1, cap.saturating_sub(1)] {
                stored.zero_prefix(ones as usize, cap, &run_of_zeros(ones, zeros, true));
            }
        }
        // the bits run out first, or would at the very zero that is one too many
        for zeros in [cap.saturating_sub(1), cap, cap + 1] {
            let ones = (8 - zeros % 8) % 8;
            stored.zero_prefix(ones as usize, cap, &run_of_zeros(ones, zeros, false));
        }
    }
    for at in [0, 7, 8, 9, FAR[0], FAR[2]] {
        stored.zero_prefix(at, 32, &[0x01]);
        stored.zero_prefix(at, 0, &[0x80]);
    }
    stored.zero_prefix(0, 32, &[]);
    stored.zero_prefix(0, 0, &[]);
    stored.zero_prefix(0, u32::MAX, &[0; 24]);
}

fn end_of_data_edges(stored: &mut Stored) {
    for place in 0..24 {
        let mut payload = [0; 3];
        payload[place / 8] = 0x80 >> (place % 8);
        stored.end_of_data(place, &payload);
        stored.end_of_data(place + 1, &payload);
    }
    // more than 31 zero bits left, which the given bit layer answers otherwise
    for at in [0, 7, 8, 9, 40, 41, FAR[0], FAR[2]] {
        stored.end_of_data(at, &[0x80, 0, 0, 0, 0]);
        stored.end_of_data(at, &[0; 5]);
        stored.end_of_data(at, &[0, 0, 0, 0, 1]);
    }
    for at in [0, 1, FAR[2]] {
        stored.end_of_data(at, &[]);
    }
}

fn put_edges(stored: &mut Stored) {
    let widths = [0, 1, 8, 48, 55, 56, 57];
    // the bits above the field are junk that must not be written
    let values = [u64::MAX, 0, 0x5a5a_5a5a_5a5a_5a5a, 0xff00_0000_0000_0001, 0xfedc_ba98_7654_3210];
    let fills = [0xff, 0x00, 0xa5];
    for (offset, n) in each(0..8, widths) {
        let pick = offset + n as usize;
        let (at, value, fill) = (8 + offset, values[pick % 5], fills[pick % 3]);
        let bytes = (at + n as usize).div_ceil(8);
        // just the bytes that the field needs, one fewer, and some behind it
        [bytes, bytes - 1, bytes + 3].iter().for_each(|&bytes| stored.put(at, n, value, &vec![fill; bytes]));
    }
    // room to the bit, and one bit short
    for n in widths {
        let at = 72 - n as usize;
        stored.put(at, n, values[2], &[0x33; 9]);
        stored.put(at + 1, n, values[2], &[0x33; 9]);
    }
    for n in [0, 1, 8, 56, 57, u32::MAX] {
        stored.put(0, n, u64::MAX, &[]);
        FAR.iter().for_each(|&at| stored.put(at, n, 1, &[0xff; 2]));
    }
}

// ---- random cases

fn random_cases(stored: &mut Stored) {
    let random = &mut Random::new(SEED);
    // up to two bits past the end
    let place = |random: &mut Random, bytes: &[u8]| random.below(8 * bytes.len() as u64 + 3) as usize;
    for _ in 0..100 {
        let payload = random_bytes(random, 24);
        stored.read(place(random, &payload), random.below(34) as u32, &payload);
    }
    for _ in 0..100 {
        let payload = random_bytes(random, 24);
        stored.zero_prefix(place(random, &payload), random.pick(&[2, 5, 8, 16, 32, 64]), &payload);
    }
    for _ in 0..40 {
        let mut payload = random_bytes(random, 8);
        payload.extend(vec![0; random.below(8) as usize]);
        stored.end_of_data(place(random, &payload), &payload);
    }
    for _ in 0..120 {
        let old = random_bytes(random, 20);
        stored.put(place(random, &old), random.below(58) as u32, random.next(), &old);
    }
}

/// Half of them noise, half mostly zero, so that long prefixes occur.
fn random_bytes(random: &mut Random, most: u64) -> Vec<u8> {
    let sparse = random.once_in(2);
    let bytes = random.below(most + 1);
    let mut byte = || match sparse {
        true if !random.once_in(8) => 0,
        true => 1 << random.below(8),
        false => random.next() as u8,
    };
    (0..bytes).map(|_| byte()).collect()
}
