// The bit layer of the crate `probe`, held to both bit layers of the Rust, with document 01's limits on them.
use cases::{bytes::{each, every, random_bytes, random_place}, random::Random};
use faces::probe::{self, Told};
use model::{bits::{self, Answer}, MOST_BYTES};

use crate::{lent::Lent, report::{Check, Report, Verdict, PLAIN, REAL}, Run};

pub fn run(run: &Run, report: &mut Report) {
    let mut face = Face::new();
    every_short_payload(&mut face);
    every_run_of_zeros(&mut face);
    every_put(&mut face);
    // every position that the limit allows, and the first ones that it does not
    let far = [1 << 61, usize::MAX - 7, usize::MAX - 6, usize::MAX];
    (0..=8 * MOST_BYTES + 16).chain(far).for_each(|at| face.align_byte(at));
    at_the_limit(&mut face);
    random_cases(&mut face, run);
    face.close(report);
}

/// An answer as C has it.
pub fn told(answer: Answer) -> Told {
    answer.map_or_else(Told::refused, |(value, next)| Told::done(value, next))
}

/// Where bitstream.rs, like RDD 36, does not see that data has ended: more than 31 bits, all zero.
fn listed_difference(payload: &[u8], at: usize) -> bool {
    let left = (8 * payload.len()).saturating_sub(at);
    left > 31 && payload[at / 8] << (at % 8) == 0 && payload[at / 8 + 1..].iter().all(|&byte| byte == 0)
}

// ---- one case of each function

struct Face {
    read_bit: Check,
    read_bits: Check,
    zero_prefix: Check,
    end_of_data: Check,
    put: Check,
    align_byte: Check,
    buffer: Lent,
}

impl Face {
    fn new() -> Self {
        let check = |name, numbers| Check::new(name, numbers).without_rules();
        Face {
            read_bit: check("read_bit", &[0, 1, 5]),
            read_bits: check("read_bits", &[0, 1, 5, 6]),
            zero_prefix: check("zero_prefix", &[0, 1, 5, 6]),
            end_of_data: check("end_of_data", &[0, 1]).with_listed_difference(),
            put: check("put", &[0, 1, 3]),
            align_byte: check("align_byte", &[0, 1]),
            buffer: Lent::new(&[]),
        }
    }

    fn close(self, report: &mut Report) {
        for check in [self.read_bit, self.read_bits, self.zero_prefix, self.end_of_data, self.put, self.align_byte] {
            report.close(check);
        }
    }

    /// A field, and where it is one bit also that bit.
    fn read_bits(&mut self, payload: &[u8], at: usize, n: u32) {
        let ours = probe::read_bits(payload, at, n);
        let theirs = both!(|rust| told(bits::read(payload, n, || rust::layer::read_bits(payload, at, n))));
        let case = || format!("{} bits at {} of {:02x?}", n, at, payload);
        self.read_bits.asked(ours.number, &ours, &case).hold(&theirs);
        if n == 1 {
            let ours = probe::read_bit(payload, at);
            self.read_bit.asked(ours.number, &ours, &case).hold(&theirs);
        }
    }

    fn zero_prefix(&mut self, payload: &[u8], at: usize, cap: u32) {
        let ours = probe::zero_prefix(payload, at, cap);
        let theirs = both!(|rust| told(bits::read(payload, 0, || rust::layer::zero_prefix(payload, at, cap))));
        let case = || format!("zero_prefix with cap {} at {} of {:02x?}", cap, at, payload);
        self.zero_prefix.asked(ours.number, &ours, &case).hold(&theirs);
    }

    fn end_of_data(&mut self, payload: &[u8], at: usize) {
        let ours = probe::end_of_data(payload, at);
        let theirs = both!(|rust| u32::from(rust::layer::end_of_data(payload, at)));
        let case = || format!("end_of_data at {} of {:02x?}", at, payload);
        let mut asked = self.end_of_data.asked(ours, &ours, &case);
        for (oracle, ended) in [PLAIN, REAL].into_iter().zip(theirs) {
            // the listed difference is one in each direction: where it is said to be, it must be
            let listed = oracle == REAL && listed_difference(payload, at);
            let verdict = match ended {
                Some(0) if listed && ours == 1 => Verdict::Listed,
                Some(ended) if !listed && ended == ours => Verdict::Equal,
                _ => Verdict::Differs,
            };
            asked.judge(oracle, verdict, &ended);
        }
    }

    fn put(&mut self, old: &[u8], at: usize, n: u32, v: u64) {
        self.buffer.set(old.iter().copied());
        let told = probe::put(self.buffer.items_mut(), at, n, v);
        // what was answered, the buffer then, and whether the bytes around it still stand
        let ours = (told, self.buffer.items().to_vec(), self.buffer.guards_stand());
        let refused = |number| (Told::refused(number), old.to_vec(), true);
        let put = |(next, bytes)| (Told::done(0, next), bytes, true);
        let theirs = both!(|rust| bits::put(old, at, n, || rust::layer::put(old, at, n, v)).map_or_else(refused, put));
        let case = || format!("put of the {} low bits of {:#x} at {} into {:02x?}", n, v, at, old);
        self.put.asked(told.number, &ours, &case).hold(&theirs);
    }

    fn align_byte(&mut self, at: usize) {
        let ours = probe::align_byte(at);
        let theirs = both!(|rust| told(bits::align_byte(at, || rust::layer::align_byte(at))));
        self.align_byte.asked(ours.number, &ours, &|| format!("align_byte of {}", at)).hold(&theirs);
    }
}

// ---- every small case

/// Reads at each of these positions fields of these widths and prefixes with these caps, and asks for the end of data.
fn reads(face: &mut Face, bytes: &[u8], places: impl Iterator<Item = usize>, widths: &[u32], caps: &[u32]) {
    let lent = Lent::new(bytes);
    for at in places {
        widths.iter().for_each(|&n| face.read_bits(lent.items(), at, n));
        caps.iter().for_each(|&cap| face.zero_prefix(lent.items(), at, cap));
        face.end_of_data(lent.items(), at);
    }
}

/// Every payload of up to 2 bytes, at every position up to one past its end.
fn every_short_payload(face: &mut Face) {
    let (widths, caps): (Vec<u32>, Vec<u32>) = ((0..=33).collect(), (0..=17).chain([32, 64]).collect());
    (0..=2).flat_map(every).for_each(|bytes| reads(face, &bytes, 0..=8 * bytes.len() + 1, &widths, &caps));
}

/// Payloads of up to 10 bytes that begin with zeros: none but them, or a 1 in each place, and behind it
/// all zeros or all ones. They have what 2 bytes are too short for: whole fields, the caps 32 and 64,
/// and more than 31 zero bits at the end.
fn every_run_of_zeros(face: &mut Face) {
    for (length, behind) in each(0..=10, [0x00, 0xff]) {
        for first_one in 0..=8 * length {
            let mut bytes = vec![behind; length];
            bytes[..first_one / 8].fill(0);
            if first_one < 8 * length {
                let bit = 0x80 >> (first_one % 8);
                bytes[first_one / 8] = bit | (behind & (bit - 1));
            }
            let (widths, caps) = ([0, 1, 8, 9, 25, 31, 32, 33], [0, 1, 7, 8, 9, 31, 32, 33, 63, 64, 65]);
            reads(face, &bytes, 0..=8 * length + 1, &widths, &caps);
        }
    }
}

/// Every position and width in buffers of up to 3 bytes, and of 7 to 9 bytes for the widest fields.
fn every_put(face: &mut Face) {
    for (lengths, widths) in [(0..=3, 0..=26), (7..=9, 46..=58)] {
        for (length, fill) in each(lengths, [[0x00, 0x00], [0xff, 0xff], [0xa5, 0x5a]]) {
            let old: Vec<u8> = (0..length).map(|i| fill[i % 2]).collect();
            for (at, n) in each(0..=8 * length + 1, widths.clone()) {
                // 1s at the ends of the field, a pattern, and 1s above it, which do not belong to it
                let (above, top) = (!0 << n, 1 << n >> 1);
                for v in [0, !0, 1, top, !above, above, above | 1, 0x5555_5555_5555_5555, 0xfedc_ba98_7654_3210] {
                    face.put(&old, at, n, v);
                }
            }
        }
    }
}

/// Payloads and buffers as long as the limit and one byte longer, at their ends and past them.
fn at_the_limit(face: &mut Face) {
    for (length, fill) in each([MOST_BYTES, MOST_BYTES + 1], [0x00, 0x5a]) {
        let (bytes, places) = (vec![fill; length], (0..10).chain(8 * length - 66..8 * length + 2));
        reads(face, &bytes, places.clone(), &[0, 1, 8, 31, 32, 33], &[0, 1, 32, 64]);
        each(places, [0, 1, 8, 55, 56, 57]).for_each(|(at, n)| face.put(&bytes, at, n, !0));
    }
}

// ---- random cases

fn random_cases(face: &mut Face, run: &Run) {
    let random = &mut Random::new(run.seed);
    for _ in 0..run.cases {
        let lent = Lent::new(&random_bytes(random));
        let payload = lent.items();
        let at = random_place(random, payload.len());
        match random.below(16) {
            0 => face.read_bits(payload, at, 1),
            1..=5 => face.read_bits(payload, at, random_width(random, 33)),
            6..=9 => face.zero_prefix(payload, at, random_cap(random)),
            10 | 11 => face.end_of_data(payload, at),
            _ => {
                let n = random_width(random, 57);
                // a third of them with room to the bit, or one bit short of it
                let end = 8 * payload.len();
                let at = match random.below(6) {
                    0 => end.saturating_sub(n as usize),
                    1 => (end + 1).saturating_sub(n as usize),
                    _ => at,
                };
                face.put(payload, at, n, random.next());
            }
        }
    }
}

/// A width up to one past the most, and now and then far above it.
fn random_width(random: &mut Random, past_the_most: u64) -> u32 {
    match random.below(64) {
        0 => random.pick(&[64, 65, 255, 256, 1 << 31, u32::MAX]),
        _ => random.below(past_the_most + 1) as u32,
    }
}

/// Those of codewords, or any.
fn random_cap(random: &mut Random) -> u32 {
    if random.once_in(2) { random.pick(&[32, 64]) } else { random_width(random, 65) }
}
