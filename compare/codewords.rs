// Codewords of any parameters: `Codebook::read` by the crate `probe`, held to document 01's rules for every parameter
// and to the Rust wherever its own numbers do not overflow.
use cases::{bytes::{each, every, random_bytes, random_place}, random::Random};
use faces::probe;
use model::{codewords::Book::{self, C, E}, MOST_BYTES};
use oracle_plain::bitstream::BitWriter;

use crate::{bits::told, lent::Lent, report::{Check, Report}, Run};

pub fn run(run: &Run, report: &mut Report) {
    let exp_golomb = Check::new("read_exp_golomb", &[0, 1, 5, 6]);
    let combo = Check::new("read_combo", &[0, 1, 5, 6]);
    let mut face = Face { exp_golomb, combo, payload: Lent::new(&[]) };
    // every payload of up to 2 bytes, and those at the limit and past it, in the books that document 01 has
    let at_the_limit = [MOST_BYTES, MOST_BYTES + 1].map(|length| vec![0x5a; length]);
    let in_use = [E(0), E(1), E(2), E(3), E(5), C(1, 2, 3), C(2, 0, 1), C(1, 0, 1), C(1, 1, 2), C(2, 0, 2)];
    each((0..=2).flat_map(every).chain(at_the_limit), in_use).for_each(|(payload, book)| face.read(&payload, 0, book));
    every_prefix(&mut face, run);
    random_cases(&mut face, run);
    report.close(face.exp_golomb);
    report.close(face.combo);
}

struct Face {
    exp_golomb: Check,
    combo: Check,
    payload: Lent,
}

impl Face {
    fn read(&mut self, payload: &[u8], at: usize, book: Book) {
        self.payload.set(payload.iter().copied());
        let lent = self.payload.items();
        // how far the numbers of the Rust go: it adds the zeros to an order, and reads fields of up to 32 bits
        let (check, ours, parameters, rust_answers) = match book {
            E(k) => (&mut self.exp_golomb, probe::read_exp_golomb(lent, at, k), vec![k], k <= u32::MAX - 32),
            C(last, r, e) => {
                let ours = probe::read_combo(lent, at, last, r, e);
                (&mut self.combo, ours, vec![last, r, e], r <= 32 && e <= u32::MAX - 64)
            }
        };
        let case = || format!("{:?} at {} of {:02x?}", parameters, at, payload);
        let mut asked = check.asked(ours.number, &ours, &case);
        let by_rule = told(book.read_at(payload, at));
        if payload.len() > MOST_BYTES || !rust_answers {
            asked.hold_to_rules_alone(&by_rule);
        } else {
            asked.hold_to_rules(&by_rule);
            asked.hold(&both!(|rust| told(rust::layer::read_codeword(payload, at, &parameters))));
        }
    }
}

/// Orders and limits up to past those that a symbol can have, and far behind them.
fn books() -> Vec<Book> {
    let far = [63, 64, 65, 1 << 31, u32::MAX - 64, u32::MAX - 32, u32::MAX - 1, u32::MAX];
    let mut books: Vec<Book> = (0..=34).chain(far).map(E).collect();
    let lasts = [0, 1, 2, 3, 31, 62, 63, 64, 65, u32::MAX];
    let rs = [0, 1, 2, 5, 25, 26, 31, 32, 33, 57, 58, 64, u32::MAX];
    let es = [0, 1, 2, 3, 30, 31, 32, 33, u32::MAX - 64, u32::MAX];
    books.extend(each(lasts, each(rs, es)).map(|(last, (r, e))| C(last, r, e)));
    books
}

/// In every book a codeword with every number of zeros, up to more than any allows, at some bit of a byte; then all
/// zeros, all ones or a pattern, cut at every byte. Where the run asks for it, each STEPth book alone.
fn every_prefix(face: &mut Face, run: &Run) {
    // another seed begins with another book
    let books = books().into_iter().skip(run.seed as usize % run.step).step_by(run.step);
    for (book, (zeros, tail)) in each(books, each(0..=70, [0x0000_0000, 0xffff_ffff, 0xa5c3_960f])) {
        let at = zeros * 5 % 8;
        let mut bits = BitWriter::new();
        (0..at).for_each(|_| bits.write_bit(1));
        (0..zeros).for_each(|_| bits.write_bit(0));
        bits.write_bit(1);
        bits.write_bits(tail, 32);
        let payload = bits.finish();
        (0..=payload.len()).for_each(|cut| face.read(&payload[..cut], at, book));
    }
}

/// Any parameters, of payloads up to past the limit.
fn random_cases(face: &mut Face, run: &Run) {
    let random = &mut Random::new(run.seed);
    for _ in 0..run.cases / 4 {
        let payload = random_bytes(random);
        let at = random_place(random, payload.len());
        let mut parameter = || match random.below(8) {
            0 => random.next() as u32,
            1..=3 => random.below(70) as u32,
            _ => random.below(4) as u32,
        };
        let book = if parameter() % 2 == 0 { E(parameter()) } else { C(parameter(), parameter(), parameter()) };
        face.read(&payload, at, book);
    }
}
