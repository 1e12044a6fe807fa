// One call of a coder's decode or encode, and how it is judged, for all coders alike.
//
// What we accept both oracles accept, with equal lists and, where the plain bit layer tells them, equal bits; but for
// the listed difference in the end of data. Where we refuse with 5, 6, 7 or 9 to 12, the plain one gives that very
// error, of that very component, and the other gives one, which must be that very one too where no end of data is asked
// for. The refusals 1 to 4, 8 and 13, the bits, the state of every lent list and buffer and the bound on a code are
// rules of document 01 alone. What is written must also be read back.
use std::array::from_fn;

use cases::{asking::{Asking, Room}, bytes::wide};
use faces::cart::{Decoded, Encoded};
use model::{coder::{self, Given, Outcome, Value}, coefficients::in_range, MOST_BYTES};

use crate::{
    lent::{is_lent, lend, old, Lent}, oracles::{guarded, RUST}, proved::Proved,
    report::{Check, Report, Verdict, PLAIN, REAL, RULES},
};

/// What the Rust gave: a list or the number of its error; nothing where it panicked.
type Theirs<T> = Option<Given<T>>;

/// A list as it is lent.
type List<C, const N: usize> = [coder::Lent<C, N>];

/// Room for arguments that are refused.
const ROOMS: [usize; 4] = [0, 1, 300, 50_000];

// ---- what calls left behind

/// What was told, the list after the call, and whether all that stands around it is still there.
type Read<'a, T, const N: usize> = (Decoded<N>, &'a [T], bool);

#[derive(Debug, PartialEq)]
struct Written<const N: usize> {
    told: Encoded<N>,
    buffer: Vec<u8>,
    inside: bool,
}

impl<const N: usize> Written<N> {
    fn refused(number: u32, needed: usize, room: usize) -> Self {
        let told = Encoded { number, bytes: [0; N], bits: [0; N], needed };
        Written { told, buffer: old(room).collect(), inside: true }
    }

    /// What document 01 makes of codes and the room for them.
    fn of_codes(codes: &[Vec<u8>; N], bits: [usize; N], room: usize) -> Self {
        let code = codes.concat();
        let needed = code.len();
        if needed > room {
            return Written::refused(3, needed, room);
        }
        let buffer = code.into_iter().chain(old(room).skip(needed)).collect();
        let told = Encoded { number: 0, bytes: from_fn(|i| codes[i].len()), bits, needed: 0 };
        Written { told, buffer, inside: true }
    }

    /// The codes, where they are within the buffer.
    fn codes(&self) -> Option<[&[u8]; N]> {
        let (mut codes, mut at) = ([&[][..]; N], 0usize);
        for (code, bytes) in codes.iter_mut().zip(self.told.bytes) {
            let end = at.checked_add(bytes)?;
            *code = self.buffer.get(at..end)?;
            at = end;
        }
        Some(codes)
    }

    /// What document 01 says of the sizes of any code, whoever wrote it.
    fn fits(&self, bounds: [usize; N]) -> bool {
        let Encoded { number, bytes, bits, needed } = self.told;
        match number {
            0 => (0..N).all(|i| bytes[i] == bits[i].div_ceil(8) && bits[i] <= bounds[i]),
            3 => needed <= bounds.iter().map(|bits| bits.div_ceil(8)).sum(),
            _ => true,
        }
    }
}

// ---- how a list of the Rust is judged

/// Whether refusal 8 is explained: a whole number is out of range, and where the Rust, which goes on there, gives a
/// list, that has it too, behind all that was read before. Below 2^30 none of its sums and symbols has wrapped.
fn explains_8<C: Proved<N>, const N: usize>(known: &C::Known, exact: &[i64], theirs: &Theirs<C::Value>) -> bool {
    let Some(last) = exact.iter().position(|&value| !in_range(value)) else { return false };
    match theirs {
        Some(Ok(list)) if exact[last].abs() < 1 << 30 => {
            (0..=last).all(|read| list[C::place(known, read)].into() == exact[read])
        }
        _ => true,
    }
}

/// Whether bitstream.rs, like RDD 36, does not see that the data of a payload has ended: more than 31 bits are left,
/// all of them zero (or we would not have stopped), and more is still to come, since the last is 0.
fn unseen_end<const N: usize>(payloads: [&[u8]; N], parts: [usize; N], bits: [usize; N], exact: &[i64]) -> bool {
    let mut end = 0;
    (0..N).any(|i| {
        end += parts[i];
        (8 * payloads[i].len()).saturating_sub(bits[i]) > 31 && parts[i] > 0 && exact.get(end - 1) == Some(&0)
    })
}

/// `equal` says whether the list, the bits and the component are ours, `explained` whether our refusal is by a rule
/// that the Rust does not have, and `listed`, where errors may differ, whether the listed difference is here.
fn verdict<T>(number: u32, theirs: &Theirs<T>, equal: bool, explained: bool, listed: Option<bool>) -> Verdict {
    match (number, theirs) {
        // it is one in each direction: where it is said to be, it must be
        (0, Some(Err(_))) if listed == Some(true) => Verdict::Listed,
        (0, Some(Ok(_))) if listed != Some(true) && equal => Verdict::Equal,
        (5..=7 | 9..=12, Some(Err(error))) if (*error == number && equal) || listed.is_some() => Verdict::Equal,
        _ if explained => Verdict::OurRule,
        _ => Verdict::Differs,
    }
}

// ---- one call

pub struct Face<C: Proved<N>, const N: usize> {
    decode: Check,
    encode: Check,
    /// How often each of `MEET` was met.
    met: Vec<[u64; 16]>,
    payloads: [Lent; N],
    list: Lent<coder::Lent<C, N>>,
    buffer: Lent,
    /// What the model read, and what the list must be for it.
    exact: Vec<i64>,
    expected: Vec<coder::Lent<C, N>>,
}

impl<C: Proved<N>, const N: usize> Face<C, N> {
    pub fn new() -> Self {
        let decode = Check::new(C::DECODE.0, C::DECODE.1);
        Face {
            decode: if C::ENDS_WITH_DATA { decode.with_listed_difference() } else { decode },
            encode: Check::new(C::ENCODE.0, C::ENCODE.1),
            met: vec![[0; 16]; C::MEET.0.len()],
            payloads: from_fn(|_| Lent::new(&[])),
            list: Lent::new(&[]),
            buffer: Lent::new(&[]),
            exact: Vec::new(),
            expected: Vec::new(),
        }
    }

    pub fn close(self, report: &mut Report) {
        report.close(self.decode);
        for (whom, met) in C::MEET.0.iter().zip(self.met) {
            for &number in C::MEET.1 {
                report.meet(met[number as usize], &format!("the answer {} to a payload of {}", number, whom));
            }
        }
        report.close(self.encode);
    }

    /// Decodes into a list of so many lent items, and tells what the proved code answered.
    fn decode_lent(&mut self, payloads: [&[u8]; N], shape: [usize; N], length: usize) -> Decoded<N> {
        self.payloads.iter_mut().zip(payloads).for_each(|(lent, payload)| lent.set(payload.iter().copied()));
        self.list.set(old(length));
        let told = C::decode(from_fn(|i| self.payloads[i].items()), shape, self.list.items_mut());
        let ours: Read<_, N> = (told, self.list.items(), self.list.guards_stand());
        let case = || format!("decode {:?} into {} from {:02x?}", shape, length, payloads);
        let mut asked = self.decode.asked(told.number, &ours, &case);
        let known = match C::decode_arguments(payloads, shape, count_of::<C::Value>(length)) {
            Ok(known) => known,
            Err(number) => {
                let refused = Decoded { number, component: 0, bits: [0; N] };
                asked.hold_to_rules_alone(&(refused, &old(length).collect::<Vec<_>>(), true));
                return told;
            }
        };
        if let Some(whom) = C::about(shape, &told) {
            self.met[whom][(told.number as usize).min(15)] += 1;
        }

        let (exact, expected) = (&mut self.exact, &mut self.expected);
        expected.clear();
        expected.resize(length, Default::default());
        let by_rule = match C::read(payloads, &known, exact) {
            Ok(bits) => {
                for (read, &value) in exact.iter().enumerate() {
                    let place = C::Value::ITEMS * C::place(&known, read);
                    C::Value::put(value, &mut expected[place..place + C::Value::ITEMS]);
                }
                Decoded { number: 0, component: 0, bits }
            }
            Err((component, number)) => Decoded { number, component, bits: [0; N] },
        };
        asked.hold_to_rules(&(by_rule, expected, true));

        let outcome: Outcome<N> = if told.number == 0 { Ok(told.bits) } else { Err((told.component, told.number)) };
        for (oracle, rust) in RUST.iter().enumerate() {
            let theirs = guarded(|| C::rust_decode(rust, payloads, &known));
            let plain = theirs.as_ref().filter(|_| oracle == PLAIN);
            let bits = plain.and_then(|given| guarded(|| C::plain_bits(payloads, &known, given)).flatten());
            let other_list = matches!(&theirs, Some(Ok(list)) if !is_lent(list, ours.1));
            let equal = !other_list && bits.map_or(true, |bits| bits == outcome);
            let explained = told.number == 8 && explains_8::<C, N>(&known, exact, &theirs);
            let may_differ = C::ENDS_WITH_DATA && oracle == REAL;
            let listed = may_differ.then(|| unseen_end(payloads, C::parts(&known), told.bits, exact));
            let verdict = verdict(told.number, &theirs, equal, explained, listed);
            asked.judge(oracle, verdict, &(bits, &theirs));
        }
        told
    }

    /// Encodes into buffers with just enough room, and where others are asked for too also with a byte less, more than
    /// enough and none; and reads the codes back.
    fn encode_into(&mut self, list: &[C::Value], shape: [usize; N], others: bool) {
        let lent = lend(list);
        let known = match C::encode_arguments(list, shape) {
            Ok(known) => known,
            Err(number) => return self.encode_refused(&lent, shape, number),
        };
        let codes = [PLAIN, REAL].map(|oracle| guarded(|| C::rust_encode(&RUST[oracle], list, &known)));
        let (lengths, bits) = codes[PLAIN].as_ref().map_or(([0; N], [0; N]), |(codes, bits)| {
            (from_fn(|i| codes[i].len()), *bits)
        });
        let needed: usize = lengths.iter().sum();
        let (bounds, most) = C::bounds(list, &known);
        // room for some of the codes is none; with room for any list it is not counted first
        let last = needed - lengths[N - 1];
        let around = [needed, needed.saturating_sub(1), needed + 1, needed + 9, lengths[0], last, last + 1];
        let mut rooms = [&around[..], &[most.saturating_sub(1), most, most + 8, 0]].concat();
        rooms.truncate(if others { rooms.len() } else { 1 });
        rooms.sort_unstable();
        rooms.dedup();
        for room in rooms {
            let ours = self.written(&lent, shape, room);
            let read_back = room != needed || ours.told.number != 0 || self.reads_back(&ours, &lent, shape, &known);
            let case = || format!("encode {:?} into {} bytes from {:?}", shape, room, list);
            let mut asked = self.encode.asked(ours.told.number, &ours, &case);
            // the bits of the plain layer hold for both
            asked.hold(&[PLAIN, REAL].map(|i| codes[i].as_ref().map(|codes| Written::of_codes(&codes.0, bits, room))));
            let verdict = if read_back && ours.fits(bounds) { Verdict::Equal } else { Verdict::Differs };
            asked.judge(RULES, verdict, &("read back", read_back, "at most bits", bounds));
        }
    }

    /// Arguments that only the face has: numbers of lent items around those of so many values (parts of one, a block
    /// more, one item a value, hardly any), and shapes that are this one in fewer bits.
    pub fn ask_own(&mut self, shape: [usize; N], values: usize) {
        let right = C::Value::ITEMS * values;
        let near = (0..=4).chain(right.saturating_sub(4)..=right + 4).chain([values, right + 256, 2 * right]);
        let near = near.map(|items| (shape, items));
        let with = |i: usize, number: usize| from_fn(|j| if i == j { number } else { shape[j] });
        let other = (0..N).flat_map(|i| wide(shape[i]).map(move |number| (with(i, number), right)));
        let long = [0x80; MOST_BYTES + 1];
        for (shape, items) in near.chain(other) {
            for payload in [&[][..], &[0x80], &[0x82, 0x3f, 0xff, 0xff, 0xff], &long] {
                self.decode_lent([payload; N], shape, items);
            }
            // both directions have one rule for these; most of the values are out of range, which is refused behind it
            if let Err(number) = C::decode_arguments([&[]; N], shape, count_of::<C::Value>(items)) {
                self.encode_refused(&old(items).collect::<Vec<_>>(), shape, number);
            }
        }
    }

    fn encode_refused(&mut self, lent: &List<C, N>, shape: [usize; N], number: u32) {
        for room in ROOMS {
            let ours = self.written(lent, shape, room);
            let case = || format!("encode {:?} into {} bytes from {:?}", shape, room, lent);
            let mut asked = self.encode.asked(ours.told.number, &ours, &case);
            asked.hold_to_rules_alone(&Written::refused(number, 0, room));
        }
    }

    fn written(&mut self, lent: &List<C, N>, shape: [usize; N], room: usize) -> Written<N> {
        self.list.set(lent.iter().copied());
        self.buffer.set(old(room));
        let told = C::encode(self.list.items(), shape, self.buffer.items_mut());
        Written { told, buffer: self.buffer.items().to_vec(), inside: self.buffer.guards_stand() }
    }

    /// Whether our decode reads the codes as the list that they were made of, bit for bit as long; and the first of
    /// them as it should where it is resized.
    fn reads_back(&mut self, ours: &Written<N>, lent: &List<C, N>, shape: [usize; N], known: &C::Known) -> bool {
        let Some(codes) = ours.codes() else { return false };
        let done = Decoded { number: 0, component: 0, bits: ours.told.bits };
        let as_it_is = (codes[0].len(), 0);
        C::resized(known, codes[0].len(), ours.told.bits[0]).into_iter().chain([as_it_is]).all(|(length, number)| {
            let mut first = codes[0].to_vec();
            first.resize(length, 0);
            let told = self.decode_lent(from_fn(|i| if i == 0 { &first[..] } else { codes[i] }), shape, lent.len());
            if number == 0 { told == done && self.list.items() == lent } else { told.number == number }
        })
    }
}

impl<C: Proved<N>, const N: usize> Asking<C, N> for Face<C, N> {
    fn decode(&mut self, payloads: [&[u8]; N], shape: [usize; N], length: usize) {
        self.decode_lent(payloads, shape, C::Value::ITEMS * length);
    }

    fn encode(&mut self, list: &[C::Value], shape: [usize; N], room: Room) {
        self.encode_into(list, shape, room != Room::Exactly);
    }
}

/// How many values so many lent items are; where the last one is not whole, a number that no list has.
fn count_of<V: Value>(items: usize) -> usize {
    if items % V::ITEMS == 0 { items / V::ITEMS } else { usize::MAX }
}
