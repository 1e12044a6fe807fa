// The races of a coder: decoding, and encoding with room for any list and with room to the byte. A decode of the Rust
// makes a cleared Vec in every call; the proved code writes into the lent list, which is still full of the last call's.
// An encode of the Rust writes into Vecs that grow; the proved code into one lent buffer.
use std::hint::black_box;

use crate::{Plan, Side, SIDES};

/// The payloads or codes of the three components of a slice. What has one payload has it first.
pub type Codes = [Vec<u8>; 3];

/// What a coder is told beside its lists, and how each side is called.
pub trait Coder: Copy {
    /// Its functions of the C face, decoding first.
    const FACE: [&'static str; 2];
    /// What a list of the C face holds, and how much of it is one thing.
    type Item: Copy + PartialEq + From<u8>;
    const THING: usize;
    /// What the Rust reads.
    type Read: PartialEq;

    fn list(read: &Self::Read) -> Vec<Self::Item>;
    /// The bytes of the longest code.
    fn room(self) -> usize;
    /// The proved code answers by a refusal number.
    fn decode(self, payloads: &Codes, list: &mut [Self::Item]) -> u32;
    fn encode(self, list: &[Self::Item], out: &mut [u8]) -> u32;
    fn rust_decode(self, side: Side, payloads: &Codes) -> Self::Read;
    fn rust_encode(self, side: Side, read: &Self::Read) -> Codes;
}

/// A payload, what is read from it, and the code of that, which may be another.
pub struct Case<C: Coder> {
    coder: C,
    payloads: Codes,
    read: C::Read,
    list: Vec<C::Item>,
    code: Vec<u8>,
}

impl<C: Coder> Case<C> {
    pub fn of_payloads(coder: C, payloads: Codes) -> Self {
        let read = coder.rust_decode(Side::Real, &payloads);
        let (list, code) = (C::list(&read), coder.rust_encode(Side::Real, &read).concat());
        Case { coder, payloads, read, list, code }
    }

    pub fn of_list(coder: C, read: C::Read) -> Self {
        Case::of_payloads(coder, coder.rust_encode(Side::Real, &read))
    }

    fn is_read(&self, side: Side) -> bool {
        if let Side::Real | Side::Plain = side {
            return self.coder.rust_decode(side, &self.payloads) == self.read;
        }
        let mut list = vec![1.into(); self.list.len()];
        self.coder.decode(&self.payloads, &mut list) == 0 && list == self.list
    }

    fn is_written(&self, side: Side) -> bool {
        if let Side::Real | Side::Plain = side {
            return self.coder.rust_encode(side, &self.read).concat() == self.code;
        }
        let mut out = vec![0xff; self.code.len()];
        self.coder.encode(&self.list, &mut out) == 0 && out == self.code
    }
}

/// Real cases first, if they are there, and then each kind of made ones.
pub fn races<C: Coder>(plan: &Plan, of: &str, real: Result<Vec<Case<C>>, String>, made: &[(&str, Vec<Case<C>>)]) {
    match &real {
        Ok(cases) => race(plan, &format!("real{}", of), cases),
        Err(why) => eprintln!("bench: {}", why),
    }
    for (kind, cases) in made {
        race(plan, &format!("{}{}", kind, of), cases);
    }
}

fn race<C: Coder>(plan: &Plan, name: &str, cases: &[Case<C>]) {
    let things = cases.iter().map(|case| case.list.len()).sum::<usize>() / C::THING;
    let most = |of: fn(&Case<C>) -> usize| cases.iter().map(of).max().unwrap_or(0);

    let mut lent = vec![1.into(); most(|case| case.list.len())];
    let right = |side| cases.iter().all(|case| case.is_read(side));
    plan.race(&format!("decode {}", name), C::FACE[0], things, SIDES, &right, &mut |side| {
        for Case { coder, payloads, list, .. } in cases {
            if let Side::Real | Side::Plain = side {
                drop(black_box(coder.rust_decode(side, black_box(payloads))));
            } else {
                black_box(coder.decode(black_box(payloads), black_box(&mut lent[..list.len()])));
            }
        }
    });

    let mut lent = vec![0xff; most(|case| case.coder.room())];
    let right = |side| cases.iter().all(|case| case.is_written(side));
    for (room, exact) in [("", false), (", room to the byte", true)] {
        plan.race(&format!("encode {}{}", name, room), C::FACE[1], things, SIDES, &right, &mut |side| {
            for Case { coder, read, list, code, .. } in cases {
                if let Side::Real | Side::Plain = side {
                    drop(black_box(coder.rust_encode(side, black_box(read))));
                } else {
                    let room = if exact { code.len() } else { coder.room() };
                    black_box(coder.encode(black_box(list), black_box(&mut lent[..room])));
                }
            }
        });
    }
}
