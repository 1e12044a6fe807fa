// The stored cases of the coders, and their answers.
//
// An answer is the Rust's over the plain bit layer, with the bits that this layer notes. Where it has no rule (the
// arguments, the room, a coefficient out of range, which component is refused) the model of document 01 answers, and
// wherever both do they must agree.
use cases::asking::{Asking, Room};
use model::{alpha::Alpha, coder::{Coder, PLAIN}, coefficients::Coefficients, slices::Slices};

use crate::{hex, Stored};

/// What a buffer holds before a call.
const OLD: u8 = 0xa5;
/// The most bytes of payloads and the most room that a line has; of more the zero bytes that end them have no word.
const MOST_BYTES: usize = 4_096;

/// How the cases of a coder are written.
pub trait Words<const N: usize>: Coder<N> {
    /// To decode, and to encode.
    const LETTERS: [char; 2];
    /// Of how many payloads the length is told.
    const LENGTHS: usize;
    /// The longest list that a line may ask for: a little more than may be coded.
    const LONGEST: usize;

    /// A list as it is written, with a word for each place that is not 0.
    fn list(list: &[Self::Value]) -> Vec<i64> {
        list.iter().map(|&value| value.into()).collect()
    }
}

impl Words<1> for Coefficients {
    const LETTERS: [char; 2] = ['d', 'c'];
    const LENGTHS: usize = 0;
    const LONGEST: usize = 2_112;
}

impl Words<3> for Slices {
    const LETTERS: [char; 2] = ['u', 'k'];
    const LENGTHS: usize = 2;
    const LONGEST: usize = 6_912;
}

impl Words<1> for Alpha {
    const LETTERS: [char; 2] = ['a', 'h'];
    const LENGTHS: usize = 1;
    const LONGEST: usize = 16_385;

    /// The difference of each sample to the one before it, which for the first is 0.
    fn list(list: &[u16]) -> Vec<i64> {
        let before = std::iter::once(&0).chain(list);
        list.iter().zip(before).map(|(&sample, &before)| i64::from(sample) - i64::from(before)).collect()
    }
}

/// Numbers, each with a space behind it.
fn words(numbers: impl IntoIterator<Item = usize>) -> String {
    numbers.into_iter().map(|number| format!("{} ", number)).collect()
}

/// The places that are not 0, each with a space before it.
fn places(list: Vec<i64>) -> String {
    let set = list.into_iter().enumerate().filter(|&(_, value)| value != 0);
    set.map(|(place, value)| format!(" {}:{}", place, value)).collect()
}

impl<C: Words<N>, const N: usize> Asking<C, N> for Stored {
    fn decode(&mut self, payloads: [&[u8]; N], shape: [usize; N], length: usize) {
        let answer = match C::decode_arguments(payloads, shape, length) {
            Err(number) => format!("refused {} kept", number),
            Ok(known) => decoded::<C, N>(payloads, &known),
        };
        let mut bytes = payloads.concat();
        if bytes.len() > MOST_BYTES {
            bytes.truncate(bytes.iter().rposition(|&byte| byte != 0).map_or(0, |last| last + 1));
        }
        assert!(length <= C::LONGEST && bytes.len() <= MOST_BYTES);
        let lengths = payloads.iter().take(C::LENGTHS).map(|payload| payload.len());
        let numbers = words(shape.into_iter().chain([length]).chain(lengths));
        self.add(format!("{} {}{}", C::LETTERS[0], numbers, hex(&bytes)), answer);
    }

    fn encode(&mut self, list: &[C::Value], shape: [usize; N], room: Room) {
        let known = C::encode_arguments(list, shape);
        let codes = known.as_ref().map(|known| C::rust_encode(&PLAIN, list, known)).map_err(|&number| number);
        let needed = codes.as_ref().map_or(0, |(codes, _)| codes.iter().map(Vec::len).sum());
        let room = match room {
            Room::Of(room) => room,
            Room::Needed(more) => needed + more,
            Room::Short => needed.saturating_sub(1),
            Room::Exactly => needed,
        };
        let answer = match (codes, known) {
            (Ok((codes, bits)), Ok(known)) if needed <= room => {
                let (bounds, _) = C::bounds(list, &known);
                assert!((0..N).all(|i| bits[i] <= bounds[i]), "a code of {:?} bits", bits);
                let mut bytes = codes.concat();
                bytes.resize(room, OLD);
                words(codes.iter().map(Vec::len).chain(bits)) + &hex(&bytes)
            }
            (Ok(_), _) => format!("refused 3 {} kept", needed),
            (Err(number), _) => format!("refused {} kept", number),
        };
        assert!(list.len() <= C::LONGEST && room <= MOST_BYTES);
        let numbers = words(shape.into_iter().chain([list.len()]));
        self.add(format!("{} {}{}{}", C::LETTERS[1], numbers, room, places(C::list(list))), answer);
    }
}

fn decoded<C: Words<N>, const N: usize>(payloads: [&[u8]; N], known: &C::Known) -> String {
    let mut exact = Vec::new();
    let by_model = C::read(payloads, known, &mut exact);
    let component = |component: usize| ["", "y ", "cb ", "cr "][component];
    // of no values nothing can be said to be zero
    let left = if C::parts(known) == [0; N] { "kept" } else { "zero" };
    if let Err((refused, 8)) = by_model {
        return format!("refused 8 {}{}", component(refused), left);
    }
    let by_rust = C::rust_decode(&PLAIN, payloads, known);
    let by_bits = C::plain_bits(payloads, known, &by_rust).unwrap_or(by_model);
    assert_eq!(by_bits, by_model, "the Rust and the model on {}", hex(&payloads.concat()));
    match (by_rust, by_model) {
        (Ok(list), Ok(bits)) => {
            let equal = (0..list.len()).all(|read| list[C::place(known, read)].into() == exact[read]);
            assert!(equal && list.len() == exact.len(), "the Rust and the model on {}", hex(&payloads.concat()));
            words(bits).trim_end().to_string() + &places(C::list(&list))
        }
        (Err(number), Err((refused, same))) if number == same => {
            format!("refused {} {}{}", number, component(refused), left)
        }
        _ => panic!("the Rust and the model on {}", hex(&payloads.concat())),
    }
}
