// Matrices and the scale over the C face: every pair, every blend, every scale, and what a pair of tables is. Over the
// crate `probe` whether a pair is the default, the block scans, and what a format and an alpha kind stand for.
//
// The Rust has tables and enums where some of these have selectors, so what a selector names decides, and 13 where it
// names nothing. The Rust blends for the numbers of its profiles alone; the others are held to the formula.
use cases::{bytes::{each, wide}, random::Random};
use faces::{cart::{self, PAIRS}, probe};
use model::{alpha::Kind, matrices::{self as rules, Pair}, slices};
use oracle_plain::asked as plain;

use crate::{lent::{old, Lent}, report::{Check, Report}, Run};

/// Of the random cases that a run asks for, one in so many is a pair of tables.
const CASES_A_PAIR: u64 = 20;

pub fn run(run: &Run, report: &mut Report) {
    pairs(report);
    blends(report);
    numbers(report);
    scans(report);
    flags(run, report);
}

/// Numbers up to an end and past it, and those that are such a number in fewer bits.
fn selectors(end: usize) -> impl Iterator<Item = usize> {
    (0..=end + 1).chain([255, 256, 1 << 32, usize::MAX]).chain((0..=end).flat_map(wide))
}

// ---- pairs

/// What a call that gives a pair answered, the tables after it, and whether all around them is still there.
type Given = (u32, [Vec<u8>; 2], bool);

/// Calls with two tables that are full of something else.
fn given(call: impl FnOnce(&mut [u8; 64], &mut [u8; 64]) -> u32) -> Given {
    let old: Vec<u8> = old(64).collect();
    let mut lent = [Lent::new(&old), Lent::new(&old)];
    let [luma, chroma] = &mut lent;
    let [luma, chroma] = [luma, chroma].map(|table| table.items_mut().try_into().expect("64"));
    let number = call(luma, chroma);
    let inside = lent.iter().all(Lent::guards_stand);
    (number, lent.map(|table| table.items().to_vec()), inside)
}

/// A pair as it is given; where it is refused, the tables are as they were.
fn expected(pair: Result<Pair, u32>) -> Given {
    match pair {
        Ok(pair) => (0, pair.map(|table| table.to_vec()), true),
        Err(number) => (number, [old(64).collect(), old(64).collect()], true),
    }
}

fn pairs(report: &mut Report) {
    let mut check = Check::new("the pairs", &[0]).without_rules();
    for (i, (name, call)) in PAIRS.into_iter().enumerate() {
        let (ours, case) = (given(call), || name.to_string());
        // each under every name that the Rust has for it
        for other in 0..plain::pairs()[i].len() {
            let theirs = both!(|rust| expected(Ok(rust::asked::pairs()[i][other])));
            check.asked(ours.0, &ours, &case).hold(&theirs);
        }
    }
    report.close(check);
}

fn blends(report: &mut Report) {
    let mut check = Check::new("cart_blend", &[0, 13]);
    let perceptual = plain::pairs()[1][0];
    let (mut by_profile, mut by_formula) = (0, 0);
    for number in selectors(9) {
        let ours = given(|luma, chroma| cart::blend(number, luma, chroma));
        let case = || format!("blend {}", number);
        let by_rule = expected(rules::blend(number, perceptual));
        let profiles = plain::blends(number).len();
        if profiles == 0 {
            by_formula += u64::from(by_rule.0 == 0);
            check.asked(ours.0, &ours, &case).hold_to_rules_alone(&by_rule);
        }
        for i in 0..profiles {
            by_profile += 1;
            let mut asked = check.asked(ours.0, &ours, &case);
            asked.hold_to_rules(&by_rule);
            asked.hold(&both!(|rust| expected(Ok(rust::asked::blends(number)[i]))));
        }
    }
    report.close(check);
    report.meet(by_profile, "a profile's blend");
    report.meet(by_formula, "a blend that no profile has");
}

// ---- single numbers

/// What a call answered, and the numbers that came back.
type Told<const N: usize> = (u32, [usize; N]);

fn told<const N: usize>(numbers: Result<[usize; N], u32>) -> Told<N> {
    numbers.map_or_else(|number| (number, [0; N]), |numbers| (0, numbers))
}

/// Judges a call with a selector. Nothing is asked of the Rust where its own has fewer bits.
fn judge<const N: usize>(
    check: &mut Check,
    selector: &[usize],
    ours: Told<N>,
    by_rule: Result<[usize; N], u32>,
    rust: Option<[Option<Result<[usize; N], u32>>; 2]>,
) {
    let case = || format!("{:?}", selector);
    let mut asked = check.asked(ours.0, &ours, &case);
    match rust {
        None => asked.hold_to_rules_alone(&told(by_rule)),
        Some(rust) => {
            asked.hold_to_rules(&told(by_rule));
            asked.hold(&rust.map(|numbers| numbers.map(told)));
        }
    }
}

fn numbers(report: &mut Report) {
    let mut check = Check::new("cart_qscale", &[0]);
    for index in 0..=255 {
        let rust = both!(|rust| Ok([rust::asked::qscale(index)]));
        judge(&mut check, &[index.into()], cart::qscale(index), Ok([rules::qscale(index)]), Some(rust));
    }
    report.close(check);

    let mut check = Check::new("blocks_per_mb", &[0, 13]);
    for chroma in selectors(3) {
        let rust = u8::try_from(chroma).ok().map(|chroma| both!(|rust| rust::asked::blocks_per_mb(chroma)));
        judge(&mut check, &[chroma], probe::blocks_per_mb(chroma), slices::blocks_per_mb(chroma), rust);
    }
    report.close(check);

    let mut check = Check::new("alpha_code", &[0, 13]);
    for code in selectors(2) {
        let rust = u8::try_from(code).ok().map(|code| both!(|rust| rust::asked::alpha_code(code).map(|same| [same])));
        judge(&mut check, &[code], probe::alpha_code(code), Kind::of(code).map(|kind| [kind.number]), rust);
    }
    report.close(check);
}

fn scans(report: &mut Report) {
    let mut check = Check::new("scan", &[0, 13]);
    let two: Vec<usize> = selectors(1).collect();
    for ((scan, inverse), index) in each(each(two.clone(), two), selectors(63).collect::<Vec<_>>()) {
        let known = scan < 2 && inverse < 2 && index < 64;
        let rust = known.then(|| both!(|rust| Ok([rust::asked::scans()[scan][inverse][index].into()])));
        // an inverse is one by the table that it inverts, whatever the Rust's own has
        let by_rule = known.then(|| match inverse {
            0 => plain::scans()[scan][0][index].into(),
            _ => plain::scans()[scan][0].iter().position(|&n| usize::from(n) == index).expect("a permutation"),
        });
        let ours = probe::scan(scan, inverse, index);
        judge(&mut check, &[scan, inverse, index], ours, by_rule.map(|place| [place]).ok_or(13), rust);
    }
    report.close(check);
}

// ---- what a pair of tables is

fn flags(run: &Run, report: &mut Report) {
    let (mut flags, mut is_default) = (Check::new("cart_matrix_flags", &[0]), Check::new("is_default", &[0, 1]));
    // how often each combination of valid, luma loaded and chroma loaded was met
    let mut met = [0; 8];
    for pair in every_pair().chain(every_border()).chain(random_pairs(run)) {
        let lent = pair.map(|table| Lent::new(&table));
        let [luma, chroma] = [0, 1].map(|i| lent[i].items().try_into().expect("64"));
        let theirs = both!(|rust| rust::asked::flags(pair).map(usize::from));
        let [valid, load_luma, load_chroma, default] = rules::flags(pair).map(usize::from);
        met[4 * valid + 2 * load_luma + load_chroma] += 1;

        let case = || format!("{:?}", pair);
        let ours = cart::matrix_flags(luma, chroma);
        let mut asked = flags.asked(ours.0, &ours, &case);
        asked.hold_to_rules(&(0, [valid, load_luma, load_chroma]));
        asked.hold(&theirs.map(|flags| flags.map(|flags| (0, [flags[0], flags[1], flags[2]]))));
        let ours = probe::is_default(luma, chroma);
        let mut asked = is_default.asked(ours, &ours, &case);
        asked.hold_to_rules(&(default as u32));
        asked.hold(&theirs.map(|flags| flags.map(|flags| flags[3] as u32)));
    }
    report.close(flags);
    report.close(is_default);
    // fours in both tables are valid, so nothing is loaded for no bad pair
    for (i, times) in met.into_iter().enumerate().skip(1) {
        report.meet(times, &format!("valid {}, loads luma {}, chroma {}", i / 4, i / 2 % 2, i % 2));
    }
}

/// The pairs and blends of the Rust, and each luma with each chroma.
fn every_pair() -> impl Iterator<Item = Pair> {
    let pairs = plain::pairs().into_iter().flatten().chain((1..=8).flat_map(plain::blends));
    let tables: Vec<[u8; 64]> = pairs.flatten().collect();
    tables.clone().into_iter().flat_map(move |luma| tables.clone().into_iter().map(move |chroma| [luma, chroma]))
}

/// A weight at and around each border, at every place of either table or of both, over fours and over other
/// good tables.
fn every_border() -> impl Iterator<Item = Pair> {
    let weights = [0, 1, 2, 3, 4, 5, 62, 63, 64, 65, 127, 128, 255];
    let places = (0..64).flat_map(move |place| weights.map(|weight| (place, weight)));
    let fills = [[4, 4], [2, 2], [63, 63], [4, 5], [5, 4]].map(|fill| fill.map(|weight| [weight; 64]));
    places.flat_map(move |(place, weight)| fills.map(|fill| (fill, place, weight))).flat_map(|(fill, place, weight)| {
        let [mut luma, mut chroma] = fill;
        (luma[place], chroma[place]) = (weight, weight);
        [[luma, fill[1]], [fill[0], chroma], [luma, chroma]]
    })
}

/// Tables of valid weights, or of fours, with some weights at the borders; chroma is often luma itself, or
/// luma but for one place.
fn random_pairs(run: &Run) -> impl Iterator<Item = Pair> {
    let mut random = Random::new(run.seed);
    (0..run.cases / CASES_A_PAIR).map(move |_| {
        let luma = random_table(&mut random);
        let mut chroma = if random.once_in(2) { luma } else { random_table(&mut random) };
        if random.once_in(3) {
            chroma[random.below(64) as usize] = random.pick(&[1, 2, 4, 63, 64]);
        }
        [luma, chroma]
    })
}

fn random_table(random: &mut Random) -> [u8; 64] {
    let fours = random.once_in(2);
    let mut table = [4; 64].map(|four| if fours { four } else { 2 + random.below(62) as u8 });
    if random.once_in(3) {
        table[random.below(64) as usize] = random.pick(&[0, 1, 2, 3, 4, 5, 62, 63, 64, 255]);
    }
    table
}
