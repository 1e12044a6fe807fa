// The reader object: two fields that a reader of the crate `probe` reads, one after the other, held to a reader object
// of the Rust. Behind a field that runs out the Rust's stands at the end of the bits and ours where it was, which is a
// listed difference; so a new one reads the second field there.
use cases::{bytes::{each, every, random_bytes}, random::Random};
use faces::probe;
use model::{bits, MOST_BYTES};

use crate::{bits::told, lent::Lent, report::{Check, Report}, Run};

pub fn run(run: &Run, report: &mut Report) {
    let mut check = Check::new("first_fields", &[0, 1, 5, 6]).without_rules();
    // how often the second field was done and refused, behind a first one that was done and refused
    let mut met = [[0; 2]; 2];
    let mut ask = |payload: &[u8], widths: [u32; 2]| {
        let ours = probe::first_fields(Lent::new(payload).items(), widths);
        let [first, second] = ours.map(|told| told.number);
        met[usize::from(first != 0)][usize::from(second != 0)] += 1;
        let theirs = both!(|rust| {
            bits::first_fields(payload, widths, |widths| rust::layer::first_fields(payload, widths)).map(told)
        });
        let case = || format!("fields of {:?} bits of {:02x?}", widths, payload);
        check.asked(first, &ours, &case).hold(&theirs);
    };
    // every payload of a byte, and longer ones in patterns
    let widths = |most: u32| each(0..=most, 0..=most).map(|(n, m)| [n, m]);
    each((0..=1).flat_map(every), widths(9)).for_each(|(payload, widths)| ask(&payload, widths));
    let payloads = each([0, 1, 2, 3, 4, 5, 8, 9, MOST_BYTES, MOST_BYTES + 1], [0x00, 0xff, 0x96]);
    for (length, fill) in payloads {
        widths(34).for_each(|widths| ask(&vec![fill; length], widths));
    }
    let random = &mut Random::new(run.seed);
    for _ in 0..run.cases / 8 {
        let payload = random_bytes(random);
        let mut width = || if random.once_in(32) { random.next() as u32 } else { random.below(35) as u32 };
        ask(&payload, [width(), width()]);
    }
    report.close(check);
    for (i, second) in ["done", "refused"].iter().enumerate() {
        report.meet(met[0][i], &format!("a second field {} behind one that was done", second));
        report.meet(met[1][i], &format!("a second field {} behind one that was refused", second));
    }
}
