// sample_program COMMAND..: runs the sample program, by this command, on inputs of every kind and compares all that it
// writes, byte for byte, with what the Rust over plain bits makes of them. The last line counts the inputs.
// sample_program --of FILE: writes what the program must write for the input FILE; crates/decode/stdout was made by it.
use std::{io::Write, process::{Command, Stdio}};

use cases::document::REFUSED;
use model::{coder::{Coder, PLAIN}, coefficients::Coefficients};

/// The coefficients come from the Rust. The numbers of refusals and bits, which it does not tell, are the model's.
fn expected(input: &[u8]) -> String {
    let Some((&blocks, payload)) = input.split_first() else { return "refused 1\n".to_string() };
    let known = Coefficients::decode_arguments([payload], [blocks.into()], 64 * usize::from(blocks));
    let read = |blocks| Coefficients::read([payload], &blocks, &mut Vec::new()).map_err(|(_, number)| number);
    match known.and_then(read) {
        Err(number) => format!("refused {}\n", number),
        Ok([bits]) => {
            let list = (PLAIN.decode)(payload, blocks.into()).expect("the model reads it");
            let lines: String = list.iter().map(|value| format!("{}\n", value)).collect();
            format!("bits {}\n{}", bits, lines)
        }
    }
}

/// What the program writes. It may stop reading before the input ends, which closes the pipe.
fn written(command: &[String], input: &[u8]) -> String {
    let mut program = Command::new(&command[0]);
    let program = program.args(&command[1..]).stdin(Stdio::piped()).stdout(Stdio::piped());
    let mut child = program.spawn().expect("the program runs");
    let mut stdin = child.stdin.take().expect("a pipe");
    let input = input.to_vec();
    let writer = std::thread::spawn(move || drop(stdin.write_all(&input)));
    let output = child.wait_with_output().expect("the program ends");
    writer.join().expect("the writer ends");
    assert!(output.status.success(), "the program ended with {}", output.status);
    String::from_utf8(output.stdout).expect("text")
}

/// A byte with the number of blocks, and a payload.
fn inputs() -> Vec<Vec<u8>> {
    let mut inputs = vec![vec![]];
    let mut add = |blocks: u8, payload: &[u8]| inputs.push([&[blocks], payload].concat());
    for (blocks, payload) in [(0, &[][..]), (0, &[0xff, 0x00]), (33, &[]), (33, &[0x80]), (255, &[0x80])] {
        add(blocks, payload);
    }
    for length in [65_535, 65_536, 65_537, 65_538, 200_000, 5_000_000] {
        let mut payload = vec![0; length];
        payload[0] = 0x80;
        add(1, &payload);
        add(0, &payload);
    }
    for payload in [&[0x80][..], &[], &[0x00, 0x00, 0x00, 0x40, 0x00, 0x00, 0x1e]] {
        add(1, payload);
    }
    REFUSED.iter().for_each(|(payload, _)| add(1, payload));
    // a list of 32 blocks of every sign, and its code with each byte cut off
    let list: Vec<i32> = (0..2048).map(|i: i32| if i % 7 == 0 { (i * 37) % 4096 - 2048 } else { 0 }).collect();
    let code = (PLAIN.encode)(&list, 32);
    add(32, &[&code[..], &[0; 40]].concat());
    (0..16).for_each(|cut| add(32, &code[..code.len() - cut]));
    inputs
}

fn main() {
    let words: Vec<String> = std::env::args().skip(1).collect();
    match &words[..] {
        [] => panic!("usage: sample_program COMMAND.. | sample_program --of FILE"),
        [word, file] if word == "--of" => {
            return print!("{}", expected(&std::fs::read(file).expect("the file can be read")));
        }
        _ => (),
    }
    let inputs = inputs();
    for number in [1, 5, 6, 7, 8] {
        let refused = inputs.iter().any(|input| expected(input) == format!("refused {}\n", number));
        assert!(refused, "no input is refused with {}", number);
    }
    let other = |input: &&Vec<u8>| written(&words, input) != expected(input);
    let failed: Vec<&Vec<u8>> = inputs.iter().filter(other).collect();
    for input in &failed {
        let start = &input[..input.len().min(40)];
        println!("{} bytes, {:02x?}: not what the Rust makes of it", input.len(), start);
    }
    println!("{} passed, {} failed", inputs.len() - failed.len(), failed.len());
    std::process::exit(i32::from(!failed.is_empty()));
}
