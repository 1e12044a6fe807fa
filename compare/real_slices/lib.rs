// Real slices, which three encoders wrote, with what must be read from them: the file real-slices.jsonl, one
// JSON object a line, in ../shared/vectors or in the folder that the environment variable
// MUONSATREY_VECTORS names.
use std::{fs, path::Path};

pub struct Slice {
    pub name: String,
    /// Macroblocks, format and scan.
    pub shape: [usize; 3],
    /// Y, Cb and Cr.
    pub payloads: [Payload; 3],
    /// SHA-256 of the list of blocks as little-endian i32.
    pub sha: String,
    pub alpha: Option<Alpha>,
}

/// One component of a slice.
pub struct Payload {
    pub name: String,
    pub blocks: usize,
    pub bytes: Vec<u8>,
    /// The bits that are read.
    pub bits: usize,
    /// SHA-256 of the scanned coefficients as little-endian i32.
    pub sha: String,
}

/// The alpha of a slice.
pub struct Alpha {
    pub name: String,
    pub kind: usize,
    pub samples: usize,
    pub bytes: Vec<u8>,
    /// Whether the Rust's own encoder wrote it.
    pub by_rust: bool,
    pub outcome: Outcome,
}

/// What reading an alpha payload comes to.
pub enum Outcome {
    /// The bits that are read, and SHA-256 of the samples as little-endian u16.
    Read { bits: usize, sha: String },
    /// The refusal, and the bit at which the refused element begins.
    Refused { number: u32, start: usize },
}

/// The components whose payloads are coefficients, in their order.
pub const COMPONENTS: [&str; 3] = ["Y", "Cb", "Cr"];

/// The lines of the file.
pub fn lines() -> Result<Vec<String>, String> {
    let folder = std::env::var("MUONSATREY_VECTORS").unwrap_or("../shared/vectors".to_string());
    let text = fs::read_to_string(Path::new(&folder).join("real-slices.jsonl")).map_err(|error| {
        format!(
            "the file real-slices.jsonl, which should hold the real slices, cannot be read in {} ({}); \
             name another folder with the environment variable MUONSATREY_VECTORS",
            folder, error
        )
    })?;
    Ok(text.lines().map(str::to_string).collect())
}

/// A slice, given by a line of the file.
pub fn slice(line: &str) -> Result<Slice, String> {
    // the one object within the object has keys of its own
    let alpha = member(line, "alpha").ok();
    let line = &alpha.map_or(line.to_string(), |alpha| line.replace(alpha, ""));
    let shape = [number(line, "mbs")?, number(line, "fmt")?, number(line, "scan")?];
    let chroma = match shape[1] {
        2 => 2,
        3 => 4,
        other => return Err(format!("the format {} is unknown", other)),
    };
    let (kind, encoder, bytes) = (number(line, "kind")?, member(line, "enc")?, from_base64(member(line, "slice")?)?);
    let name = format!("{} slice {}", encoder, number(line, "id")?);
    let [lengths, bits, sha] = ["len", "bits", "sha"].map(|key| list(line, key));
    let (lengths, bits, sha) = (lengths?, bits?, sha?);
    let lengths = lengths.iter().map(|length| parsed(length)).collect::<Result<Vec<_>, _>>()?;
    // with alpha there is one length more
    let (header, parts) = if kind == 0 { (6, 3) } else { (8, 4) };
    if lengths.len() != parts || bits.len() != 3 || sha.len() != 3 {
        return Err("there are not three components, or four with alpha".to_string());
    }
    if header + lengths.iter().sum::<usize>() != bytes.len() {
        return Err("the lengths are not those of the slice".to_string());
    }
    let mut at = header;
    let mut payload = |i: usize| {
        let from = at;
        at += lengths[i];
        Ok::<_, String>(Payload {
            name: format!("{} {}", name, COMPONENTS[i]),
            blocks: shape[0] * if i == 0 { 4 } else { chroma },
            bytes: bytes[from..at].to_vec(),
            bits: parsed(bits[i])?,
            sha: sha[i].to_string(),
        })
    };
    let payloads = [payload(0)?, payload(1)?, payload(2)?];
    let alpha = match kind {
        0 => None,
        _ => Some(Alpha {
            name: format!("{} alpha", name),
            kind,
            samples: number(line, "nalpha")?,
            bytes: bytes[at..].to_vec(),
            by_rust: encoder == "ox",
            outcome: outcome(alpha.ok_or("alpha is missing")?)?,
        }),
    };
    Ok(Slice { name, shape, payloads, sha: member(line, "blocks")?.to_string(), alpha })
}

fn outcome(alpha: &str) -> Result<Outcome, String> {
    match number(alpha, "no")? {
        0 => Ok(Outcome::Read { bits: number(alpha, "bits")?, sha: member(alpha, "sha")?.to_string() }),
        refused => Ok(Outcome::Refused { number: refused as u32, start: number(alpha, "start")? }),
    }
}

// ---- as much of JSON as this needs: no list in a list, no object in one of these, no escapes in texts

/// The member of an object, without the marks around it.
fn member<'a>(object: &'a str, key: &str) -> Result<&'a str, String> {
    let wrong = || format!("{} is missing, or is nothing that is known here", key);
    let (_, value) = object.split_once(&format!("\"{}\":", key)).ok_or_else(wrong)?;
    let value = value.trim_start();
    let end = match value.chars().next().ok_or_else(wrong)? {
        '"' => '"',
        '[' => ']',
        '{' => '}',
        _ => return value.split([',', '}']).next().map(str::trim).ok_or_else(wrong),
    };
    value[1..].split_once(end).map(|(inside, _)| inside).ok_or_else(wrong)
}

fn number(object: &str, key: &str) -> Result<usize, String> {
    parsed(member(object, key)?)
}

fn parsed(word: &str) -> Result<usize, String> {
    word.parse().map_err(|_| format!("{} is no number", word))
}

fn list<'a>(object: &'a str, key: &str) -> Result<Vec<&'a str>, String> {
    Ok(member(object, key)?.split(',').map(|word| word.trim().trim_matches('"')).collect())
}

fn from_base64(text: &str) -> Result<Vec<u8>, String> {
    const DIGITS: &str = "ABCDEFGHIJKLMNOPQRSTUVWXYZabcdefghijklmnopqrstuvwxyz0123456789+/";
    let (mut bytes, mut bits, mut count) = (Vec::new(), 0u32, 0);
    for digit in text.trim_end_matches('=').chars() {
        let value = DIGITS.find(digit).ok_or(format!("{} is no digit of base64", digit))?;
        bits = bits << 6 | value as u32;
        count += 6;
        if count >= 8 {
            count -= 8;
            bytes.push((bits >> count) as u8);
        }
    }
    Ok(bytes)
}
