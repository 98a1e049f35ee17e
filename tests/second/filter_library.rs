//! Compares the library's filters with the second implementation, through the C exports of `harness`.
//!
//!     second-filters SEED COUNT [FIRST]     cases FIRST (0) and on
//!
//! A case is a block to undo, data to encode and, in turns, a single layer to undo and SCF samples. What
//! is encoded is undone again, and what a single layer gives is encoded again.
//! The comparison ends with 1 at the first difference, and with 3 if an answer never occurred (a run
//! needs some thousands of cases for that).

mod comparing;
mod counts;
mod filter_exports;
mod filter_inputs;
mod filters;
mod inputs;
mod lent;
mod running;
mod sff;

use comparing::{holds, same, unchanged, Choices, Difference, Outcome};
use counts::Counts;
use filter_exports::Answer;
use filter_inputs::{header_length, EncodeCall, ScfCall, UndoCall};
use filters::{numbers, Made};
use lent::Lent;

fn main() {
    running::run::<Comparison>("second-filters", marked);
}

/// Document 01's marked cases, each encoded and undone: format, level, data, block.
fn marked() -> Outcome {
    let trace = [10, 20, 10, 200, 190, 5];
    let values = [0, 10, 0, 5, 255, 251, 0, 200, 252, 224];
    let cases: [(u64, u64, &[u8], &[u8]); 5] = [
        (64, 1, &trace, &[64, 1, 10, 10, 246, 190, 246, 71]),
        (64, 2, &trace, &[64, 2, 10, 0, 236, 200, 56, 81]),
        (65, 1, &[16, 32, 48, 16], &[65, 1, 16, 32, 31, 240]),
        (
            70,
            0,
            &values,
            &[70, 10, 5, 251, 128, 0, 200, 128, 252, 224],
        ),
        (70, 0, &[255, 128], &[70, 128, 255, 128]),
    ];
    for (format, level, data, block) in cases {
        let (follow, lent) = (Lent::new(&[], 9, 8), Lent::new(data, 9, 8));
        let mut out = Lent::new(&vec![170; block.len()], 9, 8);
        let answer = filter_exports::encode(format, level, &follow, &lent, &mut out);
        same("marked, encoded", answer, (0, block.len() as u64), &[])?;
        holds("marked, encoded", &out, block, &[])?;
        let [mut first, mut second] = [0; 2].map(|_| Lent::new(&vec![170; data.len()], 9, 8));
        let answer = filter_exports::undo_layer(&out, &mut first, &mut second);
        same("marked, undone", answer, (0, data.len() as u64), &[])?;
        holds("marked, undone", &first, data, &[])?;
        holds("marked, undone", &second, &vec![0; data.len()], &[])?;
    }
    Ok(())
}

/// A call that undoes: the second program's and the library's.
type Undo = (
    fn(&[u8], &mut [u8], &mut [u8]) -> Made,
    fn(&Lent<u8>, &mut Lent<u8>, &mut Lent<u8>) -> Answer,
);

const WHOLE: Undo = (filters::undo, filter_exports::undo);
const LAYER: Undo = (filters::undo_layer, filter_exports::undo_layer);

/// Both programs undo a block in buffers that are alike. Answers what was made, and the first buffer.
fn undone(
    name: &str,
    (second, library): Undo,
    call: &UndoCall,
    choices: &mut Choices,
) -> Result<(Made, Vec<u8>), Difference> {
    let given = [
        ("block", &call.block[..]),
        ("first", &call.first),
        ("second", &call.second),
    ];
    let mut kept = [call.first.clone(), call.second.clone()];
    let [first, other] = &mut kept;
    let made = second(&call.block, first, other);
    let block = choices.lend(&call.block, 1);
    let mut lent = [choices.lend(&call.first, 9), choices.lend(&call.second, 9)];
    let [lent_first, lent_other] = &mut lent;
    let answer = library(&block, lent_first, lent_other);
    let room = (call.first.len(), call.second.len());
    let name = format!("{name}, buffers of {room:?}");
    same(&name, answer, numbers(made), &given)?;
    holds(&format!("{name}: the first"), lent_first, first, &given)?;
    holds(&format!("{name}: the second"), lent_other, other, &given)?;
    unchanged(&name, block.unchanged(), &given)?;
    let [first, _] = kept;
    Ok((made, first))
}

/// How often each answer of each call occurred, each number of layers and each format in a round.
struct Comparison {
    undo: Counts,
    layer: Counts,
    encode: Counts,
    scf_encode: Counts,
    scf_undo: Counts,
    layers: Counts,
    layers_undone: Counts,
    encoded_undone: Counts,
    undone_encoded: Counts,
}

const LAYERS: [&str; 11] = ["0", "1", "2", "3", "4", "5", "6", "7", "8", "9", "10"];

impl running::Comparison for Comparison {
    fn new() -> Comparison {
        let scf = ["0", "42", "43", "26"];
        // A single layer is never a ninth filter.
        let layer = ["0", "40 empty", "41", "40 header", "42", "43", "26"];
        Comparison {
            undo: Counts::new(false, &[&layer[..], &["44"]].concat()),
            layer: Counts::new(false, &layer),
            encode: Counts::new(false, &["0", "41", "42", "43", "26"]),
            scf_encode: Counts::new(false, &scf),
            scf_undo: Counts::new(false, &scf),
            layers: Counts::new(false, &LAYERS),
            // "eight at most"
            layers_undone: Counts::new(false, &LAYERS[..=8]),
            encoded_undone: Counts::new(false, &["64", "65", "66", "70", "71", "72"]),
            undone_encoded: Counts::new(false, &["64", "65", "66", "72"]),
        }
    }

    fn answers(&mut self) -> Vec<(&'static str, &mut Counts)> {
        vec![
            ("undo", &mut self.undo),
            ("undo one layer", &mut self.layer),
            ("encode", &mut self.encode),
            ("SCF encode", &mut self.scf_encode),
            ("SCF undo", &mut self.scf_undo),
        ]
    }

    fn others(&mut self) -> Vec<(&'static str, &mut Counts)> {
        vec![
            ("undo, layers of the block", &mut self.layers),
            ("undo, layers undone to the end", &mut self.layers_undone),
            ("encoded, then undone", &mut self.encoded_undone),
            ("undone, then encoded", &mut self.undone_encoded),
        ]
    }

    fn case(&mut self, seed: u64, number: u64) -> Outcome {
        let mut choices = Choices::new(seed, number);
        let call = filter_inputs::undo_call(seed, number);
        let (made, _) = undone("undo", WHOLE, &call, &mut choices)?;
        self.undo.add(&filters::name(made));
        self.layers.add(LAYERS[call.layers]);
        if call.data.is_some() {
            self.layers_undone.add(LAYERS[call.layers]);
        }
        self.encode(&filter_inputs::encode_call(seed, number), &mut choices)?;
        if number % 2 == 0 {
            self.layer(&filter_inputs::layer_call(seed, number), &mut choices)
        } else {
            self.scf(&filter_inputs::scf_call(seed, number), &mut choices)
        }
    }
}

impl Comparison {
    /// A single layer; if it is undone and its format has one form alone, it is encoded again.
    fn layer(&mut self, call: &UndoCall, choices: &mut Choices) -> Outcome {
        let (made, first) = undone("undo one layer", LAYER, call, choices)?;
        self.layer.add(&filters::name(made));
        let (Ok(length), 64..=66 | 72) = (made, call.block.first().unwrap_or(&0)) else {
            return Ok(());
        };
        let format = call.block[0];
        let header = &call.block[1..header_length(format)];
        let again = EncodeCall {
            format: u64::from(format),
            level: u64::from(header[0]),
            follow: header.to_vec(),
            data: first[..length].to_vec(),
            out: choices.random.bytes(call.block.len()),
            block: None,
        };
        let (_, block) = encoded(&again, choices)?;
        let given = [("block", &call.block[..])];
        same("encode after undo", &block, &call.block, &given)?;
        self.undone_encoded.add(&format.to_string());
        Ok(())
    }

    /// Data to encode; if that is done, the layer is undone again in just the room that it needs.
    fn encode(&mut self, call: &EncodeCall, choices: &mut Choices) -> Outcome {
        let (made, out) = encoded(call, choices)?;
        self.encode.add(&filters::name(made));
        let Ok(length) = made else { return Ok(()) };
        let more = choices.random.pick(&[0, 0, 1, 20]);
        let back = UndoCall {
            block: out[..length].to_vec(),
            first: choices.random.bytes(call.data.len()),
            second: choices.random.bytes(call.data.len() + more),
            data: None,
            layers: 1,
        };
        let (_, first) = undone("undo after encode", LAYER, &back, choices)?;
        let given = [("block", &out[..length]), ("data", &call.data)];
        same("undo after encode", &first, &call.data, &given)?;
        self.encoded_undone.add(&call.format.to_string());
        Ok(())
    }

    fn scf(&mut self, call: &ScfCall, choices: &mut Choices) -> Outcome {
        let given = [("data", &call.data[..]), ("out", &call.out)];
        let mut second = call.out.clone();
        let (made, counts, undo) = if call.is_undo {
            let made = filters::scf_undo(call.precision, &call.data, &mut second);
            let undo = choices.random.pick(&[1, 2, 256, 1 << 32, u64::MAX]);
            (made, &mut self.scf_undo, undo)
        } else {
            let made = filters::scf_encode(call.precision, &call.data, &mut second);
            (made, &mut self.scf_encode, 0)
        };
        let (data, mut out) = (choices.lend(&call.data, 1), choices.lend(&call.out, 9));
        let answer = filter_exports::scf(call.precision, undo, &data, &mut out);
        let name = format!("SCF, precision {}, undo {undo}", call.precision);
        same(&name, answer, numbers(made), &given)?;
        holds(&name, &out, &second, &given)?;
        unchanged(&name, data.unchanged(), &given)?;
        counts.add(&filters::name(made));
        Ok(())
    }
}

/// Both programs encode a layer. Answers what was made, and the memory that was lent for it.
fn encoded(call: &EncodeCall, choices: &mut Choices) -> Result<(Made, Vec<u8>), Difference> {
    let given = [
        ("follow", &call.follow[..]),
        ("data", &call.data),
        ("out", &call.out),
    ];
    let mut second = call.out.clone();
    let made = filters::encode(
        call.format,
        call.level,
        &call.follow,
        &call.data,
        &mut second,
    );
    let (follow, data) = (choices.lend(&call.follow, 1), choices.lend(&call.data, 1));
    let mut out = choices.lend(&call.out, 9);
    let answer = filter_exports::encode(call.format, call.level, &follow, &data, &mut out);
    let name = format!("encode, format {}, level {}", call.format, call.level);
    same(&name, answer, numbers(made), &given)?;
    holds(&name, &out, &second, &given)?;
    unchanged(&name, follow.unchanged() && data.unchanged(), &given)?;
    Ok((made, second))
}
