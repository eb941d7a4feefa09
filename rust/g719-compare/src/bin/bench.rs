//! Nanoseconds per call, or per frame where a line says so, of the library and
//! of the plain implementation, and their ratio, from one run over the same
//! inputs.

use g719_compare::random::Random;
use g719_compare::{cases, library};
use g719_reference as reference;
use g719_reference::types::{Record, Records, CODES, FRAME_BYTES, MOST_CHANNELS, TAIL_BYTES};
use std::hint::black_box;
use std::time::{Duration, Instant};

/// Inputs of a call.
const INPUTS: usize = 600;
/// How long a call is measured; each batch of inputs has many rounds in it.
const LONG: Duration = Duration::from_millis(1200);
/// About how long a batch takes, in nanoseconds: short, so that some round
/// has it to itself on a machine that does other work.
const BATCH: f64 = 1e5;
/// Bytes of a file that is checked, taken apart or joined.
const FILE_BYTES: usize = 65_536;

/// Runs the inputs `passes` times; gives the nanoseconds of a pass.
fn time<T>(inputs: &[T], passes: usize, mut call: impl FnMut(&T)) -> f64 {
    let start = Instant::now();
    for _ in 0..passes {
        for input in inputs {
            call(black_box(input));
        }
    }
    start.elapsed().as_nanos() as f64 / passes as f64
}

/// The shortest time of each batch, on both sides.
struct Times {
    library: Vec<f64>,
    reference: Vec<f64>,
}

impl Times {
    fn new(batches: usize) -> Self {
        let times = vec![f64::MAX; batches];
        Times {
            library: times.clone(),
            reference: times,
        }
    }

    fn take(&mut self, batch: usize, library: f64, reference: f64) {
        self.library[batch] = self.library[batch].min(library);
        self.reference[batch] = self.reference[batch].min(reference);
    }

    /// Prints a line, with the time of one of so many calls or frames.
    fn print(&self, call: &str, count: usize) {
        let of_one = |times: &[f64]| times.iter().sum::<f64>() / count as f64;
        let (library, reference) = (of_one(&self.library), of_one(&self.reference));
        println!(
            "{call:28} {library:12.1} {reference:12.1} {:8.2}",
            library / reference
        );
    }
}

/// Measures a call on both sides, batch by batch in turn, and prints a line:
/// per call, or per frame if it is told how many frames the inputs have.
macro_rules! compare {
    ($call:expr, $inputs:expr, $case:ident => $function:ident($($argument:expr),*)) => {{
        let inputs = $inputs;
        compare!($call, inputs, inputs.len(), $case => $function($($argument),*))
    }};
    ($call:expr, $inputs:expr, $count:expr, $case:ident => $function:ident($($argument:expr),*)) => {{
        let inputs = $inputs;
        let all = time(inputs, 1, |$case| {
            black_box(library::$function($($argument),*));
        });
        let batches = ((all / BATCH) as usize).clamp(1, inputs.len());
        let passes = (BATCH / all) as usize + 1;
        let size = inputs.len().div_ceil(batches);
        let mut times = Times::new(inputs.len().div_ceil(size));
        let start = Instant::now();
        while start.elapsed() < LONG {
            for (at, batch) in inputs.chunks(size).enumerate() {
                let library = time(batch, passes, |$case| {
                    black_box(library::$function($($argument),*));
                });
                let reference = time(batch, passes, |$case| {
                    black_box(reference::$function($($argument),*));
                });
                times.take(at, library, reference);
            }
        }
        times.print(&$call.to_string(), $count);
    }};
}

/// A sound frame, as bytes and in parts.
struct Frame {
    bytes: Vec<u8>,
    record: Record,
    codes: Vec<u16>,
    tail: Vec<u8>,
}

/// The frame of a case, if it is sound.
fn frame(seed: u64) -> Option<Frame> {
    let mut case = cases::read_case(seed);
    let reading = reference::read(&case.src, &mut case.codes, &mut case.tail);
    (reading.reply == 0).then(|| Frame {
        bytes: case.src[..reading.next].to_vec(),
        record: reading.record,
        codes: case.codes,
        tail: case.tail,
    })
}

/// As many sound frames of each mode.
fn frames() -> Vec<Frame> {
    let mut of_mode = [0; 20];
    let mut wanted = |frame: &Frame| {
        let count = &mut of_mode[usize::from(frame.record.mode)];
        *count += 1;
        *count <= INPUTS / 20
    };
    let frames = (0..).filter_map(frame).filter(|frame| wanted(frame));
    frames.take(INPUTS).collect()
}

/// A file of sound frames of all modes, filled up with empty ones.
fn file(frames: &[Frame]) -> Vec<u8> {
    let mut random = Random::new(1);
    let mut file = Vec::new();
    while file.len() < FILE_BYTES {
        let frame = &frames[random.below(frames.len())];
        if file.len() + frame.bytes.len() <= FILE_BYTES {
            file.extend_from_slice(&frame.bytes);
        } else {
            file.push(0);
        }
    }
    file
}

/// A recording of several channels, and the recordings it is joined from.
struct Recording {
    channels: u8,
    frames: usize,
    src: Vec<u8>,
    parts: Vec<u8>,
    lengths: Vec<u32>,
}

/// A recording of sound frames of all modes.
fn recording(frames: &[Frame], channels: usize) -> Recording {
    let mut random = Random::new(channels as u64);
    let mut parts = vec![Vec::new(); channels];
    let (mut src, mut count) = (Vec::new(), 0);
    while src.len() < FILE_BYTES {
        for part in &mut parts {
            let frame = &frames[random.below(frames.len())];
            src.extend_from_slice(&frame.bytes);
            part.extend_from_slice(&frame.bytes);
            count += 1;
        }
    }
    Recording {
        channels: channels as u8,
        frames: count,
        src,
        lengths: parts.iter().map(|part| part.len() as u32).collect(),
        parts: parts.concat(),
    }
}

/// A block of sound frames, as bytes and in parts.
struct Block {
    bytes: Vec<u8>,
    records: Records,
    codes: Vec<u16>,
    tails: Vec<u8>,
}

fn block(frames: &[Frame]) -> Block {
    let mut block = Block {
        bytes: Vec::new(),
        records: Records {
            at: [Record::ZERO; MOST_CHANNELS],
            empty: [false; MOST_CHANNELS],
        },
        codes: Vec::new(),
        tails: Vec::new(),
    };
    for (frame, record) in frames.iter().zip(&mut block.records.at) {
        *record = frame.record;
        block.bytes.extend_from_slice(&frame.bytes);
        block.codes.extend_from_slice(&frame.codes[..CODES]);
        block.tails.extend_from_slice(&frame.tail[..TAIL_BYTES]);
    }
    block
}

/// Cases that the plain implementation answers with 0.
fn sound<T>(case: impl Fn(u64) -> T, reply: impl Fn(&T) -> u8) -> Vec<T> {
    let cases = (0..).map(case).filter(|case| reply(case) == 0);
    cases.take(INPUTS).collect()
}

fn compare_frame_calls(frames: &[Frame]) {
    let (mut codes, mut tail) = ([0; CODES], [0; TAIL_BYTES]);
    let mut out = [0; FRAME_BYTES];
    compare!("read", frames, frame => read(&frame.bytes, &mut codes, &mut tail));
    compare!("write", frames, frame => write(&frame.record, &frame.codes, &frame.tail, &mut out));
    compare!("layout", frames, frame => layout(&frame.record, &frame.codes));
    compare!("choose_flag_c", frames, frame => choose_flag_c(&frame.record, &frame.codes));
    compare!("read_prefix", frames, frame => read_prefix(&frame.bytes));
    compare!("write_prefix", frames, frame => write_prefix(frame.record.mode));
    compare!("write_empty", frames, _frame => write_empty(&mut out));
    let file = file(frames);
    compare!("check_file, 64 KiB", &[file], file => check_file(file, 0));
}

/// The calls on several channels, and the file check over the same bytes.
fn compare_channel_calls(frames: &[Frame], channels: usize) {
    let (mut codes, mut tails) = ([0; CODES * MOST_CHANNELS], [0; TAIL_BYTES * MOST_CHANNELS]);
    let mut out = vec![0; FILE_BYTES + FRAME_BYTES * MOST_CHANNELS];
    let of_call = |call: &str| format!("{call}, {channels} ch., frame");
    let blocks: Vec<Block> = frames.chunks_exact(channels).map(block).collect();
    let (count, number) = (blocks.len() * channels, channels as u8);
    compare!(of_call("read_block"), &blocks, count, block => read_block(&block.bytes, number, &mut codes, &mut tails));
    compare!(of_call("write_block"), &blocks, count, block => write_block(&block.records, number, &block.codes, &block.tails, &mut out));
    let files = &[recording(frames, channels)];
    let count = files[0].frames;
    compare!("check_file, the same, frame", files, count, file => check_file(&file.src, 0));
    compare!(of_call("check_blocks"), files, count, file => check_blocks(&file.src, file.channels, 0));
    compare!(of_call("extract"), files, count, file => extract(&file.src, file.channels, 0, &mut out));
    compare!(of_call("join"), files, count, file => join(&file.parts, &file.lengths, &mut out));
}

/// Read and write by size and by FlagC.
fn compare_kinds_of_frame() {
    let (mut codes, mut tail) = ([0; CODES], [0; TAIL_BYTES]);
    let mut out = [0; FRAME_BYTES];
    for (mode, flag_c) in [
        (0, false),
        (0, true),
        (8, false),
        (8, true),
        (19, false),
        (19, true),
    ] {
        let of_kind = |frame: &Frame| frame.record.mode == mode && frame.record.flag_c == flag_c;
        let frames = (0..).filter_map(frame).filter(of_kind);
        let frames: Vec<Frame> = frames.take(INPUTS / 3).collect();
        let kind = format!("mode {mode:2}, FlagC {}", u8::from(flag_c));
        compare!(format!("read, {kind}"), &frames, frame => read(&frame.bytes, &mut codes, &mut tail));
        compare!(format!("write, {kind}"), &frames, frame => write(&frame.record, &frame.codes, &frame.tail, &mut out));
    }
}

fn compare_norm_calls() {
    let norms = sound(cases::norms_case, |case| {
        reference::choose_flag_n(case.transient, &case.norms).reply
    });
    let shares = sound(cases::allot_case, |case| {
        reference::allot(case.transient, case.wide, &case.norms, case.budget).reply
    });
    compare!("allot", &shares, case => allot(case.transient, case.wide, &case.norms, case.budget));
    compare!("weigh", &norms, case => weigh(case.transient, &case.norms));
    compare!("legalise", &norms, case => legalise(case.transient, &case.norms));
    compare!("choose_flag_n", &norms, case => choose_flag_n(case.transient, &case.norms));
}

fn compare_point_calls() {
    let index = sound(cases::lattice_point_case, |case| {
        reference::lattice_point(case.rate, &case.index).reply
    });
    compare!("lattice_point", &index, case => lattice_point(case.rate, &case.index));
    let point = sound(cases::lattice_index_case, |case| {
        reference::lattice_index(case.rate, &case.point).reply
    });
    compare!("lattice_index", &point, case => lattice_index(case.rate, &case.point));
    let row = sound(cases::codebook_point_case, |case| {
        reference::codebook_point(case.rate, case.index).reply
    });
    compare!("codebook_point", &row, case => codebook_point(case.rate, case.index));
    let point = sound(cases::codebook_index_case, |case| {
        reference::codebook_index(case.rate, &case.point).reply
    });
    compare!("codebook_index", &point, case => codebook_index(case.rate, &case.point));
}

/// The processor and how many of them there are, as the system tells.
fn machine() -> String {
    let info = std::fs::read_to_string("/proc/cpuinfo").unwrap_or_default();
    let name = info
        .lines()
        .find_map(|line| line.strip_prefix("model name")?.split_once(": "));
    let count = std::thread::available_parallelism().map_or(0, usize::from);
    let name = name.map_or("unknown processor", |(_, name)| name);
    format!("{name}, {count} cores, {}", std::env::consts::ARCH)
}

fn main() {
    println!("{}", machine());
    println!(
        "{:28} {:>12} {:>12} {:>8}",
        "ns per call or frame", "library", "reference", "ratio"
    );
    let frames = frames();
    compare_frame_calls(&frames);
    for channels in [1, 2, MOST_CHANNELS] {
        compare_channel_calls(&frames, channels);
    }
    compare_norm_calls();
    compare_point_calls();
    compare_kinds_of_frame();
}
