//! The command line: commands, options, and the help that explains them. The manual page and the completions are made
//! from the same.

use crate::counters::Counters;
use crate::names::{Flag, KindName, PartName};
use clap::{Args, Parser, Subcommand, ValueEnum, ValueHint};
use cotterleaf::Rules;
use std::path::PathBuf;

/// Looks at recordings of MRI scanners as MRD message streams: checks them, lists and finds what is in them, takes
/// parts out, keeps an index, and saves what is whole of a torn one.
///
/// Every judgement about a stream is that of a proved library: a stream is accepted exactly when the rules accept it,
/// and a refusal says what is wrong, in which record and at which byte, and what to do.
#[derive(Parser)]
#[command(
    name = "cotterleaf",
    version,
    arg_required_else_help = true,
    after_help = "\
Exit status:
  0  the stream is accepted and the question has its answer
  1  the stream is refused, or what was asked for is not there or not so
  2  the call is not known, or something could not be read or written

Examples:
  cotterleaf info scan.mrd
  cotterleaf check scan.mrd torn.mrd
  cotterleaf find scan.mrd --slice 0 --repetition 0
  cat scan.mrd | cotterleaf info -

'cotterleaf COMMAND --help' has an example for each command."
)]
pub struct CommandLine {
    #[command(flatten)]
    pub options: Options,
    #[command(subcommand)]
    pub command: Command,
}

/// What every command takes.
#[derive(Args, Clone)]
#[command(next_help_heading = "Options of every command")]
pub struct Options {
    /// How waveform headers are laid out: 32 bytes or 40; nothing in a stream tells it
    #[arg(long, global = true, value_enum, default_value = "packed")]
    layout: Layout,
    /// Refuse texts that are not UTF-8
    #[arg(long, global = true)]
    strict: bool,
    /// Answer in JSON, one object to a line
    #[arg(long, global = true)]
    pub json: bool,
    /// Answer nothing: the exit status says it
    #[arg(long, short, global = true)]
    pub quiet: bool,
}

#[derive(Clone, Copy, ValueEnum)]
enum Layout {
    Packed,
    Aligned,
}

impl Options {
    /// The rules that streams are read by.
    pub fn rules(&self) -> Rules {
        let rules = match self.layout {
            Layout::Packed => Rules::packed(),
            Layout::Aligned => Rules::aligned(),
        };
        match self.strict {
            true => rules.strict(),
            false => rules,
        }
    }
}

#[derive(Subcommand)]
pub enum Command {
    /// Say what a recording holds: the first thing to ask
    ///
    /// Whether it is accepted, its records by kind, measurement uids, readouts with the ranges of their counters,
    /// channels and samples, flags, time stamps, images and waveforms; and warnings. Of a refused stream it tells what
    /// stands before the fault.
    #[command(after_help = "Example:\n  cotterleaf info scan.mrd")]
    Info(File),
    /// Check recordings against the rules
    ///
    /// For each file the verdict: accepted with its number of records, or refused with the number of refusal, the
    /// record, the byte, what is wrong and what to do.
    #[command(after_help = "Example:\n  cotterleaf check scan.mrd torn.mrd")]
    Check(Files),
    /// List the records
    ///
    /// A line for each record: its number, kind, first byte, size, and the kind's own numbers. Of a refused stream
    /// those before the fault, and then the refusal.
    #[command(after_help = "\
Examples:
  cotterleaf list scan.mrd
  cotterleaf list scan.mrd --kind acquisition --kind image --from 4 --limit 10")]
    List(Listed),
    /// Show everything about one record
    ///
    /// Every header element by name, flags by name, every part with its place; texts are printed.
    #[command(after_help = "Example:\n  cotterleaf show scan.mrd 3")]
    Show(RecordOf),
    /// Find readouts by counters, scan counter and flags
    ///
    /// Lists the acquisitions that have all that is asked for. Any of the seventeen counters may be given.
    #[command(after_help = "\
Examples:
  cotterleaf find scan.mrd --slice 0 --kspace-encode-step-1 1
  cotterleaf find scan.mrd --scan-counter 2
  cotterleaf find scan.mrd --flag last_in_slice --limit 1")]
    Find(Wanted),
    /// Say where scan counters do not go up by one
    ///
    /// Each readout's scan counter is compared with that of the readout before it in the stream, around the 32-bit
    /// wrap: gaps, repeats and steps back, with their records.
    #[command(after_help = "Example:\n  cotterleaf gaps scan.mrd")]
    Gaps(File),
    /// Take one part of a record out
    ///
    /// Its bytes as they lie in the stream, or as an array for NumPy.
    #[command(after_help = "\
Examples:
  cotterleaf extract scan.mrd 1 --part text
  cotterleaf extract scan.mrd 3 --part channel --channel 0 -o readout.npy
  cotterleaf extract scan.mrd 6 --part pixels -o pixels.raw")]
    Extract(Extracted),
    /// Say which record and part a byte belongs to
    #[command(after_help = "Example:\n  cotterleaf at scan.mrd 1420")]
    At(ByteOf),
    /// Write the index of a recording
    #[command(after_help = "Example:\n  cotterleaf index scan.mrd -o scan.idx")]
    Index(Written),
    /// Hold a kept index to its recording
    ///
    /// It is believed exactly when it equals the index that the stream itself yields, byte for byte.
    #[command(after_help = "Example:\n  cotterleaf verify scan.mrd scan.idx")]
    Verify(Kept),
    /// Write the normal form of a recording
    ///
    /// Two streams with the same records have the same normal form, byte for byte.
    #[command(after_help = "Example:\n  cotterleaf normal scan.mrd -o normal.mrd")]
    Normal(Written),
    /// Save what is whole of a torn recording
    ///
    /// Every message before the first faulty one, unchanged, and a close. What is written is always accepted. The
    /// report says what was kept and what not; the recording itself stays as it is.
    #[command(after_help = "Example:\n  cotterleaf salvage torn.mrd -o saved.mrd")]
    Salvage(Written),
    /// Print the completions for a shell
    #[command(after_help = "\
Example:
  cotterleaf completions bash > cotterleaf.bash")]
    Completions {
        /// Which shell
        #[arg(value_enum)]
        shell: clap_complete::Shell,
    },
    /// Print the manual page
    #[command(after_help = "Example:\n  cotterleaf manual > cotterleaf.1")]
    Manual,
}

/// One recording.
#[derive(Args)]
pub struct File {
    /// A recording; - is standard input
    #[arg(value_name = "FILE", value_hint = ValueHint::FilePath)]
    pub file: PathBuf,
}

/// Several recordings.
#[derive(Args)]
pub struct Files {
    /// Recordings; - is standard input
    #[arg(value_name = "FILE", required = true, value_hint = ValueHint::FilePath)]
    pub files: Vec<PathBuf>,
}

/// Which records are listed.
#[derive(Args)]
pub struct Listed {
    #[command(flatten)]
    pub input: File,
    #[command(flatten)]
    pub span: Span,
    /// Only records of this kind; may be given again
    #[arg(long, value_enum)]
    pub kind: Vec<KindName>,
}

/// What a readout that is looked for has.
#[derive(Args)]
pub struct Wanted {
    #[command(flatten)]
    pub input: File,
    #[command(flatten)]
    pub counters: Counters,
    /// Readouts with this scan counter
    #[arg(long, value_name = "N")]
    pub scan_counter: Option<u32>,
    /// Readouts with this flag set, by name or number 1 to 64; may be given again
    #[arg(long, value_name = "FLAG")]
    pub flag: Vec<Flag>,
    #[command(flatten)]
    pub span: Span,
}

/// What is to be taken out of a record.
#[derive(Args)]
pub struct Extracted {
    #[command(flatten)]
    pub record: RecordOf,
    /// Which part
    #[arg(long, value_enum)]
    pub part: PartName,
    /// Which channel, from 0; all of them where this is left out
    #[arg(long, value_name = "C")]
    pub channel: Option<usize>,
    /// Write an array for NumPy, as for an output whose name ends in .npy
    #[arg(long)]
    pub npy: bool,
    /// Where to write it; without it, and for -, to standard output
    #[arg(long, short, value_name = "X", value_hint = ValueHint::FilePath)]
    pub output: Option<PathBuf>,
    /// Let the output take the place of a file that exists
    #[arg(long)]
    pub force: bool,
}

/// One byte of a recording.
#[derive(Args)]
pub struct ByteOf {
    #[command(flatten)]
    pub input: File,
    /// The byte's number, from 0
    pub byte: usize,
}

/// A recording and an index that was kept of it.
#[derive(Args)]
pub struct Kept {
    #[command(flatten)]
    pub input: File,
    /// The index
    #[arg(value_name = "X", value_hint = ValueHint::FilePath)]
    pub index: PathBuf,
}

/// One record of a recording.
#[derive(Args)]
pub struct RecordOf {
    #[command(flatten)]
    pub input: File,
    /// The record's number, from 0
    #[arg(value_name = "N")]
    pub number: usize,
}

/// A recording, and what is written of it.
#[derive(Args)]
pub struct Written {
    #[command(flatten)]
    pub input: File,
    /// Where to write it; - is standard output
    #[arg(long, short, value_name = "X", value_hint = ValueHint::FilePath)]
    pub output: PathBuf,
    /// Let the output take the place of a file that exists
    #[arg(long)]
    pub force: bool,
}

/// Which records are looked at, and how many lines are given.
#[derive(Args, Clone, Copy)]
pub struct Span {
    /// Begin at record N
    #[arg(long, value_name = "N", default_value_t = 0)]
    pub from: usize,
    /// End after N lines
    #[arg(long, value_name = "N")]
    pub limit: Option<usize>,
}

impl Span {
    /// Whether so many lines are enough.
    pub fn is_full(&self, lines: usize) -> bool {
        self.limit.is_some_and(|limit| lines >= limit)
    }
}
