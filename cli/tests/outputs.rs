//! What `index`, `normal`, `salvage` and `extract` write: the second reader's very bytes, wherever they come from and
//! go to, and nothing besides. What goes wrong while they write is in `faults.rs`.

mod common;

use common::expected::{Extracted, Told};
use common::scratch::names_in;
use common::streams_kept::{ALL_KINDS, KEPT};
use common::{arguments, fifo, json, npy, run, run_with, Input, Ran, Scratch};
use second_reader::{GivenIndex, Rules, Saved};
use std::ffi::CString;
use std::fs::{self, File};
use std::io::Read;
use std::os::unix::fs::{symlink, FileTypeExt};

/// A call that writes an output, without FILE and output, and what it ought to write.
struct Writes {
    before: Vec<&'static str>,
    after: Vec<&'static str>,
    rules: Rules,
    stream: Vec<u8>,
    output: Vec<u8>,
}

impl Writes {
    fn new(before: &[&'static str], rules: Rules, stream: &[u8], output: Vec<u8>) -> Writes {
        Writes {
            before: before[..1].to_vec(),
            after: before[1..].to_vec(),
            rules,
            stream: stream.to_vec(),
            output,
        }
    }

    /// The arguments with this FILE and these others.
    fn with(&self, file: &str, more: &[&str]) -> Vec<String> {
        let given = [&self.before[..], &[file], &self.after, more].concat();
        arguments(self.rules, &given)
    }

    fn assert_wrote(&self, ran: &Ran, folder: &Scratch, call: &[String]) {
        assert_eq!(ran.status, 0, "{call:?}: {ran:?}");
        assert!(
            folder.read("X") == self.output,
            "{call:?} wrote other bytes"
        );
        assert_eq!(folder.names(), ["X"], "{call:?}");
        fs::remove_file(folder.at("X")).expect("the output");
    }
}

fn normal(rules: Rules, stream: &[u8]) -> Vec<u8> {
    let mut output = vec![0; stream.len()];
    second_reader::normal_form(rules, stream, &mut output).expect("an accepted stream");
    output
}

/// Calls whose output differs from their input, and parts of each kind.
fn all_writes() -> Vec<Writes> {
    let mut writes = Vec::new();
    for kept in &KEPT[..4] {
        let (rules, bytes) = (kept.rules, kept.bytes);
        let index = second_reader::index_bytes(rules, bytes).expect("an accepted stream");
        writes.push(Writes::new(&["index"], rules, bytes, index));
        writes.push(Writes::new(&["normal"], rules, bytes, normal(rules, bytes)));
        let torn = &bytes[..bytes.len() - 100];
        let saved = Saved::of(rules, torn).stream;
        writes.push(Writes::new(&["salvage"], rules, torn, saved));
    }
    writes.extend(PARTS.into_iter().map(|(asked, place)| {
        let given = [&["extract"], asked].concat();
        let output = ALL_KINDS[place].to_vec();
        Writes::new(&given, Rules::PACKED, ALL_KINDS, output)
    }));
    writes
}

/// Parts of the recording of all kinds, and where each lies: by hand, from samples/README.md and the sizes of headers.
type AskedPart = (&'static [&'static str], std::ops::Range<usize>);

const PARTS: [AskedPart; 8] = [
    (&["0", "--part", "name"], 2..13),
    (&["1", "--part", "text"], 1_032..1_382),
    (&["4", "--part", "trajectory"], 2_869..3_125),
    (&["4", "--part", "channel"], 3_125..3_637),
    (&["4", "--part", "channel", "--channel", "1"], 3_381..3_637),
    (&["6", "--part", "attributes"], 4_955..5_089),
    (&["6", "--part", "pixels"], 5_089..6_113),
    (&["7", "--part", "waveform"], 6_147..6_307),
];

#[test]
fn to_a_file_from_a_file() {
    let (given, folder) = (Scratch::new(), Scratch::new());
    for writes in all_writes() {
        let file = given.put("scan.mrd", &writes.stream);
        let call = writes.with(&file, &["-o", &folder.at("X")]);
        writes.assert_wrote(&run(&call), &folder, &call);
        assert_eq!(given.read("scan.mrd"), writes.stream, "the input");
    }
}

#[test]
fn to_standard_output() {
    let given = Scratch::new();
    for writes in all_writes() {
        let file = given.put("scan.mrd", &writes.stream);
        let is_extract = writes.before == ["extract"];
        let mut calls = vec![writes.with(&file, &["-o", "-"])];
        if is_extract {
            calls.push(writes.with(&file, &[]));
        }
        for call in calls {
            let ran = run(&call);
            assert_eq!(ran.status, 0, "{call:?}");
            assert!(ran.out == writes.output, "{call:?} wrote other bytes");
            // The answer in words stands aside, and of a part there is none.
            assert_eq!(
                ran.err.is_empty(),
                is_extract,
                "{call:?}: {}",
                ran.complaint()
            );
        }
        assert_eq!(given.names(), ["scan.mrd"]);
    }
}

/// An answer that went there too would stand among the bytes.
#[test]
fn to_standard_output_by_its_other_name() {
    let given = Scratch::new();
    let file = given.put("scan.mrd", ALL_KINDS);
    let ran = run(&["normal", &file, "-o", "/dev/stdout"]);
    assert_eq!(ran.status, 0, "{}", ran.complaint());
    assert!(
        ran.out == normal(Rules::PACKED, ALL_KINDS),
        "{} bytes",
        ran.out.len()
    );
}

#[test]
fn the_json_answer_beside_an_output_on_standard_output() {
    let given = Scratch::new();
    let file = given.put("scan.mrd", ALL_KINDS);
    let told = Told::new(Rules::PACKED, &file, ALL_KINDS);
    let wanted = [
        told.written("normal", "-", ALL_KINDS.len()),
        told.salvage("-"),
    ];
    for (command, wanted) in ["normal", "salvage"].into_iter().zip(wanted) {
        let ran = run(&[command, &file, "-o", "-", "--json"]);
        assert_eq!(ran.out.len(), ALL_KINDS.len());
        let difference = json::difference(&wanted.objects, &json::objects(&ran.err));
        assert_eq!(difference, None, "{command}");
    }
}

#[test]
fn from_standard_input() {
    let (given, folder) = (Scratch::new(), Scratch::new());
    for writes in all_writes() {
        let call = writes.with("-", &["-o", &folder.at("X")]);
        let piped = run_with(&call, Input::Pipe(&writes.stream));
        writes.assert_wrote(&piped, &folder, &call);
        let file = given.put("scan.mrd", &writes.stream);
        let redirected = File::open(&file).expect("the stream");
        writes.assert_wrote(&run_with(&call, Input::File(redirected)), &folder, &call);
    }
}

#[test]
fn from_a_fifo() {
    let (given, folder) = (Scratch::new(), Scratch::new());
    let path = given.at("fifo");
    fifo::make(&path);
    for writes in all_writes() {
        let call = writes.with(&path, &["-o", &folder.at("X")]);
        let ran = std::thread::scope(|scope| {
            scope.spawn(|| fs::write(&path, &writes.stream));
            let ran = run(&call);
            drop(fifo::release(&path));
            ran
        });
        writes.assert_wrote(&ran, &folder, &call);
    }
}

#[test]
fn to_a_fifo() {
    let given = Scratch::new();
    let (file, path) = (given.put("scan.mrd", ALL_KINDS), given.at("fifo"));
    fifo::make(&path);
    let (ran, read) = std::thread::scope(|scope| {
        let reader = scope.spawn(|| fs::read(&path).expect("a fifo"));
        let ran = run(&["normal", &file, "-o", &path]);
        drop(fifo::release(&path));
        (ran, reader.join().expect("a reader"))
    });
    assert_eq!(ran.status, 0, "{ran:?}");
    assert!(read == normal(Rules::PACKED, ALL_KINDS));
    let stands = fs::symlink_metadata(&path).expect("the fifo");
    assert!(stands.file_type().is_fifo(), "the fifo was replaced");
}

/// A device of the test's own, so that a mistake costs the machine nothing; none where that can't be made.
fn null_device(folder: &Scratch) -> Option<String> {
    let path = folder.at("null");
    let c_path = CString::new(path.clone()).expect("a path");
    // SAFETY: the path is a string that ends in a zero.
    let made = unsafe { libc::mknod(c_path.as_ptr(), libc::S_IFCHR | 0o666, libc::makedev(1, 3)) };
    (made == 0 && fs::write(&path, b"any").is_ok()).then_some(path)
}

#[test]
fn a_device_stays_a_device() {
    let given = Scratch::new();
    let file = given.put("scan.mrd", ALL_KINDS);
    let own = null_device(&given);
    // Only who may make a device can do harm to the machine's own.
    let device = own.unwrap_or_else(|| "/dev/null".to_string());
    for command in ["index", "normal", "salvage"] {
        for more in [&[][..], &["--force"]] {
            let call = [&[command, &file, "-o", &device], more].concat();
            let ran = run(&call);
            assert_eq!(ran.status, 0, "{call:?}: {ran:?}");
            let stands = fs::symlink_metadata(&device).expect("the device");
            assert!(
                stands.file_type().is_char_device(),
                "{call:?} replaced {device}"
            );
        }
    }
}

/// What a `.npy` output ought to be: its type, its shape, and where its data lie in the stream of all kinds.
type Array = (
    &'static [&'static str],
    &'static str,
    &'static [u64],
    std::ops::Range<usize>,
);

const ARRAYS: [Array; 5] = [
    (
        &["4", "--part", "channel", "--channel", "1"],
        "<c8",
        &[32],
        3_381..3_637,
    ),
    (&["4", "--part", "channel"], "<c8", &[2, 32], 3_125..3_637),
    (
        &["4", "--part", "trajectory"],
        "<f4",
        &[32, 2],
        2_869..3_125,
    ),
    (
        &["6", "--part", "pixels"],
        "<f4",
        &[1, 1, 16, 16],
        5_089..6_113,
    ),
    (&["7", "--part", "waveform"], "<u4", &[2, 20], 6_147..6_307),
];

#[test]
fn numpy_arrays() {
    let (given, folder) = (Scratch::new(), Scratch::new());
    let file = given.put("scan.mrd", ALL_KINDS);
    for (asked, dtype, shape, place) in ARRAYS {
        let wanted = npy::Npy {
            dtype: dtype.to_string(),
            shape: shape.to_vec(),
            data: ALL_KINDS[place].to_vec(),
        };
        let extract = [&["extract", &file], asked].concat();
        let by_name = run(&[&extract[..], &["-o", &folder.at("a.npy")]].concat());
        assert_eq!(by_name.status, 0, "{asked:?}: {by_name:?}");
        assert_eq!(npy::parse(&folder.read("a.npy")), wanted, "{asked:?}");
        let by_option = run(&[&extract[..], &["--npy", "-o", "-"]].concat());
        assert_eq!(by_option.out, folder.read("a.npy"), "{asked:?}");
        let other = folder.at("b");
        let to_any_name = [&extract[..], &["--npy", "--force", "-o", &other]].concat();
        assert_eq!(run(&to_any_name).status, 0);
        assert_eq!(folder.read("b"), folder.read("a.npy"));
        assert_eq!(folder.names(), ["a.npy", "b"]);
        fs::remove_file(folder.at("a.npy")).expect("the output");
    }
}

#[test]
fn the_json_answer_of_an_array() {
    let (given, folder) = (Scratch::new(), Scratch::new());
    let (file, output) = (given.put("scan.mrd", ALL_KINDS), folder.at("a.npy"));
    let told = Told::new(Rules::PACKED, &file, ALL_KINDS);
    let ran = run(&[
        "extract",
        &file,
        "4",
        "--part",
        "channel",
        "--channel",
        "1",
        "-o",
        &output,
        "--json",
    ]);
    let asked = Extracted {
        record: 4,
        part: "channel",
        channel: Some(1),
        output: &output,
        output_bytes: folder.read("a.npy").len(),
        format: "npy",
    };
    let place = second_reader::channel(Rules::PACKED, ALL_KINDS, GivenIndex::NONE, 4, 1);
    let wanted = told.extract(&asked, place);
    let difference = json::difference(&wanted.objects, &json::objects(&ran.out));
    assert_eq!(difference, None);
}

/// One image of each data type, of 3 x 2 x 1 pixels and 2 channels.
#[test]
fn arrays_of_pixels_of_every_type() {
    let (given, folder) = (Scratch::new(), Scratch::new());
    let types = ["<u2", "<i2", "<u4", "<i4", "<f4", "<f8", "<c8", "<c16"];
    for (data_type, dtype) in (1..).zip(types) {
        let mut image = streams::Message::empty(Rules::PACKED, second_reader::Kind::Image.id());
        image.header = vec![0; 198];
        let numbers = [
            ("version", 0, 1),
            ("data_type", 0, data_type),
            ("channels", 0, 2),
        ];
        let sizes = [
            ("matrix_size", 0, 3),
            ("matrix_size", 1, 2),
            ("matrix_size", 2, 1),
        ];
        for (name, i, number) in numbers.into_iter().chain(sizes) {
            image.set(name, i, number);
        }
        let size = second_reader::message::element_size(data_type as u16).expect("a type") as u8;
        image.pixels = (0..12 * size).collect();
        let stream = [&[3, 0, 0, 0, 0, 0], &image.bytes()[..], &[4, 0]].concat();
        let file = given.put("scan.mrd", &stream);
        let output = folder.at("X.npy");
        let ran = run(&[
            "extract", &file, "1", "--part", "pixels", "--force", "-o", &output,
        ]);
        assert_eq!(ran.status, 0, "{ran:?}");
        let array = npy::parse(&folder.read("X.npy"));
        assert_eq!(
            (&array.dtype[..], &array.shape[..]),
            (dtype, &[2, 1, 2, 3][..])
        );
        assert_eq!(array.data, image.pixels);
    }
}

#[test]
fn texts_are_no_arrays() {
    let (given, folder) = (Scratch::new(), Scratch::new());
    let file = given.put("scan.mrd", ALL_KINDS);
    let (output, array) = (folder.at("X"), folder.at("X.npy"));
    for (record, part) in [("0", "name"), ("1", "text"), ("6", "attributes")] {
        let extract = ["extract", &file, record, "--part", part];
        run(&[&extract[..], &["--npy"]].concat()).assert_only_error(part);
        let to_file = [&extract[..], &["--npy", "-o", &output]].concat();
        run(&to_file).assert_only_error(part);
        let by_name = [&extract[..], &["-o", &array]].concat();
        run(&by_name).assert_only_error(part);
    }
    assert_eq!(folder.names(), [""; 0]);
}

#[test]
fn a_refused_stream_has_no_output() {
    let (given, folder) = (Scratch::new(), Scratch::new());
    let torn = given.put("torn.mrd", &ALL_KINDS[..6_000]);
    let output = folder.at("X");
    let extract = ["extract", &torn, "1", "--part", "text", "-o", &output];
    let calls = [
        &["index", &torn, "-o", &output][..],
        &["normal", &torn, "-o", &output],
        &extract,
    ];
    for call in calls {
        assert_eq!(run(call).status, 1, "{call:?}");
        assert_eq!(folder.names(), [""; 0], "{call:?}");
        folder.put("X", b"old");
        let forced = [call, &["--force"]].concat();
        assert_eq!(run(&forced).status, 1, "{forced:?}");
        assert_eq!(folder.read("X"), b"old", "{forced:?}");
        fs::remove_file(&output).expect("the old file");
        let to_standard_output = [&call[..call.len() - 1], &["-"]].concat();
        let ran = run(&to_standard_output);
        assert_eq!(
            (ran.status, ran.out.len()),
            (1, 0),
            "{to_standard_output:?}"
        );
        assert!(
            ran.complaint().contains("11"),
            "{to_standard_output:?}: {ran:?}"
        );
    }
}

#[test]
fn a_file_that_exists_is_kept_without_force() {
    let (given, folder) = (Scratch::new(), Scratch::new());
    for writes in all_writes() {
        let file = given.put("scan.mrd", &writes.stream);
        let output = folder.put("X", b"old");
        let call = writes.with(&file, &["-o", &output]);
        run(&call).assert_only_error(&call.join(" "));
        assert_eq!(folder.read("X"), b"old", "{call:?}");
        let forced = writes.with(&file, &["-o", &output, "--force"]);
        writes.assert_wrote(&run(&forced), &folder, &forced);
    }
}

#[test]
fn the_input_may_be_the_output() {
    let torn = &ALL_KINDS[..6_000];
    let saved = Saved::of(Rules::PACKED, torn).stream;
    let cases = [
        ("normal", ALL_KINDS, normal(Rules::PACKED, ALL_KINDS)),
        ("salvage", torn, saved),
    ];
    for (command, stream, wanted) in cases {
        let folder = Scratch::new();
        let file = folder.put("scan.mrd", stream);
        let call = [command, &file, "-o", &file];
        run(&call).assert_only_error(command);
        assert!(
            folder.read("scan.mrd") == stream,
            "{command} without --force"
        );
        let ran = run(&[&call[..], &["--force"]].concat());
        assert_eq!(ran.status, 0, "{command}: {ran:?}");
        assert!(
            folder.read("scan.mrd") == wanted,
            "{command} wrote other bytes"
        );
        assert_eq!(folder.names(), ["scan.mrd"]);
    }
}

#[test]
fn an_output_that_is_a_symbolic_link() {
    let (given, folder) = (Scratch::new(), Scratch::new());
    let file = given.put("scan.mrd", ALL_KINDS);
    let target = folder.put("target", b"old");
    symlink("target", folder.path().join("link")).expect("a link");
    let call = ["normal", &file, "-o", &folder.at("link")];
    run(&call).assert_only_error("a link to a file that exists");
    assert_eq!(fs::read(&target).expect("the target"), b"old");
    let ran = run(&[&call[..], &["--force"]].concat());
    assert_eq!(ran.status, 0, "{ran:?}");
    let wanted = normal(Rules::PACKED, ALL_KINDS);
    assert!(folder.read("link") == wanted);
    let target = folder.read("target");
    assert!(target == wanted || target == b"old", "half a target");
    assert_eq!(folder.names(), ["link", "target"]);
}

#[test]
fn quiet_writes_all_the_same() {
    let (given, folder) = (Scratch::new(), Scratch::new());
    for writes in all_writes() {
        let file = given.put("scan.mrd", &writes.stream);
        let call = writes.with(&file, &["-q", "-o", &folder.at("X")]);
        let ran = run(&call);
        assert_eq!(
            (ran.words(), ran.complaint()),
            Default::default(),
            "{call:?}"
        );
        writes.assert_wrote(&ran, &folder, &call);
        let to_standard_output = run(&writes.with(&file, &["--quiet", "-o", "-"]));
        assert!(to_standard_output.out == writes.output, "{call:?}");
        assert_eq!(to_standard_output.complaint(), "", "{call:?}");
    }
}

#[test]
fn of_several_files_each_gets_its_verdict() {
    let given = Scratch::new();
    let whole = given.put("whole.mrd", ALL_KINDS);
    let torn = given.put("torn.mrd", &ALL_KINDS[..6_000]);
    let missing = given.at("missing.mrd");
    let verdict = |file: &str, stream: &[u8]| Told::new(Rules::PACKED, file, stream).check();
    let (accepted, refused) = (
        verdict(&whole, ALL_KINDS),
        verdict(&torn, &ALL_KINDS[..6_000]),
    );

    let ran = run(&["check", &whole, &torn, &whole, "--json"]);
    let wanted = [&accepted, &refused, &accepted].map(|answer| answer.objects[0].clone());
    assert_eq!(json::difference(&wanted, &json::objects(&ran.out)), None);
    assert_eq!(ran.status, 1);

    let ran = run(&["check", &whole, &missing, &torn, "--json"]);
    ran.assert_error("one of the files is missing");
    assert!(ran.complaint().contains("missing.mrd"), "{ran:?}");
    let objects = json::objects(&ran.out);
    assert_eq!(objects.len(), 3);
    assert!(json::same(&wanted[0], &objects[0]));
    assert!(json::same(&wanted[1], &objects[2]));
    assert_eq!(objects[1]["file"], missing);
    assert!(objects[1]["error"].is_string(), "{}", objects[1]);
}

/// What stands in the folder for temporary files is nobody's to see: it has no name there.
#[test]
fn what_is_kept_of_a_pipe_has_no_name() {
    let temporary = Scratch::new();
    let mut command = common::program::command(&["check", "-"]);
    command
        .env("TMPDIR", temporary.path())
        .stdin(std::process::Stdio::piped());
    let mut child = common::started(&mut command);
    let mut pipe = child.stdin.take().expect("a pipe");
    std::io::Write::write_all(&mut pipe, ALL_KINDS).expect("a pipe that is read");
    // The program may still have to begin; a name that it made would be seen here or in the end.
    std::thread::sleep(std::time::Duration::from_millis(100));
    assert_eq!(names_in(temporary.path()), [""; 0]);
    drop(pipe);
    let mut said = String::new();
    child
        .stdout
        .take()
        .expect("a pipe")
        .read_to_string(&mut said)
        .expect("words");
    assert_eq!(child.wait().expect("an end").code(), Some(0), "{said}");
    assert_eq!(names_in(temporary.path()), [""; 0]);
}
