//! The tool where a shell's transcript cannot go: odd arguments, odd files, readers that leave.

use std::ffi::{OsStr, OsString};
use std::fs;
use std::os::unix::ffi::OsStringExt;
use std::path::PathBuf;
use std::process::{Command, Output, Stdio};

use noterank::layout::MOST_BYTES;

const TOOL: &str = env!("CARGO_BIN_EXE_noterank");

fn noterank(words: &[impl AsRef<OsStr>]) -> Output {
    Command::new(TOOL).args(words).output().unwrap()
}

#[track_caller]
fn ends(output: &Output, status: i32, said: &str) {
    let text = [&output.stdout[..], &output.stderr].concat();
    let text = String::from_utf8(text).unwrap();
    assert!(text.contains(said), "{text}");
    assert!(!text.contains("panicked"), "{text}");
    assert!(text.chars().all(|c| c == '\n' || !c.is_control()), "{text:?}");
    assert_eq!(output.status.code(), Some(status), "{text}");
}

/// A folder of samples for one test.
struct Folder(PathBuf);

impl Folder {
    fn new(test: &str) -> Folder {
        let folder = PathBuf::from(env!("CARGO_TARGET_TMPDIR")).join(test);
        let _ = fs::remove_dir_all(&folder);
        ends(&noterank(&[OsStr::new("sample"), folder.as_os_str()]), 0, "small.note");
        Folder(folder)
    }

    fn path(&self, name: &str) -> String {
        self.0.join(name).to_str().unwrap().to_string()
    }
}

#[test]
fn words_that_are_no_text() {
    let word = OsString::from_vec(b"\xff\x1b[31m".to_vec());
    ends(&noterank(&[&word]), 2, "there is no command");
    ends(&noterank(&[&"check".into(), &word]), 2, "No such file");
    ends(&noterank(&[&"search".into(), &"f".into(), &"--lists".into(), &word]), 2, "--lists");
    ends(&noterank(&[&"search".into(), &"f".into(), &"--start".into(), &word]), 2, "--start");
    let option = OsString::from_vec(b"--\xff".to_vec());
    ends(&noterank(&[&"search".into(), &option]), 2, "there is no option");
}

#[test]
fn a_file_whose_name_is_no_text() {
    let folder = Folder::new("no-text");
    let name = folder.0.join(OsString::from_vec(b"\xff\x07.note".to_vec()));
    fs::copy(folder.path("small.note"), &name).unwrap();
    ends(&noterank(&[OsStr::new("check"), name.as_os_str()]), 0, "accepted");
}

#[test]
fn wrong_usage() {
    let none: [&str; 0] = [];
    ends(&noterank(&none), 2, "a command is missing");
    for (line, said) in [
        ("find", "there is no command find"),
        ("check", "check takes one FILE"),
        ("check a b", "check takes one FILE"),
        ("check --fast", "check takes one FILE"),
        ("dump", "dump takes one FILE"),
        ("dump a b", "dump takes one FILE"),
        ("write", "write takes CONTENTS"),
        ("write a b c", "write takes CONTENTS"),
        ("write a --over b", "write has no options"),
        ("sample", "sample takes one DIR"),
        ("search a", "--lists is missing"),
        ("search --lists 0", "FILE is missing"),
        ("search a b --lists 0", "FILE is given twice"),
        ("search a --lists", "--lists takes a value"),
        ("search a --lists 0 --lists 1", "--lists is given twice"),
        ("search a --lists 0,,1", "not list numbers"),
        ("search a --lists -1", "not list numbers"),
        ("search a --lists 4294967296", "not list numbers"),
        ("search a --lists 0 --best 4294967296", "not a number from 1 to 64"),
        ("search a --lists 0 --best ten", "not a number from 1 to 64"),
        ("search a --lists 0 --start high", "not a number"),
        ("search a --lists 0 --mode all", "not union, intersection or single"),
        ("search a --lists 0 --stepped", "there is no option --stepped"),
        ("both a --lists 0 --plain", "both has no --plain"),
    ] {
        ends(&noterank(&line.split(' ').collect::<Vec<_>>()), 2, said);
    }
}

#[test]
fn what_the_library_refuses() {
    let folder = Folder::new("refuses");
    let small = folder.path("small.note");
    let seventeen = ["0"; 17].join(",");
    for (words, said) in [
        (["--lists", "4294967295", "--best", "1"], "list 4294967295 is named"),
        (["--lists", &seventeen, "--best", "1"], "lists named: 17"),
        (["--lists", "0", "--best", "0"], "--best 0"),
        (["--lists", "0", "--best", "65"], "--best 65"),
        (["--lists", "0", "--best", "4294967295"], "--best 4294967295"),
        (["--lists", "0", "--start", "nan"], "--start NaN"),
        (["--lists", "0", "--start", "-inf"], "--start -inf"),
        (["--lists", "0", "--start", "1e99"], "--start inf"),
        (["--lists", "0", "--start", "16001"], "--start 16001"),
        (["--lists", "0", "--mode", "intersection"], "an intersection, lists named: 1"),
        (["--lists", "", "--mode", "single"], "a single run, lists named: 0"),
    ] {
        for command in ["search", "both"] {
            let words = [&[command, &small][..], &words[..]].concat();
            ends(&noterank(&words), 1, &format!("here: {said}"));
        }
    }
}

#[test]
fn files_that_are_none() {
    let folder = Folder::new("none");
    let missing = folder.path("missing.note");
    for path in [folder.0.to_str().unwrap(), &missing, ""] {
        ends(&noterank(&["check", path]), 2, "cannot be read");
        ends(&noterank(&["dump", path]), 2, "cannot be read");
        ends(&noterank(&["write", path]), 2, "cannot be read");
        ends(&noterank(&["both", path, "--lists", "0"]), 2, "cannot be read");
    }
    ends(&noterank(&["check", "/dev/null"]), 1, "inside the header");
    // A file of holes: it takes no room.
    fs::File::create(&missing).unwrap().set_len(MOST_BYTES + 1).unwrap();
    ends(&noterank(&["check", &missing]), 2, "longer than any note file");
}

const CONTENTS: &str = "documents 4\naverage 8\nnorm 1\nlist 1000\n1 1\n3 3\n";

/// A dump, written again, is the same file if that was in house form; else its contents are kept.
#[test]
fn dumps_are_written_again() {
    let folder = Folder::new("dumps");
    let again = |name: &str, text: &str, note: &str| {
        let dump = noterank(&["dump", &folder.path(name)]);
        ends(&dump, 0, "# ");
        fs::write(folder.path(text), &dump.stdout).unwrap();
        ends(&noterank(&["write", &folder.path(text), &folder.path(note)]), 0, "written");
        let written = fs::read(folder.path(note)).unwrap();
        assert_eq!(noterank(&["write", &folder.path(text)]).stdout, written);
        let same = written == fs::read(folder.path(name)).unwrap();
        let form = if same { "# house form" } else { "# not house form" };
        assert!(dump.stdout.starts_with(form.as_bytes()));
        same
    };
    assert!(again("small.note", "small", "small-again"));
    assert!(again("rounding.note", "rounding", "rounding-again"));
    assert!(again("dryer.note", "dryer", "dryer-again"));
    assert!(!again("other-form.note", "other", "house"));
    assert!(again("house", "house-text", "house-again"));
    let text = |name: &str| fs::read_to_string(folder.path(name)).unwrap();
    let behind = |text: String| text.split_once('\n').unwrap().1.to_string();
    assert_eq!(behind(text("house-text")), behind(text("other")));
}

#[test]
fn contents_that_cannot_be_written() {
    let folder = Folder::new("contents");
    let (text, note) = (folder.path("text"), folder.path("note"));
    let lines = |number: &str| format!("as this tool reads it: line {number}: ");
    for (old, new, status, said) in [
        ("average 8", "average ei\u{7}ght", 2, "text: line 2: ei".to_string()),
        ("norm 1\n", "", 2, "text: a line is missing: norm, or norms".to_string()),
        ("3 3", "3", 2, "text: line 6: a posting is a document and its frequency".to_string()),
        ("documents 4", "documents 1048577", 1, "text: refused with 1\nThe contents".to_string()),
        ("average 8", "average 0.01", 1, lines("2") + "average 0.01"),
        ("norm 1", "norms 1 2 3", 1, lines("1") + "documents 4; norm codes: 3"),
        ("list 1000", "list 1e99", 1, lines("4") + "list 0, weight inf"),
        ("3 3", "0 3", 1, lines("6") + "list 0, document 0 behind document 1"),
        ("1 1", "1 0", 1, lines("5") + "list 0, frequency 0"),
        ("3 3", "3 4", 1, lines("6") + "list 0, document 3 with frequency 4"),
    ] {
        fs::write(&text, CONTENTS.replace(old, new)).unwrap();
        ends(&noterank(&["write", &text, &note]), status, &said);
        ends(&noterank(&["write", &text]), status, &said);
        assert!(!folder.0.join("note").exists());
    }
    fs::write(&text, b"\xff\xfe").unwrap();
    ends(&noterank(&["write", &text]), 2, "line 1: not text in UTF-8");
    fs::File::create(&note).unwrap().set_len((1 << 30) + 1).unwrap();
    ends(&noterank(&["write", &note]), 2, "longer than this tool takes contents");
}

#[test]
fn a_file_is_not_written_over() {
    let folder = Folder::new("written-over");
    let (text, note) = (folder.path("text"), folder.path("note"));
    fs::write(&text, CONTENTS).unwrap();
    fs::write(&note, "mine").unwrap();
    ends(&noterank(&["write", &text, &note]), 2, "note: cannot be written: File exists");
    assert_eq!(fs::read(&note).unwrap(), b"mine");
    ends(&noterank(&["write", &text, &folder.path("no/note")]), 2, "cannot be written");
    ends(&noterank(&["dump", &text]), 1, "text: refused with 1");
}

#[test]
fn a_sample_is_not_written_over() {
    let folder = Folder::new("over");
    fs::write(folder.path("small.note"), "mine").unwrap();
    ends(&noterank(&[OsStr::new("sample"), folder.0.as_os_str()]), 2, "cannot be written");
    assert_eq!(fs::read(folder.path("small.note")).unwrap(), b"mine");
    ends(&noterank(&["sample", &folder.path("small.note")]), 2, "cannot be written");
}

#[test]
fn output_that_cannot_be_written() {
    let full = fs::OpenOptions::new().write(true).open("/dev/full").unwrap();
    let output = Command::new(TOOL).arg("--help").stdout(full).output().unwrap();
    ends(&output, 2, "standard output cannot be written");
}

/// A reader that has gone away, as `head` does.
#[test]
fn a_broken_pipe_is_no_failure() {
    let folder = Folder::new("pipe");
    let (reader, writer) = std::io::pipe().unwrap();
    drop(reader);
    let dryer = folder.path("dryer.note");
    let search = ["search", &dryer, "--lists", "0,1", "--best", "64"];
    for words in [&search[..], &["dump", &dryer]] {
        let writer = writer.try_clone().unwrap();
        let child = Command::new(TOOL).args(words).stdout(writer).stderr(Stdio::piped()).spawn();
        let output = child.unwrap().wait_with_output().unwrap();
        ends(&output, 0, "");
        assert_eq!(output.stderr, b"");
    }
}
