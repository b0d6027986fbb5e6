//! The command `rules`, run as a program.

mod common;

use common::{bytes, root, rules, BENCH};
use rule_enumerator::join;
use std::fs;
use std::io::Write;
use std::path::{Path, PathBuf};
use std::process::{self, Child, Command, Stdio};

const LISTING: &str =
    "P 0 0 0 0\nP 0 1 0 1\nF 5 - 0 2\nF 5 - 1 2\nP 0 2 2 0\nP 0 2 2 0\nP 0 2 2 0\nend 9 7 5 4\n";

fn start(arguments: &[&str]) -> Child {
    Command::new(env!("CARGO_BIN_EXE_rules"))
        .args(arguments)
        .stdin(Stdio::piped())
        .stdout(Stdio::piped())
        .stderr(Stdio::piped())
        .spawn()
        .unwrap()
}

/// The exit status, standard output and standard error.
type Ran = (i32, Vec<u8>, String);

fn end(child: Child) -> Ran {
    let output = child.wait_with_output().unwrap();
    let stderr = String::from_utf8(output.stderr).unwrap();
    (output.status.code().unwrap(), output.stdout, stderr)
}

fn run_on(input: &[u8], arguments: &[&str]) -> Ran {
    let mut child = start(arguments);
    // A call that reads no input closes it, and then this fails.
    let _ = child.stdin.take().unwrap().write_all(input);
    end(child)
}

/// A run without an error; its standard output.
fn printed(input: &[u8], arguments: &[&str]) -> String {
    let (status, stdout, stderr) = run_on(input, arguments);
    assert_eq!((status, stderr.as_str()), (0, ""), "{arguments:?}");
    String::from_utf8(stdout).unwrap()
}

/// A run with an error: the status, standard output, standard error.
fn failed(input: &[u8], arguments: &[&str]) -> (i32, String, String) {
    let (status, stdout, stderr) = run_on(input, arguments);
    (status, String::from_utf8(stdout).unwrap(), stderr)
}

/// A folder for the files of a test.
fn folder(name: &str) -> PathBuf {
    let folder = Path::new(env!("CARGO_TARGET_TMPDIR")).join(format!("{name}-{}", process::id()));
    fs::create_dir_all(&folder).unwrap();
    folder
}

#[test]
fn help_and_version() {
    let help = printed(b"", &["--help"]);
    for name in ["assemble", "show", "check", "count", "list", "join"] {
        assert!(help.contains(&format!("rules {name} ")));
        let more = printed(b"", &[name, "--help"]);
        assert!(more.starts_with(&format!("rules {name} ")));
        assert_eq!(printed(b"", &[name, "-h", "x", "y", "z"]), more);
    }
    assert_eq!(printed(b"", &["--version"]), "rules 0.1.0\n");
}

#[test]
fn wrong_calls() {
    let table: [(&[&str], &str); 16] = [
        (&[], "a subcommand is missing"),
        (&["sort"], "there is no subcommand `sort`"),
        (&["list"], "list: files needed 1, given 0"),
        (&["list", "-", "-"], "list: files needed 1, given 2"),
        (&["join", "-"], "join: files needed 2, given 1"),
        (
            &["join", "-", "-"],
            "join: standard input can be read only once",
        ),
        (&["list", "--all", "-"], "list has no option `--all`"),
        (
            &["list", "--passed=1", "-"],
            "list has no option `--passed=1`",
        ),
        (
            &["check", "--engine", "structural", "-"],
            "check has no option `--engine`",
        ),
        (&["list", "-", "--engine"], "--engine needs a value"),
        (
            &["list", "-", "--engine", "x"],
            "list: --engine is structural or exhaustive, not `x`",
        ),
        (
            &["list", "-", "--limit", "-1"],
            "list: --limit is a number of rows, not `-1`",
        ),
        (
            &["list", "-", "--limit=x"],
            "list: --limit is a number of rows, not `x`",
        ),
        (&["list", "-", "--csv", "--csv"], "--csv stands twice"),
        (
            &["list", "-", "--limit", "1", "--limit=1"],
            "--limit stands twice",
        ),
        (
            &["list", "--", "--csv", "-"],
            "list: files needed 1, given 2",
        ),
    ];
    for (arguments, wrong) in table {
        let message = format!("rules: {wrong}; `rules --help` says how to call it\n");
        assert_eq!(failed(b"", arguments), (2, String::new(), message));
    }
}

#[test]
fn assemble() {
    let ran = run_on(BENCH.as_bytes(), &["assemble", "-"]);
    assert_eq!(ran, (0, bytes(BENCH), String::new()));

    let folder = folder("assemble");
    let (text, file) = (folder.join("bench.txt"), folder.join("bench.rules"));
    fs::write(&text, BENCH).unwrap();
    let (text, out) = (text.to_str().unwrap(), file.to_str().unwrap());
    assert_eq!(printed(b"", &["assemble", text, "-o", out]), "");
    assert_eq!(fs::read(&file).unwrap(), bytes(BENCH));

    // A text that cannot be read leaves the output as it is.
    let message = "rules: standard input: line 2: expected a field number 0 to 255, found `x`\n";
    let ran = failed(b"field 0\nfield x\n", &["assemble", "-", "-o", out]);
    assert_eq!(ran, (1, String::new(), message.into()));
    assert_eq!(fs::read(&file).unwrap(), bytes(BENCH));

    let message = "rules: standard input: line 2: expected UTF-8, found `byte 0xff`\n";
    let ran = failed(b"sum\n\xff\n", &["assemble", "-"]);
    assert_eq!(ran, (1, String::new(), message.into()));
    fs::remove_dir_all(folder).unwrap();
}

#[test]
fn show() {
    let text = "field 0 range 0 1\nfield 1 listed\n  value 4\nsum\n";
    assert_eq!(printed(&bytes(text), &["show", "-"]), text);
    let numbered = printed(&bytes(text), &["show", "--numbers", "-"]);
    assert_eq!(
        numbered,
        "field 0 range 0 1  # 1\nfield 1 listed  # 2\n  value 4  # 3\nsum  # 4\n"
    );
    assert_eq!(bytes(&numbered), bytes(text));
    let (status, stdout, stderr) = failed(&[0; 33], &["show", "-"]);
    assert_eq!((status, stdout.as_str()), (1, ""));
    assert!(stderr.contains("refused 1: the length is no multiple of 32"));
}

#[test]
fn check() {
    assert_eq!(printed(&bytes(BENCH), &["check", "-"]), "accepted 9\n");
    let (status, stdout, stderr) = failed(&bytes("field 0\neven 3\nsum"), &["check", "-"]);
    assert_eq!((status, stdout.as_str()), (1, "refused 6 2\n"));
    assert_eq!(
        stderr,
        "rules: refused 6 at record 2: a named field is not below the number of fields before it\n"
    );
}

#[test]
fn count() {
    let file = bytes(BENCH);
    let structural = "total 9\nemitted 7\npassed 5\nfailed 4\n";
    let exhaustive = "total 9\nemitted 9\npassed 5\nfailed 4\n";
    assert_eq!(printed(&file, &["count", "-"]), structural);
    for arguments in [["--engine", "exhaustive"], ["--engine=exhaustive", "--"]] {
        let [option, value] = arguments;
        assert_eq!(printed(&file, &["count", option, value, "-"]), exhaustive);
    }
    let ring = bytes("field 0\nfield 1\ncross 0 1\ncross 1 0\nsum");
    let (status, stdout, stderr) = failed(&ring, &["count", "-"]);
    assert_eq!((status, stdout.as_str()), (1, "refused 12 0\n"));
    assert!(stderr.starts_with("rules: refused 12: "));
}

#[test]
fn list() {
    let file = bytes(BENCH);
    assert_eq!(printed(&file, &["list", "-"]), LISTING);
    let path = root().join("crates/exhaustive/stdin");
    let stdout = fs::read_to_string(root().join("crates/exhaustive/stdout")).unwrap();
    let path = path.to_str().unwrap();
    assert_eq!(printed(b"", &["list", "--engine=exhaustive", path]), stdout);
    assert_eq!(
        printed(&file, &["list", "--passed", "-"]),
        "P 0 0 0 0\nP 0 1 0 1\nP 0 2 2 0\nP 0 2 2 0\nP 0 2 2 0\nend 9 7 5 4\n"
    );
    assert_eq!(printed(&bytes("sum"), &["list", "-"]), "end 0 0 0 0\n");
}

#[test]
fn a_cut_listing_has_no_end_line() {
    let file = bytes(BENCH);
    let limited = |limit: &str| printed(&file, &["list", "-", "--limit", limit]);
    assert_eq!(limited("0"), "cut 0\n");
    assert_eq!(limited("2"), "P 0 0 0 0\nP 0 1 0 1\ncut 2\n");
    assert_eq!(limited("6").lines().last(), Some("cut 6"));
    assert_eq!(limited("7"), LISTING);
    assert_eq!(limited("8"), LISTING);
    let passed = |limit: &str| printed(&file, &["list", "-", "--passed", "--limit", limit]);
    assert_eq!(passed("1"), "P 0 0 0 0\ncut 1\n");
    assert_eq!(passed("5").lines().last(), Some("end 9 7 5 4"));

    // No passed row follows the limit, though rows do.
    let file = bytes("field 0 range 0 2\nlt 0 1\nsum");
    let whole = printed(&file, &["list", "-", "--passed", "--limit", "1"]);
    assert_eq!(whole, "P 0 0 0\nend 3 3 1 2\n");
}

#[test]
fn csv() {
    let file = bytes("field 0 range 9 10\nfield 1 range 0 0\nlt 0 10\nsum");
    assert_eq!(
        printed(&file, &["list", "--csv", "-"]),
        "passed,place,projection,field0,field1\n1,0,9,9,0\n0,3,,10,0\nend,2,2,1,1\n"
    );
    assert_eq!(
        printed(&file, &["list", "--csv", "--limit=1", "-"]),
        "passed,place,projection,field0,field1\n1,0,9,9,0\ncut,1\n"
    );
}

#[test]
fn a_refused_listing() {
    let barren = bytes("field 0 range 0 1\nfield 1 range 0 1\ncross 0 1\nkey 1\nsum");
    for option in ["--passed", "--csv", "--limit=0"] {
        let (status, stdout, stderr) = failed(&barren, &["list", option, "-"]);
        assert_eq!((status, stdout.as_str()), (1, "refused 13 0\n"));
        assert!(stderr.starts_with("rules: refused 13: "));
    }
}

#[test]
fn join_files() {
    let folder = folder("join");
    let path = |name: &str| folder.join(name).to_str().unwrap().to_owned();
    let (first, second, out) = (path("first"), path("second"), path("out"));
    fs::write(&first, bytes(BENCH)).unwrap();
    fs::write(&second, bytes("field 0 range 5 6\nsum")).unwrap();
    let joined = join(rules(BENCH), rules("field 0 range 5 6\nsum")).unwrap();

    assert_eq!(printed(b"", &["join", &first, &second, "-o", &out]), "");
    assert_eq!(fs::read(&out).unwrap(), joined.as_bytes());
    let ran = run_on(&bytes(BENCH), &["join", "-", &second]);
    assert_eq!(ran, (0, joined.as_bytes().to_vec(), String::new()));

    // A refused join leaves the output as it is.
    fs::write(&second, bytes("field 0\nparity 0")).unwrap();
    let message = "rules: second file: refused 16 at record 2: the projector is not a sum\n";
    let ran = failed(b"", &["join", &first, &second, "-o", &out]);
    assert_eq!(ran, (1, String::new(), message.into()));
    assert_eq!(fs::read(&out).unwrap(), joined.as_bytes());
    fs::remove_dir_all(folder).unwrap();
}

#[test]
fn files_that_cannot_be_read_or_written() {
    let missing = "/no/such/file";
    for name in ["assemble", "show", "check", "count", "list"] {
        let (status, stdout, stderr) = failed(b"", &[name, missing]);
        assert_eq!((status, stdout.as_str()), (1, ""));
        assert!(stderr.starts_with("rules: /no/such/file: "));
    }
    let (status, _, stderr) = failed(b"sum", &["assemble", "-", "-o", missing]);
    assert_eq!(status, 1);
    assert!(stderr.starts_with("rules: /no/such/file: "));
}

/// Some 27,000 rows, more than a pipe holds.
fn long() -> Vec<u8> {
    bytes("field 0 range 0 29\nfield 1 range 0 29\nfield 2 range 0 29\nsum")
}

#[test]
fn a_closed_pipe_ends_it_quietly() {
    let mut child = start(&["list", "-"]);
    drop(child.stdout.take());
    child.stdin.take().unwrap().write_all(&long()).unwrap();
    assert_eq!(end(child), (1, Vec::new(), String::new()));
}

#[test]
#[cfg(target_os = "linux")]
fn a_full_disk_is_told() {
    for arguments in [
        ["list", "-"],
        ["show", "-"],
        ["check", "-"],
        ["list", "--help"],
    ] {
        let full = fs::OpenOptions::new().write(true).open("/dev/full");
        let mut child = Command::new(env!("CARGO_BIN_EXE_rules"))
            .args(arguments)
            .stdin(Stdio::piped())
            .stdout(full.unwrap())
            .stderr(Stdio::piped())
            .spawn()
            .unwrap();
        let _ = child.stdin.take().unwrap().write_all(&long());
        let (status, _, stderr) = end(child);
        assert_eq!(status, 1);
        assert!(stderr.starts_with("rules: standard output: "), "{stderr}");
    }
}
