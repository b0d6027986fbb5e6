//! What the command line asks for.

use std::ffi::{OsStr, OsString};

use rule_enumerator::Engine;

use crate::help;

/// What to do.
pub enum Call {
    Print(&'static str),
    Assemble {
        text: OsString,
        output: OsString,
    },
    Show {
        file: OsString,
        numbers: bool,
    },
    Check {
        file: OsString,
    },
    Count {
        file: OsString,
        engine: Engine,
    },
    List {
        file: OsString,
        options: List,
    },
    Join {
        files: [OsString; 2],
        output: OsString,
    },
}

/// How to list.
pub struct List {
    pub engine: Engine,
    pub passed: bool,
    pub limit: Option<usize>,
    pub csv: bool,
}

/// A subcommand: its name, its help, its options without a value, its options with one, and the
/// call that it makes of what is given.
struct Subcommand {
    name: &'static str,
    help: &'static str,
    flags: &'static [&'static str],
    valued: &'static [&'static str],
    call: fn(Given) -> Result<Call, String>,
}

const SUBCOMMANDS: [Subcommand; 6] = [
    Subcommand {
        name: "assemble",
        help: help::ASSEMBLE,
        flags: &[],
        valued: &["-o"],
        call: assemble,
    },
    Subcommand {
        name: "show",
        help: help::SHOW,
        flags: &["--numbers"],
        valued: &[],
        call: show,
    },
    Subcommand {
        name: "check",
        help: help::CHECK,
        flags: &[],
        valued: &[],
        call: check,
    },
    Subcommand {
        name: "count",
        help: help::COUNT,
        flags: &[],
        valued: &["--engine"],
        call: count,
    },
    Subcommand {
        name: "list",
        help: help::LIST,
        flags: &["--passed", "--csv"],
        valued: &["--engine", "--limit"],
        call: list,
    },
    Subcommand {
        name: "join",
        help: help::JOIN,
        flags: &[],
        valued: &["-o"],
        call: join,
    },
];

fn assemble(given: Given) -> Result<Call, String> {
    let output = given.output();
    let [text] = given.files()?;
    Ok(Call::Assemble { text, output })
}

fn show(given: Given) -> Result<Call, String> {
    let numbers = given.flag("--numbers");
    let [file] = given.files()?;
    Ok(Call::Show { file, numbers })
}

fn check(given: Given) -> Result<Call, String> {
    let [file] = given.files()?;
    Ok(Call::Check { file })
}

fn count(given: Given) -> Result<Call, String> {
    let engine = given.engine()?;
    let [file] = given.files()?;
    Ok(Call::Count { file, engine })
}

fn list(given: Given) -> Result<Call, String> {
    let options = List {
        engine: given.engine()?,
        passed: given.flag("--passed"),
        limit: given.limit()?,
        csv: given.flag("--csv"),
    };
    let [file] = given.files()?;
    Ok(Call::List { file, options })
}

fn join(given: Given) -> Result<Call, String> {
    let output = given.output();
    let files: [OsString; 2] = given.files()?;
    if files.iter().all(|file| file == "-") {
        return Err(String::from("standard input can be read only once"));
    }
    Ok(Call::Join { files, output })
}

/// What follows the name of a subcommand.
#[derive(Default)]
struct Given {
    help: bool,
    files: Vec<OsString>,
    flags: Vec<&'static str>,
    values: Vec<(&'static str, OsString)>,
}

impl Given {
    fn flag(&self, name: &str) -> bool {
        self.flags.contains(&name)
    }

    fn value(&self, name: &str) -> Option<&OsStr> {
        let value = self.values.iter().find(|(given, _)| *given == name);
        value.map(|(_, value)| value.as_os_str())
    }

    /// The files, which must be as many as the subcommand takes.
    fn files<const N: usize>(self) -> Result<[OsString; N], String> {
        let found = self.files.len();
        let files = self.files.try_into();
        files.map_err(|_| format!("files needed {N}, given {found}"))
    }

    fn has(&self, name: &str) -> bool {
        self.flag(name) || self.value(name).is_some()
    }

    /// The output; `-` is standard output.
    fn output(&self) -> OsString {
        self.value("-o").unwrap_or(OsStr::new("-")).to_owned()
    }

    fn engine(&self) -> Result<Engine, String> {
        match self
            .value("--engine")
            .map(OsStr::to_string_lossy)
            .as_deref()
        {
            None | Some("structural") => Ok(Engine::Structural),
            Some("exhaustive") => Ok(Engine::Exhaustive),
            Some(word) => Err(format!(
                "--engine is structural or exhaustive, not `{word}`"
            )),
        }
    }

    fn limit(&self) -> Result<Option<usize>, String> {
        let Some(value) = self.value("--limit") else {
            return Ok(None);
        };
        let word = value.to_string_lossy();
        match word.parse() {
            Ok(limit) => Ok(Some(limit)),
            Err(_) => Err(format!("--limit is a number of rows, not `{word}`")),
        }
    }
}

fn known(names: &[&'static str], word: &str) -> Option<&'static str> {
    names.iter().copied().find(|name| *name == word)
}

/// Takes one option: a flag, or a name whose value is after `=` or is the next word.
fn take_option(
    subcommand: &Subcommand,
    given: &mut Given,
    word: &str,
    words: &mut impl Iterator<Item = OsString>,
) -> Result<(), String> {
    let (name, attached) = match word.split_once('=') {
        Some((name, value)) => (name, Some(OsString::from(value))),
        None => (word, None),
    };
    if given.has(name) {
        return Err(format!("{name} stands twice"));
    }
    if let Some(flag) = known(subcommand.flags, word) {
        given.flags.push(flag);
        return Ok(());
    }
    let Some(option) = known(subcommand.valued, name) else {
        return Err(format!("{} has no option `{word}`", subcommand.name));
    };
    let Some(value) = attached.or_else(|| words.next()) else {
        return Err(format!("{option} needs a value"));
    };
    given.values.push((option, value));
    Ok(())
}

/// Reads what follows the name of a subcommand. After `--` all words are files.
fn read_given(
    subcommand: &Subcommand,
    mut words: impl Iterator<Item = OsString>,
) -> Result<Given, String> {
    let mut given = Given::default();
    while let Some(word) = words.next() {
        match word.to_string_lossy().as_ref() {
            "--help" | "-h" => given.help = true,
            "--" => {
                given.files.extend(words);
                break;
            }
            option if option.starts_with('-') && option != "-" => {
                take_option(subcommand, &mut given, option, &mut words)?;
            }
            _ => given.files.push(word),
        }
    }
    Ok(given)
}

/// Reads the words after `rules`. An error says what is wrong.
pub fn read(mut words: impl Iterator<Item = OsString>) -> Result<Call, String> {
    let Some(first) = words.next() else {
        return Err(String::from("a subcommand is missing"));
    };
    let name = first.to_string_lossy();
    match name.as_ref() {
        "--help" | "-h" => return Ok(Call::Print(help::RULES)),
        "--version" | "-V" => return Ok(Call::Print(help::VERSION)),
        _ => {}
    }
    let Some(subcommand) = SUBCOMMANDS
        .iter()
        .find(|subcommand| subcommand.name == name)
    else {
        return Err(format!("there is no subcommand `{name}`"));
    };
    let given = read_given(subcommand, words)?;
    if given.help {
        return Ok(Call::Print(subcommand.help));
    }
    (subcommand.call)(given).map_err(|wrong| format!("{name}: {wrong}"))
}
