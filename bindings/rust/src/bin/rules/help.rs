//! What `--help` and `--version` print.

pub const VERSION: &str = concat!("rules ", env!("CARGO_PKG_VERSION"), "\n");

pub const RULES: &str = "\
rules: lists and counts the combinations that a rules file allows

  rules assemble TEXT [-o FILE]   write the bytes of a rules file in its text form
  rules show FILE                 print the text form of a rules file
  rules check FILE                judge a rules file
  rules count FILE                print how many rows there are and how many pass
  rules list FILE                 print the rows
  rules join FIRST SECOND [-o FILE]
                                  write the join of two rules files

  rules SUBCOMMAND --help         more on a subcommand
  rules --version                 print the version

assemble reads text, all others read bytes. The file - is standard input.
docs/FORMAT.md describes the rules file, its text form and the refusals.

Exit status: 0 done; 1 refused, or a line cannot be read, or reading or writing
failed; 2 a wrong call.
";

pub const ASSEMBLE: &str = "\
rules assemble TEXT [-o FILE]

Writes the bytes of a rules file in its text form to FILE, or else to standard
output. It does not judge the rules: `rules check` does. If a line cannot be
read, nothing is written and the message says which line and what was expected.
";

pub const SHOW: &str = "\
rules show [--numbers] FILE

Prints the text form of a rules file, one record a line. `rules assemble` gives
the same bytes back. The rules are not judged; only a length that is no multiple
of 32 is refused.

  --numbers   end each line with the number of its record, as a comment
";

pub const CHECK: &str = "\
rules check FILE

Judges a rules file. Prints `accepted` and the total; or `refused`, the number
and the record, and on standard error what the number means. It gives refusals
1 to 10. Refusals 12 and 13 depend on the engine: count and list give them.
";

pub const COUNT: &str = "\
rules count [--engine ENGINE] FILE

Prints total, emitted, passed and failed, a line each; or `refused`, the number
and the record.

  --engine ENGINE   structural (the default) or exhaustive

A long count says on standard error how far it is, if that is a terminal.
";

pub const LIST: &str = "\
rules list [--engine ENGINE] [--passed] [--limit N] [--csv] FILE

Prints a line for each row: P or F for passed or failed, the place, the
projection or -, the values. Then a line with `end`, total, emitted, passed and
failed. Or `refused`, the number and the record.

A listing is whole only if its last line begins with `end`.

  --engine ENGINE   structural (the default) or exhaustive
  --passed          print only the rows that passed; the end line counts all
  --limit N         print at most N rows; if more would follow, the last line is
                    `cut N` in place of the end line
  --csv             commas, and a header: passed,place,projection,field0,..;
                    passed is 1 or 0, no projection is empty, and the last line
                    is end,TOTAL,EMITTED,PASSED,FAILED or cut,N

A long listing says on standard error how far it is, if that is a terminal and
standard output is not.
";

pub const JOIN: &str = "\
rules join FIRST SECOND [-o FILE]

Writes the join of two rules files to FILE, or else to standard output. Both
must be closed by a sum. The rows of the joined file are, for each row of the
first in order, each row of the second. If a file is refused, nothing is
written and the message says which.
";
