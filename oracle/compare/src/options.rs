//! The command's options.

pub const HELP: &str = "\
Compares the port with goscript, and its walks with document 01's runner, in
one process, and ends at the first difference. Bodies without faults are walked
by random choices, which hang on the body alone. Standard error has the
progress, standard output a table and what occurred.

  --random N   how many random bodies, in all phases together (default 1000000)
  --seed N     the seed of the random bodies (default 1)
  --help       this text

Exit code: 0 no difference, 1 a difference or a case that never occurred,
2 an option that isn't known.";

#[derive(Debug, PartialEq, Eq)]
pub struct Options {
    pub random: u64,
    pub seed: u64,
    pub help: bool,
}

pub fn parse(given: impl Iterator<Item = String>) -> Result<Options, String> {
    let mut options = Options { random: 1_000_000, seed: 1, help: false };
    let mut given = given;
    while let Some(option) = given.next() {
        match option.as_str() {
            "--random" => options.random = number(&option, given.next())?,
            "--seed" => options.seed = number(&option, given.next())?,
            "--help" | "-h" => options.help = true,
            _ => return Err(format!("unknown option {option}")),
        }
    }
    Ok(options)
}

fn number(option: &str, value: Option<String>) -> Result<u64, String> {
    let value = value.ok_or(format!("{option} needs a number"))?;
    value.parse().map_err(|_| format!("{option} needs a number, and {value} isn't one"))
}

#[test]
fn options_known_and_unknown() {
    let parse = |given: &[&str]| parse(given.iter().map(|option| option.to_string()));
    let given = parse(&["--seed", "7", "--random", "9"]).unwrap();
    assert_eq!((given.seed, given.random, given.help), (7, 9, false));
    for (wrong, message) in [
        (&["--fast"][..], "unknown option --fast"),
        (&["--seed"], "--seed needs a number"),
        (&["--random", "x"], "--random needs a number, and x isn't one"),
    ] {
        assert_eq!(parse(wrong).unwrap_err(), message);
    }
}
