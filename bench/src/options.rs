//! The command's options.

pub const HELP: &str = "\
Times the port beside goscript on the same bodies, and the steps of its walk
beside a walk over a tree of nodes, in one process, and prints the tables in
Markdown.

  --quick   a short run, for a first look
  --help    this text

Exit code: 0, or 2 for an option that isn't known.";

pub struct Options {
    pub quick: bool,
    pub help: bool,
}

pub fn parse(given: impl Iterator<Item = String>) -> Result<Options, String> {
    let mut options = Options { quick: false, help: false };
    for option in given {
        match option.as_str() {
            "--quick" => options.quick = true,
            "--help" | "-h" => options.help = true,
            _ => return Err(format!("unknown option {option}")),
        }
    }
    Ok(options)
}
