//! The command line.
//!
//! Assumes nothing; a word that can't be understood is told.

pub const HELP: &str = "\
usage: timeline [--svg|--html] [--names FILE] [--from T] [--to T] [FILE]
       timeline --help

Draws a trace over the clock: what each server does, where each task executes and what it waits
for, who owns each resource. Without FILE, standard input is read. The picture goes to standard
output.

  --svg          a picture for documents (this is what comes without a word)
  --html         one page with the picture, the listing and the states, to step through
  --names FILE   names, one a line: `task NUMBER NAME` or `resource NUMBER NAME`
  --from T       leave out what is before tick T
  --to T         leave out what is after tick T
";

#[derive(Clone, Copy, Debug, Default, PartialEq, Eq)]
pub enum Form {
    #[default]
    Svg,
    Html,
}

#[derive(Clone, Debug, Default, PartialEq, Eq)]
pub struct Arguments {
    pub form: Form,
    pub names: Option<String>,
    pub from: Option<u32>,
    pub to: Option<u32>,
    pub file: Option<String>,
}

#[derive(Clone, Debug, PartialEq, Eq)]
pub enum Command {
    Help,
    Draw(Arguments),
}

/// What the words ask for, or what is wrong with them.
pub fn command(words: &[String]) -> Result<Command, String> {
    let mut asked = Arguments::default();
    let mut words = words.iter().map(String::as_str);
    while let Some(word) = words.next() {
        match word {
            "--help" | "-h" => return Ok(Command::Help),
            "--svg" => asked.form = Form::Svg,
            "--html" => asked.form = Form::Html,
            "--names" => asked.names = Some(value(word, words.next())?.to_string()),
            "--from" => asked.from = Some(tick(word, words.next())?),
            "--to" => asked.to = Some(tick(word, words.next())?),
            _ if word.starts_with('-') => return Err(format!("there is no `{word}`")),
            _ if asked.file.is_some() => return Err(format!("`{word}` is a second file")),
            _ => asked.file = Some(word.to_string()),
        }
    }
    match (asked.from, asked.to) {
        (Some(from), Some(to)) if from > to => Err(format!("--from {from} is after --to {to}")),
        _ => Ok(Command::Draw(asked)),
    }
}

fn value<'a>(option: &str, word: Option<&'a str>) -> Result<&'a str, String> {
    word.ok_or_else(|| format!("{option} needs a word after it"))
}

fn tick(option: &str, word: Option<&str>) -> Result<u32, String> {
    let word = value(option, word)?;
    word.parse()
        .map_err(|_| format!("{option} is `{word}`, which is no tick of the clock"))
}

#[cfg(test)]
mod tests {
    use super::{command, Arguments, Command, Form};

    fn of(line: &str) -> Result<Command, String> {
        let words: Vec<String> = line.split_whitespace().map(str::to_string).collect();
        command(&words)
    }

    #[test]
    fn words_are_understood() {
        assert_eq!(of(""), Ok(Command::Draw(Arguments::default())));
        assert_eq!(of("--svg --help x y"), Ok(Command::Help));
        let asked = Arguments {
            form: Form::Html,
            names: Some("n".to_string()),
            from: Some(3),
            to: Some(3),
            file: Some("f".to_string()),
        };
        assert_eq!(
            of("--html --names n --from 3 f --to 3"),
            Ok(Command::Draw(asked))
        );
    }

    #[test]
    fn faults_are_told() {
        let faults = [
            ("--png", "there is no `--png`"),
            ("a b", "`b` is a second file"),
            ("--names", "--names needs a word after it"),
            ("--from x", "--from is `x`, which is no tick of the clock"),
            ("--to 4294967296", "--to is `4294967296`, which is no tick"),
            ("--from 4 --to 3", "--from 4 is after --to 3"),
        ];
        for (line, expected) in faults {
            let fault = of(line).unwrap_err();
            assert!(fault.starts_with(expected), "{fault}");
        }
    }
}
