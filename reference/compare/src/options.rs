//! The options of the program `compare`.

use crate::run::{End, Plan, DEFAULT_SECONDS, DEFAULT_SEED};

/// How the program is called.
pub const USAGE: &str =
    "usage: compare [--seed N] [--seconds S | --words K] [--first INDEX] [--trace]";

/// Reads the options, or tells what is wrong with them.
pub fn read(arguments: impl Iterator<Item = String>) -> Result<Plan, String> {
    let mut plan = Plan {
        seed: DEFAULT_SEED,
        first: 0,
        end: End::Seconds(DEFAULT_SECONDS),
        trace: false,
    };
    let mut arguments = arguments;
    while let Some(name) = arguments.next() {
        match name.as_str() {
            "--seed" => plan.seed = number(&name, arguments.next())?,
            "--first" => plan.first = number(&name, arguments.next())?,
            "--seconds" => plan.end = End::Seconds(number(&name, arguments.next())?),
            "--words" => plan.end = End::Words(number(&name, arguments.next())?),
            "--trace" => plan.trace = true,
            _ => return Err(format!("unknown option {name}")),
        }
    }
    Ok(plan)
}

fn number(name: &str, value: Option<String>) -> Result<u64, String> {
    let value = value.ok_or_else(|| format!("{name} lacks its number"))?;
    let wrong = |_| format!("{name} takes a number, not {value}");
    value.parse().map_err(wrong)
}

#[cfg(test)]
mod tests {
    use super::*;

    fn plan(line: &str) -> Result<Plan, String> {
        read(line.split_whitespace().map(String::from))
    }

    #[test]
    fn options_are_read() {
        assert_eq!(plan("").unwrap().end, End::Seconds(DEFAULT_SECONDS));
        let plan = plan("--seed 7 --words 30 --first 4 --trace").unwrap();
        assert_eq!((plan.seed, plan.first, plan.trace), (7, 4, true));
        assert_eq!(plan.end, End::Words(30));
    }

    #[test]
    fn wrong_options_are_told() {
        assert!(plan("--seed").is_err());
        assert!(plan("--words many").is_err());
        assert!(plan("--sed 1").is_err());
    }
}
