//! The command line.

use std::collections::VecDeque;
use std::ffi::{OsStr, OsString};
use std::os::unix::ffi::OsStrExt;

use crate::failure::Failure;
use crate::shown::Shown;
use crate::time::parse_ms;

/// The operands and options behind a command's name.
#[derive(Debug)]
pub struct Args {
    operands: VecDeque<OsString>,
    /// Each option with its value; a flag has an empty one.
    options: Vec<(&'static str, OsString)>,
}

impl Args {
    /// Sorts operands and options: flags stand alone, the others have a value, as the next
    /// argument or behind `=`. Behind `--` all are operands.
    pub fn parse(
        raw: &[OsString],
        flags: &[&'static str],
        valued: &[&'static str],
    ) -> Result<Self, Failure> {
        let mut args = Args {
            operands: VecDeque::new(),
            options: Vec::new(),
        };
        let mut rest = raw.iter();
        while let Some(arg) = rest.next() {
            if arg == "--" {
                args.operands.extend(rest.cloned());
                break;
            }
            if !arg.as_bytes().starts_with(b"-") || arg == "-" {
                args.operands.push_back(arg.clone());
                continue;
            }
            let (name, joined) = split(arg);
            let known = |names: &[&'static str]| names.iter().copied().find(|known| name == *known);
            let (name, value) = match (known(flags), known(valued), joined) {
                (Some(flag), _, None) => (flag, OsString::new()),
                (_, Some(name), Some(value)) => (name, value.to_owned()),
                (_, Some(name), None) => (name, rest.next().ok_or(lacking(name))?.clone()),
                _ => {
                    return Err(Failure::Usage(format!(
                        "unknown option {}",
                        Shown::name(arg)
                    )))
                }
            };
            if args.value(name).is_some() {
                return Err(Failure::Usage(format!("{name} stands twice")));
            }
            args.options.push((name, value));
        }
        Ok(args)
    }

    /// The next operand.
    pub fn operand(&mut self, what: &str) -> Result<OsString, Failure> {
        self.operands
            .pop_front()
            .ok_or(Failure::Usage(format!("{what} is missing")))
    }

    /// Nothing, if every operand was taken.
    pub fn end(&self) -> Result<(), Failure> {
        match self.operands.front() {
            Some(more) => Err(Failure::Usage(format!(
                "one too many: {}",
                Shown::name(more)
            ))),
            None => Ok(()),
        }
    }

    /// Whether a flag is there.
    pub fn flag(&self, name: &str) -> bool {
        self.value(name).is_some()
    }

    /// The value of an option.
    pub fn value(&self, name: &str) -> Option<&OsStr> {
        let found = self.options.iter().find(|(option, _)| *option == name);
        found.map(|(_, value)| value.as_os_str())
    }

    /// The value of an option that is a text.
    pub fn text(&self, name: &str) -> Result<Option<&str>, Failure> {
        let text = self
            .value(name)
            .map(|value| value.to_str().ok_or(not(name, value, "UTF-8")));
        text.transpose()
    }

    /// The scale, in ticks a second.
    pub fn scale(&self) -> Result<Option<u32>, Failure> {
        self.number("--scale", "a whole number below 2^32", |text| {
            // Digits only: `parse` would take a sign.
            let plain = text.bytes().all(|byte| byte.is_ascii_digit());
            plain.then(|| text.parse().ok())?
        })
    }

    /// The timeline, in milliseconds.
    pub fn t(&self) -> Result<Option<u32>, Failure> {
        self.number("--t", "milliseconds below 2^32, or hh:mm:ss.mmm", parse_ms)
    }

    /// The scale, which has to be there.
    pub fn need_scale(&self) -> Result<u32, Failure> {
        self.scale()?
            .ok_or(Failure::Usage("--scale, ticks a second, is missing".into()))
    }

    /// The timeline, which has to be there.
    pub fn need_t(&self) -> Result<u32, Failure> {
        self.t()?.ok_or(Failure::Usage(
            "--t, the length in milliseconds, is missing".into(),
        ))
    }

    fn number(
        &self,
        name: &str,
        what: &str,
        read: fn(&str) -> Option<u32>,
    ) -> Result<Option<u32>, Failure> {
        let Some(value) = self.value(name) else {
            return Ok(None);
        };
        let number = value.to_str().and_then(read);
        Ok(Some(number.ok_or(not(name, value, what))?))
    }
}

/// An option, and the value behind its `=`.
fn split(arg: &OsStr) -> (&OsStr, Option<&OsStr>) {
    let bytes = arg.as_bytes();
    match bytes.iter().position(|&byte| byte == b'=') {
        Some(at) => (
            OsStr::from_bytes(&bytes[..at]),
            Some(OsStr::from_bytes(&bytes[at + 1..])),
        ),
        None => (arg, None),
    }
}

fn lacking(name: &str) -> Failure {
    Failure::Usage(format!("{name} lacks its value"))
}

fn not(name: &str, value: &OsStr, what: &str) -> Failure {
    Failure::Usage(format!(
        "{name} is {}, which is not {what}",
        Shown::name(value)
    ))
}

#[cfg(test)]
mod tests {
    use super::*;

    fn parse(raw: &[&str]) -> Result<Args, Failure> {
        let raw: Vec<OsString> = raw.iter().map(OsString::from).collect();
        Args::parse(&raw, &["--json"], &["--scale", "--t"])
    }

    #[test]
    fn options_stand_anywhere() {
        let mut args = parse(&[
            "a", "--scale", "90000", "--json", "--t=1", "-", "--", "--json",
        ]);
        let args = args.as_mut().expect("it is understood");
        assert_eq!(
            (args.need_scale().unwrap(), args.need_t().unwrap()),
            (90_000, 1)
        );
        assert!(args.flag("--json"));
        for operand in ["a", "-", "--json"] {
            assert!(args.end().is_err());
            assert_eq!(args.operand("x").unwrap(), operand);
        }
        assert!(args.end().is_ok() && args.operand("x").is_err());
    }

    #[test]
    fn what_is_not_understood_is_refused() {
        for raw in [
            &["--x"][..],
            &["--scale"],
            &["--json=1"],
            &["-s"],
            &["--t", "1", "--t", "1"],
        ] {
            assert!(parse(raw).is_err(), "{raw:?}");
        }
        for number in ["", "-1", "+1", "1.5", "4294967296", "x"] {
            assert!(parse(&["--scale", number]).unwrap().need_scale().is_err());
        }
    }
}
