//! The command line, by the crate `clap`. Matches are parts of the words here, and not copies.

use super::alloc::{AllocError, Global};
use super::text;
use std::marker::PhantomData;

pub use ::clap::ArgAction;

/// Calls of a builder that are clap's own: texts become clap's, and all else is handed on.
macro_rules! handed_on {
    ($($name:ident($value:ident: $kind:ty) $(.$own:ident())?, $doc:literal;)*) => {$(
        #[doc = $doc]
        pub fn $name(self, $value: $kind) -> Self {
            Self(self.0.$name($value $(.$own())?), PhantomData)
        }
    )*};
}

/// An argument of a command.
pub struct Arg<'a>(::clap::Arg, PhantomData<&'a str>);

impl<'a> Arg<'a> {
    /// One of this name.
    pub fn new(_alloc: Global, id: &'a str) -> Arg<'a> {
        Arg(::clap::Arg::new(id.to_owned()), PhantomData)
    }

    handed_on! {
        required(required: bool), "Whether it has to be there.";
        action(action: ArgAction), "What is done where it is met.";
        help(help: &'a str).to_owned(), "Its line of help.";
        long(name: &'a str).to_owned(), "Makes it an option.";
        value_name(name: &'a str).to_owned(), "What help calls its value.";
    }
}

/// A command.
pub struct Command<'a>(::clap::Command, PhantomData<&'a str>);

impl<'a> Command<'a> {
    /// One of this name.
    pub fn new(_alloc: Global, name: &'a str) -> Command<'a> {
        Command(::clap::Command::new(name.to_owned()), PhantomData)
    }

    handed_on! {
        about(about: &'a str).to_owned(), "What it does.";
        after_help(text: &'a str).to_owned(), "What stands below its options.";
        version(version: &'a str).to_owned(), "Its version.";
        subcommand_required(required: bool), "Whether a subcommand has to be there.";
    }

    /// One more argument.
    pub fn arg(self, arg: Arg<'a>) -> Result<Command<'a>, AllocError> {
        Ok(Command(self.0.arg(arg.0), PhantomData))
    }

    /// One more subcommand.
    pub fn subcommand(self, other: Command<'a>) -> Result<Command<'a>, AllocError> {
        Ok(Command(self.0.subcommand(other.0), PhantomData))
    }

    /// Reads the words, the program's name first.
    pub fn try_get_matches_from(self, words: &'a [text::String]) -> Result<ArgMatches<'a>, Error> {
        match self.0.try_get_matches_from(words.iter().map(text::String::as_str)) {
            Ok(matches) => Ok(ArgMatches::of(&matches, words)),
            Err(error) => Err(Error::Words(error)),
        }
    }
}

/// What was found in words.
pub struct ArgMatches<'a> {
    rows: Vec<(String, Vec<&'a str>)>,
    subcommand: Option<(String, Box<ArgMatches<'a>>)>,
}

// A value where it stands in the words: each is the end of one, but those that flags have.
fn part_of<'a>(words: &'a [text::String], value: &str) -> Option<&'a str> {
    let ends = words.iter().filter(|word| word.ends_with(value));
    let found = ends.map(|word| &word.as_str()[word.len() - value.len()..]).next();
    found.or_else(|| ["true", "false"].into_iter().find(|flag| *flag == value))
}

impl<'a> ArgMatches<'a> {
    fn of(matches: &::clap::ArgMatches, words: &'a [text::String]) -> ArgMatches<'a> {
        let values = |id: &str| {
            let raw = matches.get_raw(id).into_iter().flatten();
            raw.filter_map(|value| part_of(words, value.to_str()?)).collect()
        };
        let below = |(name, own): (&str, _)| (name.to_owned(), Box::new(Self::of(own, words)));
        ArgMatches {
            rows: matches.ids().map(|id| (id.to_string(), values(id.as_str()))).collect(),
            subcommand: matches.subcommand().map(below),
        }
    }

    /// The values of an argument.
    pub fn get_strs(&self, id: &str) -> Option<&[&'a str]> {
        let row = self.rows.iter().find(|row| row.0 == id)?;
        Some(row.1.as_slice())
    }

    /// The first value of an argument.
    pub fn get_str(&self, id: &str) -> Option<&'a str> {
        self.get_strs(id)?.first().copied()
    }

    /// The subcommand that was met.
    pub fn subcommand(&self) -> Option<(&str, &ArgMatches<'a>)> {
        let (name, matches) = self.subcommand.as_ref()?;
        Some((name.as_str(), matches))
    }
}

/// Why there are no matches. Help is one reason.
#[derive(Debug, thiserror::Error)]
pub enum Error {
    /// What clap says.
    #[error("{0}")]
    Words(::clap::Error),
    /// A request for memory was refused.
    #[error("error: out of memory\n")]
    OutOfMemory,
}

impl Error {
    /// Which kind of reason it is.
    pub fn kind(&self) -> error::ErrorKind {
        use ::clap::error::ErrorKind;
        match self {
            Error::OutOfMemory => error::ErrorKind::OutOfMemory,
            Error::Words(fault) => match fault.kind() {
                ErrorKind::DisplayHelp => error::ErrorKind::DisplayHelp,
                ErrorKind::DisplayVersion => error::ErrorKind::DisplayVersion,
                _ => error::ErrorKind::Words,
            },
        }
    }
}

impl From<AllocError> for Error {
    fn from(_error: AllocError) -> Error {
        Error::OutOfMemory
    }
}

pub mod error {
    //! Kinds of reasons.

    /// Why there are no matches.
    #[derive(Clone, Copy, Debug, PartialEq, Eq)]
    pub enum ErrorKind {
        /// Help is asked for.
        DisplayHelp,
        /// The version is asked for.
        DisplayVersion,
        /// A request for memory was refused.
        OutOfMemory,
        /// The words are none of the command's.
        Words,
    }
}
