//! As much of the kit's clap as the repository calls: required words in order, and options `--NAME VALUE` or `--NAME=VALUE`.
#![no_std]
#![allow(unused)]
extern crate rt_std as std;
use rt_std::Vec;
use std::alloc::{AllocError, Global};

pub struct Arg<'a> { name: &'a str, long: Option<&'a str>, is_required: bool }
pub struct Command<'a> { args: Vec<Arg<'a>> }
pub struct ArgMatches<'a> { values: Vec<(&'a str, &'a str)> }
pub struct Error(error::ErrorKind);
pub mod error {
    #[derive(Clone, Copy, Debug, PartialEq, Eq)]
    pub enum ErrorKind {
        UnknownArgument,
        InvalidValue,
        MissingRequiredArgument,
        OutOfMemory,
    }
}
use error::ErrorKind;

impl From<AllocError> for Error {
    fn from(_: AllocError) -> Error { Error(ErrorKind::OutOfMemory) }
}
impl Error {
    pub fn kind(&self) -> ErrorKind { self.0 }
}
impl<'a> Arg<'a> {
    pub fn new(_: Global, name: &'a str) -> Arg<'a> { Arg { name, long: None, is_required: false } }
    pub fn required(self, is_required: bool) -> Arg<'a> { Arg { is_required, ..self } }
    pub fn long(self, long: &'a str) -> Arg<'a> { Arg { long: Some(long), ..self } }
}
impl<'a> Command<'a> {
    pub fn new(alloc: Global, _: &'a str) -> Command<'a> { Command { args: Vec::new(alloc) } }
    // The words never begin with the program's name.
    pub fn no_binary_name(self, _: bool) -> Command<'a> { self }
    pub fn arg(mut self, arg: Arg<'a>) -> Result<Command<'a>, AllocError> {
        self.args.push(arg)?;
        Ok(self)
    }
    pub fn try_get_matches_from(self, words: &'a [&'a str]) -> Result<ArgMatches<'a>, Error> {
        let mut values: Vec<(&'a str, &'a str)> = Vec::new(Global);
        let mut places = self.args.iter().filter(|it| it.long.is_none());
        let mut words = words.iter().copied();
        while let Some(word) = words.next() {
            let (arg, value) = match word.strip_prefix("--") {
                None => (places.next(), Some(word)),
                Some(option) => {
                    let (long, joined) = match option.split_once('=') {
                        None => (option, None),
                        Some((long, value)) => (long, Some(value)),
                    };
                    (self.args.iter().find(|it| it.long == Some(long)), joined.or_else(|| words.next()))
                }
            };
            match (arg, value) {
                (None, _) => return Err(Error(ErrorKind::UnknownArgument)),
                (Some(_), None) => return Err(Error(ErrorKind::InvalidValue)),
                (Some(arg), Some(value)) => values.push((arg.name, value)).map_err(AllocError::from)?,
            }
        }
        match self.args.iter().all(|arg| !arg.is_required || values.iter().any(|it| it.0 == arg.name)) {
            true => Ok(ArgMatches { values }),
            false => Err(Error(ErrorKind::MissingRequiredArgument)),
        }
    }
}
impl<'a> ArgMatches<'a> {
    pub fn get_str(&self, name: &str) -> Option<&'a str> { self.values.iter().find(|it| it.0 == name).map(|it| it.1) }
}
