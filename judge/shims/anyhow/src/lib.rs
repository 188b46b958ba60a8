//! Stands in for anyhow: what the judged modules use of it. Only Ok or Err is ever compared; the text helps a reader.
use std::fmt::Display;

#[derive(Debug)]
pub struct Error(pub String);

pub type Result<T, E = Error> = std::result::Result<T, E>;

impl<E: std::error::Error> From<E> for Error {
    fn from(e: E) -> Self { Error(e.to_string()) }
}

pub trait Context<T> {
    fn context<C: Display>(self, context: C) -> Result<T>;
    fn with_context<C: Display, F: FnOnce() -> C>(self, context: F) -> Result<T>;
}

impl<T> Context<T> for Option<T> {
    fn context<C: Display>(self, context: C) -> Result<T> { self.ok_or_else(|| Error(context.to_string())) }
    fn with_context<C: Display, F: FnOnce() -> C>(self, context: F) -> Result<T> {
        self.ok_or_else(|| Error(context().to_string()))
    }
}

impl<T, E: Into<Error>> Context<T> for std::result::Result<T, E> {
    fn context<C: Display>(self, context: C) -> Result<T> {
        self.map_err(|e| Error(format!("{context}: {}", e.into().0)))
    }
    fn with_context<C: Display, F: FnOnce() -> C>(self, context: F) -> Result<T> {
        self.map_err(|e| Error(format!("{}: {}", context(), e.into().0)))
    }
}

#[macro_export]
macro_rules! anyhow { ($($part:tt)*) => { $crate::Error(format!($($part)*)) } }

#[macro_export]
macro_rules! bail { ($($part:tt)*) => { return Err($crate::anyhow!($($part)*)) } }
