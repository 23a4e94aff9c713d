//! The Rust that judges, and stand-ins for what it leans on and evaluation never reaches.
//! `interpreter::eval` is the Rust unchanged, `interpreter::counted` the same with its visits counted.

#![allow(dead_code)]

pub mod visits;

pub mod extension {
    pub mod temporal {
        include!(concat!(env!("OUT_DIR"), "/ast_declared.rs"));
    }
}

pub mod interpreter {
    include!(concat!(env!("OUT_DIR"), "/value_declared.rs"));
    include!(concat!(env!("OUT_DIR"), "/eval_declared.rs"));
    include!(concat!(env!("OUT_DIR"), "/counted_declared.rs"));

    pub(crate) mod log_parse {
        pub(crate) fn unescape(_: &str) -> String {
            unreachable!("no log is read here")
        }
    }
}

pub mod error {
    /// A place in policy text; conditions made from a case have none.
    #[derive(Debug, Clone, Copy, PartialEq, Eq)]
    pub struct Span;
}

pub mod cedar_policy {
    pub struct Request;
}

pub mod api {
    pub struct Error;

    pub(crate) fn request_to_event(
        _: i64,
        _: &crate::cedar_policy::Request,
    ) -> Result<crate::interpreter::value::Event, Error> {
        unreachable!("no Cedar request is read here")
    }
}
