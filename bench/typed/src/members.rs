//! The members of an object in a line.

use crate::refused;
use serde_json::{Map, Value};
use std::io;
use std::ops::RangeInclusive;

/// An object, and how many of its members were found.
pub struct Members<'a> {
    object: &'a Map<String, Value>,
    found: usize,
}

impl<'a> Members<'a> {
    /// The members of a value, which has to be an object.
    pub fn new(value: &'a Value) -> io::Result<Self> {
        Ok(Members {
            object: value.as_object().ok_or_else(refused)?,
            found: 0,
        })
    }

    /// A member that may be absent.
    pub fn optional(&mut self, name: &str) -> Option<&'a Value> {
        let member = self.object.get(name);
        self.found += usize::from(member.is_some());
        member
    }

    /// A member that has to be there.
    pub fn get(&mut self, name: &str) -> io::Result<&'a Value> {
        self.optional(name).ok_or_else(refused)
    }

    /// The end of the look-ups: refuses an object that has other members.
    pub fn end(self) -> io::Result<()> {
        if self.found == self.object.len() {
            Ok(())
        } else {
            Err(refused())
        }
    }
}

/// How far a number is above the least that is permitted.
pub fn above(value: &Value, permitted: RangeInclusive<i64>) -> io::Result<u32> {
    let number = value
        .as_i64()
        .filter(|number| permitted.contains(number))
        .ok_or_else(refused)?;
    Ok((number - permitted.start()) as u32)
}
