//! The twenty-one calls as one value, so that a side can be exchanged.

use crate::reference::{Answer, Finding, Runs};

pub struct Calls {
    pub new: fn(&mut [u32], u32, &[u32]) -> Answer,
    pub join: fn(&mut [u32], u32, u32) -> Answer,
    pub stabilize: fn(&mut [u32], u32) -> Answer,
    pub rectify: fn(&mut [u32], u32, u32) -> Answer,
    pub fail: fn(&mut [u32], u32) -> Answer,
    pub leave: fn(&mut [u32], u32) -> Answer,
    pub lookup: fn(&[u32], u32, u32) -> Answer,
    pub held: fn(&[u32], u32, &[u32]) -> Runs,
    pub principal: fn(&[u32], u32) -> Answer,
    pub audit: fn(&[u32]) -> Answer,
    pub findings: fn(&[u32], &mut [Finding]) -> Answer,
    pub round: fn(&mut [u32]) -> Answer,
    pub settle: fn(&mut [u32], u32) -> Answer,
    pub is_open: fn(&[u32], u32) -> Answer,
    pub next_open: fn(&[u32], u32) -> Answer,
    pub settle_at: fn(&mut [u32], &[u32], &[u32]) -> Answer,
    pub alike: fn(&[u32], &[u32]) -> Answer,
    pub take_over: fn(u32, u32, u32, &[u32], &[u32]) -> Answer,
    pub image_write: fn(&[u32], &mut [u8]) -> Answer,
    pub image_read: fn(&mut [u32], &[u8]) -> Answer,
    pub image_field: fn(&[u8], usize) -> Answer,
}

/// The calls of a module that has a function of each name.
#[macro_export]
macro_rules! calls_of {
    ($($module:ident)::+) => {
        $crate::calls::Calls {
            new: $($module)::+::new,
            join: $($module)::+::join,
            stabilize: $($module)::+::stabilize,
            rectify: $($module)::+::rectify,
            fail: $($module)::+::fail,
            leave: $($module)::+::leave,
            lookup: $($module)::+::lookup,
            held: $($module)::+::held,
            principal: $($module)::+::principal,
            audit: $($module)::+::audit,
            findings: $($module)::+::findings,
            round: $($module)::+::round,
            settle: $($module)::+::settle,
            is_open: $($module)::+::is_open,
            next_open: $($module)::+::next_open,
            settle_at: $($module)::+::settle_at,
            alike: $($module)::+::alike,
            take_over: $($module)::+::take_over,
            image_write: $($module)::+::image_write,
            image_read: $($module)::+::image_read,
            image_field: $($module)::+::image_field,
        }
    };
}

pub static REFERENCE: Calls = calls_of!(crate::reference);
pub static SECOND: Calls = calls_of!(crate::second);
pub static LIBRARY: Calls = calls_of!(crate::ffi);
