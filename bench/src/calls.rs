//! The calls that are measured, and by which names.

use crate::tables::Lists;

#[derive(Clone, Copy, Debug, PartialEq, Eq)]
pub enum Side {
    Library,
    Rust,
}

#[derive(Clone, Copy, PartialEq, Eq)]
pub enum Call {
    New,
    JoinFail,
    JoinDead,
    StabilizeDone,
    StabilizeAgain,
    RectifySame,
    RectifyNew,
    Leave6,
    Leave7,
    LeaveOk,
    Lookup,
    LookupDead,
    Audit(Lists),
    /// The audit, on the Rust side with the principals counted one by one.
    AuditEarly(Lists),
    Alike,
    /// With so many keys.
    #[cfg(feature = "whole")]
    Held(usize),
    #[cfg(feature = "whole")]
    PrincipalAll,
    #[cfg(feature = "whole")]
    PrincipalHalf,
    #[cfg(feature = "whole")]
    Findings,
    #[cfg(feature = "whole")]
    Round,
    #[cfg(feature = "whole")]
    Settle(Lists),
    #[cfg(feature = "whole")]
    IsOpen,
    #[cfg(feature = "whole")]
    NextOpen,
    /// Settle with windows, at a million closed minutes.
    #[cfg(feature = "whole")]
    SettleClosed,
    /// The same at open minutes.
    #[cfg(feature = "whole")]
    SettleOpen,
    #[cfg(feature = "whole")]
    ImageWrite,
    #[cfg(feature = "whole")]
    ImageRead,
    /// No call, but the copying back that the cases LeaveOk and those of settle do after each call.
    Restore,
}

pub const CALLS: &[(&str, Call)] = &[
    ("new", Call::New),
    ("join-fail", Call::JoinFail),
    ("join-dead", Call::JoinDead),
    ("stabilize-done", Call::StabilizeDone),
    ("stabilize-again", Call::StabilizeAgain),
    ("rectify-same", Call::RectifySame),
    ("rectify-new", Call::RectifyNew),
    ("leave-refused-6", Call::Leave6),
    ("leave-refused-7", Call::Leave7),
    ("leave-accepted", Call::LeaveOk),
    ("lookup-255-moves", Call::Lookup),
    ("lookup-dead", Call::LookupDead),
    ("audit", Call::Audit(Lists::Settled)),
    ("audit-late", Call::Audit(Lists::Late)),
    ("audit-half", Call::Audit(Lists::Half)),
    ("audit-random", Call::Audit(Lists::Random)),
    ("alike", Call::Alike),
    #[cfg(feature = "whole")]
    ("held-100-keys", Call::Held(100)),
    #[cfg(feature = "whole")]
    ("held-10000-keys", Call::Held(10_000)),
    #[cfg(feature = "whole")]
    ("principal-all", Call::PrincipalAll),
    #[cfg(feature = "whole")]
    ("principal-half", Call::PrincipalHalf),
    #[cfg(feature = "whole")]
    ("findings", Call::Findings),
    #[cfg(feature = "whole")]
    ("round-settled", Call::Round),
    #[cfg(feature = "whole")]
    ("settle-churn", Call::Settle(Lists::Lost)),
    #[cfg(feature = "whole")]
    ("settle-worst", Call::Settle(Lists::Slowest)),
    #[cfg(feature = "whole")]
    ("is-open", Call::IsOpen),
    #[cfg(feature = "whole")]
    ("next-open", Call::NextOpen),
    #[cfg(feature = "whole")]
    ("settle-at-closed", Call::SettleClosed),
    #[cfg(feature = "whole")]
    ("settle-at-churn", Call::SettleOpen),
    #[cfg(feature = "whole")]
    ("image-write", Call::ImageWrite),
    #[cfg(feature = "whole")]
    ("image-read", Call::ImageRead),
];

/// What is counted too, but is no call of its own.
pub const OTHERS: &[(&str, Call)] = &[
    ("audit-early", Call::AuditEarly(Lists::Settled)),
    ("audit-early-half", Call::AuditEarly(Lists::Half)),
    ("audit-early-random", Call::AuditEarly(Lists::Random)),
    ("restore", Call::Restore),
];
