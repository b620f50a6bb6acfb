//! Carrying out a rule on a slip (document 02).

use crate::matching::match_rule;
use crate::terms::{filled, Rule, Slip};

/// "A result field over 64 terms" is refused by 11.
const MOST_TERMS: usize = 64;

/// What carrying out a rule makes of a slip.
#[derive(Clone, Debug, PartialEq, Eq)]
pub enum Carried {
    /// The rule matches: the right side with the filling put in.
    Yes(Slip),
    /// It does not match, or it has no right side. The slip is unchanged.
    No,
    /// Refusal 11. The slip is left as given.
    TooLong,
}

pub fn carry_out(rule: &Rule, slip: &Slip) -> Carried {
    let (Some(right), Some(filling)) = (&rule.right, match_rule(rule, slip)) else {
        return Carried::No;
    };
    let result = filled(right, &filling);
    if result.iter().any(|field| field.len() > MOST_TERMS) {
        Carried::TooLong
    } else {
        Carried::Yes(Slip(result))
    }
}
