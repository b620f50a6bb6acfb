//! Matching by trial: every term of the pattern is tried on every run of
//! items that its type could take, and each whole filling found is kept.

use crate::terms::{Field, Filling, Kind, Rule, Slip, Term};

/// The filling with which the rule's left side matches the slip. By document
/// 01 "there is never more than one".
pub fn match_rule(rule: &Rule, slip: &Slip) -> Option<Filling> {
    fillings(&rule.left, &slip.0).pop()
}

/// All fillings of the variables, each by its type, that turn the pattern
/// into these fields. Limits are left aside, for an entry of an overlap list
/// is a pattern too.
pub fn fillings(pattern: &[Field], fields: &[Field]) -> Vec<Filling> {
    if pattern.len() != fields.len() {
        return Vec::new();
    }
    let mut found = vec![Filling::new()];
    for (terms, items) in pattern.iter().zip(fields) {
        let extend = |filling| extensions(filling, terms, items);
        found = found.into_iter().flat_map(extend).collect();
    }
    found
}

/// The fillings that agree with this one and turn the terms into the items.
fn extensions(filling: Filling, terms: &[Term], items: &[Term]) -> Vec<Filling> {
    let Some((first, others)) = terms.split_first() else {
        return if items.is_empty() {
            vec![filling]
        } else {
            Vec::new()
        };
    };
    let lengths = match first {
        Term::Var(Kind::List, _) => 0..=items.len(),
        _ => 1..=items.len().min(1),
    };
    let mut found = Vec::new();
    for length in lengths {
        let (run, left) = items.split_at(length);
        if let Some(next) = with_value(&filling, first, run) {
            found.extend(extensions(next, others, left));
        }
    }
    found
}

/// The filling with the term standing for the run, if it can.
fn with_value(filling: &Filling, term: &Term, run: &[Term]) -> Option<Filling> {
    let Term::Var(kind, number) = term else {
        return (run == [term.clone()]).then(|| filling.clone());
    };
    if !run.iter().all(|item| kind.admits(item)) {
        return None;
    }
    match filling.get(&(*kind, *number)) {
        Some(value) => (value == run).then(|| filling.clone()),
        None => {
            let mut next = filling.clone();
            next.insert((*kind, *number), run.to_vec());
            Some(next)
        }
    }
}
