//! Small universes: all slips of few items over few constants, and rules
//! whose variables and constants such slips can reach.

use std::slice::from_ref;

use reference::terms::{Field, Filling, Kind, Name, Rule, Slip, Term};

use crate::support::*;

/// All runs of up to so many constants.
pub fn all_runs(constants: &[Term], longest: usize) -> Vec<Field> {
    let mut runs = vec![vec![]];
    let mut last: Vec<Field> = runs.clone();
    for _ in 0..longest {
        let longer = |run: &Field| {
            let add = |constant: &Term| [run.as_slice(), from_ref(constant)].concat();
            constants.iter().map(add).collect::<Vec<Field>>()
        };
        last = last.iter().flat_map(longer).collect();
        runs.extend(last.clone());
    }
    runs
}

/// A rule of so many fields, each of up to so many atoms.
pub fn small_rule(fields: usize, atoms: usize, constants: &[Term], draw: &mut Draw) -> Rule {
    let mut lists = 0..;
    let mut field = || {
        let atom = |draw: &mut Draw| match draw.below(4) {
            0 => constants[draw.below(constants.len())].clone(),
            _ => var(draw.pick(b"isaa"), draw.below(2) as u32),
        };
        let mut terms: Field = (0..draw.below(atoms + 1)).map(|_| atom(draw)).collect();
        if draw.below(4) > 0 {
            let at = draw.below(terms.len() + 1);
            terms.insert(at, var(b'l', lists.next().unwrap()));
        }
        terms
    };
    Rule::of((0..fields).map(|_| field()).collect())
}

/// Every slip of so many fields of the runs.
pub fn all_slips(fields: usize, runs: &[Field]) -> Vec<Slip> {
    let mut slips = vec![vec![]];
    for _ in 0..fields {
        let longer = |slip: &Vec<Field>| {
            let add = |run: &Field| [slip.as_slice(), from_ref(run)].concat();
            runs.iter().map(add).collect::<Vec<_>>()
        };
        slips = slips.iter().flat_map(longer).collect();
    }
    slips.into_iter().map(Slip).collect()
}

/// All values of the type among the runs.
fn values(kind: Kind, runs: &[Field]) -> Vec<Field> {
    let fits = |run: &&Field| match kind {
        Kind::Integer => matches!(run[..], [Term::Int(_)]),
        Kind::String => matches!(run[..], [Term::Str(_)]),
        Kind::Atom => run.len() == 1,
        Kind::List => true,
    };
    runs.iter().filter(fits).cloned().collect()
}

/// All fillings of these variables with values among the runs.
pub fn all_fillings(names: &[Name], runs: &[Field]) -> Vec<Filling> {
    let mut found = vec![Filling::new()];
    for &name in names {
        let mut longer = Vec::new();
        for filling in &found {
            for value in values(name.0, runs) {
                let mut next = filling.clone();
                next.insert(name, value);
                longer.push(next);
            }
        }
        found = longer;
    }
    found
}
