//! The overlap list. It looks "at left sides only" (document 02). Every choice
//! of one layout a field has its graph drawn afresh, from all the fields
//! chosen so far; no filling is handed on from field to field. Only where it
//! does not matter which entries there are, what is joined is handed on.

use crate::graph::{Class, Index, Parts, Points, Side};
use crate::groups::Groups;
use crate::layouts::{layouts, Cut, Layout};
use crate::terms::{Field, Filling, Kind, Rule, Term};

/// What the two rules share: the fields of the slips, and for each variable
/// of the rules what it is there.
#[derive(Clone, Debug, PartialEq, Eq)]
pub struct Entry {
    pub fields: Vec<Field>,
    pub left: Filling,
    pub right: Filling,
}

/// The entries in their order, each made when it is asked for.
pub fn entries(left: &Rule, right: &Rule) -> impl Iterator<Item = Entry> {
    let pair = Pair::new(&left.left, &right.left);
    let choices = pair.choices().into_iter();
    choices.filter_map(move |choice| pair.entry(&choice))
}

/// Whether there is an entry. The first whole choice ends the search; those
/// that begin alike have their first fields joined once.
pub fn overlap(left: &Rule, right: &Rule) -> bool {
    let pair = Pair::new(&left.left, &right.left);
    !pair.fields.is_empty() && pair.goes_on(0, &pair.points.groups())
}

/// One layout for each of the first fields.
type Choice = Vec<Layout>;

#[derive(Default)]
struct Pair {
    points: Points,
    /// The left and the right rule's field, by the points of their atoms.
    fields: Vec<[Cut<Index>; 2]>,
}

impl Pair {
    /// Without fields where the rules have different counts.
    fn new(left: &[Field], right: &[Field]) -> Pair {
        let mut pair = Pair::default();
        if left.len() == right.len() {
            for (left, right) in left.iter().zip(right) {
                let cuts = [pair.cut(Side::Left, left), pair.cut(Side::Right, right)];
                pair.fields.push(cuts);
            }
        }
        pair
    }

    fn cut(&mut self, side: Side, field: &Field) -> Cut<Index> {
        let (mut head, mut list, mut tail) = (Vec::new(), None, Vec::new());
        for term in field {
            match (term, list) {
                (Term::Var(Kind::List, number), _) => list = Some(*number),
                (_, None) => head.push(self.points.of_atom(side, term)),
                (_, Some(_)) => tail.push(self.points.of_atom(side, term)),
            }
        }
        Cut { head, list, tail }
    }

    /// The whole choices with nothing killed. They are grown field by field,
    /// which keeps their order: the first field varies slowest. One that is
    /// killed early has no longer ones.
    fn choices(&self) -> Vec<Choice> {
        if self.fields.is_empty() {
            return Vec::new();
        }
        let mut choices = vec![Choice::new()];
        for [left, right] in &self.fields {
            let candidates = layouts(left, right);
            let longer = |choice: Choice| {
                let with = |layout: &Layout| [choice.as_slice(), &[*layout]].concat();
                candidates.iter().map(with).collect::<Vec<_>>()
            };
            let grown = choices.into_iter().flat_map(longer);
            let lives = |choice: &Choice| self.parts(choice).is_some();
            choices = grown.filter(lives).collect();
        }
        choices
    }

    /// Whether the fields from this one on have candidates that go together
    /// with the groups.
    fn goes_on(&self, field: usize, groups: &Groups) -> bool {
        let Some([left, right]) = self.fields.get(field) else {
            return true;
        };
        layouts(left, right).into_iter().any(|layout| {
            let mut groups = groups.clone();
            let mut lines = self.lines(field, layout);
            lines.all(|(left, right)| groups.join(left, right)) && self.goes_on(field + 1, &groups)
        })
    }

    /// The points at each spot of the field: the left rule's, the right
    /// rule's, or both.
    fn spots(&self, field: usize, layout: Layout) -> impl Iterator<Item = [Option<Index>; 2]> + '_ {
        let [left, right] = &self.fields[field];
        let at = move |cut: &Cut<Index>, spot| cut.at(spot, layout.spots).copied();
        (0..layout.spots).map(move |spot| [at(left, spot), at(right, spot)])
    }

    /// The points that share a spot of the field.
    fn lines(&self, field: usize, layout: Layout) -> impl Iterator<Item = (Index, Index)> + '_ {
        let shared = |[left, right]: [Option<Index>; 2]| left.zip(right);
        self.spots(field, layout).filter_map(shared)
    }

    fn parts(&self, choice: &[Layout]) -> Option<Parts> {
        let lines = |(field, layout): (usize, &Layout)| self.lines(field, *layout);
        let lines = choice.iter().enumerate().flat_map(lines);
        self.points.parts(lines)
    }

    fn entry(&self, choice: &[Layout]) -> Option<Entry> {
        let mut names = Names::new(self.parts(choice)?);
        let mut fields = Vec::new();
        for (field, &layout) in choice.iter().enumerate() {
            fields.push(self.entry_field(field, layout, &mut names));
        }
        Some(Entry {
            left: self.filling(Side::Left, &mut names, &fields),
            right: self.filling(Side::Right, &mut names, &fields),
            fields,
        })
    }

    /// A layout has no spot that neither rule has an atom for.
    fn entry_field(&self, field: usize, layout: Layout, names: &mut Names) -> Field {
        let points = self.spots(field, layout);
        let points = points.filter_map(|[left, right]| left.or(right));
        let mut terms: Field = points.map(|index| names.of(index)).collect();
        if let Some(gap) = layout.gap {
            terms.insert(gap, names.fresh(Kind::List));
        }
        terms
    }

    /// What each variable of the rule is in the entry. A list variable has
    /// what its field's head and tail leave.
    fn filling(&self, side: Side, names: &mut Names, fields: &[Field]) -> Filling {
        let variables = self.points.variables(side);
        let mut filling: Filling = variables
            .map(|(index, name)| (name, vec![names.of(index)]))
            .collect();
        for (cuts, field) in self.fields.iter().zip(fields) {
            let cut = &cuts[side as usize];
            if let Some(number) = cut.list {
                let run = &field[cut.head.len()..field.len() - cut.tail.len()];
                filling.insert((Kind::List, number), run.to_vec());
            }
        }
        filling
    }
}

/// The entry's own variables, "renumbered from 0 in each type, by first
/// occurrence in its fields".
struct Names {
    parts: Parts,
    /// What the points of each part are called, once one has occurred.
    called: Vec<Option<Term>>,
    /// The types of the names given.
    given: Vec<Kind>,
}

impl Names {
    fn new(parts: Parts) -> Names {
        Names {
            called: vec![None; parts.classes.len()],
            given: Vec::new(),
            parts,
        }
    }

    fn of(&mut self, point: Index) -> Term {
        let part = self.parts.part_of[point];
        if let Some(term) = &self.called[part] {
            return term.clone();
        }
        let term = match &self.parts.classes[part] {
            Class::Constant(constant) => constant.clone(),
            Class::Variable(kind) => self.fresh(*kind),
        };
        self.called[part] = Some(term.clone());
        term
    }

    fn fresh(&mut self, kind: Kind) -> Term {
        let number = self.given.iter().filter(|&&given| given == kind).count();
        self.given.push(kind);
        Term::Var(kind, number as u32)
    }
}
