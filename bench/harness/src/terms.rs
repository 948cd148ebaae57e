//! Terms of CSP and addresses of steps, and the texts that docs/FORMAT.md has for them: a table and a script.

use std::fmt::Write;

#[derive(Clone, Debug)]
pub enum Term {
    Call(u8),
    Prefix(u8, Box<Term>),
    Internal(Box<[Term; 2]>),
    External(Box<[Term; 2]>),
    Sequence(Box<[Term; 2]>),
    Parallel(u64, Box<[Term; 2]>),
    Skip,
    Stop,
}

pub fn call(definition: u8) -> Term {
    Term::Call(definition)
}

pub fn prefix(event: u8, behind: Term) -> Term {
    Term::Prefix(event, Box::new(behind))
}

/// So many prefixes of one event in front of a term.
pub fn prefixes(event: u8, count: usize, behind: Term) -> Term {
    (0..count).fold(behind, |term, _| prefix(event, term))
}

pub fn internal(left: Term, right: Term) -> Term {
    Term::Internal(Box::new([left, right]))
}

pub fn external(left: Term, right: Term) -> Term {
    Term::External(Box::new([left, right]))
}

pub fn sequence(left: Term, right: Term) -> Term {
    Term::Sequence(Box::new([left, right]))
}

pub fn parallel(set: u64, left: Term, right: Term) -> Term {
    Term::Parallel(set, Box::new([left, right]))
}

/// Sides under operators that halve them, in their order.
pub fn tree(sides: &[Term], operator: &impl Fn(Term, Term) -> Term) -> Term {
    match sides {
        [side] => side.clone(),
        _ => {
            let (left, right) = sides.split_at(sides.len() / 2);
            operator(tree(left, operator), tree(right, operator))
        }
    }
}

/// The digits that lead to a side of such a tree.
pub fn way_to(side: usize, sides: usize) -> Vec<u8> {
    let (mut way, mut side, mut sides) = (Vec::new(), side, sides);
    while sides > 1 {
        let left = sides / 2;
        let is_right = side >= left;
        way.push(1 + u8::from(is_right));
        (side, sides) = if is_right { (side - left, sides - left) } else { (side, left) };
    }
    way
}

impl Term {
    fn sides(&self) -> &[Term] {
        match self {
            Term::Prefix(_, behind) => std::slice::from_ref(&**behind),
            Term::Internal(sides)
            | Term::External(sides)
            | Term::Sequence(sides)
            | Term::Parallel(_, sides) => &sides[..],
            Term::Call(_) | Term::Skip | Term::Stop => &[],
        }
    }

    /// The terms that it is made of, itself among them.
    pub fn count(&self) -> usize {
        1 + self.sides().iter().map(Term::count).sum::<usize>()
    }

    /// The bytes of its own line, in digits.
    fn frame(&self) -> String {
        match self {
            Term::Call(definition) => format!("1201{definition:02x}"),
            Term::Prefix(event, _) => format!("1202{event:02x}"),
            Term::Internal(_) => "1203".into(),
            Term::External(_) => "1204".into(),
            Term::Sequence(_) => "1205".into(),
            Term::Parallel(set, _) => format!("1206{set:016x}"),
            Term::Skip => "1207".into(),
            Term::Stop => "1208".into(),
        }
    }

    fn put(&self, text: &mut String) {
        text.push_str(&self.frame());
        text.push('\n');
        self.sides().iter().for_each(|side| side.put(text));
    }
}

/// The text of a table of so many events, with these definitions.
pub fn table(events: u8, definitions: &[Term]) -> Vec<u8> {
    let mut text = format!("1001{:02x}{events:02x}\n", definitions.len());
    for (number, term) in definitions.iter().enumerate() {
        writeln!(text, "11{number:02x}").unwrap();
        term.put(&mut text);
    }
    writeln!(text, "1f{:04x}", definitions.iter().map(Term::count).sum::<usize>()).unwrap();
    text.into_bytes()
}

/// Addresses one behind the other, so that going through them costs little.
#[derive(Clone, Debug, Default)]
pub struct Addresses {
    digits: Vec<u8>,
    ends: Vec<usize>,
}

impl Addresses {
    pub fn push(&mut self, address: &[u8]) {
        self.digits.extend_from_slice(address);
        self.ends.push(self.digits.len());
    }

    pub fn len(&self) -> usize {
        self.ends.len()
    }

    /// The addresses from one on.
    pub fn from(&self, first: usize) -> impl Iterator<Item = &[u8]> {
        let mut start = if first == 0 { 0 } else { self.ends[first - 1] };
        self.ends[first..].iter().map(move |&end| {
            let address = &self.digits[start..end];
            start = end;
            address
        })
    }

    pub fn iter(&self) -> impl Iterator<Item = &[u8]> {
        self.from(0)
    }

    /// The script whose lines are these.
    pub fn script(&self) -> Vec<u8> {
        let mut text = String::new();
        for address in self.iter() {
            write!(text, "20{:04x}", address.len()).unwrap();
            address.iter().for_each(|digit| write!(text, "{digit:02x}").unwrap());
            text.push('\n');
        }
        text.into_bytes()
    }
}

impl<T: AsRef<[u8]>> FromIterator<T> for Addresses {
    fn from_iter<I: IntoIterator<Item = T>>(all: I) -> Addresses {
        let mut addresses = Addresses::default();
        all.into_iter().for_each(|address| addresses.push(address.as_ref()));
        addresses
    }
}

#[cfg(test)]
mod tests {
    use super::*;

    fn slashed(text: Vec<u8>) -> String {
        String::from_utf8(text).unwrap().replace('\n', "/")
    }

    #[test]
    fn case_a_of_document_01() {
        let show = parallel(1, prefix(0, Term::Skip), prefix(0, Term::Stop));
        let told = "10010101/1100/12060000000000000001/120200/1207/120200/1208/1f0005/";
        assert_eq!(slashed(table(1, &[show])), told);
        let steps: Addresses = [&[][..], &[3], &[1], &[2]].into_iter().collect();
        assert_eq!(slashed(steps.script()), "200000/20000103/20000101/20000102/");
    }

    #[test]
    fn cases_of_document_01_with_each_kind() {
        let ended = parallel(0, Term::Skip, Term::Skip);
        let case_e = "10010100/1100/1205/12060000000000000000/1207/1207/1208/1f0005/";
        assert_eq!(slashed(table(0, &[sequence(ended, Term::Stop)])), case_e);
        let case_g = "10010202/1100/1204/120101/120200/1208/1101/120201/1207/1f0006/";
        let show = external(call(1), prefix(0, Term::Stop));
        assert_eq!(slashed(table(2, &[show, prefix(1, Term::Skip)])), case_g);
        assert_eq!(slashed(table(0, &[call(0)])), "10010100/1100/120100/1f0001/");
        let chosen = internal(prefix(63, Term::Stop), parallel(1 << 63, Term::Skip, Term::Skip));
        let told = "10010140/1100/1203/12023f/1208/12068000000000000000/1207/1207/1f0006/";
        assert_eq!(slashed(table(64, &[chosen])), told);
    }

    #[test]
    fn the_first_table_of_the_page_on_formats() {
        let show = prefix(0, external(prefix(1, call(0)), Term::Stop));
        assert_eq!(slashed(table(2, &[show])), "10010102/1100/120200/1204/120201/120100/1208/1f0005/");
    }

    #[test]
    fn prefixes_stand_one_behind_the_other() {
        assert_eq!(
            slashed(table(1, &[prefixes(0, 2, Term::Skip)])),
            "10010101/1100/120200/120200/1207/1f0003/"
        );
    }

    #[test]
    fn ways_lead_to_the_sides_of_a_tree() {
        let sides: Vec<Term> = (1..=5).map(call).collect();
        let halved = tree(&sides, &internal);
        for (number, side) in sides.iter().enumerate() {
            let reached = way_to(number, sides.len())
                .iter()
                .fold(&halved, |term, &digit| &term.sides()[usize::from(digit) - 1]);
            assert_eq!(reached.frame(), side.frame());
        }
        assert_eq!(way_to(0, 1), []);
        assert_eq!(way_to(5, 8), [2, 1, 2]);
    }

    #[test]
    fn addresses_are_found_from_any_on() {
        let steps: Addresses = [&[][..], &[1, 2], &[], &[4]].into_iter().collect();
        assert_eq!(steps.from(2).collect::<Vec<_>>(), [&[][..], &[4]]);
        assert_eq!((steps.len(), steps.iter().nth(1)), (4, Some(&[1, 2][..])));
    }
}
