//! The names bound at one point of a script: a list that grows inwards.
//! A body gets a longer list; the list of the surrounding form stays as it is.

#[derive(Clone, Copy)]
pub enum Scope<'a> {
    BuiltIn(&'a [&'a str]),
    Inside { name: &'a str, outer: &'a Scope<'a> },
}

impl<'a> Scope<'a> {
    pub fn with(&'a self, name: &'a str) -> Scope<'a> {
        Scope::Inside { name, outer: self }
    }

    pub fn binds(&self, wanted: &str) -> bool {
        match self {
            Scope::BuiltIn(names) => names.contains(&wanted),
            Scope::Inside { name, outer } => *name == wanted || outer.binds(wanted),
        }
    }
}
