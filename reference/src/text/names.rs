//! The names of a text that are known where the reader stands (TEXT.md, section 4).

#[derive(Clone, Copy, Debug, PartialEq, Eq)]
pub enum Kind {
    Resource,
    Bin,
    Sync,
    Variable,
    Sampler,
    Class,
    Local,
}

/// A declared name and what is written for it: how many of its kind were declared before it.
#[derive(Clone, Debug, PartialEq, Eq)]
pub struct Name {
    pub name: String,
    pub kind: Kind,
    pub number: u16,
}

/// In the order of their declaration.
#[derive(Default)]
pub struct Names(Vec<Name>);

impl Names {
    pub fn find(&self, name: &str) -> Option<&Name> {
        self.0.iter().find(|known| known.name == name)
    }

    /// The number of the new name. Each kind has a limit that a cut looks at, so the count stays far below 65,535.
    pub fn declare(&mut self, name: &str, kind: Kind) -> u16 {
        let number = self.0.iter().filter(|known| known.kind == kind).count() as u16;
        self.0.push(Name {
            name: name.to_string(),
            kind,
            number,
        });
        number
    }

    /// At the end of a class body.
    pub fn forget_locals(&mut self) {
        self.0.retain(|known| known.kind != Kind::Local);
    }

    pub fn into_vec(self) -> Vec<Name> {
        self.0
    }
}
