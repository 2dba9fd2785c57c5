//! Names of variables and of clauses. A plan file knows numbers alone, so that x7 is always a name of
//! variable 7.

use std::collections::BTreeMap;

/// What a variable stands for, which the crew's page tells apart.
#[derive(Clone, Copy, Debug, Default, PartialEq, Eq)]
pub enum Role {
    /// Not said.
    #[default]
    Variable,
    /// A site that gets a timing unit.
    Site,
    /// A post at which a marshal stands.
    Marshal,
    /// A course that is held.
    Course,
}

impl Role {
    /// The word that begins its statement.
    pub fn word(self) -> &'static str {
        match self {
            Role::Variable => "variable",
            Role::Site => "site",
            Role::Marshal => "marshal",
            Role::Course => "course",
        }
    }
}

#[derive(Clone, Debug, Default, PartialEq, Eq)]
struct Named {
    name: Option<String>,
    role: Role,
}

/// Variable 1 first; one without a name of its own has none. Clauses have names where the text gives
/// them, by their place, from 0.
#[derive(Clone, Debug, Default, PartialEq, Eq)]
pub struct Names {
    variables: Vec<Named>,
    clauses: BTreeMap<usize, String>,
}

/// The words that begin a statement or a rule, and so name no variable.
pub const RESERVED: [&str; 11] = [
    "variable",
    "variables",
    "site",
    "marshal",
    "course",
    "minimise",
    "minimize",
    "lock",
    "clause",
    "or",
    "walk",
];

/// The number in x7.
pub fn numbered(word: &str) -> Option<usize> {
    let digits = word.strip_prefix('x')?;
    if digits.is_empty() || !digits.bytes().all(|byte| byte.is_ascii_digit()) {
        return None;
    }
    // A number too long to hold is beyond every plan, as is the greatest one.
    Some(digits.parse().unwrap_or(usize::MAX))
}

impl Names {
    /// No variable has a name of its own.
    pub fn unnamed(variables: usize) -> Names {
        Names {
            variables: vec![Named::default(); variables],
            clauses: BTreeMap::new(),
        }
    }

    /// How many variables there are.
    pub fn variables(&self) -> usize {
        self.variables.len()
    }

    /// One more variable.
    pub fn push(&mut self, name: Option<String>) {
        self.push_as(name, Role::Variable);
    }

    /// One more variable, with what it stands for.
    pub fn push_as(&mut self, name: Option<String>, role: Role) {
        self.variables.push(Named { name, role });
    }

    /// The name a variable was given.
    pub fn own(&self, variable: usize) -> Option<&str> {
        self.variables[variable - 1].name.as_deref()
    }

    /// What a variable stands for.
    pub fn role(&self, variable: usize) -> Role {
        self.variables[variable - 1].role
    }

    /// What a variable is called: its own name, or x7.
    pub fn called(&self, variable: usize) -> String {
        match self.own(variable) {
            Some(name) => name.to_string(),
            None => format!("x{variable}"),
        }
    }

    /// The variable of this name, given or x7.
    pub fn find(&self, word: &str) -> Option<usize> {
        match numbered(word) {
            Some(number) => (1..=self.variables()).contains(&number).then_some(number),
            None => (1..=self.variables()).find(|&each| self.own(each) == Some(word)),
        }
    }

    /// The name of the clause at a place, from 0.
    pub fn clause(&self, place: usize) -> Option<&str> {
        self.clauses.get(&place).map(String::as_str)
    }

    /// Whether some clause has this name.
    pub fn has_clause(&self, name: &str) -> bool {
        self.clauses.values().any(|each| each == name)
    }

    /// The same names of variables, and none of clauses.
    pub fn without_clauses(self) -> Names {
        Names {
            clauses: BTreeMap::new(),
            ..self
        }
    }

    /// Gives the clause at a place a name.
    pub fn name_clause(&mut self, place: usize, name: String) {
        self.clauses.insert(place, name);
    }
}
