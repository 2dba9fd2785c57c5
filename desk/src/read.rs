//! The text form, read. Everything a plan file may not say is turned away here, with its line, so
//! that what is written is always accepted.

use crate::names::{numbered, Names, Role, RESERVED};
use crate::report::grouped;
use crate::tokens::{fault, tokens, Comment, Fault, Kind, Place, Token, Tokens};
use reference::file::{
    MOST_BOUND, MOST_CLAUSES, MOST_RULES, MOST_TERMS, MOST_VARIABLES, MOST_WEIGHT,
};
use reference::plan::{Clause, Lock, Plan, Rule, Term};
use reference::walk::{Settings, LBS, LINEAR, NOVELTY, SKC};

/// What a text says.
#[derive(Clone, Debug, PartialEq, Eq)]
pub struct Text {
    pub names: Names,
    pub plan: Plan,
    /// The line on which each clause begins.
    pub lines: Vec<usize>,
    /// What the comment on the first line says; empty where there is none.
    pub title: String,
    /// What the comment on its line says of each variable, and the comment above of each clause;
    /// empty where there is none.
    pub notes: Vec<String>,
    pub clause_notes: Vec<String>,
    /// Of the walk statement, if there is one.
    pub settings: Option<Settings>,
    /// The line of the last statement's end.
    pub last_line: usize,
}

struct Reader<'a> {
    tokens: Vec<Token<'a>>,
    /// What comes behind the last of them, if it is no token.
    behind: Option<Fault>,
    place: usize,
    text: Text,
    /// The line on which each variable's statement ends.
    variable_lines: Vec<usize>,
    rules: usize,
    terms: usize,
}

impl<'a> Reader<'a> {
    /// The text of the token so many places on; empty behind the last.
    fn ahead(&self, places: usize) -> &'a str {
        let token = self.tokens.get(self.place + places);
        token.map_or("", |token| token.text)
    }

    fn number_ahead(&self, places: usize) -> bool {
        let token = self.tokens.get(self.place + places);
        token.is_some_and(|token| token.kind == Kind::Number)
    }

    fn next_is(&self, text: &str) -> bool {
        self.ahead(0) == text
    }

    /// Goes past the next token if it is this one.
    fn take(&mut self, text: &str) -> bool {
        let taken = self.next_is(text);
        self.place += taken as usize;
        taken
    }

    /// The token last gone past.
    fn last(&self) -> Token<'a> {
        self.tokens[self.place - 1]
    }

    /// Something is missing. Its place is behind the token last gone past, whichever line the next
    /// one stands on.
    fn missing<T>(&self, what: &str) -> Result<T, Fault> {
        let last = self.last();
        let text = last.text;
        let found = match (self.ahead(0), &self.behind) {
            ("", Some(fault)) => return Err(fault.clone()),
            ("", None) => "the end".to_string(),
            (found, _) => format!("'{found}'"),
        };
        fault(
            last.behind(),
            format!("expected {what} after '{text}', found {found}"),
        )
    }

    fn take_kind(&mut self, kind: Kind, what: &str) -> Result<&'a str, Fault> {
        match self.tokens.get(self.place) {
            Some(token) if token.kind == kind => {
                self.place += 1;
                Ok(token.text)
            }
            _ => self.missing(what),
        }
    }

    /// A word that begins neither a statement nor a rule.
    fn take_name(&mut self, what: &str) -> Result<&'a str, Fault> {
        if RESERVED.contains(&self.ahead(0)) {
            return self.missing(what);
        }
        self.take_kind(Kind::Word, what)
    }

    fn expect(&mut self, text: &str) -> Result<(), Fault> {
        match self.take(text) {
            true => Ok(()),
            false => self.missing(&format!("'{text}'")),
        }
    }

    /// A number from least to most, '-' before it where least is below 0.
    fn number(&mut self, what: &str, least: i64, most: i64) -> Result<i64, Fault> {
        let minus = least < 0 && self.take("-");
        let digits = self.take_kind(Kind::Number, what)?;
        // One too long to hold is outside every range, as is the greatest.
        let size: i64 = digits.parse().unwrap_or(i64::MAX);
        let number = if minus { -size } else { size };
        if !(least..=most).contains(&number) {
            let sign = if minus { "-" } else { "" };
            let (least, most) = (grouped(least), grouped(most));
            let words = format!("{what} is from {least} to {most}, not {sign}{digits}");
            return fault(self.last().at, words);
        }
        Ok(number)
    }

    /// `variable ford`: the next variable's name. Its number may stand before it, as in
    /// `variable 7 ford`; it is then checked.
    fn variable(&mut self, role: Role) -> Result<(), Fault> {
        let next = self.text.names.variables() + 1;
        if self.number_ahead(0) {
            let number = self.variable_number()?;
            if number != next {
                let words = format!("variable {next} is the next one, not {number}");
                return fault(self.last().at, words);
            }
        }
        let name = self.take_name("a name")?;
        let at = self.last().at;
        if next > MOST_VARIABLES {
            let most = grouped(MOST_VARIABLES as i64);
            return fault(at, format!("a plan has at most {most} variables"));
        }
        if numbered(name).is_some() {
            return fault(at, format!("'{name}' names a variable by its number"));
        }
        if let Some(before) = self.text.names.find(name) {
            let words = format!("variable {before} is called '{name}' already");
            return fault(at, words);
        }
        self.text.names.push_as(Some(name.to_string()), role);
        self.variable_lines.push(at.line);
        Ok(())
    }

    /// `variables 7`: those up to 7 that are still to come have no name of their own.
    fn variables(&mut self) -> Result<(), Fault> {
        let before = self.text.names.variables();
        let number = self.variable_number()?;
        if number <= before {
            let words = format!("there are {before} variables already");
            return fault(self.last().at, words);
        }
        for _ in before..number {
            self.text.names.push(None);
            self.variable_lines.push(0);
        }
        Ok(())
    }

    fn variable_number(&mut self) -> Result<usize, Fault> {
        let number = self.number("a variable's number", 1, MOST_VARIABLES as i64)?;
        Ok(number as usize)
    }

    /// A variable in a sum or in a lock.
    fn named(&mut self) -> Result<usize, Fault> {
        let word = self.take_name("a variable")?;
        let names = &self.text.names;
        match names.find(word) {
            Some(variable) => Ok(variable),
            None if numbered(word).is_some() => {
                let variables = names.variables();
                let words = format!("there is no variable {word}: so far there are {variables}");
                fault(self.last().at, words)
            }
            None => {
                let hint = match word.contains('-') {
                    true => " (a minus has a space before and after it)",
                    false => "",
                };
                let words = format!("no variable is called '{word}'{hint}");
                fault(self.last().at, words)
            }
        }
    }

    /// `3 ford - bridge`: a coefficient left out is 1. The file wants rising numbers, a text does
    /// not.
    fn sum(&mut self) -> Result<Vec<Term>, Fault> {
        let mut terms: Vec<Term> = Vec::new();
        loop {
            // A '+' may be left out before the first.
            let minus = self.take("-");
            if !minus {
                self.take("+");
            }
            let size = match self.number_ahead(0) {
                true => self.number("a coefficient", 1, MOST_WEIGHT)?,
                false => 1,
            };
            let variable = self.named()?;
            if terms.iter().any(|term| term.variable == variable) {
                let Token { at, text, .. } = self.last();
                return fault(at, format!("'{text}' stands twice in this sum"));
            }
            let weight = if minus { -size } else { size };
            terms.push(Term { variable, weight });
            if !self.next_is("+") && !self.next_is("-") {
                break;
            }
        }
        terms.sort_by_key(|term| term.variable);
        Ok(terms)
    }

    fn objective(&mut self) -> Result<(), Fault> {
        let at = self.last().at;
        if !self.text.plan.objective.is_empty() {
            return fault(at, "minimise stands twice");
        }
        self.text.plan.objective = self.sum()?;
        Ok(())
    }

    /// `lock ford 1`: a variable and the value that it has in every plan found. The file wants rising
    /// numbers, a text does not.
    fn lock(&mut self) -> Result<(), Fault> {
        let variable = self.named()?;
        let Token { at, text, .. } = self.last();
        if self.text.plan.lock(variable).is_some() {
            return fault(at, format!("'{text}' is locked already"));
        }
        let value = self.number("a lock's value", 0, 1)? == 1;
        let locks = &mut self.text.plan.locks;
        locks.push(Lock { variable, value });
        locks.sort_by_key(|lock| lock.variable);
        Ok(())
    }

    fn bound(&mut self) -> Result<i64, Fault> {
        self.number("a bound", -MOST_BOUND, MOST_BOUND)
    }

    /// The bounds that are there make the mode: `2 <= a + b <= 4`, `2 <= a + b`, `a + b <= 4`,
    /// `a + b >= 2` or `a + b = 2`.
    fn rule(&mut self) -> Result<Rule, Fault> {
        // What begins with a number is a bound where '<=' follows, a coefficient otherwise.
        let sign = self.next_is("-") as usize;
        if self.number_ahead(sign) && self.ahead(sign + 1) == "<=" {
            let lower = Some(self.bound()?);
            self.expect("<=")?;
            let terms = self.sum()?;
            let upper = match self.take("<=") {
                true => Some(self.bound()?),
                false => None,
            };
            return Ok(Rule {
                lower,
                upper,
                terms,
            });
        }
        let terms = self.sum()?;
        let (lower, upper) = if self.take("<=") {
            (None, Some(self.bound()?))
        } else if self.take(">=") {
            (Some(self.bound()?), None)
        } else if self.take("=") {
            let both = Some(self.bound()?);
            (both, both)
        } else {
            return self.missing("'+', '-', '<=', '>=' or '='");
        };
        Ok(Rule {
            lower,
            upper,
            terms,
        })
    }

    /// `road:` before a clause's first rule: its name.
    fn clause_name(&mut self) -> Result<(), Fault> {
        if self.ahead(1) != ":" {
            return Ok(());
        }
        let name = self.take_name("a clause's name")?;
        if self.text.names.has_clause(name) {
            let words = format!("another clause is called '{name}' already");
            return fault(self.last().at, words);
        }
        let place = self.text.plan.clauses.len();
        self.text.names.name_clause(place, name.to_string());
        self.expect(":")
    }

    /// One more rule, where the plan has room for it.
    fn counted_rule(&mut self) -> Result<Rule, Fault> {
        let rule = self.rule()?;
        let at = self.last().at;
        self.rules += 1;
        self.terms += rule.terms.len();
        if self.rules > MOST_RULES {
            let most = grouped(MOST_RULES as i64);
            return fault(at, format!("a plan has at most {most} rules"));
        }
        if self.terms > MOST_TERMS {
            let most = grouped(MOST_TERMS as i64);
            return fault(at, format!("a plan's rules have at most {most} terms"));
        }
        Ok(rule)
    }

    /// `clause`, its name where it has one, and rules joined by `or`.
    fn clause(&mut self) -> Result<(), Fault> {
        let at = self.last().at;
        if self.text.plan.clauses.len() == MOST_CLAUSES {
            let most = grouped(MOST_CLAUSES as i64);
            return fault(at, format!("a plan has at most {most} clauses"));
        }
        self.clause_name()?;
        let mut rules = vec![self.counted_rule()?];
        while self.take("or") {
            rules.push(self.counted_rule()?);
        }
        self.text.lines.push(at.line);
        self.text.plan.clauses.push(Clause { rules });
        Ok(())
    }

    /// `walk noise 500 tries 10 flips 1000 mode lbs`, in this order, and behind it at times
    /// `heuristic novelty 10`, with the walk chance; without it the choice is SKC.
    fn walk(&mut self) -> Result<(), Fault> {
        let at = self.last().at;
        if self.text.settings.is_some() {
            return fault(at, "walk stands twice");
        }
        self.expect("noise")?;
        let noise = self.number("the noise", 0, 1_000)? as u32;
        self.expect("tries")?;
        let tries = self.number("the number of tries", 1, 1_000)? as u32;
        self.expect("flips")?;
        let flips = self.number("the number of flips", 1, 1_000_000)? as u32;
        self.expect("mode")?;
        let mode = if self.take("linear") {
            LINEAR
        } else if self.take("lbs") {
            LBS
        } else {
            return self.missing("'linear' or 'lbs'");
        };
        let (heuristic, chance) = if self.take("heuristic") {
            self.heuristic()?
        } else {
            (SKC, 0)
        };
        self.text.settings = Some(Settings {
            noise,
            tries,
            flips,
            mode,
            heuristic,
            chance,
        });
        Ok(())
    }

    /// `novelty 10` or `skc 0`: how a variable is chosen, and the walk chance, which only Novelty+
    /// asks for.
    fn heuristic(&mut self) -> Result<(u32, u32), Fault> {
        let heuristic = if self.take("novelty") {
            NOVELTY
        } else if self.take("skc") {
            SKC
        } else {
            return self.missing("'novelty' or 'skc'");
        };
        Ok((heuristic, self.number("the walk chance", 0, 1_000)? as u32))
    }

    fn statement(&mut self) -> Result<(), Fault> {
        self.place += 1;
        match self.last().text {
            "variable" => self.variable(Role::Variable),
            "site" => self.variable(Role::Site),
            "marshal" => self.variable(Role::Marshal),
            "course" => self.variable(Role::Course),
            "variables" => self.variables(),
            "minimise" | "minimize" => self.objective(),
            "lock" => self.lock(),
            "clause" => self.clause(),
            "walk" => self.walk(),
            other => {
                let words = format!(
                    "'{other}' may not stand here: a statement begins with variable, variables, site, \
                     marshal, course, minimise, lock, clause or walk, and a clause's next rule with or"
                );
                fault(self.last().at, words)
            }
        }
    }
}

/// What the comment on each variable's line says.
fn variable_notes(lines: &[usize], comments: &[Comment]) -> Vec<String> {
    let note = |&line: &usize| {
        let comment = comments.iter().find(|each| each.line == line);
        comment.map_or(String::new(), |comment| comment.text.to_string())
    };
    lines.iter().map(note).collect()
}

/// What the comment above each clause says. Clauses that follow one another share the comment above
/// the first of them; lines of one comment are joined.
fn clause_notes(lines: &[usize], comments: &[Comment]) -> Vec<String> {
    let above = |&line: &usize| {
        let alone = comments
            .iter()
            .filter(|each| each.alone && each.line < line);
        let mut block: Vec<&Comment> = Vec::new();
        for comment in alone {
            if block
                .last()
                .is_some_and(|last| last.line + 1 < comment.line)
            {
                block.clear();
            }
            block.push(comment);
        }
        let words: Vec<&str> = block.iter().map(|comment| comment.text).collect();
        words.join(" ")
    };
    lines.iter().map(above).collect()
}

/// A reader at a text's start.
fn reader(tokens: Vec<Token<'_>>, behind: Option<Fault>) -> Reader<'_> {
    Reader {
        tokens,
        behind,
        place: 0,
        text: Text {
            names: Names::default(),
            plan: Plan {
                variables: 0,
                objective: Vec::new(),
                locks: Vec::new(),
                clauses: Vec::new(),
            },
            lines: Vec::new(),
            title: String::new(),
            notes: Vec::new(),
            clause_notes: Vec::new(),
            settings: None,
            last_line: 1,
        },
        variable_lines: Vec::new(),
        rules: 0,
        terms: 0,
    }
}

/// What a text says, or its first fault.
pub fn read(text: &str) -> Result<Text, Fault> {
    let Tokens {
        tokens,
        comments,
        behind,
    } = tokens(text);
    let mut reader = reader(tokens, behind);
    while reader.place < reader.tokens.len() {
        reader.statement()?;
    }
    if let Some(fault) = reader.behind {
        return Err(fault);
    }
    let end = reader
        .tokens
        .last()
        .map_or(Place { line: 1, column: 1 }, Token::behind);
    let mut text = reader.text;
    text.plan.variables = text.names.variables();
    text.last_line = end.line;
    if text.plan.variables == 0 {
        return fault(end, "a plan has at least one variable");
    }
    let first = comments.iter().find(|each| each.line == 1 && each.alone);
    text.title = first.map_or(String::new(), |comment| comment.text.to_string());
    text.notes = variable_notes(&reader.variable_lines, &comments);
    text.clause_notes = clause_notes(&text.lines, &comments);
    Ok(text)
}

/// What a file of text says. Editors that put a mark at its start, or end lines with CR LF, do no
/// harm.
pub fn read_bytes(bytes: &[u8]) -> Result<Text, Fault> {
    match std::str::from_utf8(bytes) {
        Ok(text) => read(text.strip_prefix('\u{feff}').unwrap_or(text)),
        Err(error) => {
            let before = String::from_utf8_lossy(&bytes[..error.valid_up_to()]);
            let line = 1 + before.matches('\n').count();
            let column = 1 + before
                .rsplit('\n')
                .next()
                .unwrap_or_default()
                .chars()
                .count();
            fault(Place { line, column }, "this is no text in UTF-8")
        }
    }
}
