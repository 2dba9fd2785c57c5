//! OPB texts read (document 02, T-02): "a first line `* #variable= n #constraint= m`, comment
//! lines, `min:` and constraints with `>=` or `=`. Each of these is one line that ends in a line
//! feed." The grammar is that of the 2006 evaluation, one statement to a line.

use crate::file::{Refusal, MOST_BOUND, MOST_CLAUSES, MOST_TERMS, MOST_VARIABLES, MOST_WEIGHT};
use crate::plan::{Clause, Plan, Rule, Term};

pub const MALFORMED: u32 = 31;
pub const WRONG_COUNT: u32 = 32;

fn refuse<T>(number: u32, offset: usize) -> Result<T, Refusal> {
    Err(Refusal { number, offset })
}

/// What stands in a line before its line feed, taken apart from left to right. Each part is there
/// or None is answered, and the line is malformed.
struct Line<'a>(&'a [u8]);

impl Line<'_> {
    /// The bytes at the front that are such; how many there are.
    fn run(&mut self, such: impl Fn(u8) -> bool) -> &[u8] {
        let count = self.0.iter().take_while(|&&byte| such(byte)).count();
        let (run, rest) = self.0.split_at(count);
        self.0 = rest;
        run
    }

    /// zeroOrMoreSpace
    fn blanks(&mut self) -> usize {
        self.run(|byte| byte == b' ').len()
    }

    /// oneOrMoreSpace
    fn some_blanks(&mut self) -> Option<()> {
        (self.blanks() > 0).then_some(())
    }

    fn word(&mut self, word: &str) -> Option<()> {
        self.0 = self.0.strip_prefix(word.as_bytes())?;
        Some(())
    }

    /// unsigned_integer: any number of digits, by their value; what is above every limit there is
    /// stays there.
    fn digits(&mut self) -> Option<i64> {
        let digits = self.run(|byte| byte.is_ascii_digit());
        let more = |value: i64, &digit: &u8| {
            let value = value.saturating_mul(10);
            value.saturating_add((digit - b'0') as i64)
        };
        (!digits.is_empty()).then(|| digits.iter().fold(0, more))
    }

    /// integer: unsigned_integer, with a sign before it or not.
    fn integer(&mut self) -> Option<i64> {
        if self.word("-").is_some() {
            return Some(-self.digits()?);
        }
        let _ = self.word("+");
        self.digits()
    }

    /// weightedterm: integer oneOrMoreSpace "x" digits oneOrMoreSpace
    fn term(&mut self) -> Option<Term> {
        let weight = self.integer()?;
        self.some_blanks()?;
        self.word("x")?;
        let variable = self.digits()? as usize;
        self.some_blanks()?;
        Some(Term { variable, weight })
    }

    /// sum: one weightedterm or more, up to what cannot begin one.
    fn sum(&mut self) -> Option<Vec<Term>> {
        let mut terms = vec![self.term()?];
        while !matches!(self.0.first(), Some(b'>' | b'=' | b';') | None) {
            terms.push(self.term()?);
        }
        Some(terms)
    }

    fn end(&self) -> Option<()> {
        self.0.is_empty().then_some(())
    }
}

/// The first line: `* #variable= n #constraint= m`.
fn first(line: &[u8]) -> Option<(i64, i64)> {
    let mut line = Line(line);
    line.word("*")?;
    line.blanks();
    line.word("#variable=")?;
    line.blanks();
    let variables = line.digits()?;
    line.some_blanks()?;
    line.word("#constraint=")?;
    line.blanks();
    let constraints = line.digits()?;
    line.blanks();
    line.end()?;
    Some((variables, constraints))
}

/// What a line behind the first says.
enum Statement {
    Comment,
    Minimise(Vec<Term>),
    Constrain(Vec<Term>, bool, i64),
}

fn statement(line: &[u8]) -> Option<Statement> {
    if line.first() == Some(&b'*') {
        return Some(Statement::Comment);
    }
    let mut line = Line(line);
    if line.word("min:").is_some() {
        line.blanks();
        let terms = line.sum()?;
        line.word(";")?;
        line.end()?;
        return Some(Statement::Minimise(terms));
    }
    let terms = line.sum()?;
    let exact = line.word(">=").is_none();
    if exact {
        line.word("=")?;
    }
    line.blanks();
    let bound = line.integer()?;
    line.blanks();
    line.word(";")?;
    line.end()?;
    Some(Statement::Constrain(terms, exact, bound))
}

/// "32 for a variable above n"
fn above(terms: &[Term], variables: usize) -> bool {
    terms.iter().any(|term| term.variable > variables)
}

/// 5 as in a plan: the numbers rise from 1 on, and no coefficient is 0 or too large.
fn wrong_terms(terms: &[Term]) -> bool {
    let numbers: Vec<usize> = terms.iter().map(|term| term.variable).collect();
    let wrong = |term: &Term| {
        term.variable == 0 || term.weight == 0 || term.weight.unsigned_abs() > MOST_WEIGHT as u64
    };
    terms.iter().any(wrong) || numbers.windows(2).any(|pair| pair[1] <= pair[0])
}

/// The lines with their offsets, each with its line feed; the last may lack it.
fn lines(text: &[u8]) -> Vec<(usize, &[u8])> {
    let mut offset = 0;
    let mut lines = Vec::new();
    for line in text.split_inclusive(|&byte| byte == b'\n') {
        lines.push((offset, line));
        offset += line.len();
    }
    lines
}

/// The plan that a text says. "Turned away, the first statement at fault deciding: 31 for malformed
/// text, 32 for a variable above n, then 4 to 6 as in a plan, each with its statement's offset (the
/// first line is one); last, 32 at 0 for a number of constraints other than m". In a statement 4
/// comes before 6 and 6 before 5, as in a field of a plan.
pub fn read(text: &[u8]) -> Result<Plan, Refusal> {
    let lines = lines(text);
    let Some(&(_, top)) = lines.first() else {
        return refuse(MALFORMED, 0);
    };
    let Some((variables, constraints)) = top.strip_suffix(b"\n").and_then(first) else {
        return refuse(MALFORMED, 0);
    };
    if variables < 1 || variables > MOST_VARIABLES as i64 {
        return refuse(4, 0);
    }
    let mut plan = Plan {
        variables: variables as usize,
        objective: Vec::new(),
        locks: Vec::new(),
        clauses: Vec::new(),
    };
    let (mut may_minimise, mut rule_terms) = (true, 0);
    for &(offset, line) in &lines[1..] {
        let Some(said) = line.strip_suffix(b"\n").and_then(statement) else {
            return refuse(MALFORMED, offset);
        };
        match said {
            Statement::Comment => {}
            Statement::Minimise(terms) => {
                if !may_minimise {
                    return refuse(MALFORMED, offset);
                }
                if above(&terms, plan.variables) {
                    return refuse(WRONG_COUNT, offset);
                }
                if wrong_terms(&terms) {
                    return refuse(5, offset);
                }
                plan.objective = terms;
                may_minimise = false;
            }
            Statement::Constrain(terms, exact, bound) => {
                may_minimise = false;
                if above(&terms, plan.variables) {
                    return refuse(WRONG_COUNT, offset);
                }
                rule_terms += terms.len();
                if plan.clauses.len() == MOST_CLAUSES || rule_terms > MOST_TERMS {
                    return refuse(4, offset);
                }
                if bound.unsigned_abs() > MOST_BOUND as u64 {
                    return refuse(6, offset);
                }
                if wrong_terms(&terms) {
                    return refuse(5, offset);
                }
                plan.clauses.push(Clause {
                    rules: vec![Rule {
                        lower: Some(bound),
                        upper: exact.then_some(bound),
                        terms,
                    }],
                });
            }
        }
    }
    if plan.clauses.len() as i64 != constraints {
        return refuse(WRONG_COUNT, 0);
    }
    Ok(plan)
}

/// Texts to try a reader with.
pub mod texts {
    use crate::plan::{Plan, Rule, Term};
    use crate::random::Random;

    fn blanks(random: &mut Random, least: usize) -> String {
        let more = if random.percent(10) {
            random.below(3)
        } else {
            0
        };
        " ".repeat(least + more)
    }

    fn digits(random: &mut Random, size: u64) -> String {
        let zeros = if random.percent(3) {
            random.below(30)
        } else {
            0
        };
        format!("{}{size}", "0".repeat(zeros))
    }

    fn integer(random: &mut Random, value: i64) -> String {
        let sign = match value {
            _ if value < 0 => "-",
            _ if random.percent(50) => "+",
            _ => "",
        };
        format!("{sign}{}", digits(random, value.unsigned_abs()))
    }

    fn sum(random: &mut Random, terms: &[Term]) -> String {
        let mut text = String::new();
        for term in terms {
            text += &integer(random, term.weight);
            text += &blanks(random, 1);
            text += &format!("x{}", digits(random, term.variable as u64));
            text += &blanks(random, 1);
        }
        text
    }

    fn comment(random: &mut Random) -> String {
        if random.percent(85) {
            return String::new();
        }
        let words = ["", " a comment", "* ;", " min: +1 x1 ;", "+1 x1 >= 1 ;"];
        format!("*{}\n", words[random.below(words.len())])
    }

    fn constraint(random: &mut Random, rule: &Rule) -> String {
        let (bound, exact) = match (rule.lower, rule.upper) {
            (Some(lower), Some(upper)) => (lower, lower == upper || random.percent(50)),
            (Some(bound), None) | (None, Some(bound)) => (bound, random.percent(20)),
            (None, None) => (0, false),
        };
        let relation = if exact { "=" } else { ">=" };
        let sum = sum(random, &rule.terms);
        let bound = integer(random, bound);
        let (before, behind) = (blanks(random, 0), blanks(random, 0));
        format!("{sum}{relation}{before}{bound}{behind};\n")
    }

    /// A text of the plan's rules, each a constraint of its own, in one of the spellings that the
    /// grammar allows.
    pub fn spelled(random: &mut Random, plan: &Plan) -> Vec<u8> {
        let rules: Vec<&Rule> = plan
            .clauses
            .iter()
            .flat_map(|clause| &clause.rules)
            .collect();
        let counted = if random.percent(97) {
            rules.len()
        } else {
            random.below(600)
        };
        let [a, b, c, d] = [0, 0, 0, 0].map(|least| blanks(random, least));
        let (n, m) = (
            digits(random, plan.variables as u64),
            digits(random, counted as u64),
        );
        let mut text = format!("*{a}#variable={b}{n} #constraint={c}{m}{d}\n");
        text += &comment(random);
        if !plan.objective.is_empty() {
            text += &format!(
                "min:{}{};\n",
                blanks(random, 0),
                sum(random, &plan.objective)
            );
        }
        for rule in rules {
            text += &comment(random);
            text += &constraint(random, rule);
        }
        text += &comment(random);
        text.into_bytes()
    }

    /// A text with one fault more, or none: a byte changed, put in or taken out, an item of another
    /// text put in, a line repeated or taken out, or the end cut off.
    pub fn damaged(random: &mut Random, mut text: Vec<u8>) -> Vec<u8> {
        if text.is_empty() {
            return text;
        }
        let place = random.below(text.len());
        match random.below(9) {
            0 => text[place] = b" \n+-0123456789x;=>*m:#\t\r"[random.below(24)],
            1 => text[place] = random.below(256) as u8,
            2 => {
                text.remove(place);
            }
            3 => text.insert(place, b" \n0x;="[random.below(6)]),
            4 => {
                let items = [
                    "+0 ",
                    "x0 ",
                    "x999 ",
                    "x513 ",
                    " 1000000001 ",
                    " -1000000001 ",
                    "+1000001 ",
                    "4294967297",
                    "18446744073709551617",
                    "min: +1 x1 ;\n",
                    "+1 x1 >= 0 ;\n",
                ];
                let item = items[random.below(items.len())];
                text.splice(place..place, item.bytes());
            }
            5 => text.truncate(place),
            8 => {
                // Another bound behind the next relation.
                let found = text[place..].iter().position(|&byte| byte == b'=');
                let behind = found.map_or(text.len(), |steps| place + steps + 1);
                let bounds = [
                    "1000000001",
                    "-1000000001",
                    "1000000000",
                    "4294967296",
                    "+0",
                    "",
                ];
                let bound = format!(" {} ;\n* ", bounds[random.below(bounds.len())]);
                text.splice(behind..behind, bound.bytes());
            }
            number => {
                let lines: Vec<Vec<u8>> = text
                    .split_inclusive(|&byte| byte == b'\n')
                    .map(|line| line.to_vec())
                    .collect();
                let which = random.below(lines.len());
                let mut kept = lines.clone();
                if number == 6 {
                    kept.remove(which);
                } else {
                    kept.insert(random.below(lines.len()), lines[which].clone());
                }
                text = kept.concat();
            }
        }
        text
    }
}
