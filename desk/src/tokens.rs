//! Words, numbers and signs of a text, with their places; and its comments.

/// A place in a text: line and column, both counted from 1, the column in characters.
#[derive(Clone, Copy, Debug, PartialEq, Eq)]
pub struct Place {
    pub line: usize,
    pub column: usize,
}

/// Why a text is turned away, and where.
#[derive(Clone, Debug, PartialEq, Eq)]
pub struct Fault {
    pub line: usize,
    pub column: usize,
    pub words: String,
}

pub fn fault<T>(at: Place, words: impl Into<String>) -> Result<T, Fault> {
    let Place { line, column } = at;
    let words = words.into();
    Err(Fault {
        line,
        column,
        words,
    })
}

#[derive(Clone, Copy, Debug, PartialEq, Eq)]
pub enum Kind {
    Word,
    Number,
    Sign,
}

#[derive(Clone, Copy, Debug)]
pub struct Token<'a> {
    pub at: Place,
    pub kind: Kind,
    pub text: &'a str,
    /// How many characters it has where it stands.
    pub width: usize,
}

impl Token<'_> {
    /// The place right behind it.
    pub fn behind(&self) -> Place {
        Place {
            column: self.at.column + self.width,
            ..self.at
        }
    }
}

/// What stands behind a '#', without the blanks around it, and whether its line has nothing else.
#[derive(Clone, Copy, Debug)]
pub struct Comment<'a> {
    pub line: usize,
    pub text: &'a str,
    pub alone: bool,
}

/// A text taken apart. The tokens end before the first character that belongs to none, which is the
/// fault of whoever needs more.
pub struct Tokens<'a> {
    pub tokens: Vec<Token<'a>>,
    pub comments: Vec<Comment<'a>>,
    pub behind: Option<Fault>,
}

/// The length of the word at the start. A '-' belongs to it between two letters or digits only, so
/// that "a - b" is a sum and "ford-a" a name.
fn word_length(text: &str) -> usize {
    let in_word = |c: char| c.is_alphanumeric() || c == '_';
    let mut characters = text.char_indices().peekable();
    while let Some((place, c)) = characters.next() {
        let inner = c == '-' && characters.peek().is_some_and(|&(_, next)| in_word(next));
        if !in_word(c) && !inner {
            return place;
        }
    }
    text.len()
}

/// The length of the sign at the start; editors write "at most" and "at least" in two ways.
fn sign_length(text: &str) -> Option<usize> {
    let signs = ["<=", ">=", "≤", "≥", "+", "-", "=", ":"];
    let sign = signs.iter().find(|&&sign| text.starts_with(sign));
    sign.map(|sign| sign.len())
}

/// The token at the start of what is left of a line.
fn token(at: Place, left: &str) -> Result<Token<'_>, Fault> {
    let first = left.chars().next().expect("something is left");
    let (kind, length) = if first.is_ascii_digit() {
        let length = word_length(left);
        let word = &left[..length];
        if !word.bytes().all(|byte| byte.is_ascii_digit()) {
            let words = format!(
                "'{word}' is neither a number nor a name: a name begins with a letter, \
                 and a space stands between a number and what follows"
            );
            return fault(at, words);
        }
        (Kind::Number, length)
    } else if first.is_alphabetic() || first == '_' {
        (Kind::Word, word_length(left))
    } else if let Some(length) = sign_length(left) {
        (Kind::Sign, length)
    } else {
        return fault(at, format!("'{first}' has no meaning here"));
    };
    let written = &left[..length];
    let text = match written {
        "≤" => "<=",
        "≥" => ">=",
        text => text,
    };
    let width = written.chars().count();
    Ok(Token {
        at,
        kind,
        text,
        width,
    })
}

/// Adds the tokens of one line, up to its comment.
fn line_tokens<'a>(line: usize, text: &'a str, tokens: &mut Vec<Token<'a>>) -> Result<(), Fault> {
    let mut left = text;
    loop {
        left = left.trim_start();
        if left.is_empty() {
            return Ok(());
        }
        let before = &text[..text.len() - left.len()];
        let column = 1 + before.chars().count();
        let token = token(Place { line, column }, left)?;
        left = left
            .split_at(left.chars().take(token.width).map(char::len_utf8).sum())
            .1;
        tokens.push(token);
    }
}

/// The tokens of a text; a comment ends with its line, and lines mean nothing otherwise.
pub fn tokens(text: &str) -> Tokens<'_> {
    let (mut tokens, mut comments) = (Vec::new(), Vec::new());
    for (place, line) in text.lines().enumerate() {
        let (code, comment) = match line.split_once('#') {
            Some((code, comment)) => (code, Some(comment)),
            None => (line, None),
        };
        if let Some(comment) = comment {
            comments.push(Comment {
                line: place + 1,
                text: comment.trim(),
                alone: code.trim().is_empty(),
            });
        }
        if let Err(fault) = line_tokens(place + 1, code, &mut tokens) {
            return Tokens {
                tokens,
                comments,
                behind: Some(fault),
            };
        }
    }
    Tokens {
        tokens,
        comments,
        behind: None,
    }
}
