//! A line's words and marks.

use super::TextFault;

/// A name of more characters is refused, so that a text and what is printed of it stay short.
pub const LONGEST_NAME: usize = 64;

/// A line with everything that one can need has 23.
const MOST_TOKENS: usize = 64;

/// A word (letters, digits, `_`, `-`, `.`) or one of the marks `:` and `,`, as it stands in a line.
#[derive(Clone, Copy, Debug, PartialEq, Eq)]
pub struct Token<'a> {
    pub text: &'a str,
    pub column: usize,
}

pub fn is_word_letter(c: char) -> bool {
    c.is_alphanumeric() || matches!(c, '_' | '-' | '.')
}

/// The tokens of a line; `#` begins a comment.
pub fn tokens(line: &str, number: usize) -> Result<Vec<Token<'_>>, TextFault> {
    let mut tokens: Vec<Token> = Vec::new();
    // Where the word that is being read begins.
    let mut word: Option<(usize, usize)> = None;
    for (column, (at, c)) in (1..).zip(line.char_indices()) {
        if is_word_letter(c) {
            word = word.or(Some((at, column)));
            continue;
        }
        tokens.extend(word.take().map(|(from, column)| Token { text: &line[from..at], column }));
        if tokens.len() > MOST_TOKENS {
            let expected = format!("at most {MOST_TOKENS} words and marks in a line");
            return Err(TextFault { line: number, column, expected, found: "more".into(), nearest: None });
        }
        match c {
            '#' => return Ok(tokens),
            ':' | ',' => tokens.push(Token { text: &line[at..at + 1], column }),
            _ if c.is_whitespace() => {}
            _ => return Err(odd_character(number, column, c)),
        }
    }
    tokens.extend(word.map(|(from, column)| Token { text: &line[from..], column }));
    Ok(tokens)
}

fn odd_character(line: usize, column: usize, c: char) -> TextFault {
    let expected = "letters, digits, `_`, `-`, `.`, `:`, `,` or a comment".to_string();
    TextFault { line, column, expected, found: format!("'{}'", c.escape_default()), nearest: None }
}
