//! Cuts a whole script into words and brackets, with their places.

#[derive(Clone, Debug, PartialEq, Eq)]
pub enum Kind {
    Open,
    Close,
    Word(String),
    End,
}

#[derive(Clone, Debug, PartialEq, Eq)]
pub struct Token {
    pub kind: Kind,
    pub start: usize,
    pub length: usize,
}

impl Token {
    /// The token's text if it is a word.
    pub fn word(&self) -> Option<&str> {
        match &self.kind {
            Kind::Word(text) => Some(text),
            _ => None,
        }
    }
}

/// All tokens from the left; the last one is the end, of length 0.
pub fn tokenise(script: &str) -> Vec<Token> {
    let mut tokens = Vec::new();
    let mut word_start = None;
    for (at, c) in script.char_indices() {
        let bracket = match c {
            '(' => Some(Kind::Open),
            ')' => Some(Kind::Close),
            _ => None,
        };
        if bracket.is_none() && c != ' ' {
            word_start = word_start.or(Some(at));
            continue;
        }
        tokens.extend(word_start.take().map(|start| word_token(script, start, at)));
        tokens.extend(bracket.map(|kind| Token {
            kind,
            start: at,
            length: 1,
        }));
    }
    tokens.extend(word_start.map(|start| word_token(script, start, script.len())));
    tokens.push(Token {
        kind: Kind::End,
        start: script.len(),
        length: 0,
    });
    tokens
}

fn word_token(script: &str, start: usize, end: usize) -> Token {
    let kind = Kind::Word(script[start..end].to_string());
    Token {
        kind,
        start,
        length: end - start,
    }
}
