//! What may stand where. Each rule is one refusal and the question when it
//! applies to a token; at one token the first rule of the list that applies counts.

use crate::fault::Fault;
use crate::scope::Scope;
use crate::tokens::{Kind, Token};
use crate::words::{self, Numeral};

const DEEPEST: usize = 32;
const MOST_FORMS: usize = 512;

/// What a script has to have next.
#[derive(Clone, Copy, Debug, PartialEq, Eq)]
pub enum Place {
    Form,
    Head,
    Name,
    Label,
    Closing,
    End,
}

/// What the rules ask about besides the token itself.
pub struct Context<'a> {
    pub place: Place,
    /// Brackets open before the token.
    pub depth: usize,
    /// Forms begun before the token.
    pub forms: usize,
    pub records_known: bool,
    pub sheet: &'a [String],
    pub scope: &'a Scope<'a>,
}

type Question = fn(&Token, &Context) -> bool;

const RULES: [(u8, Question); 7] = [
    (6, opens_too_deep),
    (8, begins_too_many_forms),
    (5, cannot_stand),
    (7, is_out_of_range),
    (11, needs_unknown_records),
    (9, is_not_on_the_sheet),
    (10, is_not_bound),
];

/// The first rule that the token breaks, as a fault at the token's place.
pub fn judge(token: &Token, context: &Context) -> Result<(), Fault> {
    match RULES.iter().find(|(_, applies)| applies(token, context)) {
        None => Ok(()),
        Some((number, _)) => {
            let length = if matches!(number, 6 | 8) {
                1
            } else {
                token.length
            };
            Err(Fault::reading(*number, token.start, length))
        }
    }
}

fn opens_too_deep(token: &Token, context: &Context) -> bool {
    token.kind == Kind::Open && context.depth >= DEEPEST
}

fn begins_too_many_forms(token: &Token, context: &Context) -> bool {
    context.place == Place::Form
        && context.forms >= MOST_FORMS
        && matches!(token.kind, Kind::Open | Kind::Word(_))
}

fn cannot_stand(token: &Token, context: &Context) -> bool {
    let can_stand = match (context.place, &token.kind) {
        (Place::Form, Kind::Open) => true,
        (Place::Form, Kind::Word(word)) => is_form_word(word),
        (Place::Head, Kind::Word(word)) => words::is_head(word),
        (Place::Name | Place::Label, Kind::Word(word)) => words::is_name(word),
        (Place::Closing, Kind::Close) => true,
        (Place::End, Kind::End) => true,
        _ => false,
    };
    !can_stand
}

fn is_form_word(word: &str) -> bool {
    words::is_name(word) || words::is_flag(word) || words::numeral(word) != Numeral::NotANumber
}

fn is_out_of_range(token: &Token, context: &Context) -> bool {
    context.place == Place::Form
        && token
            .word()
            .is_some_and(|word| words::numeral(word) == Numeral::OutOfRange)
}

fn needs_unknown_records(token: &Token, context: &Context) -> bool {
    context.place == Place::Head
        && !context.records_known
        && token.word().is_some_and(words::is_record_head)
}

fn is_not_on_the_sheet(token: &Token, context: &Context) -> bool {
    context.place == Place::Label
        && token
            .word()
            .is_some_and(|word| !context.sheet.iter().any(|label| label == word))
}

fn is_not_bound(token: &Token, context: &Context) -> bool {
    context.place == Place::Form
        && token
            .word()
            .is_some_and(|word| words::is_name(word) && !context.scope.binds(word))
}
