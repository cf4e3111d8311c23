// The places of sanitizer.rs: its states, its 32 arms with the states that each can have, and the choices inside four of them.
use super::{also, arm, block, line, place, when, How, Place};

// The sanitiser's states, in the order of the Rust's enum.
pub const STATES: [&str; 11] = [
    "Default",
    "ComparisonOperator",
    "InsertValues",
    "InsertValuesJustClosed",
    "JoinOn",
    "Offset",
    "Between",
    "Keyword",
    "KeywordScopeStarted",
    "Array",
    "ArrayStarted",
];

// The states in which an arm can be taken.
pub enum States {
    Any,
    Only(&'static [&'static str]),
    But(&'static [&'static str]),
}

impl States {
    // Whether a state is among them.
    pub fn has(&self, state: &str) -> bool {
        match self {
            States::Any => true,
            States::Only(states) => states.contains(&state),
            States::But(states) => !states.contains(&state),
        }
    }
}

// The 32 arms: the kinds that each takes and what it does, the start of its line, and the states in which it can be taken: those that its
// pattern names, without those in which an arm before it takes all of its kinds.
const VALUE_STATES: States = States::Only(&["ComparisonOperator", "InsertValues", "Offset", "Between"]);
pub const ARMS: [(&str, &str, States); 32] = [
    ("In: to Keyword", "(Token::Operator(Operator::Logical(LogicalOperator::In)), _) =>", States::Any),
    ("operator: to Default", "(Token::Operator(_), State::JoinOn) =>", States::Only(&["JoinOn"])),
    // 2 takes the operators in JoinOn
    ("operator: to ComparisonOperator", "(Token::Operator(_), _) =>", States::But(&["JoinOn"])),
    ("Values: to InsertValues", "(Token::Keyword(Keyword::Values), _) =>", States::Any),
    ("On: to JoinOn", "(Token::Keyword(Keyword::On), _) =>", States::Any),
    ("Offset: to Offset", "(Token::Keyword(Keyword::Offset), _) =>", States::Any),
    ("Between: to Between", "(Token::Keyword(Keyword::Between), _) =>", States::Any),
    ("Array: to Array", "(Token::Keyword(Keyword::Array), _) =>", States::Any),
    ("And: stays", "(Token::Keyword(Keyword::And), State::Between) =>", States::Only(&["Between"])),
    // in Between it takes Or
    ("And, Or: to ComparisonOperator", "(Token::Keyword(Keyword::And | Keyword::Or), _) =>", States::Any),
    ("Insert, Into: stays", "(Token::Keyword(Keyword::Insert | Keyword::Into), _) =>", States::Any),
    ("Limit, From: to Default", "(Token::Keyword(Keyword::Limit | Keyword::From), _) =>", States::Any),
    ("Where: to ComparisonOperator", "(Token::Keyword(Keyword::Where), _) =>", States::Any),
    ("other keywords: stays", "(Token::Keyword(_), State::KeywordScopeStarted) =>", States::Only(&["KeywordScopeStarted"])),
    // 14 takes Other in KeywordScopeStarted
    ("Other: to Keyword", "(Token::Keyword(Keyword::Other(_)), _) =>", States::But(&["KeywordScopeStarted"])),
    ("indicator: stays", "(Token::LiteralValueTypeIndicator(_), _) =>", States::Any),
    ("`(`: stays", "(Token::ParentheseOpen, State::ComparisonOperator) =>", States::Only(&["ComparisonOperator"])),
    ("`(`: to KeywordScopeStarted", "(Token::ParentheseOpen, State::Keyword) =>", States::Only(&["Keyword"])),
    ("`(`: stays", "(Token::ParentheseOpen, State::InsertValues) =>", States::Only(&["InsertValues"])),
    ("`[`: to ArrayStarted", "(Token::SquareBracketOpen, State::Array) =>", States::Only(&["Array"])),
    ("`)`: to InsertValuesJustClosed", "(Token::ParentheseClose, State::InsertValues) =>", States::Only(&["InsertValues"])),
    ("`,`: stays", "(Token::Comma, State::InsertValuesJustClosed) =>", States::Only(&["InsertValuesJustClosed"])),
    ("`(`: rows collapse", "(Token::ParentheseOpen, State::InsertValuesJustClosed) =>", States::Only(&["InsertValuesJustClosed"])),
    // in InsertValues it takes `]`
    ("`)`, `]`: to Default", "(Token::ParentheseClose | Token::SquareBracketClose, _) =>", States::Any),
    ("`.`: stays", "(Token::Dot, State::JoinOn) =>", States::Only(&["JoinOn"])),
    ("value: replaced", "(", VALUE_STATES),
    ("DoubleQuoted: replaced unless dotted", "(", VALUE_STATES),
    ("value, DoubleQuoted, NumberedPlaceholder: replaced to the close", "(", States::Only(&["ArrayStarted", "KeywordScopeStarted"])),
    ("Comment: blanked", "(Token::Comment(_), _) =>", States::Any),
    ("Space, None: stays", "(Token::Space | Token::None, _) =>", States::Any),
    ("any other: stays", "(_, State::InsertValues | State::KeywordScopeStarted) =>", States::Only(&["InsertValues", "KeywordScopeStarted"])),
    // 31 takes all in these two
    ("any other: to Default", "_ => state = State::Default,", States::But(&["InsertValues", "KeywordScopeStarted"])),
];

// The choices inside arm 23, 27, 28 or 29.
fn choices(number: usize) -> Vec<Place> {
    match number {
        23 => vec![
            block("arm 23", "to the list's end", "if pos + kept >= self.sql.tokens.len() {"),
            arm("arm 23", "a close", "Token::ParentheseClose => {"),
            also("arm 23", "a stray close", "!in_parentheses"),
            arm("arm 23", "an open", "Token::ParentheseOpen => {"),
            also("arm 23", "an open inside", "in_parentheses && pos + kept > start_pos"),
            arm("arm 23", "a token inside", "_ if in_parentheses =>"),
            arm("arm 23", "a comma outside", "Token::Comma => true,"),
            arm("arm 23", "a space outside", "Token::Space => true,"),
            arm("arm 23", "a token that ends it", "_ => break,"),
            block("arm 23", "kept so far", "if keep {"),
            block("arm 23", "blanked", "} else {"),
            block("arm 23", "kept, then blanked", "while kept > 0 {"),
            when("arm 23", "a comma or space passed over", "self.ellipsis(start_pos);", "kept > 0"),
            also("arm 23", "another token passed over", "kept == 0 && pos < self.sql.tokens.len()"),
            also("arm 23", "nothing passed over", "pos >= self.sql.tokens.len()"),
        ],
        27 => vec![
            also("arm 27", "after a `.`: left", "pos > 0 && self.sql.tokens[pos - 1] == Token::Dot"),
            also("arm 27", "before a `.`: left", "self.sql.tokens.get(pos + 1) == Some(&Token::Dot)"),
            block("arm 27", "replaced", "{"),
        ],
        28 => vec![
            block("arm 28", "to the list's end", "if pos >= self.sql.tokens.len() {"),
            arm("arm 28", "to a `)`", "Token::ParentheseClose => break,"),
            arm("arm 28", "to a `]`", "Token::SquareBracketClose => break,"),
            arm("arm 28", "blanked", "_ => {"),
        ],
        29 => vec![
            also("arm 29", "at place 0", "pos == 0"),
            also("arm 29", "after another token than a Space", "pos > 0 && self.sql.tokens[pos - 1] != Token::Space"),
            block("arm 29", "after a Space, blanked too", "if self.sql.tokens.get(pos - 1) == Some(&Token::Space) {"),
        ],
        _ => vec![],
    }
}

// The number of a state, which the Rust has no need of.
const STATE_NUMBER: &str = "impl State { fn number(&self) -> usize { match self { State::Default => 0, State::ComparisonOperator => 1, \
    State::InsertValues => 2, State::InsertValuesJustClosed => 3, State::JoinOn => 4, State::Offset => 5, State::Between => 6, State::Keyword => 7, \
    State::KeywordScopeStarted => 8, State::Array => 9, State::ArrayStarted => 10 } } }";

// Of sanitizer.rs, in its order.
pub fn sanitizer() -> Vec<Place> {
    let mut places = vec![line("use super::", STATE_NUMBER), line("let token =", "crate::counted::token(token, state.number());")];
    for (number, (name, at, _)) in (1..).zip(&ARMS) {
        places.push(place("", name, at, How::InState(number)));
        places.extend(choices(number));
    }
    places
}
