//! Tokens of the Rust and token slots of the port, each made from the other: the one place that knows both.
use sql_lexer::{
    ArithmeticOperator, BitwiseOperator, BufferSlice, ComparisonOperator, JsonOperator, Keyword, LiteralValueTypeIndicator, LogicalOperator,
    Operator, Token,
};

/// The words of a slot: kind, first, second.
pub const WORDS: usize = 3;

/// The kinds by name, by document 01.
#[path = "kind.rs"]
#[allow(dead_code)]
pub mod kind;

/// Whether a kind carries a start and an end offset.
pub fn carries_offsets(kind: u32) -> bool {
    kind == kind::OTHER || (kind::CHARSET..=kind::NUMBERED_PLACEHOLDER).contains(&kind)
}

/// A token of the Rust. Panics where the slot is not well formed.
pub fn token(kind: u32, first: u32, second: u32) -> Token {
    let slice = || BufferSlice::new(first as usize, second as usize);
    if !carries_offsets(kind) && kind != kind::UNKNOWN {
        assert!(first == 0 && second == 0);
    }
    let arithmetic = |o| Token::Operator(Operator::Arithmetic(o));
    let logical = |o| Token::Operator(Operator::Logical(o));
    let comparison = |o| Token::Operator(Operator::Comparison(o));
    let bitwise = |o| Token::Operator(Operator::Bitwise(o));
    let json = |o| Token::Operator(Operator::Json(o));
    let indicator = Token::LiteralValueTypeIndicator;
    match kind {
        kind::NONE => Token::None,
        kind::SPACE => Token::Space,
        kind::NEWLINE => Token::Newline,
        kind::DOT => Token::Dot,
        kind::COMMA => Token::Comma,
        kind::WILDCARD => Token::Wildcard,
        kind::PARENTHESE_OPEN => Token::ParentheseOpen,
        kind::PARENTHESE_CLOSE => Token::ParentheseClose,
        kind::SQUARE_BRACKET_OPEN => Token::SquareBracketOpen,
        kind::SQUARE_BRACKET_CLOSE => Token::SquareBracketClose,
        kind::COLON => Token::Colon,
        kind::SEMICOLON => Token::Semicolon,
        kind::PLACEHOLDER => Token::Placeholder,
        kind::ELLIPSIS => Token::Ellipsis,
        kind::NULL => Token::Null,
        kind::TRUE => Token::True,
        kind::FALSE => Token::False,
        kind::MULTIPLY => arithmetic(ArithmeticOperator::Multiply),
        kind::DIVIDE => arithmetic(ArithmeticOperator::Divide),
        kind::MODULO => arithmetic(ArithmeticOperator::Modulo),
        kind::PLUS => arithmetic(ArithmeticOperator::Plus),
        kind::MINUS => arithmetic(ArithmeticOperator::Minus),
        kind::IN => logical(LogicalOperator::In),
        kind::NOT => logical(LogicalOperator::Not),
        kind::LIKE => logical(LogicalOperator::Like),
        kind::ILIKE => logical(LogicalOperator::Ilike),
        kind::RLIKE => logical(LogicalOperator::Rlike),
        kind::GLOB => logical(LogicalOperator::Glob),
        kind::MATCH => logical(LogicalOperator::Match),
        kind::REGEXP => logical(LogicalOperator::Regexp),
        kind::THEN => logical(LogicalOperator::Then),
        kind::ELSE => logical(LogicalOperator::Else),
        kind::EQUAL => comparison(ComparisonOperator::Equal),
        kind::EQUAL2 => comparison(ComparisonOperator::Equal2),
        kind::NULL_SAFE_EQUAL => comparison(ComparisonOperator::NullSafeEqual),
        kind::GREATER_THAN_OR_EQUAL => comparison(ComparisonOperator::GreaterThanOrEqual),
        kind::LESS_THAN_OR_EQUAL => comparison(ComparisonOperator::LessThanOrEqual),
        kind::EQUAL_OR_GREATER_THAN => comparison(ComparisonOperator::EqualOrGreaterThan),
        kind::EQUAL_OR_LESS_THAN => comparison(ComparisonOperator::EqualOrLessThan),
        kind::EQUAL_WITH_ARROWS => comparison(ComparisonOperator::EqualWithArrows),
        kind::NOT_EQUAL => comparison(ComparisonOperator::NotEqual),
        kind::GREATER_THAN => comparison(ComparisonOperator::GreaterThan),
        kind::LESS_THAN => comparison(ComparisonOperator::LessThan),
        kind::LEFT_SHIFT => bitwise(BitwiseOperator::LeftShift),
        kind::RIGHT_SHIFT => bitwise(BitwiseOperator::RightShift),
        kind::BITWISE_AND => bitwise(BitwiseOperator::And),
        kind::BITWISE_OR => bitwise(BitwiseOperator::Or),
        kind::SPECIFIED_PATH => json(JsonOperator::SpecifiedPath),
        kind::SPECIFIED_PATH_AS_TEXT => json(JsonOperator::SpecifiedPathAsText),
        kind::SELECT => Token::Keyword(Keyword::Select),
        kind::FROM => Token::Keyword(Keyword::From),
        kind::WHERE => Token::Keyword(Keyword::Where),
        kind::AND => Token::Keyword(Keyword::And),
        kind::OR => Token::Keyword(Keyword::Or),
        kind::UPDATE => Token::Keyword(Keyword::Update),
        kind::SET => Token::Keyword(Keyword::Set),
        kind::INSERT => Token::Keyword(Keyword::Insert),
        kind::INTO => Token::Keyword(Keyword::Into),
        kind::VALUES => Token::Keyword(Keyword::Values),
        kind::INNER => Token::Keyword(Keyword::Inner),
        kind::JOIN => Token::Keyword(Keyword::Join),
        kind::ON => Token::Keyword(Keyword::On),
        kind::LIMIT => Token::Keyword(Keyword::Limit),
        kind::OFFSET => Token::Keyword(Keyword::Offset),
        kind::BETWEEN => Token::Keyword(Keyword::Between),
        kind::ARRAY => Token::Keyword(Keyword::Array),
        kind::OTHER => Token::Keyword(Keyword::Other(slice())),
        kind::BINARY => indicator(LiteralValueTypeIndicator::Binary),
        kind::DATE => indicator(LiteralValueTypeIndicator::Date),
        kind::TIME => indicator(LiteralValueTypeIndicator::Time),
        kind::TIMESTAMP => indicator(LiteralValueTypeIndicator::Timestamp),
        kind::X => indicator(LiteralValueTypeIndicator::X),
        kind::ZERO_X => indicator(LiteralValueTypeIndicator::ZeroX),
        kind::B => indicator(LiteralValueTypeIndicator::B),
        kind::ZERO_B => indicator(LiteralValueTypeIndicator::ZeroB),
        kind::N => indicator(LiteralValueTypeIndicator::N),
        kind::CHARSET => indicator(LiteralValueTypeIndicator::Charset(slice())),
        kind::BACKTICKED => Token::Backticked(slice()),
        kind::DOUBLE_QUOTED => Token::DoubleQuoted(slice()),
        kind::SINGLE_QUOTED => Token::SingleQuoted(slice()),
        kind::NUMERIC => Token::Numeric(slice()),
        kind::COMMENT => Token::Comment(slice()),
        kind::NUMBERED_PLACEHOLDER => Token::NumberedPlaceholder(slice()),
        kind::UNKNOWN => {
            assert!(second == 0);
            Token::Unknown(char::from_u32(first).expect("a scalar value"))
        }
        _ => panic!("no kind {kind}"),
    }
}

fn bare(kind: u32) -> [u32; WORDS] {
    [kind, 0, 0]
}

fn sliced(kind: u32, slice: &BufferSlice) -> [u32; WORDS] {
    [kind, slice.start as u32, slice.end as u32]
}

fn operator(o: &Operator) -> u32 {
    match o {
        Operator::Arithmetic(a) => match a {
            ArithmeticOperator::Multiply => kind::MULTIPLY,
            ArithmeticOperator::Divide => kind::DIVIDE,
            ArithmeticOperator::Modulo => kind::MODULO,
            ArithmeticOperator::Plus => kind::PLUS,
            ArithmeticOperator::Minus => kind::MINUS,
        },
        Operator::Logical(l) => match l {
            LogicalOperator::In => kind::IN,
            LogicalOperator::Not => kind::NOT,
            LogicalOperator::Like => kind::LIKE,
            LogicalOperator::Ilike => kind::ILIKE,
            LogicalOperator::Rlike => kind::RLIKE,
            LogicalOperator::Glob => kind::GLOB,
            LogicalOperator::Match => kind::MATCH,
            LogicalOperator::Regexp => kind::REGEXP,
            LogicalOperator::Then => kind::THEN,
            LogicalOperator::Else => kind::ELSE,
        },
        Operator::Comparison(c) => match c {
            ComparisonOperator::Equal => kind::EQUAL,
            ComparisonOperator::Equal2 => kind::EQUAL2,
            ComparisonOperator::NullSafeEqual => kind::NULL_SAFE_EQUAL,
            ComparisonOperator::GreaterThanOrEqual => kind::GREATER_THAN_OR_EQUAL,
            ComparisonOperator::LessThanOrEqual => kind::LESS_THAN_OR_EQUAL,
            ComparisonOperator::EqualOrGreaterThan => kind::EQUAL_OR_GREATER_THAN,
            ComparisonOperator::EqualOrLessThan => kind::EQUAL_OR_LESS_THAN,
            ComparisonOperator::EqualWithArrows => kind::EQUAL_WITH_ARROWS,
            ComparisonOperator::NotEqual => kind::NOT_EQUAL,
            ComparisonOperator::GreaterThan => kind::GREATER_THAN,
            ComparisonOperator::LessThan => kind::LESS_THAN,
        },
        Operator::Bitwise(b) => match b {
            BitwiseOperator::LeftShift => kind::LEFT_SHIFT,
            BitwiseOperator::RightShift => kind::RIGHT_SHIFT,
            BitwiseOperator::And => kind::BITWISE_AND,
            BitwiseOperator::Or => kind::BITWISE_OR,
        },
        Operator::Json(j) => match j {
            JsonOperator::SpecifiedPath => kind::SPECIFIED_PATH,
            JsonOperator::SpecifiedPathAsText => kind::SPECIFIED_PATH_AS_TEXT,
        },
    }
}

fn keyword(k: &Keyword) -> [u32; WORDS] {
    match k {
        Keyword::Select => bare(kind::SELECT),
        Keyword::From => bare(kind::FROM),
        Keyword::Where => bare(kind::WHERE),
        Keyword::And => bare(kind::AND),
        Keyword::Or => bare(kind::OR),
        Keyword::Update => bare(kind::UPDATE),
        Keyword::Set => bare(kind::SET),
        Keyword::Insert => bare(kind::INSERT),
        Keyword::Into => bare(kind::INTO),
        Keyword::Values => bare(kind::VALUES),
        Keyword::Inner => bare(kind::INNER),
        Keyword::Join => bare(kind::JOIN),
        Keyword::On => bare(kind::ON),
        Keyword::Limit => bare(kind::LIMIT),
        Keyword::Offset => bare(kind::OFFSET),
        Keyword::Between => bare(kind::BETWEEN),
        Keyword::Array => bare(kind::ARRAY),
        Keyword::Other(s) => sliced(kind::OTHER, s),
    }
}

fn indicator(i: &LiteralValueTypeIndicator) -> [u32; WORDS] {
    match i {
        LiteralValueTypeIndicator::Binary => bare(kind::BINARY),
        LiteralValueTypeIndicator::Date => bare(kind::DATE),
        LiteralValueTypeIndicator::Time => bare(kind::TIME),
        LiteralValueTypeIndicator::Timestamp => bare(kind::TIMESTAMP),
        LiteralValueTypeIndicator::X => bare(kind::X),
        LiteralValueTypeIndicator::ZeroX => bare(kind::ZERO_X),
        LiteralValueTypeIndicator::B => bare(kind::B),
        LiteralValueTypeIndicator::ZeroB => bare(kind::ZERO_B),
        LiteralValueTypeIndicator::N => bare(kind::N),
        LiteralValueTypeIndicator::Charset(s) => sliced(kind::CHARSET, s),
    }
}

/// The words of a token's slot.
pub fn words(token: &Token) -> [u32; WORDS] {
    match token {
        Token::None => bare(kind::NONE),
        Token::Space => bare(kind::SPACE),
        Token::Newline => bare(kind::NEWLINE),
        Token::Dot => bare(kind::DOT),
        Token::Comma => bare(kind::COMMA),
        Token::Wildcard => bare(kind::WILDCARD),
        Token::ParentheseOpen => bare(kind::PARENTHESE_OPEN),
        Token::ParentheseClose => bare(kind::PARENTHESE_CLOSE),
        Token::SquareBracketOpen => bare(kind::SQUARE_BRACKET_OPEN),
        Token::SquareBracketClose => bare(kind::SQUARE_BRACKET_CLOSE),
        Token::Colon => bare(kind::COLON),
        Token::Semicolon => bare(kind::SEMICOLON),
        Token::Placeholder => bare(kind::PLACEHOLDER),
        Token::Ellipsis => bare(kind::ELLIPSIS),
        Token::Null => bare(kind::NULL),
        Token::True => bare(kind::TRUE),
        Token::False => bare(kind::FALSE),
        Token::Operator(o) => bare(operator(o)),
        Token::Keyword(k) => keyword(k),
        Token::LiteralValueTypeIndicator(i) => indicator(i),
        Token::Backticked(s) => sliced(kind::BACKTICKED, s),
        Token::DoubleQuoted(s) => sliced(kind::DOUBLE_QUOTED, s),
        Token::SingleQuoted(s) => sliced(kind::SINGLE_QUOTED, s),
        Token::Numeric(s) => sliced(kind::NUMERIC, s),
        Token::Comment(s) => sliced(kind::COMMENT, s),
        Token::NumberedPlaceholder(s) => sliced(kind::NUMBERED_PLACEHOLDER, s),
        Token::Unknown(c) => [kind::UNKNOWN, *c as u32, 0],
    }
}

/// The slots of a list of tokens.
pub fn slots(tokens: &[Token]) -> Vec<u32> {
    tokens.iter().flat_map(words).collect()
}

/// The tokens in the whole slots of a buffer.
pub fn tokens(slots: &[u32]) -> Vec<Token> {
    slots.chunks_exact(WORDS).map(|w| token(w[0], w[1], w[2])).collect()
}

/// The names and numbers that a header gives the kinds, each name behind one mark and its number behind another.
fn named(header: &str, before: &str, between: &str) -> Vec<(String, usize)> {
    let is_name = |name: &str| name.chars().all(|c| c.is_ascii_uppercase() || c.is_ascii_digit() || c == '_');
    let number = |rest: &str| rest.split(|c: char| !c.is_ascii_digit()).next().and_then(|digits| digits.parse().ok());
    let pairs = header.split(before).skip(1).filter_map(|rest| rest.split_once(between)).filter(|(name, _)| is_name(name));
    pairs.filter_map(|(name, rest)| Some((name.to_string(), number(rest)?))).collect()
}

/// Each kind to its token and back: the two matches above are each other's inverse. And the kinds' names and numbers in the two headers are these.
pub fn check() {
    let kinds: Vec<(String, usize)> = kind::NAMES.iter().enumerate().map(|(number, name)| (name.to_string(), number)).collect();
    assert_eq!(named(include_str!("../../include/hayrumble.h"), " HAY_", " = "), kinds, "include/hayrumble.h");
    assert_eq!(named(include_str!("../../include/hayrumble.rs"), " pub const ", ": u32 = "), kinds, "include/hayrumble.rs");
    for kind in 0..=kind::UNKNOWN {
        let (first, second) = match kind {
            k if carries_offsets(k) => (7, 11),
            kind::UNKNOWN => ('é' as u32, 0),
            _ => (0, 0),
        };
        assert_eq!(words(&token(kind, first, second)), [kind, first, second]);
    }
}
