//! The 84 kinds by name, written from document 01's table ("Token slots") and from nothing of the port: each row of the table with the number at
//! which it starts, its kinds in their order. The bitwise And and Or are BITWISE_AND and BITWISE_OR, to tell them from the words.

macro_rules! numbered {
    ($number:expr;) => {
        const _: () = assert!($number == 84);
    };
    ($number:expr; | $start:literal: $($rest:tt)*) => {
        const _: () = assert!($number == $start);
        numbered! { $number; $($rest)* }
    };
    ($number:expr; $name:ident $($rest:tt)*) => {
        pub const $name: u32 = $number;
        numbered! { $number + 1; $($rest)* }
    };
}

// The names of a table and the kinds by name.
macro_rules! table {
    ($(| $start:literal: $($name:ident)*)*) => {
        numbered! { 0; $(| $start: $($name)*)* }

        /// All names in their order.
        pub const NAMES: [&str; 84] = [$($(stringify!($name)),*),*];
    };
}

#[rustfmt::skip]
table! {
    | 0: NONE
    | 1: SPACE NEWLINE DOT COMMA WILDCARD PARENTHESE_OPEN PARENTHESE_CLOSE SQUARE_BRACKET_OPEN SQUARE_BRACKET_CLOSE COLON SEMICOLON
    | 12: PLACEHOLDER ELLIPSIS NULL TRUE FALSE
    | 17: MULTIPLY DIVIDE MODULO PLUS MINUS
    | 22: IN NOT LIKE ILIKE RLIKE GLOB MATCH REGEXP THEN ELSE
    | 32: EQUAL EQUAL2 NULL_SAFE_EQUAL GREATER_THAN_OR_EQUAL LESS_THAN_OR_EQUAL EQUAL_OR_GREATER_THAN EQUAL_OR_LESS_THAN EQUAL_WITH_ARROWS NOT_EQUAL GREATER_THAN LESS_THAN
    | 43: LEFT_SHIFT RIGHT_SHIFT BITWISE_AND BITWISE_OR SPECIFIED_PATH SPECIFIED_PATH_AS_TEXT
    | 49: SELECT FROM WHERE AND OR UPDATE SET INSERT INTO VALUES INNER JOIN ON LIMIT OFFSET BETWEEN ARRAY
    | 66: OTHER
    | 67: BINARY DATE TIME TIMESTAMP X ZERO_X B ZERO_B N
    | 76: CHARSET BACKTICKED DOUBLE_QUOTED SINGLE_QUOTED NUMERIC COMMENT NUMBERED_PLACEHOLDER
    | 83: UNKNOWN
}
