//! Parses JSON, so that tests can check that a report is JSON and look at its values.

use std::iter::Peekable;
use std::str::Chars;

#[derive(Clone, Debug, PartialEq)]
pub enum Json {
    Null,
    /// A number as it is written.
    Number(String),
    Text(String),
    List(Vec<Json>),
    Object(Vec<(String, Json)>),
}

impl Json {
    /// Returns the value of a member of an object.
    pub fn get(&self, name: &str) -> &Json {
        let Json::Object(members) = self else {
            panic!("{self:?} is no object");
        };
        let member = members.iter().find(|(key, _)| key == name);
        &member.unwrap_or_else(|| panic!("no {name} in {self:?}")).1
    }

    /// Returns the values of a list.
    pub fn list(&self) -> &[Json] {
        match self {
            Json::List(values) => values,
            _ => panic!("{self:?} is no list"),
        }
    }

    /// Returns the names of an object's members.
    pub fn names(&self) -> Vec<&str> {
        match self {
            Json::Object(members) => members.iter().map(|(name, _)| &name[..]).collect(),
            _ => panic!("{self:?} is no object"),
        }
    }
}

/// Returns a number.
pub fn number(number: impl ToString) -> Json {
    Json::Number(number.to_string())
}

/// Returns a text.
pub fn text(text: &str) -> Json {
    Json::Text(text.into())
}

/// Parses a whole text. Panics if it is not JSON.
pub fn parse(text: &str) -> Json {
    let mut rest = text.chars().peekable();
    let value = value(&mut rest);
    skip_space(&mut rest);
    assert_eq!(rest.next(), None, "after the value in {text}");
    value
}

type Rest<'a> = Peekable<Chars<'a>>;

fn skip_space(rest: &mut Rest) {
    while rest.next_if(|c| " \n\r\t".contains(*c)).is_some() {}
}

fn value(rest: &mut Rest) -> Json {
    skip_space(rest);
    match rest.peek() {
        Some('{') => Json::Object(items(rest, '}', |rest| {
            skip_space(rest);
            let name = string(rest);
            skip_space(rest);
            assert_eq!(rest.next(), Some(':'), "after {name}");
            (name, value(rest))
        })),
        Some('[') => Json::List(items(rest, ']', value)),
        Some('"') => Json::Text(string(rest)),
        Some('n') => {
            assert!("null".chars().all(|c| rest.next() == Some(c)));
            Json::Null
        }
        _ => {
            let digits = std::iter::from_fn(|| rest.next_if(|c| "0123456789.".contains(*c)));
            let digits: String = digits.collect();
            assert!(digits.parse::<f64>().is_ok(), "{digits:?} is no number");
            Json::Number(digits)
        }
    }
}

/// Parses what is between two brackets, separated by commas.
fn items<T>(rest: &mut Rest, end: char, item: impl Fn(&mut Rest) -> T) -> Vec<T> {
    let mut items = Vec::new();
    rest.next();
    skip_space(rest);
    if rest.next_if_eq(&end).is_some() {
        return items;
    }
    loop {
        items.push(item(rest));
        skip_space(rest);
        match rest.next() {
            Some(',') => (),
            Some(other) if other == end => return items,
            other => panic!("{other:?} after an item"),
        }
    }
}

fn string(rest: &mut Rest) -> String {
    assert_eq!(rest.next(), Some('"'), "a string begins");
    let mut text = String::new();
    loop {
        match rest.next().expect("a string ends") {
            '"' => return text,
            '\\' => match rest.next() {
                Some(c @ ('"' | '\\')) => text.push(c),
                Some('u') => {
                    let digits: String = rest.take(4).collect();
                    let code = u32::from_str_radix(&digits, 16).expect("four digits");
                    text.push(char::from_u32(code).expect("a character"));
                }
                other => panic!("{other:?} after a backslash"),
            },
            c => {
                assert!(c >= ' ', "{c:?} in a string");
                text.push(c);
            }
        }
    }
}
