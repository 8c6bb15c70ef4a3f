//! JSON, as far as it is written here.

use std::fmt;

pub enum Json {
    Bool(bool),
    Number(u64),
    Text(String),
    List(Vec<Json>),
    Object(Vec<(&'static str, Json)>),
}

impl Json {
    pub fn numbers<T: Copy + Into<u64>>(numbers: &[T]) -> Json {
        Json::List(numbers.iter().map(|number| Json::Number((*number).into())).collect())
    }

    pub fn text(text: impl Into<String>) -> Json {
        Json::Text(text.into())
    }
}

impl<T: Into<u64>> From<T> for Json {
    fn from(number: T) -> Json {
        Json::Number(number.into())
    }
}

impl fmt::Display for Json {
    fn fmt(&self, f: &mut fmt::Formatter<'_>) -> fmt::Result {
        match self {
            Json::Bool(truth) => write!(f, "{truth}"),
            Json::Number(number) => write!(f, "{number}"),
            Json::Text(text) => quoted(text, f),
            Json::List(entries) => {
                f.write_str("[")?;
                for (place, entry) in entries.iter().enumerate() {
                    write!(f, "{}{entry}", if place > 0 { "," } else { "" })?;
                }
                f.write_str("]")
            }
            Json::Object(members) => {
                f.write_str("{")?;
                for (place, (name, member)) in members.iter().enumerate() {
                    write!(f, "{}\"{name}\":{member}", if place > 0 { "," } else { "" })?;
                }
                f.write_str("}")
            }
        }
    }
}

fn quoted(text: &str, f: &mut fmt::Formatter<'_>) -> fmt::Result {
    f.write_str("\"")?;
    for letter in text.chars() {
        match letter {
            '"' | '\\' => write!(f, "\\{letter}")?,
            '\0'..='\x1f' => write!(f, "\\u{:04x}", letter as u32)?,
            _ => write!(f, "{letter}")?,
        }
    }
    f.write_str("\"")
}

#[cfg(test)]
mod tests {
    use super::*;

    #[test]
    fn written() {
        let object = Json::Object(vec![
            ("name", Json::text("a\"b\\c\n\u{e9}")),
            ("empty", Json::List(Vec::new())),
            ("list", Json::numbers(&[1u32, 2])),
            ("others", Json::List(vec![Json::Bool(true), Json::from(u64::MAX)])),
        ]);
        let expected =
            r#"{"name":"a\"b\\c\u000aé","empty":[],"list":[1,2],"others":[true,18446744073709551615]}"#;
        assert_eq!(object.to_string(), expected);
    }
}
