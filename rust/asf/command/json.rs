//! Values written as JSON.

pub enum Value {
    Text(String),
    Number(usize),
    Truth(bool),
    List(Vec<Value>),
    Object(Vec<(&'static str, Value)>),
}

/// Bytes as a string; what is no UTF-8 becomes replacement characters.
pub fn text(bytes: &[u8]) -> Value {
    Value::Text(String::from_utf8_lossy(bytes).into_owned())
}

impl Value {
    pub fn written(&self) -> String {
        match self {
            Value::Text(words) => quoted(words),
            Value::Number(number) => number.to_string(),
            Value::Truth(truth) => truth.to_string(),
            Value::List(values) => {
                let values: Vec<String> = values.iter().map(Value::written).collect();
                format!("[{}]", values.join(","))
            }
            Value::Object(pairs) => {
                let pair =
                    |(key, value): &(&str, Value)| format!("{}:{}", quoted(key), value.written());
                let pairs: Vec<String> = pairs.iter().map(pair).collect();
                format!("{{{}}}", pairs.join(","))
            }
        }
    }
}

fn quoted(words: &str) -> String {
    let mut out = String::from('"');
    for character in words.chars() {
        match character {
            '"' | '\\' => out.extend(['\\', character]),
            '\0'..='\x1f' | '\x7f' => out.push_str(&format!("\\u{:04x}", character as u32)),
            _ => out.push(character),
        }
    }
    out.push('"');
    out
}
