//! Lines of JSON as the outside vectors have them: whole numbers, texts without escapes, lists, and tables by name.

/// A value of JSON.
#[derive(Clone, Debug, PartialEq, Eq)]
pub enum Json {
    Null,
    Truth(bool),
    Number(i64),
    Text(String),
    List(Vec<Json>),
    Table(Vec<(String, Json)>),
}

impl Json {
    /// Reads a text that is one value.
    pub fn read(text: &str) -> Json {
        let (value, rest) = value(text);
        assert!(rest.trim().is_empty(), "something after a value: {rest}");
        value
    }

    /// The value of this name.
    pub fn get(&self, name: &str) -> &Json {
        let Json::Table(entries) = self else { panic!("{self:?} is no table") };
        &entries.iter().find(|entry| entry.0 == name).unwrap_or_else(|| panic!("no {name}")).1
    }

    /// The items of a list.
    pub fn list(&self) -> &[Json] {
        let Json::List(items) = self else { panic!("{self:?} is no list") };
        items
    }

    /// A text without its quotation marks.
    pub fn text(&self) -> &str {
        let Json::Text(text) = self else { panic!("{self:?} is no text") };
        text
    }

    /// A number that this type has.
    pub fn number<T: TryFrom<i64>>(&self) -> T {
        let Json::Number(number) = self else { panic!("{self:?} is no number") };
        T::try_from(*number).unwrap_or_else(|_| panic!("{number} is out of range"))
    }

    /// The numbers of a list.
    pub fn numbers<T: TryFrom<i64>>(&self) -> Vec<T> {
        self.list().iter().map(Json::number).collect()
    }
}

/// The value at the front of a text, and what follows it.
fn value(text: &str) -> (Json, &str) {
    let text = text.trim_start();
    let words = [("null", Json::Null), ("true", Json::Truth(true)), ("false", Json::Truth(false))];
    if let Some((word, value)) = words.into_iter().find(|(word, _)| text.starts_with(word)) {
        return (value, &text[word.len()..]);
    }
    match text.as_bytes().first() {
        Some(b'"') => {
            let (string, rest) = string(text);
            (Json::Text(string), rest)
        }
        Some(b'[') => {
            let (items, rest) = items(&text[1..], ']', value);
            (Json::List(items), rest)
        }
        Some(b'{') => {
            let (entries, rest) = items(&text[1..], '}', entry);
            (Json::Table(entries), rest)
        }
        _ => {
            let length = text.find(|c: char| c != '-' && !c.is_ascii_digit()).unwrap_or(text.len());
            (Json::Number(text[..length].parse().expect("a whole number")), &text[length..])
        }
    }
}

/// A text in quotation marks, and what follows it.
fn string(text: &str) -> (String, &str) {
    let (string, rest) = text.trim_start().strip_prefix('"').and_then(|text| text.split_once('"')).expect("a text");
    assert!(!string.contains('\\'), "an escape in {string}");
    (string.to_string(), rest)
}

/// A name and its value, and what follows them.
fn entry(text: &str) -> ((String, Json), &str) {
    let (name, rest) = string(text);
    let (value, rest) = value(rest.trim_start().strip_prefix(':').expect("a colon"));
    ((name, value), rest)
}

/// Items between commas up to the mark that ends them, and what follows it.
fn items<T>(text: &str, end: char, item: fn(&str) -> (T, &str)) -> (Vec<T>, &str) {
    let (mut list, mut rest) = (vec![], text.trim_start());
    if let Some(rest) = rest.strip_prefix(end) {
        return (list, rest);
    }
    loop {
        let (next, after) = item(rest);
        list.push(next);
        let after = after.trim_start();
        if let Some(after) = after.strip_prefix(end) {
            return (list, after);
        }
        rest = after.strip_prefix(',').expect("a comma");
    }
}
