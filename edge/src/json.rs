//! Rows and values as JSON, and otherwise, made of the texts that PostgreSQL writes.
use crate::configuration::Encoding;
use crate::resp::bulk;
use std::fmt::Write;

/// What a column's texts are in JSON. NULL is null in each.
#[derive(Clone, Copy, Debug, PartialEq, Eq)]
pub enum Kind {
    Number,
    Boolean,
    Json,
    Text,
}

impl Kind {
    /// By PostgreSQL's name of a type.
    pub fn of(name: &str) -> Kind {
        match name {
            "smallint" | "integer" | "bigint" | "numeric" | "real" | "double precision" | "oid" => Kind::Number,
            "boolean" => Kind::Boolean,
            "json" | "jsonb" => Kind::Json,
            _ => Kind::Text,
        }
    }
}

/// How the columns of a view stand in a row.
#[derive(Clone, Debug)]
pub struct Shape {
    encoding: Encoding,
    columns: Vec<(String, Kind)>,
}

impl Shape {
    pub fn new(encoding: Encoding, columns: Vec<(String, Kind)>) -> Shape {
        Shape { encoding, columns }
    }

    /// A row of its cells, of which NULL has no text. Rows are equal where their cells are, but for a text, which is empty
    /// also of NULL.
    pub fn row<'a>(&self, cells: impl Iterator<Item = Option<&'a str>>) -> Box<str> {
        match self.encoding {
            Encoding::Objects | Encoding::Arrays => self.json(cells).into(),
            Encoding::Map => {
                let names = self.columns.iter().map(|(name, _)| bulk(name));
                let cells = cells.map(|cell| cell.map_or("_\r\n".into(), bulk));
                let pairs: String = names.zip(cells).flat_map(|(name, cell)| [name, cell]).collect();
                format!("%{}\r\n{pairs}", self.columns.len()).into()
            }
            Encoding::Text => cells.flatten().collect::<String>().into(),
        }
    }

    fn json<'a>(&self, cells: impl Iterator<Item = Option<&'a str>>) -> String {
        let is_of_objects = self.encoding == Encoding::Objects;
        let mut row = String::from(if is_of_objects { "{" } else { "[" });
        for ((name, kind), cell) in self.columns.iter().zip(cells) {
            if row.len() > 1 {
                row.push(',');
            }
            if is_of_objects {
                push_text(&mut row, name);
                row.push(':');
            }
            push_cell(&mut row, *kind, cell);
        }
        row.push(if is_of_objects { '}' } else { ']' });
        row
    }
}

fn push_cell(row: &mut String, kind: Kind, cell: Option<&str>) {
    match (kind, cell) {
        (_, None) => row.push_str("null"),
        (Kind::Boolean, Some(text)) => row.push_str(if text == "t" { "true" } else { "false" }),
        (Kind::Json, Some(text)) => row.push_str(text),
        // Such as NaN is no number of JSON's.
        (Kind::Number, Some(text)) if text.ends_with(|sign: char| sign.is_ascii_digit()) => row.push_str(text),
        (_, Some(text)) => push_text(row, text),
    }
}

pub fn push_text(to: &mut String, text: &str) {
    to.push('"');
    for sign in text.chars() {
        match sign {
            '"' | '\\' => to.extend(['\\', sign]),
            '\n' => to.push_str("\\n"),
            '\r' => to.push_str("\\r"),
            '\t' => to.push_str("\\t"),
            sign if sign.is_control() => _ = write!(to, "\\u{:04x}", sign as u32),
            sign => to.push(sign),
        }
    }
    to.push('"');
}

/// All rows of a key, as clients are told them.
pub fn rows(encoding: Encoding, rows: &[&str]) -> Box<str> {
    match encoding {
        Encoding::Objects | Encoding::Arrays => format!("[{}]", rows.join(",")).into(),
        Encoding::Map => format!("*{}\r\n{}", rows.len(), rows.concat()).into(),
        Encoding::Text => rows.join("\n").into(),
    }
}

#[cfg(test)]
mod tests {
    use super::*;

    #[test]
    fn a_row_is_json() {
        let kinds = [Kind::Number, Kind::Number, Kind::Boolean, Kind::Json, Kind::Text, Kind::Text];
        let columns: Vec<_> = "abcdef".chars().map(String::from).zip(kinds).collect();
        let cells =
            || [Some("1.50"), Some("NaN"), Some("t"), Some("{\"x\": 1}"), Some("a\"\\\n\u{1}é"), None].into_iter();
        let row = Shape::new(Encoding::Objects, columns.clone()).row(cells());
        assert_eq!(*row, *r#"{"a":1.50,"b":"NaN","c":true,"d":{"x": 1},"e":"a\"\\\n\u0001é","f":null}"#);
        let row = Shape::new(Encoding::Arrays, columns).row(cells());
        assert_eq!(*row, *r#"[1.50,"NaN",true,{"x": 1},"a\"\\\n\u0001é",null]"#);
        assert_eq!(*rows(Encoding::Arrays, &["1", "2"]), *"[1,2]");
    }

    #[test]
    fn a_row_is_a_map_or_a_text() {
        let columns = vec![("a".into(), Kind::Number), ("bé".into(), Kind::Text)];
        let row = Shape::new(Encoding::Map, columns).row([Some("1"), None].into_iter());
        assert_eq!(*row, *"%2\r\n$1\r\na\r\n$1\r\n1\r\n$3\r\nbé\r\n_\r\n");
        assert_eq!(*rows(Encoding::Map, &["%0\r\n"]), *"*1\r\n%0\r\n");
        let shape = Shape::new(Encoding::Text, vec![("a".into(), Kind::Text)]);
        assert_eq!([shape.row([Some("x y")].into_iter()), shape.row([None].into_iter())], ["x y".into(), "".into()]);
        assert_eq!(*rows(Encoding::Text, &["1", "2"]), *"1\n2");
    }
}
