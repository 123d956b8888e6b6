//! A query whose answers changes can keep: counts, sums and maxima of one table's rows by the columns of a key.
use std::{collections::HashSet, iter::Peekable, str::FromStr, vec::IntoIter};

#[derive(Debug)]
pub struct Query {
    /// As SQL names it.
    pub table: String,
    pub key: Vec<String>,
    /// Those of aggregates.
    pub columns: Vec<String>,
    /// With their names.
    pub items: Vec<(String, Item)>,
}

/// What the query selects, by the place of a column among those of the key or of aggregates.
#[derive(Clone, Copy, Debug, PartialEq, Eq)]
pub enum Item {
    Key(usize),
    /// Of rows, or of those where the column isn't NULL.
    Count(Option<usize>),
    Sum(usize),
    Max(usize),
}

const KEPT: &str =
    "a query that can be kept is: SELECT columns of the key, count(*), and count, sum or max of a column, \
    each AS a name, FROM one table GROUP BY the key";

#[derive(Debug, PartialEq, Eq)]
enum Token {
    /// An identifier in quotes, or any other word in lowercase.
    Name(String),
    Word(String),
    Sign(char),
}

struct Tokens(Peekable<IntoIter<Token>>);

/// A column as it is, or what an aggregate is of: one column, or each row.
enum Selected {
    Column(String),
    Aggregate(String, Option<String>),
}

impl FromStr for Query {
    type Err = String;

    fn from_str(text: &str) -> Result<Query, String> {
        let mut tokens = Tokens(tokens(text).into_iter().peekable());
        tokens.keyword("select")?;
        let selected = tokens.list(Tokens::selected)?;
        tokens.keyword("from")?;
        tokens.is_word("only");
        let table = tokens.table()?;
        tokens.keyword("group")?;
        tokens.keyword("by")?;
        let key = tokens.list(Tokens::identifier)?;
        tokens.is_sign(';');
        match tokens.0.next() {
            None => Query { table, key, columns: Vec::new(), items: Vec::new() }.with(selected),
            Some(token) => Err(not_kept(Some(&token))),
        }
    }
}

impl Query {
    fn with(mut self, selected: Vec<(Selected, Option<String>)>) -> Result<Query, String> {
        for (what, name) in selected {
            let (item, own_name) = match what {
                Selected::Column(column) => {
                    let place = self.key.iter().position(|it| *it == column);
                    (place.map(Item::Key).ok_or_else(|| format!("{column} is no column of GROUP BY: {KEPT}"))?, column)
                }
                Selected::Aggregate(name, column) => {
                    let item = match (&*name, column.map(|column| self.place_of(column))) {
                        ("count", column) => Item::Count(column),
                        ("sum", Some(column)) => Item::Sum(column),
                        ("max", Some(column)) => Item::Max(column),
                        _ => return Err(format!("{name} isn't kept: {KEPT}")),
                    };
                    (item, name)
                }
            };
            self.items.push((name.unwrap_or(own_name), item));
        }
        let names: HashSet<_> = self.items.iter().map(|(name, _)| name).collect();
        let is_right = names.len() == self.items.len();
        is_right.then_some(self).ok_or("the query has two columns of one name: AS gives them others".into())
    }

    fn place_of(&mut self, column: String) -> usize {
        self.columns.iter().position(|it| *it == column).unwrap_or_else(|| {
            self.columns.push(column);
            self.columns.len() - 1
        })
    }
}

impl Tokens {
    fn is_word(&mut self, word: &str) -> bool {
        self.0.next_if(|token| matches!(token, Token::Word(it) if it == word)).is_some()
    }

    fn is_sign(&mut self, sign: char) -> bool {
        self.0.next_if_eq(&Token::Sign(sign)).is_some()
    }

    fn keyword(&mut self, word: &str) -> Result<(), String> {
        self.is_word(word).then_some(()).ok_or_else(|| not_kept(self.0.peek()))
    }

    fn identifier(&mut self) -> Result<String, String> {
        match self.0.next() {
            Some(Token::Name(name) | Token::Word(name)) => Ok(name),
            other => Err(not_kept(other.as_ref())),
        }
    }

    fn list<T>(&mut self, next: impl Fn(&mut Tokens) -> Result<T, String>) -> Result<Vec<T>, String> {
        let mut all = vec![next(self)?];
        while self.is_sign(',') {
            all.push(next(self)?);
        }
        Ok(all)
    }

    /// With its name, where it is given one.
    fn selected(&mut self) -> Result<(Selected, Option<String>), String> {
        let name = self.identifier()?;
        let selected = if self.is_sign('(') {
            let column = if self.is_sign('*') { None } else { Some(self.identifier()?) };
            let is_done = self.is_sign(')');
            is_done.then_some(Selected::Aggregate(name, column)).ok_or_else(|| not_kept(self.0.peek()))?
        } else {
            Selected::Column(name)
        };
        let name = if self.is_word("as") { Some(self.identifier()?) } else { None };
        Ok((selected, name))
    }

    fn table(&mut self) -> Result<String, String> {
        let quoted = |name: String| format!("\"{}\"", name.replace('"', "\"\""));
        let mut table = quoted(self.identifier()?);
        while self.is_sign('.') {
            table = format!("{table}.{}", quoted(self.identifier()?));
        }
        Ok(table)
    }
}

fn not_kept(token: Option<&Token>) -> String {
    let token = match token {
        None => "its end".into(),
        Some(Token::Name(name)) => format!("\"{name}\""),
        Some(Token::Word(word)) => word.to_uppercase(),
        Some(Token::Sign(sign)) => sign.to_string(),
    };
    format!("the query isn't understood at {token}: {KEPT}")
}

fn tokens(text: &str) -> Vec<Token> {
    let is_of_word = |sign: &char| sign.is_alphanumeric() || *sign == '_';
    let (mut tokens, mut signs) = (Vec::new(), text.chars().peekable());
    while let Some(sign) = signs.next() {
        if sign == '"' {
            let mut name = String::new();
            while let Some(sign) = signs.next() {
                if sign == '"' && signs.next_if_eq(&'"').is_none() {
                    break;
                }
                name.push(sign);
            }
            tokens.push(Token::Name(name));
        } else if is_of_word(&sign) {
            let mut word = String::from(sign);
            while let Some(sign) = signs.next_if(is_of_word) {
                word.push(sign);
            }
            tokens.push(Token::Word(word.to_ascii_lowercase()));
        } else if !sign.is_whitespace() {
            tokens.push(Token::Sign(sign));
        }
    }
    tokens
}

#[cfg(test)]
mod tests {
    use super::*;

    #[test]
    fn a_query_is_read() {
        let query = "SELECT Article, count(*) AS votes, SUM(weight), max(\"At \"\"\") AS last, count(weight) AS weighed
            FROM shop.\"Votes\" GROUP BY article, day;";
        let query: Query = query.parse().unwrap();
        assert_eq!((&*query.table, query.key), (r#""shop"."Votes""#, vec!["article".into(), "day".into()]));
        assert_eq!(query.columns, ["weight", "At \""]);
        let items = [
            ("article", Item::Key(0)),
            ("votes", Item::Count(None)),
            ("sum", Item::Sum(0)),
            ("last", Item::Max(1)),
            ("weighed", Item::Count(Some(0))),
        ];
        assert_eq!(query.items, items.map(|(name, item)| (name.to_owned(), item)));
    }

    #[test]
    fn what_can_not_be_kept_is_refused() {
        for (query, why) in [
            ("SELECT a, count(*) FROM t JOIN u USING (a) GROUP BY a", "at JOIN"),
            ("SELECT a, count(*) FROM t, u GROUP BY a", "at ,"),
            ("SELECT a, count(*) FROM t AS x GROUP BY a", "at AS"),
            ("SELECT a, count(*) FROM t WHERE b > 1 GROUP BY a", "at WHERE"),
            ("SELECT a, count(*) FROM t GROUP BY a HAVING count(*) > 1", "at HAVING"),
            ("SELECT a, count(*) FROM t GROUP BY a ORDER BY a", "at ORDER"),
            ("SELECT a, count(*) FROM t GROUP BY 1 + a", "at +"),
            ("SELECT a, count(DISTINCT b) FROM t GROUP BY a", "at B"),
            ("SELECT a, sum(b + 1) FROM t GROUP BY a", "at +"),
            ("SELECT a, sum(b) + 1 FROM t GROUP BY a", "at +"),
            ("SELECT a, sum(b) FILTER (WHERE c) FROM t GROUP BY a", "at FILTER"),
            ("SELECT a, max(b) OVER () FROM t GROUP BY a", "at OVER"),
            ("SELECT a, count(*) FROM (SELECT 1) GROUP BY a", "at ("),
            ("SELECT a, count(*) FROM t GROUP BY a UNION SELECT 1", "at UNION"),
            ("SELECT a, count(*) FROM t", "at its end"),
            ("SELECT * FROM t GROUP BY a", "at *"),
            ("SELECT DISTINCT a FROM t GROUP BY a", "at A"),
            ("SELECT a, avg(b) FROM t GROUP BY a", "avg isn't kept"),
            ("SELECT a, min(b) FROM t GROUP BY a", "min isn't kept"),
            ("SELECT a, sum(*) FROM t GROUP BY a", "sum isn't kept"),
            ("SELECT b, count(*) FROM t GROUP BY a", "b is no column of GROUP BY"),
            ("SELECT a, count(*), count(b) FROM t GROUP BY a", "two columns of one name"),
            ("SELECT a, 'x' FROM t GROUP BY a", "at '"),
            ("WITH x AS (SELECT 1) SELECT a FROM t GROUP BY a", "at WITH"),
            ("SELECT a, count(*) FROM t GROUP BY a -- b", "at -"),
        ] {
            let told = query.parse::<Query>().unwrap_err();
            assert!(told.contains(why) && !told.contains('\n'), "{query}: {told}");
        }
    }
}
