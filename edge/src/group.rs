//! What a query makes of a key's rows: counts and sums, from which a row is subtracted, and maxima, which are asked for
//! anew where the greatest row goes.
use crate::changes::Delta;
use crate::content::Lack;
use crate::json::Shape;
use crate::query::Item;
use std::sync::Arc;

/// What a row has for each aggregate of its group; none where that is NULL.
pub type Cells = Box<[Option<Measure>]>;

/// The value of a column, or an aggregate.
#[derive(Clone, Debug, PartialEq, Eq, PartialOrd, Ord)]
pub enum Measure {
    /// Without its point.
    Number(i128),
    /// Texts of the same order as their times.
    Time(Box<str>),
    /// What has no order or sum here, as a year of five digits, or NaN.
    Other(Box<str>),
}

/// What the texts of a column are.
#[derive(Clone, Copy, Debug, PartialEq, Eq)]
pub enum Scale {
    Decimals(usize),
    Times,
    Others,
}

/// The items of a query, as its groups need them.
#[derive(Debug)]
pub struct Form {
    /// With what a key's or an aggregate's column is.
    pub items: Vec<(Item, Scale)>,
    pub shape: Shape,
}

#[derive(Clone, Debug)]
pub struct Group {
    form: Arc<Form>,
    key: Box<[String]>,
    rows: i64,
    tallies: Vec<Tally>,
}

/// An aggregate of a group.
#[derive(Clone, Debug, PartialEq, Eq)]
struct Tally {
    /// Of what isn't NULL.
    count: i64,
    /// None where there is none, or the count is all.
    value: Option<Measure>,
}

impl Scale {
    /// By PostgreSQL's name of a type.
    pub fn of(name: &str) -> Scale {
        let decimals = |name: &str| name.strip_prefix("numeric(")?.strip_suffix(')')?.split_once(',')?.1.parse().ok();
        match name {
            "smallint" | "integer" | "bigint" => Scale::Decimals(0),
            name if name == "date" || name.starts_with("timestamp") => Scale::Times,
            name => decimals(name).map_or(Scale::Others, |decimals: i32| Scale::Decimals(decimals.max(0) as usize)),
        }
    }

    fn measure(self, text: &str) -> Measure {
        let measure = match self {
            Scale::Decimals(decimals) => {
                let (whole, part) = text.split_once('.').unwrap_or((text, ""));
                let number = format!("{whole}{part}").parse().ok();
                number.filter(|_| part.len() == decimals).map(Measure::Number)
            }
            Scale::Times => {
                let is_year = text.as_bytes().iter().position(|sign| !sign.is_ascii_digit()) == Some(4);
                let is_ordered = is_year && !text.ends_with("BC") || text.ends_with("infinity");
                is_ordered.then(|| Measure::Time(text.into()))
            }
            Scale::Others => None,
        };
        measure.unwrap_or_else(|| Measure::Other(text.into()))
    }

    fn text(self, measure: &Measure) -> String {
        match (measure, self) {
            (Measure::Number(number), Scale::Decimals(decimals @ 1..)) => {
                let digits = format!("{:0width$}", number.unsigned_abs(), width = decimals + 1);
                let (whole, part) = digits.split_at(digits.len() - decimals);
                format!("{}{whole}.{part}", if *number < 0 { "-" } else { "" })
            }
            (Measure::Number(number), _) => number.to_string(),
            (Measure::Time(text) | Measure::Other(text), _) => text.to_string(),
        }
    }
}

impl Form {
    fn aggregates(&self) -> impl Iterator<Item = (Item, Scale)> + '_ {
        self.items.iter().copied().filter(|(item, _)| !matches!(item, Item::Key(_)))
    }

    /// Of a row's cells for the columns of aggregates.
    pub fn cells(&self, row: &[Option<&str>]) -> Cells {
        let cell = |(item, scale): (Item, Scale)| match item {
            Item::Count(None) | Item::Key(_) => Some(Measure::Number(1)),
            Item::Count(Some(column)) => row[column].map(|_| Measure::Number(1)),
            Item::Sum(column) | Item::Max(column) => row[column].map(|text| scale.measure(text)),
        };
        self.aggregates().map(cell).collect()
    }
}

impl Group {
    /// Of a count of rows, and for each aggregate a count and a value. No line is a group without rows.
    pub fn of(form: &Arc<Form>, key: &[String], line: Option<&[Option<String>]>) -> Option<Group> {
        let number = |cell: &Option<String>| cell.as_deref().map_or(Some(0), |text| text.parse().ok());
        let none = vec![None; 1 + 2 * form.aggregates().count()];
        let (rows, cells) = line.unwrap_or(&none).split_first()?;
        let tally = |((_, scale), cells): ((Item, Scale), &[Option<String>])| {
            Some(Tally { count: number(&cells[0])?, value: cells[1].as_deref().map(|text| scale.measure(text)) })
        };
        let tallies = form.aggregates().zip(cells.chunks_exact(2)).map(tally).collect::<Option<_>>()?;
        Some(Group { form: Arc::clone(form), key: key.into(), rows: number(rows)?, tallies })
    }

    pub fn row(&self) -> Option<Box<str>> {
        let mut tallies = self.tallies.iter();
        let cell = |(item, scale): &(Item, Scale)| match item {
            Item::Key(column) => Some(self.key[*column].clone()),
            Item::Count(_) => tallies.next().map(|tally| tally.count.to_string()),
            Item::Sum(_) | Item::Max(_) => tallies.next()?.value.as_ref().map(|value| scale.text(value)),
        };
        let cells: Vec<_> = self.form.items.iter().map(cell).collect();
        (self.rows > 0).then(|| self.form.shape.row(cells.iter().map(Option::as_deref)))
    }

    /// In bytes, about.
    pub fn size(&self) -> usize {
        let of_value = |tally: &Tally| match &tally.value {
            Some(Measure::Time(text) | Measure::Other(text)) => text.len() + 16,
            _ => 0,
        };
        let of_key: usize = self.key.iter().map(|text| text.len() + 40).sum();
        of_key + self.tallies.iter().map(|tally| size_of::<Tally>() + of_value(tally)).sum::<usize>()
    }

    /// With the rows that come and without those that go.
    pub fn changed(&self, deltas: &[Delta]) -> Result<Group, Lack> {
        let of_sign = |wanted: bool| {
            let cells = |delta: &'_ Delta| match delta {
                Delta::Cells { is_plus, cells } if *is_plus == wanted => Some(cells.clone()),
                _ => None,
            };
            deltas.iter().filter_map(cells).collect::<Vec<Cells>>()
        };
        let (come, go) = (of_sign(true), of_sign(false));
        let rows = self.rows + come.len() as i64 - go.len() as i64;
        let column = |cells: &[Cells], place: usize| cells.iter().filter_map(|row| row[place].clone()).collect();
        let aggregates = self.form.aggregates().zip(&self.tallies).enumerate();
        let changed =
            aggregates.map(|(place, ((item, _), tally))| tally.changed(item, column(&come, place), column(&go, place)));
        let tallies = changed.collect::<Result<Vec<_>, _>>()?;
        let is_right = rows > 0 || rows == 0 && tallies.iter().all(|tally| tally.count == 0);
        is_right.then_some(Group { rows, tallies, ..self.clone() }).ok_or(Lack::Disagreement)
    }
}

impl Tally {
    fn changed(&self, item: Item, come: Vec<Measure>, go: Vec<Measure>) -> Result<Tally, Lack> {
        let count = self.count + come.len() as i64 - go.len() as i64;
        let value = match item {
            _ if count < 0 => return Err(Lack::Disagreement),
            _ if come.is_empty() && go.is_empty() => self.value.clone(),
            Item::Sum(_) => sum(&self.value, &come, &go)?.filter(|_| count > 0),
            Item::Max(_) => greatest(&self.value, come, go, count > 0)?,
            Item::Count(_) | Item::Key(_) => None,
        };
        Ok(Tally { count, value })
    }
}

fn sum(value: &Option<Measure>, come: &[Measure], go: &[Measure]) -> Result<Option<Measure>, Lack> {
    let number = |measure: &Measure| if let Measure::Number(number) = measure { Some(*number) } else { None };
    let before = value.iter().chain(come).try_fold(0i128, |sum, measure| sum.checked_add(number(measure)?));
    let after = before.and_then(|sum| go.iter().try_fold(sum, |sum, measure| sum.checked_sub(number(measure)?)));
    after.map(|sum| Some(Measure::Number(sum))).ok_or(Lack::Untold)
}

fn greatest(
    value: &Option<Measure>,
    mut come: Vec<Measure>,
    mut go: Vec<Measure>,
    is_any: bool,
) -> Result<Option<Measure>, Lack> {
    let is_other = |measure: &Measure| matches!(measure, Measure::Other(_));
    if value.iter().chain(&come).chain(&go).any(is_other) {
        return Err(Lack::Untold);
    }
    // What comes and goes at once is none of either.
    go.retain(|lost| come.iter().position(|got| got == lost).map(|place| come.swap_remove(place)).is_none());
    let (come, go) = (come.into_iter().max(), go.into_iter().max());
    match (is_any, go) {
        (false, _) => Ok(None),
        (true, Some(go)) if Some(&go) > value.as_ref() => Err(Lack::Disagreement),
        (true, Some(go)) if Some(&go) == value.as_ref() && come < *value => Err(Lack::Untold),
        _ => Ok(value.clone().max(come)),
    }
}

#[cfg(test)]
mod tests {
    use super::*;
    use crate::configuration::Encoding;
    use crate::json::Kind;

    /// Of an integer, two decimals and a day.
    fn form() -> Arc<Form> {
        let items = [
            (Item::Key(0), Scale::Others),
            (Item::Count(None), Scale::Others),
            (Item::Count(Some(0)), Scale::Others),
            (Item::Sum(1), Scale::Decimals(2)),
            (Item::Max(0), Scale::Decimals(0)),
            (Item::Max(2), Scale::Times),
        ];
        let kinds = [Kind::Text, Kind::Number, Kind::Number, Kind::Number, Kind::Number, Kind::Text];
        let columns = "kncsmd".chars().map(String::from).zip(kinds).collect();
        Arc::new(Form { items: items.into(), shape: Shape::new(Encoding::Arrays, columns) })
    }

    fn row(form: &Form, is_plus: bool, row: [&str; 3]) -> Delta {
        Delta::Cells { is_plus, cells: form.cells(&row.map(|text| (!text.is_empty()).then_some(text))) }
    }

    /// After rows that come, marked by +, and go.
    fn after(group: &Group, rows: &[(char, [&str; 3])]) -> Result<Group, Lack> {
        let deltas: Vec<_> = rows.iter().map(|(sign, it)| row(&group.form, *sign == '+', *it)).collect();
        group.changed(&deltas)
    }

    fn is(group: &Result<Group, Lack>, wanted: &str) {
        assert_eq!(group.as_ref().unwrap().row().as_deref().unwrap_or("none"), wanted);
    }

    fn none() -> Group {
        Group::of(&form(), &["a".into()], None).unwrap()
    }

    #[test]
    fn rows_come_and_go() {
        is(&Ok(none()), "none");
        let one = after(&none(), &[('+', ["3", "-1.50", "2026-01-02"])]);
        is(&one, r#"["a",1,1,-1.50,3,"2026-01-02"]"#);
        let two = after(&one.unwrap(), &[('+', ["", "1.45", ""]), ('+', ["", "", ""])]);
        is(&two, r#"["a",3,1,-0.05,3,"2026-01-02"]"#);
        is(&after(two.as_ref().unwrap(), &[('-', ["", "1.45", ""])]), r#"["a",2,1,-1.50,3,"2026-01-02"]"#);
        let nulls = after(&two.unwrap(), &[('-', ["3", "-1.50", "2026-01-02"]), ('-', ["", "1.45", ""])]);
        is(&nulls, r#"["a",1,0,null,null,null]"#);
        let wrong = after(nulls.as_ref().unwrap(), &[('+', ["", "", ""]), ('-', ["3", "", ""])]);
        assert_eq!(wrong.unwrap_err(), Lack::Disagreement);
        let gone = after(&nulls.unwrap(), &[('-', ["", "", ""])]);
        is(&gone, "none");
        assert_eq!(after(&gone.unwrap(), &[('-', ["", "", ""])]).unwrap_err(), Lack::Disagreement);
    }

    #[test]
    fn a_maximum_that_goes_is_asked_for() {
        let rows = [('+', ["3", "", "2026-01-02"]), ('+', ["5", "", "2026-01-01"])];
        let two = after(&none(), &rows).unwrap();
        is(
            &after(&two, &[('-', ["5", "", "2026-01-01"]), ('+', ["5", "1.00", ""])]),
            r#"["a",2,2,1.00,5,"2026-01-02"]"#,
        );
        is(&after(&two, &[('-', ["5", "", "2026-01-01"]), ('+', ["12", "", ""])]), r#"["a",2,2,null,12,"2026-01-02"]"#);
        assert_eq!(after(&two, &[('-', ["5", "", "2026-01-01"])]).unwrap_err(), Lack::Untold);
        assert_eq!(after(&two, &[('-', ["6", "", ""])]).unwrap_err(), Lack::Disagreement);
    }

    #[test]
    fn what_has_no_order_or_sum_is_asked_for() {
        let one = after(&none(), &[('+', ["1", "1.00", "2026-01-02"])]).unwrap();
        for other in [["", "NaN", ""], ["", "", "12026-01-02"], ["", "", "0044-03-15 BC"]] {
            assert_eq!(after(&one, &[('+', other)]).unwrap_err(), Lack::Untold, "{other:?}");
        }
        is(&after(&one, &[('+', ["", "", "infinity"])]), r#"["a",2,1,1.00,1,"infinity"]"#);
        is(&after(&one, &[('+', ["", "", "-infinity"])]), r#"["a",2,1,1.00,1,"2026-01-02"]"#);
    }

    #[test]
    fn a_group_is_what_postgresql_told() {
        let line = ["3", "3", "", "0", "", "2", "12.30", "2", "40", "1", "2026-01-02 10:00:00.5+00"];
        let line: Vec<_> = line.map(|cell| (!cell.is_empty()).then(|| cell.into())).into();
        let group = Group::of(&form(), &["a".into()], Some(&line[..]));
        is(&group.ok_or(Lack::Untold), r#"["a",3,0,12.30,40,"2026-01-02 10:00:00.5+00"]"#);
    }
}
