//! A key as clients write it: the view's name, `:`, and the texts of the key's columns.
use std::sync::Arc;

pub type Key = Arc<str>;

const NOT_WRITTEN_SO: &str = "of a key of several columns each has a part, with : between, and \\: and \\\\ within";

/// Of one column the text stands as it is. Of several `:` is between, so that one within is written `\:`, and `\` as
/// `\\`: no two lists of texts are written alike, and none in two ways.
pub fn written(view: &str, parts: &[&str]) -> Key {
    let [part] = parts else {
        let escaped = |part: &&str| part.replace('\\', "\\\\").replace(':', "\\:");
        return format!("{view}:{}", parts.iter().map(escaped).collect::<Vec<_>>().join(":")).into();
    };
    format!("{view}:{part}").into()
}

/// The view's name, and the rest.
pub fn view_of(key: &str) -> Option<(&str, &str)> {
    key.split_once(':')
}

/// The texts of so many columns, of what stands after the view's name.
pub fn parts_of(rest: &str, count: usize) -> Result<Vec<String>, String> {
    if rest.contains('\0') {
        return Err("a key has no zero".into());
    }
    if count == 1 {
        return Ok(vec![rest.into()]);
    }
    let (mut parts, mut signs) = (vec![String::new()], rest.chars());
    while let Some(sign) = signs.next() {
        let sign = match sign {
            ':' => {
                parts.push(String::new());
                continue;
            }
            '\\' => signs.next().filter(|sign| [':', '\\'].contains(sign)).ok_or(NOT_WRITTEN_SO)?,
            sign => sign,
        };
        parts.iter_mut().last().into_iter().for_each(|part| part.push(sign));
    }
    (parts.len() == count).then_some(parts).ok_or(NOT_WRITTEN_SO.into())
}

#[cfg(test)]
mod tests {
    use super::*;

    #[test]
    fn what_is_written_is_read() {
        for parts in [&["a"][..], &["a:b\\"], &["", ""], &["a:", "\\:b", "\\\\"], &["\\", ":"], &["\\:", ""]] {
            let key = written("view", parts);
            let (view, rest) = view_of(&key).unwrap();
            assert_eq!(
                (view, parts_of(rest, parts.len()).unwrap()),
                ("view", parts.iter().map(|it| it.to_string()).collect())
            );
        }
        assert_eq!(&*written("view", &["a:b", "\\"]), "view:a\\:b:\\\\");
    }

    #[test]
    fn what_none_writes_is_refused() {
        for rest in ["a", "a:b:c", "a\\b:c", "a:b\\", "a:b\0"] {
            assert!(parts_of(rest, 2).is_err(), "{rest}");
        }
    }
}
