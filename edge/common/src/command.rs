//! The commands of the Redis protocol: arrays of words (RESP2), or lines of them.
use std::str;

/// The most bytes of a word, and of a line of words.
const LONGEST: usize = 4096;
/// The end of a line that is longer isn't awaited.
const LONGEST_LINE: usize = 65_536;

/// The most that is read of a command. Of a larger one the end isn't awaited.
#[derive(Clone, Copy)]
pub struct Bounds {
    /// The words of an array.
    pub words: usize,
    /// The bytes of an array, and of each of its words.
    pub bytes: usize,
}

/// The words of a command, or why it isn't one.
pub type Command<'a> = Result<Vec<&'a str>, &'static str>;

/// Why nobody can tell where a command ends, or none where its rest has yet to come.
type Stop = Option<&'static str>;

/// The first command of what has come, and how many bytes it takes; none where its rest has yet to come. Refused where
/// nobody can tell where it ends.
pub fn command<'a>(came: &'a [u8], bounds: &Bounds) -> Result<Option<(Command<'a>, usize)>, &'static str> {
    let mut rest = came;
    match words(&mut rest, bounds) {
        Ok(words) => Ok(Some((checked(words), came.len() - rest.len()))),
        Err(None) if came.len() < bounds.bytes => Ok(None),
        Err(why) => Err(why.unwrap_or("a command has too many bytes")),
    }
}

fn words<'a>(rest: &mut &'a [u8], bounds: &Bounds) -> Result<Vec<&'a [u8]>, Stop> {
    let line = line(rest)?;
    match line.strip_prefix(b"*") {
        Some(count) => (0..number(count, bounds.words)?).map(|_| word(rest, bounds.bytes)).collect(),
        None if line.len() > LONGEST => Ok(vec![line]),
        None => {
            let words: Vec<_> = line.split(u8::is_ascii_whitespace).filter(|word| !word.is_empty()).collect();
            (!is_http(&words)).then_some(words).ok_or(Some("a line of HTTP"))
        }
    }
}

/// Whether a line is a browser's, which a web page has send what it likes: the body of such a request may have commands.
fn is_http(words: &[&[u8]]) -> bool {
    let is = |place: usize, name: &str| words.get(place).is_some_and(|word| word.eq_ignore_ascii_case(name.as_bytes()));
    is(0, "POST") || is(0, "Host:") || is(0, "GET") && words.get(1).is_some_and(|path| path.starts_with(b"/"))
}

fn checked(words: Vec<&[u8]>) -> Command<'_> {
    if words.iter().any(|word| word.len() > LONGEST) {
        return Err("a line or a word is longer than 4096 bytes");
    }
    words.into_iter().map(str::from_utf8).collect::<Result<_, _>>().map_err(|_| "a word is not UTF-8")
}

/// A line without its end.
fn line<'a>(rest: &mut &'a [u8]) -> Result<&'a [u8], Stop> {
    let end = rest.iter().take(LONGEST_LINE).position(|byte| *byte == b'\n');
    let is_too_long = rest.len() >= LONGEST_LINE;
    let end = end.ok_or(is_too_long.then_some("a line is longer than 65536 bytes"))?;
    let line = rest[..end].trim_ascii_end();
    *rest = &rest[end + 1..];
    Ok(line)
}

/// A word after its length.
fn word<'a>(rest: &mut &'a [u8], most: usize) -> Result<&'a [u8], Stop> {
    let size = line(rest)?.strip_prefix(b"$").ok_or(Some("a word has its length before it"))?;
    let size = number(size, most)?;
    if rest.len() < size + 2 {
        return Err(None);
    }
    let (word, after) = rest.split_at(size);
    *rest = after.strip_prefix(b"\r\n").ok_or(Some("a word is not as long as told"))?;
    Ok(word)
}

fn number(digits: &[u8], most: usize) -> Result<usize, Stop> {
    let number = str::from_utf8(digits).ok().and_then(|digits| digits.parse().ok());
    number.filter(|number| *number <= most).ok_or(Some("a length is out of its limits"))
}

#[cfg(test)]
mod tests {
    use super::*;

    const BOUNDS: Bounds = Bounds { words: 3, bytes: 10_000 };

    fn refusal(came: &[u8]) -> &'static str {
        command(came, &BOUNDS).expect_err("its end can't be told")
    }

    #[test]
    fn a_command_is_a_line_or_an_array() {
        let words = |came: &'static [u8]| {
            let (words, size) = command(came, &BOUNDS).unwrap().unwrap();
            (words.unwrap(), came.len() - size)
        };
        assert_eq!(words(b" GET  a\tb \r\nPING\r\n"), (vec!["GET", "a", "b"], 6));
        assert_eq!(words(b"PING\n"), (vec!["PING"], 0));
        assert_eq!(words(b"\r\n"), (vec![], 0));
        assert_eq!(words(b"*0\r\n*"), (vec![], 1));
        let array = "*3\r\n$3\r\nGET\r\n$0\r\n\r\n$6\r\né\r\n\r\n\r\n";
        assert_eq!(words(array.as_bytes()), (vec!["GET", "", "é\r\n\r\n"], 0));
    }

    #[test]
    fn the_rest_of_a_command_is_awaited() {
        for whole in [&b"GET a\r\n"[..], b"*2\r\n$3\r\nGET\r\n$1\r\na\r\n"] {
            for end in 0..whole.len() {
                assert!(command(&whole[..end], &BOUNDS).unwrap().is_none(), "{end} of {whole:?}");
            }
            assert!(command(whole, &BOUNDS).unwrap().is_some());
        }
    }

    #[test]
    fn what_is_too_long_is_passed_over() {
        let [long, many] = ["x".repeat(LONGEST + 1), format!("x{}", " x".repeat(LONGEST / 2))];
        for long_one in [&long, &many, &format!("*2\r\n$1\r\na\r\n$4097\r\n{long}")] {
            let came = format!("{long_one}\r\nPING\r\n");
            let (words, size) = command(came.as_bytes(), &BOUNDS).unwrap().unwrap();
            assert_eq!(words, Err("a line or a word is longer than 4096 bytes"));
            assert_eq!(&came[size..], "PING\r\n");
        }
        let (words, _) = command(b"GET \xff\r\n", &BOUNDS).unwrap().unwrap();
        assert_eq!(words, Err("a word is not UTF-8"));
    }

    #[test]
    fn an_end_that_is_too_far_is_not_awaited() {
        for came in ["*4\r\n", "*-1\r\n", "*x\r\n", "*1\r\n$10001\r\n", "*1\r\n$99999999999999999999\r\n"] {
            assert_eq!(refusal(came.as_bytes()), "a length is out of its limits", "{came}");
        }
        assert_eq!(refusal(b"*1\r\nPING\r\n"), "a word has its length before it");
        assert_eq!(refusal(b"*1\r\n$3\r\nPING\r\n"), "a word is not as long as told");
        let many = [&b"*3\r\n$9000\r\n"[..], &[b'x'; 9000], b"\r\n$9000\r\n", &[b'x'; 2000]].concat();
        assert_eq!(refusal(&many), "a command has too many bytes");
        let bounds = Bounds { bytes: 1 << 20, ..BOUNDS };
        assert!(command(&[b'x'; LONGEST_LINE - 1], &bounds).unwrap().is_none());
        assert_eq!(command(&[b'x'; LONGEST_LINE], &bounds), Err("a line is longer than 65536 bytes"));
    }

    #[test]
    fn a_browser_s_line_ends_a_connection() {
        for head in ["POST / HTTP/1.1", "post /", "GET / HTTP/1.1", "Host: localhost", "get /a"] {
            assert_eq!(refusal(format!("{head}\r\n").as_bytes()), "a line of HTTP");
        }
        assert!(command(b"GET a/b\r\n", &BOUNDS).is_ok());
    }
}
