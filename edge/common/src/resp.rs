//! Replies, of which some differ by the version of the Redis protocol that a client has chosen.
#[derive(Clone, Copy, PartialEq, Eq)]
pub enum Version {
    Two,
    Three,
}

pub struct Reply<'a> {
    pub to: &'a mut Vec<u8>,
    pub version: Version,
}

impl Reply<'_> {
    fn line(&mut self, kind: char, text: &str) {
        // A text of PostgreSQL's may have lines.
        let text = text.replace(['\r', '\n'], " ");
        self.to.extend(format!("{kind}{text}\r\n").into_bytes());
    }

    pub fn simple(&mut self, text: &str) {
        self.line('+', text);
    }

    pub fn ok(&mut self) {
        self.simple("OK");
    }

    /// With a code before it, such as ERR.
    pub fn error(&mut self, text: &str) {
        self.line('-', text);
    }

    pub fn number(&mut self, number: usize) {
        self.line(':', &number.to_string());
    }

    pub fn array(&mut self, count: usize) {
        self.line('*', &count.to_string());
    }

    /// So many pairs follow.
    pub fn map(&mut self, count: usize) {
        match self.version {
            Version::Two => self.array(2 * count),
            Version::Three => self.line('%', &count.to_string()),
        }
    }

    /// What was made for version 3.
    pub fn made(&mut self, text: &str) {
        let mut rest = if self.version == Version::Three { "" } else { text };
        self.to.extend(&text.as_bytes()[rest.len()..]);
        while let Some((line, after)) = rest.split_once("\r\n") {
            let count: usize = line[1..].parse().unwrap_or_default();
            let bytes = if line.starts_with('$') { count + 2 } else { 0 };
            match &line[..1] {
                "%" => self.map(count),
                "*" => self.array(count),
                "$" => self.bulk(&after[..count]),
                _ => self.nil(),
            }
            rest = &after[bytes..];
        }
    }

    pub fn bulk(&mut self, text: &str) {
        self.to.push(b'$');
        self.to.extend(text.len().to_string().into_bytes());
        self.to.extend(b"\r\n");
        self.to.extend(text.as_bytes());
        self.to.extend(b"\r\n");
    }

    pub fn nil(&mut self) {
        self.to.extend(match self.version {
            Version::Two => &b"$-1\r\n"[..],
            Version::Three => b"_\r\n",
        });
    }
}

/// A text as a reply.
pub fn bulk(text: &str) -> String {
    format!("${}\r\n{text}\r\n", text.len())
}

#[cfg(test)]
mod tests {
    use super::*;

    #[test]
    fn what_was_made_for_version_3_is_told_in_version_2() {
        let made = "*2\r\n%1\r\n$1\r\na\r\n$4\r\n\r\né\r\n%1\r\n$1\r\na\r\n_\r\n";
        let told = |version| {
            let mut to = Vec::new();
            Reply { to: &mut to, version }.made(made);
            String::from_utf8(to).unwrap()
        };
        assert_eq!(told(Version::Three), made);
        assert_eq!(told(Version::Two), made.replace("%1", "*2").replace("_\r\n", "$-1\r\n"));
    }
}
