//! Keys in plain text (02, request 1): one key a line, read by recursive descent, a function for each thing that the request names, and
//! written from the same sentences.
use super::paths::{Path, ANY_PATH, TEXT};
use super::records::{Key, Label, Profile};
use super::wrong;

/// The numbers in `WRONG_LINES`.
const NAMES_FIRST: usize = 26;
const ANY_CLASS: usize = 27;
const AS_TYPED: usize = 28;

/// 01: "name, the rest, 1 to 32 bytes".
const NAME_BYTES: usize = 32;
const ELEMENT_CLASS: u8 = 1;
const ATTRIBUTE_CLASS: u8 = 2;

/// What stands between two dots.
#[derive(Clone, PartialEq, Eq, Debug)]
pub enum Typed {
    AnyPath,
    Text,
    Element(Vec<u8>),
    Attribute(Vec<u8>),
}

pub type TypedPath = Vec<Typed>;

/// A key as it stands in a line: its names may be unknown, its paths stand in the order in which they were typed.
#[derive(Clone, PartialEq, Eq, Debug)]
pub struct TypedKey {
    pub context: TypedPath,
    pub target: TypedPath,
    pub paths: Vec<TypedPath>,
}

/// The line, how much of it is read, and all that was read between two dots.
struct Reader<'a> {
    rest: &'a [u8],
    typed: Vec<Typed>,
}

impl<'a> Reader<'a> {
    /// These bytes come next.
    fn word(&mut self, word: &str) -> Option<()> {
        self.rest = self.rest.strip_prefix(word.as_bytes())?;
        Some(())
    }

    fn is_at(&self, byte: u8) -> bool {
        self.rest.first() == Some(&byte)
    }

    /// `(port, (frame, {@seq, stamp}))`, and nothing behind it.
    fn line(&mut self) -> Option<TypedKey> {
        self.word("(")?;
        let context = self.path()?;
        self.word(", (")?;
        let target = self.path()?;
        self.word(", {")?;
        let paths = self.paths()?;
        self.word("}))")?;
        Some(TypedKey { context, target, paths }).filter(|_| self.rest.is_empty())
    }

    /// "`{}` is in the grammar"; "exactly one space after each comma".
    fn paths(&mut self) -> Option<Vec<TypedPath>> {
        let mut paths = Vec::new();
        if self.is_at(b'}') {
            return Some(paths);
        }
        paths.push(self.path()?);
        while self.is_at(b',') {
            self.word(", ")?;
            paths.push(self.path()?);
        }
        Some(paths)
    }

    /// "labels joined by dots", "a lone `.` for the empty path".
    fn path(&mut self) -> Option<TypedPath> {
        if self.is_at(b'.') {
            self.word(".")?;
            return Some(Vec::new());
        }
        let mut path = vec![self.symbol()?];
        while self.is_at(b'.') {
            self.word(".")?;
            path.push(self.symbol()?);
        }
        Some(path)
    }

    /// "`_*` for the any-path, `#` for text, `@` before attribute names".
    fn symbol(&mut self) -> Option<Typed> {
        let typed = match self.rest.first()? {
            b'_' => self.word("_*").map(|_| Typed::AnyPath)?,
            b'#' => self.word("#").map(|_| Typed::Text)?,
            b'@' => {
                self.word("@")?;
                Typed::Attribute(self.name()?)
            }
            _ => Typed::Element(self.name()?),
        };
        self.typed.push(typed.clone());
        Some(typed)
    }

    /// "Names are formed as in label records": "1 to 32 bytes: ASCII letter first, then letters, digits, `-`, `_`".
    fn name(&mut self) -> Option<Vec<u8>> {
        let goes_on = |&byte: &u8| byte.is_ascii_alphanumeric() || byte == b'-' || byte == b'_';
        let end = self.rest.iter().position(|byte| !goes_on(byte)).unwrap_or(self.rest.len());
        let (name, rest) = self.rest.split_at(end);
        self.rest = rest;
        Some(name.to_vec()).filter(|name| (1..=NAME_BYTES).contains(&name.len()) && name[0].is_ascii_alphabetic())
    }
}

/// The one reading of a line; none where it is not a line of the grammar.
pub fn read_typed(line: &[u8]) -> Option<TypedKey> {
    Reader { rest: line, typed: Vec::new() }.line()
}

fn number_of(labels: &[Label], class: u8, name: &[u8]) -> Option<u8> {
    let is_it = |label: &&Label| label.name == name && (label.class == class || wrong(ANY_CLASS));
    labels.iter().find(is_it).map(|label| label.number)
}

fn symbol_of(labels: &[Label], typed: &Typed) -> Option<u8> {
    match typed {
        Typed::AnyPath => Some(ANY_PATH),
        Typed::Text => Some(TEXT),
        Typed::Element(name) => number_of(labels, ELEMENT_CLASS, name),
        Typed::Attribute(name) => number_of(labels, ATTRIBUTE_CLASS, name),
    }
}

fn path_of(labels: &[Label], typed: &[Typed]) -> Option<Path> {
    typed.iter().map(|each| symbol_of(labels, each)).collect()
}

/// "Key paths may be typed in whichever order and are put into record order." None where a name is "not in the profile or there with the
/// other class".
fn key_of(labels: &[Label], typed: &TypedKey) -> Option<Key> {
    let context = path_of(labels, &typed.context)?;
    let target = path_of(labels, &typed.target)?;
    let mut paths = typed.paths.iter().map(|path| path_of(labels, path)).collect::<Option<Vec<Path>>>()?;
    if !wrong(AS_TYPED) {
        paths.sort_by_key(|path| (path.len(), path.clone()));
    }
    Some(Key { context, target, paths })
}

/// "17 not a line of the grammar, 18 name not in the profile or there with the other class; .. 17 first."
pub fn read_text(line: &[u8], profile: &Profile) -> Result<Key, u32> {
    let mut reader = Reader { rest: line, typed: Vec::new() };
    let typed = reader.line();
    if wrong(NAMES_FIRST) && path_of(&profile.labels, &reader.typed).is_none() {
        return Err(18);
    }
    key_of(&profile.labels, &typed.ok_or(17u32)?).ok_or(18)
}

fn print_symbol(typed: &Typed) -> Vec<u8> {
    match typed {
        Typed::AnyPath => b"_*".to_vec(),
        Typed::Text => b"#".to_vec(),
        Typed::Element(name) => name.clone(),
        Typed::Attribute(name) => [b"@", name.as_slice()].concat(),
    }
}

fn print_path(path: &[Typed]) -> Vec<u8> {
    if path.is_empty() {
        return b".".to_vec();
    }
    path.iter().map(print_symbol).collect::<Vec<Vec<u8>>>().join(&b'.')
}

pub fn print_typed(key: &TypedKey) -> Vec<u8> {
    let paths: Vec<Vec<u8>> = key.paths.iter().map(|path| print_path(path)).collect();
    [b"(", &print_path(&key.context)[..], b", (", &print_path(&key.target), b", {", &paths.join(&b", "[..]), b"}))"].concat()
}

/// A good key in its labels' names, its paths in record order.
pub fn typed_of(labels: &[Label], key: &Key) -> TypedKey {
    let symbol = |&symbol: &u8| match (symbol, labels.iter().find(|label| label.number == symbol)) {
        (ANY_PATH, _) => Typed::AnyPath,
        (_, None) => Typed::Text,
        (_, Some(label)) if label.class == ATTRIBUTE_CLASS => Typed::Attribute(label.name.clone()),
        (_, Some(label)) => Typed::Element(label.name.clone()),
    };
    let path = |path: &Path| path.iter().map(symbol).collect();
    TypedKey { context: path(&key.context), target: path(&key.target), paths: key.paths.iter().map(path).collect() }
}
