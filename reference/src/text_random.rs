//! Random texts that follow the grammar, with free choice of all that may be
//! left out or spelled in two ways.

use crate::random::Random;

/// The tokens of a text, each spelled out.
pub type Tokens = Vec<Vec<u8>>;

const NAMES: [&str; 16] = [
    "fee", "price", "open", "title", "a", "b", "x9", "y_z", "from", "gold", "in", "unless", "elsif", "iff",
    "trues", "default_",
];
const KINDS: [&str; 8] = [
    "kiosk", "tablet", "printer", "scanner", "gate", "screen", "plan", "wall",
];
const OPERATORS: [&str; 8] = ["+", "-", "/", ">", "==", "=", "and", "or"];
/// Numbers in 64 bits, at the edges of digits and bits.
const NUMBERS: [&str; 10] = [
    "0",
    "-0",
    "7",
    "-7",
    "10",
    "9223372036854775807",
    "-9223372036854775808",
    "-9223372036854775807",
    "1000000000000000000",
    "-1",
];

/// The tokens of a random manifest of up to so many items.
pub fn manifest(random: &mut Random, items: usize) -> Tokens {
    let mut writer = Writer {
        random,
        tokens: Vec::new(),
    };
    for _ in 0..items {
        writer.item();
    }
    writer.tokens
}

struct Writer<'r> {
    random: &'r mut Random,
    tokens: Tokens,
}

impl Writer<'_> {
    fn push(&mut self, token: impl AsRef<[u8]>) {
        self.tokens.push(token.as_ref().to_vec());
    }

    fn all(&mut self, tokens: &[&str]) {
        for token in tokens {
            self.push(token);
        }
    }

    fn name_bytes(&mut self) -> Vec<u8> {
        match self.random.below(12) {
            0 => some_name(self.random),
            1 => self.random.pick(&KINDS).into(),
            _ => self.random.pick(&NAMES).into(),
        }
    }

    fn name(&mut self) {
        let name = self.name_bytes();
        self.push(name);
    }

    fn variable(&mut self) {
        let name = self.name_bytes();
        self.push([b"$", &name[..]].concat());
    }

    /// A comma behind the last entry, or none.
    fn last_comma(&mut self) {
        if self.random.chance(250) {
            self.push(",");
        }
    }
}

/// Items.
impl Writer<'_> {
    fn item(&mut self) {
        match self.random.weighted(&[10, 3, 2, 3]) {
            0 => self.statement(0),
            1 => self.node(),
            2 => self.type_definition(),
            _ => self.class_definition(),
        }
    }

    fn node(&mut self) {
        self.push("node");
        let count = self.random.between(1, 3);
        match self.random.below(3) {
            0 => self.push("default"),
            1 => self.devices(count),
            _ => {
                self.push("(");
                self.devices(count);
                self.push(")");
            }
        }
        self.block(0);
    }

    fn devices(&mut self, count: usize) {
        for at in 0..count {
            if at > 0 {
                self.push(",");
            }
            match self.random.below(3) {
                0 => self.name(),
                _ => self.quoted(),
            }
        }
    }

    fn type_definition(&mut self) {
        self.push("define");
        self.name();
        self.parameters();
        self.block(0);
    }

    fn class_definition(&mut self) {
        self.push("class");
        self.name();
        self.parameters();
        if self.random.chance(400) {
            self.push("inherits");
            self.name();
        }
        self.block(0);
    }

    fn parameters(&mut self) {
        let count = self.random.weighted(&[4, 3, 2, 1]);
        if count == 0 && self.random.chance(500) {
            return;
        }
        self.push("(");
        for at in 0..count {
            if at > 0 {
                self.push(",");
            }
            self.variable();
            if self.random.chance(500) {
                self.push("=");
                self.constant();
            }
        }
        if count > 0 {
            self.last_comma();
        }
        self.push(")");
    }
}

/// Statements.
impl Writer<'_> {
    fn block(&mut self, nesting: usize) {
        self.push("{");
        for _ in 0..self.random.weighted(&[3, 4, 2, 1]) {
            self.statement(nesting + 1);
        }
        self.push("}");
    }

    fn statement(&mut self, nesting: usize) {
        let conditions = if nesting > 4 { 0 } else { 1 };
        match self
            .random
            .weighted(&[6, 3 * conditions, 2 * conditions, 5, 2, 2])
        {
            0 => self.assignment(),
            1 => self.condition(nesting),
            2 => self.case(nesting),
            3 => self.resource(),
            4 => self.class_with_attributes(),
            _ => {
                self.push("include");
                self.name();
            }
        }
    }

    fn assignment(&mut self) {
        self.variable();
        self.push("=");
        self.expression(3);
    }

    fn condition(&mut self, nesting: usize) {
        self.push("if");
        self.expression(2);
        self.block(nesting);
        if self.random.chance(500) {
            self.push("else");
            self.block(nesting);
        }
    }

    fn case(&mut self, nesting: usize) {
        self.push("case");
        self.expression(2);
        self.push("{");
        for _ in 0..self.random.below(4) {
            self.pattern();
            self.push(":");
            self.block(nesting);
        }
        self.push("}");
    }

    fn resource(&mut self) {
        match self.random.chance(600) {
            true => self.tokens.push(self.random.pick(&KINDS).into()),
            false => self.name(),
        }
        self.push("{");
        self.expression(2);
        self.attributes();
    }

    fn class_with_attributes(&mut self) {
        self.all(&["class", "{"]);
        self.name();
        self.attributes();
    }

    fn attributes(&mut self) {
        self.push(":");
        let count = self.random.weighted(&[2, 3, 2, 1]);
        for at in 0..count {
            if at > 0 {
                self.push(",");
            }
            self.name();
            self.push("=>");
            self.expression(2);
        }
        if count > 0 {
            self.last_comma();
        }
        self.push("}");
    }
}

/// Expressions.
impl Writer<'_> {
    fn expression(&mut self, budget: usize) {
        self.operand(budget);
        let mut is_behind_selector = false;
        for _ in 0..self.random.weighted(&[5, 4, 2, 1]).min(budget) {
            is_behind_selector = match is_behind_selector && !self.random.chance(20) {
                true => self.loose_operator(budget - 1),
                false => self.any_operator(budget - 1),
            };
        }
    }

    /// An operator and what stands right of it; true for a selector.
    fn any_operator(&mut self, budget: usize) -> bool {
        if self.random.chance(200) {
            self.selector(budget);
            return true;
        }
        let operator = self.random.pick(&OPERATORS);
        self.push(operator);
        self.operand(budget);
        false
    }

    /// Behind a selector "only another `?`, `and` or `or` may follow".
    fn loose_operator(&mut self, budget: usize) -> bool {
        if self.random.chance(300) {
            self.selector(budget);
            return true;
        }
        let operator = self.random.pick(&["and", "or"]);
        self.push(operator);
        self.operand(budget);
        false
    }

    fn selector(&mut self, budget: usize) {
        self.all(&["?", "{"]);
        for at in 0..self.random.between(1, 3) {
            if at > 0 {
                self.push(",");
            }
            self.pattern();
            self.push("=>");
            self.expression(budget);
        }
        self.last_comma();
        self.push("}");
    }

    fn operand(&mut self, budget: usize) {
        let composed = usize::from(budget > 0);
        match self
            .random
            .weighted(&[6, 4, 1, 1, 2 * composed, 2 * composed, 3 * composed])
        {
            0 => self.constant(),
            1 => self.variable(),
            2 => {
                let name = self.name_bytes();
                self.push([b"$::", &name[..]].concat());
            }
            3 => {
                let (class, name) = (self.name_bytes(), self.name_bytes());
                self.push([b"$::", &class[..], b"::", &name[..]].concat());
            }
            4 => self.read(budget - 1),
            5 => {
                self.push("!");
                self.operand(budget - 1);
            }
            _ => self.bracketed(budget - 1),
        }
    }

    fn read(&mut self, budget: usize) {
        self.name();
        self.push("[");
        self.expression(budget);
        self.all(&["]", "["]);
        self.name();
        self.push("]");
    }

    fn bracketed(&mut self, budget: usize) {
        let count = self.random.weighted(&[0, 8, 2, 1]);
        for _ in 0..count {
            self.push("(");
        }
        self.expression(budget);
        for _ in 0..count {
            self.push(")");
        }
    }

    fn pattern(&mut self) {
        match self.random.chance(250) {
            true => self.push("default"),
            false => self.constant(),
        }
    }

    fn constant(&mut self) {
        match self.random.below(8) {
            0..=2 => {
                let number = some_number(self.random);
                self.push(number);
            }
            3 | 4 => self.quoted(),
            5 => self.name(),
            6 => self.push("true"),
            _ => self.push("false"),
        }
    }

    fn quoted(&mut self) {
        let string = some_string(self.random);
        let token = spell_string(self.random, &string);
        self.push(token);
    }
}

/// A name of any letters; a digit in it keeps it from being a keyword.
pub fn some_name(random: &mut Random) -> Vec<u8> {
    let mut name = vec![random.between(97, 122) as u8];
    for _ in 0..random.below(6) {
        name.push(random.pick(b"abz019_"));
    }
    name.push(b'4');
    name
}

fn some_number(random: &mut Random) -> String {
    match random.below(3) {
        0 => random.pick(&NUMBERS).to_string(),
        1 => (random.next() as i64 >> random.below(64)).to_string(),
        _ => (random.below(40) as i64 - 10).to_string(),
    }
}

/// A string that people write, or one of odd bytes.
pub fn some_string(random: &mut Random) -> Vec<u8> {
    match random.below(6) {
        0 => Vec::new(),
        1 => (0..random.below(12))
            .map(|_| random.pick(b"'\"\\\n\r\t #${}ab\x00\xff"))
            .collect(),
        2 => (0..random.below(12)).map(|_| random.below(256) as u8).collect(),
        3 => random
            .pick(&["if", "default", "true", "7", "hill-desk", "A"])
            .into(),
        _ => random.pick(&NAMES).into(),
    }
}

/// A string in quotes: either kind, and escapes where there is a choice.
pub fn spell_string(random: &mut Random, string: &[u8]) -> Vec<u8> {
    let quote = random.pick(b"'\"");
    let mut token = vec![quote];
    for byte in string {
        let is_escaped = match *byte {
            b'\\' => true,
            b'\'' | b'"' => *byte == quote || random.chance(500),
            b'\n' => random.chance(700),
            _ => false,
        };
        match (is_escaped, *byte) {
            (true, b'\n') => token.extend_from_slice(b"\\n"),
            (true, byte) => token.extend_from_slice(&[b'\\', byte]),
            (false, byte) => token.push(byte),
        }
    }
    token.push(quote);
    token
}

/// How much stands between tokens.
#[derive(Clone, Copy, PartialEq, Eq)]
pub enum Spacing {
    /// Nothing where nothing is needed.
    Dense,
    /// A space.
    Plain,
    /// Anything that may stand there.
    Free,
}

pub fn some_spacing(random: &mut Random) -> Spacing {
    random.pick(&[Spacing::Dense, Spacing::Plain, Spacing::Free, Spacing::Free])
}

/// The text of these tokens.
pub fn join(random: &mut Random, tokens: &[Vec<u8>], spacing: Spacing) -> Vec<u8> {
    let mut text = Vec::new();
    if spacing == Spacing::Free {
        some_space(random, &mut text);
    }
    for (at, token) in tokens.iter().enumerate() {
        if at > 0 {
            space(random, &mut text, token, spacing);
        }
        text.extend_from_slice(token);
    }
    if spacing == Spacing::Free {
        some_space(random, &mut text);
        if random.chance(100) {
            // A comment that the text's end closes.
            comment(random, &mut text);
        }
    }
    text
}

fn space(random: &mut Random, text: &mut Vec<u8>, token: &[u8], spacing: Spacing) {
    let length = text.len();
    match spacing {
        Spacing::Dense => {}
        Spacing::Plain => text.push(random.pick(b"         \n")),
        Spacing::Free => some_space(random, text),
    }
    if text.len() == length && run_together(text, token) {
        text.push(b' ');
    }
}

fn run_together(text: &[u8], token: &[u8]) -> bool {
    let in_word = |byte: Option<&u8>| byte.is_some_and(|byte| byte.is_ascii_alphanumeric() || *byte == b'_');
    in_word(text.last()) && in_word(token.first())
}

fn some_space(random: &mut Random, text: &mut Vec<u8>) {
    for _ in 0..random.weighted(&[8, 8, 2, 1]) {
        match random.below(10) {
            0..=4 => text.push(b' '),
            5 => text.push(b'\t'),
            6 => text.push(b'\r'),
            7 | 8 => text.push(b'\n'),
            _ => {
                comment(random, text);
                text.push(b'\n');
            }
        }
    }
}

/// A comment of odd bytes, up to where its line ends.
fn comment(random: &mut Random, text: &mut Vec<u8>) {
    text.push(b'#');
    for _ in 0..random.below(8) {
        text.push(random.pick(b"'\"\\#$ {}()\r\tA\x00\xff9"));
    }
}
