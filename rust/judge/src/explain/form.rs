//! How far a line is of the text form, and what is wanted where that ends.

/// The operations of the form up to the parenthesis, each with the letter of what it names.
const OPERATIONS: [(&str, &str); 4] = [("r(", "V"), ("w(", "V"), ("fork(", "T"), ("join(", "T")];

/// What should stand where a line stops being of the form.
#[derive(Clone, Copy)]
pub enum Wanted {
    /// The T before the task's number.
    Task,
    /// The first digit of a number.
    Number,
    /// Fewer digits in the number that begins at this byte.
    Smaller(usize),
    /// The bar behind the task.
    Operation,
    /// More of the operation that begins at this byte, up to its parenthesis.
    Name(usize),
    /// The letter before the number that the operation names.
    Letter(&'static str),
    /// The parenthesis behind that number.
    Closed,
    /// The bar before the source line.
    Source,
    /// The line feed.
    End,
}

/// The number of the first bytes that are the beginning of some line of the form, and what is wanted
/// behind them. No line feed may be among the bytes.
pub fn fitting(line: &[u8]) -> (usize, Wanted) {
    let mut cursor = Cursor { line, at: 0 };
    let wanted = cursor.line().err().unwrap_or(Wanted::End);
    (cursor.at, wanted)
}

pub fn is_operation(name: &str) -> bool {
    OPERATIONS.iter().any(|(begun, _)| begun.strip_suffix('(') == Some(name))
}

struct Cursor<'a> {
    line: &'a [u8],
    at: usize,
}

impl Cursor<'_> {
    /// Goes over as much of the line as is of the form; says what is wanted where that is too little.
    fn line(&mut self) -> Result<(), Wanted> {
        self.word("T").ok_or(Wanted::Task)?;
        self.number()?;
        self.word("|").ok_or(Wanted::Operation)?;
        let letter = self.operation()?;
        self.word(letter).ok_or(Wanted::Letter(letter))?;
        self.number()?;
        self.word(")").ok_or(Wanted::Closed)?;
        self.word("|").ok_or(Wanted::Source)?;
        self.number()
    }

    fn word(&mut self, word: &str) -> Option<()> {
        self.line[self.at..].starts_with(word.as_bytes()).then(|| self.at += word.len())
    }

    /// Gives the letter of what the operation names.
    fn operation(&mut self) -> Result<&'static str, Wanted> {
        let (start, rest) = (self.at, &self.line[self.at..]);
        let shared =
            |name: &str| rest.iter().zip(name.as_bytes()).take_while(|(a, b)| a == b).count();
        // No two of them begin with one letter.
        let begun = OPERATIONS.into_iter().find(|(name, _)| shared(name) > 0);
        let (name, letter) = begun.ok_or(Wanted::Name(start))?;
        self.at += shared(name);
        (self.at == start + name.len()).then_some(letter).ok_or(Wanted::Name(start))
    }

    /// Decimal, 0 to 65,535, no leading zero.
    fn number(&mut self) -> Result<(), Wanted> {
        let start = self.at;
        let mut number = 0;
        while let Some(digit) = self.line.get(self.at).filter(|byte| byte.is_ascii_digit()) {
            let longer = number * 10 + u32::from(digit - b'0');
            if longer > u32::from(u16::MAX) || (number == 0 && self.at > start) {
                return Err(Wanted::Smaller(start));
            }
            number = longer;
            self.at += 1;
        }
        (self.at > start).then_some(()).ok_or(Wanted::Number)
    }
}
