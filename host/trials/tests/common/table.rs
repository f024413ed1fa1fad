//! The table of cases, `crates/cases/stdin`. Its head says how a case is written.

const TABLE: &str = include_str!("../../../../crates/cases/stdin");

/// What the proved program writes of it.
const WRITTEN: &str = include_str!("../../../../crates/cases/stdout");

/// What stands before the cases that are wrong on purpose.
const WRONG: &str = "# WRONG ON PURPOSE\n";

/// A line of the table.
#[derive(Clone, Copy)]
pub struct Case {
    line: &'static str,
}

/// The cases that are to hold, and those that are not.
pub fn cases() -> [Vec<Case>; 2] {
    let (right, wrong) = TABLE.split_once(WRONG).expect("cases that are wrong on purpose");
    [right, wrong].map(|lines| lines.lines().filter(|line| !line.is_empty() && !line.starts_with('#')).map(|line| Case { line }).collect())
}

/// How many cases there are and how many of them do not hold, by the last line of the proved program.
pub fn counts() -> [usize; 2] {
    let last = WRITTEN.lines().last().expect("a last line");
    let (cases, wrong) = last.strip_suffix(" of them do not hold").and_then(|counts| counts.split_once(" cases, ")).expect("two numbers");
    [cases, wrong].map(|count| count.parse().expect("a number"))
}

impl Case {
    fn column(&self, index: usize) -> &'static str {
        self.line.split('|').nth(index).unwrap_or("")
    }

    /// The name and the call with its numbers.
    pub fn title(&self) -> String {
        format!("{}|{}", self.column(0), self.column(1))
    }

    pub fn call(&self) -> &'static str {
        self.column(1).split(' ').nth(1).expect("a call")
    }

    /// The numbers of the call; the first one where the case gives none is `first`, and each after it 2,048.
    pub fn given(&self, first: u32) -> [u32; 3] {
        let mut given = [first, 2_048, 2_048];
        let numbers = self.column(1).split(' ').skip(2).filter(|number| !number.is_empty());
        given.iter_mut().zip(numbers).for_each(|(number, given)| *number = given.parse().expect("a number"));
        given
    }

    /// The data as bytes.
    pub fn bytes(&self) -> Vec<u8> {
        bytes(self.column(2))
    }

    /// The data as rows.
    pub fn rows(&self) -> Vec<u32> {
        numbers(self.column(2))
    }

    /// The so many numbers of the answer.
    pub fn answer<const N: usize>(&self) -> [u64; N] {
        let numbers = numbers(self.column(3)).into_iter().map(u64::from).collect::<Vec<_>>();
        numbers.try_into().unwrap_or_else(|answer| panic!("{}: {answer:?} are not {N} numbers", self.title()))
    }

    /// The rows that are to be in the buffer, or those of an event.
    pub fn stated_rows(&self) -> Vec<u32> {
        numbers(self.column(4))
    }

    /// The words that are to be in the buffer.
    pub fn stated_bytes(&self) -> Vec<u8> {
        bytes(self.column(4))
    }

    /// The readings of an event.
    pub fn stated_readings(&self) -> Vec<u32> {
        bytes(self.column(5)).chunks(4).map(|single| u32::from_le_bytes(single.try_into().expect("four bytes"))).collect()
    }
}

/// The numbers of a column of decimal numbers.
fn numbers(column: &str) -> Vec<u32> {
    let mut list = vec![];
    column_of(column, &mut list, |digits, list| list.push(digits.parse().expect("a number")));
    list
}

/// The bytes of a column of hexadecimal numbers and texts.
fn bytes(column: &str) -> Vec<u8> {
    let mut list = vec![];
    column_of(column, &mut list, |digits, list| {
        let byte = |at: usize| u8::from_str_radix(&digits[at..at + 2], 16).expect("hexadecimal digits");
        list.extend((0..digits.len()).step_by(2).rev().map(byte));
    });
    list
}

/// Reads a column: items one after another, each of which may be repeated.
fn column_of<N: Copy + From<u8>>(column: &str, list: &mut Vec<N>, number: impl Fn(&str, &mut Vec<N>)) {
    // where the last item and the last parenthesis begin
    let (mut from, mut open) = (0, 0);
    let mut rest = column;
    while let Some(sign) = rest.chars().next() {
        let (item, after) = rest.split_at(item_length(rest));
        match sign {
            ' ' => {}
            ';' => list.resize(list.len().next_multiple_of(10), 0.into()),
            '(' => open = list.len(),
            ')' => from = open,
            '*' => *list = [&list[..from], &list[from..].repeat(item[1..].parse().expect("a count"))].concat(),
            '"' => {
                from = list.len();
                list.extend(text(&item[1..item.len() - 1]).into_iter().map(N::from));
            }
            _ => {
                from = list.len();
                number(item, list);
            }
        }
        rest = after;
    }
}

/// How long the item at the start is: a sign, a text with its quotes, a star and its count, or a number.
fn item_length(rest: &str) -> usize {
    let digits = |text: &str| text.find(|sign: char| !sign.is_ascii_alphanumeric()).unwrap_or(text.len());
    match rest.as_bytes()[0] {
        b' ' | b';' | b'(' | b')' => 1,
        b'*' => 1 + digits(&rest[1..]),
        b'"' => {
            let mut escaped = false;
            let end = rest.bytes().skip(1).position(|byte| {
                let ends = byte == b'"' && !escaped;
                escaped = byte == b'\\' && !escaped;
                ends
            });
            end.expect("the end of a text") + 2
        }
        _ => digits(rest).max(1),
    }
}

/// The bytes of a text.
fn text(text: &str) -> Vec<u8> {
    let mut bytes = vec![];
    let mut signs = text.bytes();
    while let Some(sign) = signs.next() {
        bytes.push(match sign {
            b'\\' => match signs.next().expect("a sign after the backslash") {
                b'n' => b'\n',
                b'r' => b'\r',
                b't' => b'\t',
                b'0' => 0,
                sign => sign,
            },
            _ => sign,
        });
    }
    bytes
}
