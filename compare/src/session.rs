//! A session: frames in, lines out, as FORMS has it for the program `account`.
//!
//! [`run`] is the whole program but for its name, and [`Session::answer_all`] the same in a
//! session of one's own. Who wants to know more than the lines hands it a [`Watch`].

use std::io::{self, BufWriter, Read, Write};

use crate::{
    Book, EveryWord, Layout, Notice, Position, Refusal, Row, Rule, SheetTest, Standing, Total,
};

/// The longest body that is read.
pub const MAX_BODY: usize = 12_746;
/// Letter and length.
const HEADER: usize = 5;
/// Bytes that are read at once; the longest frame fits many times.
const BUFFER: usize = 1 << 17;

/// What an accepted or refused frame is answered.
#[derive(Clone, Copy, Debug)]
pub enum Reply<'a> {
    /// A rule form, an opening form or an advance is accepted.
    Done,
    /// A message is accepted.
    Noticed(Notice),
    /// A closing form is accepted.
    Closed(&'a [Row]),
    Refused(Refusal),
}

/// Why a session stops, with the numbers of FORMS.
#[derive(Clone, Copy, Debug, PartialEq, Eq, PartialOrd, Ord)]
pub enum Cause {
    Cut = 1,
    TooLong = 2,
    BodyOnAdvance = 3,
    UnknownLetter = 4,
    OpenBeforeRule = 5,
    NoBook = 6,
    RuleAgain = 7,
    OpenAgain = 8,
    TooManyGroups = 9,
}

/// What a session and its table tell besides their lines.
pub trait Watch {
    /// A frame was answered.
    fn answered(&mut self, _letter: u8, _body: &[u8], _reply: &Reply<'_>) {}
    /// The session stops. The letter is missing if not even the header is whole.
    fn stopped(&mut self, _cause: Cause, _letter: Option<u8>) {}
    /// The input ended on a frame's boundary.
    fn ended(&mut self) {}
    /// The table asked the book.
    fn asked(&mut self, _answer: Asked) {}
}

/// A question of the table and what the book said.
#[derive(Clone, Copy, Debug)]
pub enum Asked {
    Position(Result<Position, Refusal>),
    Trade(Result<u32, Refusal>),
    Standing(Result<Standing, Refusal>),
    Total(Result<Total, Refusal>),
}

/// Nobody watches.
impl Watch for () {}

/// Answers all frames of the input, for books of up to `most` groups, and hands back the
/// session as it was left.
pub fn run(
    input: impl Read,
    output: impl Write,
    most: usize,
    watch: &mut impl Watch,
) -> io::Result<Session> {
    let mut session = Session::new(most);
    session.answer_all(input, output, watch)?;
    Ok(session)
}

/// What comes next in the input.
enum Next<'a> {
    /// A whole frame that the session is ready for: its letter and its body.
    Frame(u8, &'a [u8]),
    /// A frame that stops the session by its letter or its length, or one that is cut.
    Stop(Option<u8>, Cause),
    /// The end of the input, on a frame's boundary.
    End,
}

/// Frames of an input, read through one buffer.
struct Frames<R> {
    input: R,
    buffer: Box<[u8]>,
    /// The bytes of the buffer that were read and not yet used.
    start: usize,
    end: usize,
}

impl<R: Read> Frames<R> {
    fn new(input: R) -> Frames<R> {
        Frames { input, buffer: vec![0; BUFFER].into(), start: 0, end: 0 }
    }

    fn next(
        &mut self,
        session: &Session<impl SheetTest>,
        output: &mut impl Write,
    ) -> io::Result<Next<'_>> {
        if !self.fill(HEADER, output)? {
            let cut = Next::Stop(None, Cause::Cut);
            return Ok(if self.start == self.end { Next::End } else { cut });
        }
        let header = &self.buffer[self.start..self.start + HEADER];
        let letter = header[0];
        let length = u32::from_be_bytes([header[1], header[2], header[3], header[4]]) as usize;
        if let Some(cause) = session.stops(letter, length) {
            return Ok(Next::Stop(Some(letter), cause));
        }
        if !self.fill(HEADER + length, output)? {
            return Ok(Next::Stop(Some(letter), Cause::Cut));
        }
        let body = self.start + HEADER..self.start + HEADER + length;
        self.start = body.end;
        Ok(Next::Frame(letter, &self.buffer[body]))
    }

    /// Reads until `count` bytes are there, at most `HEADER + MAX_BODY`. Says whether they are.
    ///
    /// Lines go out before the input is waited for, so that who writes frames one by one gets
    /// each answer.
    fn fill(&mut self, count: usize, output: &mut impl Write) -> io::Result<bool> {
        while self.end - self.start < count {
            if self.start > 0 {
                self.buffer.copy_within(self.start..self.end, 0);
                self.end -= self.start;
                self.start = 0;
            }
            output.flush()?;
            match self.input.read(&mut self.buffer[self.end..]) {
                Ok(0) => return Ok(false),
                Ok(read) => self.end += read,
                Err(error) if error.kind() == io::ErrorKind::Interrupted => {}
                Err(error) => return Err(error),
            }
        }
        Ok(true)
    }
}

/// The one place for a book, its sheet, and what was accepted so far.
pub struct Session<T = EveryWord> {
    /// The most groups that are served.
    most: usize,
    rule: Option<Rule>,
    /// The groups of the book, 0 before it is open.
    groups: usize,
    book: Book<T>,
    sheet: Box<[u32]>,
    rows: Box<[Row]>,
}

impl Session {
    /// For books of up to `most` groups.
    pub fn new(most: usize) -> Session {
        Session::with_test(most, EveryWord)
    }
}

impl<T: SheetTest> Session<T> {
    /// The same with another test of the words of its sheet. Without one the lines are the
    /// same, since each word comes from a message whose values were tested.
    pub fn with_test(most: usize, test: T) -> Session<T> {
        Session {
            most,
            rule: None,
            groups: 0,
            book: Book::with_test(test),
            sheet: vec![0; Layout::new(most).words()].into(),
            rows: vec![Row::default(); most].into(),
        }
    }

    /// The groups of the book, 0 if none is open.
    pub fn groups(&self) -> usize {
        self.groups
    }

    pub fn book(&self) -> &Book<T> {
        &self.book
    }

    /// The sheet of the book.
    pub fn sheet(&self) -> &[u32] {
        &self.sheet[..Layout::new(self.groups).words()]
    }

    /// Answers all frames of the input. Ends at the end of the input or after `STOP`.
    pub fn answer_all(
        &mut self,
        input: impl Read,
        output: impl Write,
        watch: &mut impl Watch,
    ) -> io::Result<()> {
        let mut input = Frames::new(input);
        let mut output = BufWriter::with_capacity(BUFFER, output);
        for _ in 0..u64::MAX {
            let (letter, answer) = match input.next(self, &mut output)? {
                Next::Frame(letter, body) => {
                    let answer = self.answer(letter, body);
                    if let Ok(reply) = &answer {
                        watch.answered(letter, body, reply);
                    }
                    (Some(letter), answer)
                }
                Next::Stop(letter, cause) => (letter, Err(cause)),
                Next::End => {
                    watch.ended();
                    break;
                }
            };
            match answer {
                Ok(reply) => print(&mut output, &reply)?,
                Err(cause) => {
                    watch.stopped(cause, letter);
                    output.write_all(b"STOP\n")?;
                    break;
                }
            }
        }
        output.flush()
    }

    /// Why a frame stops the session by its letter or its length alone, if it does.
    pub fn stops(&self, letter: u8, length: usize) -> Option<Cause> {
        let open = self.groups > 0;
        if length > MAX_BODY {
            return Some(Cause::TooLong);
        }
        match letter {
            b'R' if self.rule.is_some() => Some(Cause::RuleAgain),
            b'O' if self.rule.is_none() => Some(Cause::OpenBeforeRule),
            b'O' if open => Some(Cause::OpenAgain),
            b'S' | b'A' | b'C' if !open => Some(Cause::NoBook),
            b'A' if length > 0 => Some(Cause::BodyOnAdvance),
            b'R' | b'O' | b'S' | b'A' | b'C' => None,
            _ => Some(Cause::UnknownLetter),
        }
    }

    /// Answers a frame, or says why it stops the session.
    pub fn answer(&mut self, letter: u8, body: &[u8]) -> Result<Reply<'_>, Cause> {
        if let Some(cause) = self.stops(letter, body.len()) {
            return Err(cause);
        }
        let done = |()| Reply::Done;
        let sheet = &mut self.sheet[..Layout::new(self.groups).words()];
        let reply = match (letter, self.rule) {
            (b'R', _) => Rule::read(body).map(|rule| self.rule = Some(rule)).map(done),
            (b'O', Some(rule)) => {
                // A number of groups that has no sheet here is refused before the sheet is
                // looked at, or stops.
                let first = usize::from(body.first().copied().unwrap_or(0));
                if first > self.most && first <= crate::MAX_GROUPS {
                    return Err(Cause::TooManyGroups);
                }
                let groups = first.min(self.most);
                let sheet = &mut self.sheet[..Layout::new(groups).words()];
                let opened = self.book.open(rule, body, sheet);
                if opened.is_ok() {
                    self.groups = groups;
                }
                opened.map(done)
            }
            (b'S', _) => self.book.submit(body, sheet).map(Reply::Noticed),
            (b'A', _) => self.book.advance(sheet).map(done),
            (b'C', _) => {
                let rows = &mut self.rows[..self.groups];
                self.book.close(body, sheet, rows).map(|()| Reply::Closed(rows))
            }
            _ => return Err(Cause::UnknownLetter),
        };
        Ok(reply.unwrap_or_else(Reply::Refused))
    }
}

/// Prints the line or the lines of an answer.
fn print(output: &mut impl Write, reply: &Reply<'_>) -> io::Result<()> {
    match reply {
        Reply::Done => output.write_all(b"OK\n"),
        Reply::Noticed(Notice { count, first }) => {
            writeln!(output, "OK {count} {}", first.unwrap_or(0))
        }
        Reply::Closed(rows) => rows.iter().try_for_each(|row| {
            let Row { day, group, mark, stage, penalty, balance } = row;
            writeln!(output, "{day} {group} {} {stage} {penalty} {balance}", u8::from(*mark))
        }),
        Reply::Refused(refusal) => writeln!(output, "REFUSED {refusal}"),
    }
}

/// The table of the program `inquiry`: what the book answers at the end of a session. For each
/// of the quarter hours positions and trades, then standings and totals.
pub fn table(
    session: &Session,
    quarters: &[u16],
    output: impl Write,
    watch: &mut impl Watch,
) -> io::Result<()> {
    let mut output = BufWriter::new(output);
    let (book, sheet, groups) = (session.book(), session.sheet(), session.groups());
    for &q in quarters {
        for a in 1..=groups {
            let answer = book.position(a, q.into(), sheet);
            watch.asked(Asked::Position(answer));
            let told = answer.map(|p| format!("{} {} {}", p.stated, p.confirmed, p.net));
            writeln!(output, "POSITION {q} {a} {}", or_refused(told))?;
        }
        for a in 1..=groups {
            for b in (1..=groups).filter(|&b| b != a) {
                let answer = book.trade(a, b, q.into(), sheet);
                watch.asked(Asked::Trade(answer));
                let told = answer.map(|power| power.to_string());
                writeln!(output, "TRADE {q} {a} {b} {}", or_refused(told))?;
            }
        }
    }
    for d in 1..=book.days_past_cut_off() {
        for a in 1..=groups {
            let answer = book.standing(a, d);
            watch.asked(Asked::Standing(answer));
            let told = answer.map(|s| format!("{} {}", u8::from(s.mark), s.stage));
            writeln!(output, "STANDING {d} {a} {}", or_refused(told))?;
        }
    }
    for a in 1..=groups {
        let answer = book.total(a);
        watch.asked(Asked::Total(answer));
        let told = answer.map(|t| format!("{} {}", t.penalties, t.balance));
        writeln!(output, "TOTAL {a} {}", or_refused(told))?;
    }
    output.flush()
}

fn or_refused(told: Result<String, Refusal>) -> String {
    told.unwrap_or_else(|refusal| format!("REFUSED {refusal}"))
}

#[cfg(test)]
mod tests {
    use super::*;

    /// As many groups as `account` serves.
    const GROUPS: usize = 8;
    const DAYS: &[u8] = include_bytes!("../sessions/days.frames");
    const DAYS_LINES: &str = include_str!("../sessions/days.lines");
    const RULE: &[u8] = &[b'R', 0, 0, 0, 3, 1, 0, 30];

    /// An input that comes in pieces, now and then interrupted.
    struct Pieces<'a> {
        rest: &'a [u8],
        size: usize,
        interrupt: bool,
    }

    impl Read for Pieces<'_> {
        fn read(&mut self, buffer: &mut [u8]) -> io::Result<usize> {
            self.interrupt = !self.interrupt;
            if self.interrupt {
                return Err(io::ErrorKind::Interrupted.into());
            }
            let size = self.size.min(buffer.len()).min(self.rest.len());
            let (piece, rest) = self.rest.split_at(size);
            buffer[..size].copy_from_slice(piece);
            self.rest = rest;
            Ok(size)
        }
    }

    fn lines(input: impl Read) -> String {
        let mut output = Vec::new();
        run(input, &mut output, GROUPS, &mut ()).unwrap();
        String::from_utf8(output).unwrap()
    }

    #[test]
    fn pieces_do_not_matter() {
        assert_eq!(lines(DAYS), DAYS_LINES);
        for size in [1, 2, 5, 7, 400, 12_751, 65_536] {
            assert_eq!(lines(Pieces { rest: DAYS, size, interrupt: true }), DAYS_LINES);
        }
        for cut in (0..200).chain(DAYS.len() - 200..DAYS.len()) {
            let whole = lines(&DAYS[..cut]);
            assert_eq!(lines(Pieces { rest: &DAYS[..cut], size: 3, interrupt: false }), whole);
        }
    }

    /// Longer than the buffer: frames that lie across its end.
    #[test]
    fn inputs_longer_than_the_buffer() {
        let head = &DAYS[..8 + 5 + 2 + 3 * 21 + 3 * 8];
        let refused = [&[b'S', 0, 0, 0, 3][..], &[0; 3]].concat();
        let times = 3 * BUFFER / refused.len();
        let input = [head, &refused.repeat(times)].concat();
        let expected = "OK\n".repeat(2) + &"REFUSED M 1 0 0\n".repeat(times);
        assert!(lines(&input[..]) == expected);
        assert!(lines(Pieces { rest: &input, size: 99_999, interrupt: false }) == expected);
    }

    #[test]
    fn every_other_letter_stops() {
        for letter in 0..=u8::MAX {
            let input = [RULE, &[letter, 0, 0, 0, 0]].concat();
            let answer = if letter == b'O' { "REFUSED M 1 0 0\n" } else { "STOP\n" };
            assert_eq!(lines(&input[..]), format!("OK\n{answer}"), "letter {letter}");
        }
    }

    #[test]
    fn first_bytes_of_an_opening_form() {
        for first in 0..=u8::MAX {
            let one = [RULE, &[b'O', 0, 0, 0, 1, first]].concat();
            let two = [RULE, &[b'O', 0, 0, 0, 2, first, 1]].concat();
            let (of_one, of_two) = match first {
                9..=16 => ("STOP\n", "STOP\n"),
                2..=8 => ("REFUSED M 1 0 0\n", "REFUSED M 3 0 0\n"),
                _ => ("REFUSED M 1 0 0\n", "REFUSED M 2 0 0\n"),
            };
            assert_eq!(lines(&one[..]), format!("OK\n{of_one}"), "first byte {first}");
            assert_eq!(lines(&two[..]), format!("OK\n{of_two}"), "first byte {first}");
        }
    }

    #[test]
    fn every_number_of_groups_is_served() {
        for groups in 2..=GROUPS {
            let form = [&[groups as u8, 1][..], &vec![0; 21 * groups + 8]].concat();
            let close = [&[groups as u8, 96][..], &vec![0; 384 * (groups + 2)]].concat();
            let frame = |letter: u8, body: &[u8]| {
                [&[letter][..], &(body.len() as u32).to_be_bytes(), body].concat()
            };
            let day = [frame(b'A', &[]), frame(b'A', &[]), frame(b'C', &close)].concat();
            let input = [RULE.to_vec(), frame(b'O', &form), day].concat();
            let rows: String = (1..=groups).map(|group| format!("1 {group} 0 0 0 0\n")).collect();
            assert_eq!(lines(&input[..]), format!("OK\nOK\nOK\nOK\n{rows}"));
        }
    }
}
