//! Texts of events: sessions that an account mostly accepts, texts that are damaged, and the texts of one kind that are timed.

use std::fmt::Write;

pub const LONGEST: usize = 65_536;

/// A small generator of numbers (splitmix64): the same seed gives the same texts on every machine.
pub struct Dice(pub u64);

impl Dice {
    pub fn next(&mut self) -> u64 {
        self.0 = self.0.wrapping_add(0x9e37_79b9_7f4a_7c15);
        let mut z = self.0;
        z = (z ^ (z >> 30)).wrapping_mul(0xbf58_476d_1ce4_e5b9);
        z = (z ^ (z >> 27)).wrapping_mul(0x94d0_49bb_1331_11eb);
        z ^ (z >> 31)
    }

    pub fn below(&mut self, end: u64) -> u64 {
        self.next() % end
    }

    pub fn between(&mut self, least: u64, most: u64) -> u64 {
        least + self.below(most - least + 1)
    }

    pub fn one_in(&mut self, many: u64) -> bool {
        self.below(many) == 0
    }

    pub fn pick<'a, T>(&mut self, from: &'a [T]) -> &'a T {
        &from[self.below(from.len() as u64) as usize]
    }

    /// A figure of any number of digits up to 13.
    fn any_figure(&mut self) -> u64 {
        let digits = self.between(1, 13) as u32;
        self.below(10u64.pow(digits))
    }

    /// Units as a meter may show them: mostly a month's, at times none, few, or as many as there may be.
    fn units(&mut self) -> u64 {
        match self.below(12) {
            0 => 0,
            1 => self.between(1, 9),
            2 => self.between(10_000, 1_000_000),
            3 => 1_000_000,
            _ => self.between(10, 3_000),
        }
    }

    fn demand(&mut self) -> u64 {
        match self.below(8) {
            0 => 10_000,
            1 => self.below(10_001),
            _ => self.below(40),
        }
    }

    fn per_cent(&mut self) -> u64 {
        *self.pick(&[0, 25, 40, 50, 85, 90, 99, 100])
    }
}

#[derive(Clone, Copy)]
struct Row {
    first: u64,
    last: u64,
    is_read: bool,
}

/// A session as it is written, with what its own lines ask for: it takes every line of its own for accepted.
struct Session<'a> {
    dice: &'a mut Dice,
    text: String,
    now: u64,
    hold: u64,
    rows: Vec<Row>,
    next_day: u64,
}

/// A session of about this many bytes, and rather more.
pub fn session(dice: &mut Dice, opening: u64, bytes: usize) -> Vec<u8> {
    let now = dice.below(1_000_000);
    let mut session = Session {
        dice,
        text: String::new(),
        now,
        hold: 0,
        rows: Vec::new(),
        next_day: opening,
    };
    session.take();
    while session.text.len() < bytes {
        session.some_lines();
    }
    session.text.into_bytes()
}

impl Session<'_> {
    fn take(&mut self) {
        let length = match self.dice.below(4) {
            0 => 1,
            1 => 86_400,
            _ => self.dice.between(1, 3_600),
        };
        writeln!(self.text, "T,{},{length}", self.now).unwrap();
        self.hold += 1;
        self.now += length;
    }

    fn some_lines(&mut self) {
        match self.dice.below(20) {
            0 => self.take(),
            1 => {
                writeln!(self.text, "H,{}", self.hold).unwrap();
                if self.dice.one_in(3) {
                    self.bill(31);
                    self.next_day = self.rows.pop().map_or(0, |row| row.first);
                }
                self.take();
            }
            2 => self.stray(),
            3..=7 => self.bills(),
            8 | 9 => self.run(),
            10..=12 => self.pay(),
            13 | 14 => self.corrected_by_test_meter(),
            15 | 16 => self.stopped(),
            17 | 18 => self.altered(),
            _ => self.absent_again(),
        }
    }

    /// A line that an account may well refuse.
    fn stray(&mut self) {
        let (now, hold) = (self.now, self.hold);
        let any = self.dice.any_figure();
        match self.dice.below(6) {
            0 => writeln!(self.text, "T,{},10", now.saturating_sub(1)),
            1 => writeln!(self.text, "P,{},{any}", hold.saturating_sub(1)),
            2 => writeln!(self.text, "B,{hold},{any},1,2,3"),
            3 => writeln!(self.text, "E,{hold},{},{any},50,1", self.next_day),
            4 => writeln!(self.text, "C,{hold},O,c,{any},y,0,{any},M,1000,900,0,0,0"),
            _ => writeln!(self.text, "P,{hold},{any}"),
        }
        .unwrap();
    }

    fn pay(&mut self) {
        let cents = match self.dice.below(5) {
            0 => 1,
            1 => 1_000_000_000_000,
            _ => self.dice.between(1, 5_000_000),
        };
        writeln!(self.text, "P,{},{cents}", self.hold).unwrap();
    }

    fn period(&mut self, most: u64) -> u64 {
        let days = match self.dice.below(10) {
            0 => 1,
            1 => self.dice.between(1, 100),
            _ => self.dice.between(28, 31),
        };
        self.next_day + days.min(most) - 1
    }

    fn add(&mut self, last: u64, is_read: bool) {
        if self.rows.len() < 120 && last <= 18_262 {
            self.rows.push(Row {
                first: self.next_day,
                last,
                is_read,
            });
            self.next_day = last + 1;
        }
    }

    fn bill(&mut self, most: u64) {
        let last = self.period(most);
        let (day, peak, demand) = (self.dice.units(), self.dice.units(), self.dice.demand());
        writeln!(self.text, "B,{},{last},{day},{peak},{demand}", self.hold).unwrap();
        self.add(last, true);
    }

    fn bills(&mut self) {
        for _ in 0..self.dice.between(1, 6) {
            self.bill(100);
        }
    }

    /// A run of estimates, mostly ended by three readings and corrected for the absence.
    fn run(&mut self) {
        let first = self.rows.len();
        for _ in 0..self.dice.between(1, 9) {
            let last = self.period(40);
            let figure = if self.dice.one_in(12) {
                1_000_000
            } else {
                self.dice.between(0, 4_000)
            };
            let (share, demand) = (self.dice.per_cent(), self.dice.demand());
            writeln!(
                self.text,
                "E,{},{last},{figure},{share},{demand}",
                self.hold
            )
            .unwrap();
            self.add(last, false);
        }
        let next = self.rows.len();
        for _ in 0..self.dice.between(2, 5) {
            self.bill(100);
        }
        if next > first {
            self.absent(first, next - 1);
        }
    }

    fn absent(&mut self, first: usize, last: usize) {
        let side = *self.dice.pick(&['c', 's']);
        let last = if self.dice.one_in(10) { last + 1 } else { last };
        writeln!(
            self.text,
            "C,{},A,{side},{},n,{first},{last},L,{},0,0,0,0",
            self.hold,
            self.next_day,
            last + 1
        )
        .unwrap();
    }

    /// The last run of estimates, corrected once more.
    fn absent_again(&mut self) {
        let Some(last) = self.rows.iter().rposition(|row| !row.is_read) else {
            return self.bills();
        };
        let first = self.rows[..last]
            .iter()
            .rposition(|row| row.is_read)
            .map_or(0, |row| row + 1);
        self.absent(first, last);
    }

    /// A span of read rows, of at most this many, where there is one.
    fn span(&mut self, most: u64) -> Option<(usize, usize)> {
        let read: Vec<usize> = (0..self.rows.len())
            .filter(|&row| self.rows[row].is_read)
            .collect();
        if read.is_empty() {
            return None;
        }
        let first = *self.dice.pick(&read);
        let most = self.dice.between(1, most) as usize;
        let mut last = first;
        while last + 1 < self.rows.len() && self.rows[last + 1].is_read && last + 1 < first + most {
            last += 1;
        }
        Some((first, last))
    }

    fn day_of(&mut self, row: usize) -> u64 {
        let Row { first, last, .. } = self.rows[row];
        match self.dice.below(12) {
            0 => first,
            1 => last,
            2 => last + 1,
            3 => first.saturating_sub(1),
            _ => self.dice.between(first, last),
        }
    }

    fn correct(
        &mut self,
        cause: char,
        side: char,
        notice: u64,
        known: char,
        span: (usize, usize),
        method: String,
    ) {
        let (first, last) = span;
        writeln!(
            self.text,
            "C,{},{cause},{side},{notice},{known},{first},{last},{method}",
            self.hold
        )
        .unwrap();
    }

    fn corrected_by_test_meter(&mut self) {
        let is_under = self.dice.one_in(2);
        let (cause, most) = if is_under { ('U', 3) } else { ('O', 12) };
        let most = if self.dice.one_in(15) { 14 } else { most };
        let Some(span) = self.span(most) else {
            return self.bills();
        };
        let notice = self.day_of(span.0);
        let side = if span.0 == span.1 && self.dice.one_in(2) {
            'c'
        } else {
            's'
        };
        let known = if self.dice.one_in(15) { 'n' } else { 'y' };
        let tested = self.dice.between(1, 1_200);
        let apart = tested / 40 + self.dice.below(tested / 2 + 2);
        let shown = if is_under {
            tested.saturating_sub(apart)
        } else {
            tested + apart
        };
        self.correct(
            cause,
            side,
            notice,
            known,
            span,
            format!("M,{shown},{tested},0,0,0"),
        );
    }

    fn stopped(&mut self) {
        let Some(span) = self.span(12) else {
            return self.bills();
        };
        let notice = self.day_of(span.0);
        let known = *self.dice.pick(&['y', 'n']);
        let side = *self.dice.pick(&['c', 's']);
        let method = if self.dice.one_in(2) {
            format!("P,{},0,0,0,0", span.0.saturating_sub(3))
        } else {
            format!("L,{},0,0,0,0", span.1 + 1)
        };
        self.correct('S', side, notice, known, span, method);
    }

    fn altered(&mut self) {
        let Some(span) = self.span(12) else {
            return self.bills();
        };
        let is_known = self.dice.one_in(2) || span.1 + 1 >= self.rows.len() || span.1 < 2;
        let side = *self.dice.pick(&['c', 's']);
        let kva = if self.dice.one_in(6) {
            1_000
        } else {
            self.dice.below(60)
        };
        let factors: Vec<String> = (0..4).map(|_| self.dice.per_cent().to_string()).collect();
        let method = format!("D,{kva},{}", factors.join(","));
        if is_known {
            let notice = self.dice.below(18_263);
            self.correct('X', side, notice, 'y', span, method);
        } else {
            let notice = self.day_of(span.1 + 1);
            self.correct('X', side, notice, 'n', (span.1 - 2, span.1), method);
        }
    }
}

/// A text of lines that follow no session: every letter and every edge of its figures.
pub fn loose(dice: &mut Dice, lines: u64) -> Vec<u8> {
    let mut text = String::new();
    for _ in 0..lines {
        let mut figure = |edges: &[u64]| {
            if dice.one_in(3) {
                dice.any_figure()
            } else {
                *dice.pick(edges)
            }
        };
        let hold = figure(&[0, 1, 1, 1, 2]);
        let day = figure(&[0, 30, 60, 90, 99, 100, 18_262, 18_263]);
        let row = figure(&[0, 1, 2, 3]);
        let to = row.saturating_add(figure(&[0, 0, 1, 2, 11]) % 20);
        let units = figure(&[0, 1, 999_999, 1_000_000, 1_000_001]);
        let other = figure(&[0, 1, 40, 41, 1_000_000, 1_000_001]);
        let share = figure(&[0, 50, 100, 101]);
        let demand = figure(&[0, 1_000, 1_001, 10_000, 10_001]);
        let now = figure(&[0, 1, 86_400, 1_000_000_000_000, 1_000_000_000_001]);
        let length = figure(&[0, 1, 86_400, 86_401]);
        let cents = figure(&[0, 1, 1_000_000_000_000, 1_000_000_000_001]);
        let cause = *dice.pick(&['A', 'U', 'O', 'S', 'X', 'a']);
        let side = *dice.pick(&['c', 's', 'c', 's', 'S']);
        let known = *dice.pick(&['y', 'n', 'y', 'n', 'Y']);
        let method = match dice.below(5) {
            0 => format!("M,{units},{other},0,0,0"),
            1 => format!("P,{row},0,0,0,0"),
            2 => format!("L,{},0,0,0,0", to + 1),
            3 => format!("D,{demand},{share},100,{share},50"),
            _ => format!("M,{units},{other},0,0,{row}"),
        };
        match dice.below(9) {
            0 | 1 => writeln!(text, "T,{now},{length}"),
            2 => writeln!(text, "H,{hold}"),
            3 => writeln!(text, "B,{hold},{day},{units},{other},{demand}"),
            4 => writeln!(text, "E,{hold},{day},{units},{share},{demand}"),
            5..=7 => writeln!(
                text,
                "C,{hold},{cause},{side},{day},{known},{row},{to},{method}"
            ),
            _ => writeln!(text, "P,{hold},{cents}"),
        }
        .unwrap();
    }
    text.into_bytes()
}

/// Damages a text in up to this many places: bytes changed, dropped, doubled or put in, and lines swapped or joined.
pub fn damage(dice: &mut Dice, text: &mut Vec<u8>, places: u64) {
    const ODD: &[u8] = b"\n\n,,,0019-+ \r\0\x7f\x80\xff/:TBEPHCtbMPLDAUOSXcsyn";
    for _ in 0..places {
        if text.is_empty() {
            return;
        }
        let at = dice.below(text.len() as u64) as usize;
        match dice.below(9) {
            0 => text[at] = dice.next() as u8,
            1 | 2 => text[at] = *dice.pick(ODD),
            3 => drop(text.remove(at)),
            4 => text.insert(at, text[at]),
            5 => text.insert(at, *dice.pick(ODD)),
            6 => {
                // A long line: the same byte again and again.
                let byte = text[at];
                let many = dice.between(1, 160) as usize;
                text.splice(at..at, std::iter::repeat_n(byte, many));
            }
            _ => {
                let mut lines: Vec<&[u8]> = text.split(|&byte| byte == b'\n').collect();
                let one = dice.below(lines.len() as u64) as usize;
                let two = dice.below(lines.len() as u64) as usize;
                lines.swap(one, two);
                let swapped = lines.join(&b'\n');
                *text = swapped;
            }
        }
    }
}

/// A text that is timed, on a page that has as many bytes as its result, or so many fewer.
pub struct Kind {
    pub name: &'static str,
    pub tariff: u64,
    pub text: Vec<u8>,
    pub missing: usize,
}

/// The lines, again and again in order, to 65,536 bytes at most, after others that come once.
fn filled<'a>(once: &str, lines: impl Iterator<Item = String> + 'a) -> Vec<u8> {
    let mut text = once.to_string();
    for line in lines {
        if text.len() + line.len() + 1 > LONGEST {
            break;
        }
        text.push_str(&line);
        text.push('\n');
    }
    text.into_bytes()
}

fn bills(many: u64) -> String {
    let mut text = String::from("T,100,86400\n");
    for row in 0..many {
        writeln!(
            text,
            "B,1,{},{},{},{}",
            30 * row + 29,
            480 + 7 * row,
            90 + row,
            4 + row % 3
        )
        .unwrap();
    }
    text
}

/// A run of this many estimates.
fn estimates(many: u64) -> String {
    let mut text = String::from("T,100,86400\n");
    for row in 0..many {
        writeln!(text, "E,1,{},300,25,3", 30 * row + 29).unwrap();
    }
    text
}

/// The lines, again and again from the first on, after others that come once.
fn repeated(once: &str, lines: &[&str]) -> Vec<u8> {
    filled(once, lines.iter().cycle().map(|line| line.to_string()))
}

/// After twelve bills of 480 to 557 day units: a line for each question that a making of a method asks.
const REFUSED_BY_METHODS: [&str; 8] = [
    "C,1,O,s,0,y,2,5,M,1000001,900,0,0,0",
    "C,1,O,s,0,y,2,5,M,1000,0,0,0,0",
    "C,1,O,s,0,y,2,5,M,0,900,0,0,0",
    "C,1,O,s,0,y,2,5,M,920,900,0,0,0",
    "C,1,S,s,0,y,3,5,P,10,0,0,0,0",
    "C,1,S,s,0,y,3,5,L,12,0,0,0,0",
    "C,1,X,s,0,y,3,5,D,40,90,101,50,25",
    "E,1,389,300,101,3",
];

/// After the same: a line for each question of the account, but for those that ask for room.
const REFUSED_BY_THE_ACCOUNT: [&str; 12] = [
    "P,2,100000",
    "B,2,389,564,102,4",
    "C,2,O,s,0,y,2,5,M,1000,900,0,0,0",
    "P,1,0",
    "B,1,389,564,102,10001",
    "B,1,460,564,102,4",
    "E,1,359,300,25,3",
    "C,1,O,s,0,y,2,12,M,1000,900,0,0,0",
    "C,1,A,s,0,n,2,5,L,6,0,0,0,0",
    "C,1,O,s,0,n,2,5,M,1000,900,0,0,0",
    "C,1,U,s,70,n,2,4,M,1000,900,0,0,0",
    "C,1,U,s,70,n,2,4,M,1,1000000,0,0,0",
];

pub fn kinds(dice: &mut Dice) -> Vec<Kind> {
    let six =
        b"T,100,10\nB,1,30,600,0,0\nT,110,10\nH,1\nC,2,U,c,15,n,0,0,M,600,1000,0,0,0\nP,2,100000\n"
            .to_vec();
    let year = {
        let mut text = bills(12);
        for row in 0..12 {
            writeln!(text, "P,1,{}", 500_000 + 1_000 * row).unwrap();
        }
        text.push_str("C,1,O,s,0,y,0,11,M,1000,900,0,0,0\n");
        text.into_bytes()
    };
    let runs = {
        let mut text = String::from("T,100,86400\n");
        for row in 0..120 {
            let last = 30 * row + 29;
            let of = row % 10;
            if of < 7 {
                writeln!(text, "E,1,{last},300,25,3").unwrap();
            } else {
                writeln!(text, "B,1,{last},{},100,4", 480 + row).unwrap();
            }
            if of == 9 {
                writeln!(
                    text,
                    "C,1,A,s,0,n,{},{},L,{},0,0,0,0",
                    row - 9,
                    row - 3,
                    row - 2
                )
                .unwrap();
            }
        }
        filled(
            &text,
            (0..12u64).cycle().map(|run| {
                format!(
                    "C,1,A,s,0,n,{},{},L,{},0,0,0,0",
                    10 * run,
                    10 * run + 6,
                    10 * run + 7
                )
            }),
        )
    };
    let session = {
        let mut text = session(dice, 0, LONGEST);
        text.truncate(LONGEST);
        text
    };
    let mut damaged = Vec::new();
    for line in session.split(|&byte| byte == b'\n') {
        let mut line = line.to_vec();
        let places = dice.below(3);
        damage(dice, &mut line, places);
        damaged.extend(line);
        damaged.push(b'\n');
    }
    damaged.truncate(LONGEST);
    let kind = |name, tariff, text| Kind {
        name,
        tariff,
        text,
        missing: 0,
    };
    vec![
        kind("six lines", 1, six.clone()),
        Kind {
            missing: 1,
            ..kind("six lines, a page too short", 1, six)
        },
        kind("a year: 12 bills, 12 payments, a correction", 3, year),
        kind("empty lines", 1, vec![b'\n'; LONGEST]),
        kind("one line without end", 1, vec![b'7'; LONGEST]),
        kind(
            "takes",
            1,
            filled("", (0..).map(|now| format!("T,{now},1"))),
        ),
        kind(
            "payments",
            1,
            filled(
                "T,100,86400\n",
                (0..).map(|of| format!("P,1,{}", 100_000 + of % 7_919)),
            ),
        ),
        kind(
            "120 bills, then bills refused",
            2,
            filled(
                &bills(120),
                (0..).map(|of| format!("B,1,3629,{},95,4", 480 + of % 97)),
            ),
        ),
        kind(
            "12 bills, corrections of 12 rows, payments",
            3,
            filled(
                &bills(12),
                (0..).map(|of| match of % 8 {
                    7 => format!("P,1,{}", 100_000 + of),
                    2 => String::from("C,1,X,s,0,y,0,11,D,40,90,85,50,25"),
                    _ => format!("C,1,O,s,0,y,0,11,M,{},900,0,0,0", 950 + of % 60),
                }),
            ),
        ),
        kind(
            "12 bills, corrections of one row",
            3,
            filled(
                &bills(12),
                (0..).map(|of| {
                    let row = of % 12;
                    match of % 3 {
                        0 => format!("C,1,O,s,0,y,{row},{row},M,{},900,0,0,0", 950 + of % 60),
                        1 => format!("C,1,X,s,0,y,{row},{row},D,40,90,85,50,25"),
                        _ => format!("C,1,U,c,{},n,{row},{row},M,850,900,0,0,0", 30 * row + 9),
                    }
                }),
            ),
        ),
        kind("runs of seven, corrected for absence", 4, runs),
        kind(
            "a run of a hundred, corrected for absence",
            4,
            filled(
                &format!(
                    "{}B,1,3029,480,100,4\nB,1,3059,490,100,4\nB,1,3089,500,100,4\n",
                    estimates(100)
                ),
                std::iter::repeat(String::from("C,1,A,s,0,n,0,99,L,100,0,0,0,0")),
            ),
        ),
        kind(
            "estimates past the sixth",
            2,
            filled(
                "T,100,86400\n",
                (0..).map(|of| format!("E,1,{},300,25,3", 30 * (of % 120) + 29)),
            ),
        ),
        kind(
            "a run of a hundred, estimates refused",
            2,
            filled(
                &format!("{}{}", estimates(100), "P,1,100000\n".repeat(924)),
                std::iter::repeat(String::from("E,1,3029,300,25,3")),
            ),
        ),
        kind(
            "12 bills, lines that methods refuse",
            1,
            repeated(&bills(12), &REFUSED_BY_METHODS),
        ),
        kind(
            "12 bills, lines that the account refuses",
            2,
            repeated(&bills(12), &REFUSED_BY_THE_ACCOUNT),
        ),
        kind("long figures, refused", 1, {
            let long = "1234567890123";
            let line = format!(
                "C,{long},X,s,{long},y,{long},{long},D,{long},{long},{long},{long},12345678901"
            );
            filled("", std::iter::repeat(line))
        }),
        kind(
            "lines of 141 bytes",
            1,
            filled("", std::iter::repeat("9".repeat(141))),
        ),
        kind("a session, mostly accepted", 4, session),
        kind("the same, damaged", 4, damaged),
    ]
}
