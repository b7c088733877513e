//! Answers a sheet of bench records: one record a line on standard input,
//! one answer for each on standard output.
//!
//! Records so far: chip, look, key, power, judge.

use std::io::{self, Read, Write};

// ---------------------------------------------------------------------------
// Units and the protection table

const UNITS: u32 = 62;
const ALL_UNITS: u64 = (1 << UNITS) - 1;
const ARRAY_BYTES: u32 = 0x20_0000;
const LAST_ADDRESS: u32 = ARRAY_BYTES - 1;

/// The unit that holds an address: 4 KB sectors in the first and the last
/// block, whole 64 KB blocks between them.
const fn unit_at(address: u32) -> u32 {
    let sector = address >> 12;
    match address >> 16 {
        0 => sector,
        31 => 46 + (sector & 15),
        block => 15 + block,
    }
}

/// The units that hold any byte from `first` to `last`.
const fn units_touched(first: u32, last: u32) -> u64 {
    (u64::MAX << unit_at(first)) & (u64::MAX >> (63 - unit_at(last)))
}

/// The set a protection code stands for, from
/// 32 CMP + 16 SEC + 8 TB + 4 BP2 + 2 BP1 + BP0.
const fn set_of_code(code: u32) -> u64 {
    let [cmp, sec, tb] = [code & 32 != 0, code & 16 != 0, code & 8 != 0];
    let bytes = match code % 8 {
        0 => 0,
        6 | 7 => ARRAY_BYTES,
        k if !sec => 0x1_0000 << (k - 1),
        4 | 5 => 0x8000,
        k => 0x1000 << (k - 1),
    };
    let set = if bytes == 0 {
        0
    } else if tb {
        units_touched(0, bytes - 1)
    } else {
        units_touched(ARRAY_BYTES - bytes, LAST_ADDRESS)
    };
    if cmp {
        ALL_UNITS & !set
    } else {
        set
    }
}

static SETS: [u64; 64] = {
    let mut sets = [0; 64];
    let mut code = 0;
    while code < 64 {
        sets[code] = set_of_code(code as u32);
        code += 1;
    }
    sets
};

// ---------------------------------------------------------------------------
// Parts and registers

const SRP: u8 = 0x80;
const WEL: u8 = 0x02;
const BUSY: u8 = 0x01;

const SUS: u8 = 0x80;
const CMP: u8 = 0x40;
const LB: u8 = 0x38;
const QE: u8 = 0x02;
const SRL: u8 = 0x01;

const WPS: u8 = 0x04;

#[derive(Clone, Copy, PartialEq, Eq, Debug)]
enum Part {
    Jw,
    Xa,
}

impl Part {
    const fn number(self) -> u32 {
        match self {
            Part::Jw => 0xEF_8015,
            Part::Xa => 0xEF_3015,
        }
    }

    fn of_number(number: u32) -> Option<Part> {
        match number {
            0xEF_8015 => Some(Part::Jw),
            0xEF_3015 => Some(Part::Xa),
            _ => None,
        }
    }

    /// The bits that can be set in each register, but for WEL and BUSY.
    const fn register_bits(self) -> Registers {
        match self {
            Part::Jw => Registers { sr1: 0xFC, sr2: 0xFB, sr3: 0xE4 },
            Part::Xa => Registers { sr1: 0xBC, sr2: 0, sr3: 0 },
        }
    }

    const fn lock_bits(self) -> u64 {
        match self {
            Part::Jw => ALL_UNITS,
            Part::Xa => 0,
        }
    }
}

#[derive(Clone, Copy, PartialEq, Eq, Debug)]
struct Registers {
    sr1: u8,
    sr2: u8,
    sr3: u8,
}

impl Registers {
    fn code(&self) -> usize {
        usize::from((self.sr2 & CMP) >> 1 | (self.sr1 & 0x7C) >> 2)
    }

    fn locked(&self, part: Part, wp: bool) -> bool {
        let by_pin = self.sr1 & SRP != 0 && !wp;
        match part {
            Part::Jw => self.sr2 & SRL != 0 || (by_pin && self.sr2 & QE == 0),
            Part::Xa => by_pin,
        }
    }
}

// ---------------------------------------------------------------------------
// The chip

#[derive(Clone, Copy, PartialEq, Eq, Debug)]
enum Arming {
    None,
    Volatile,
    Stored,
}

#[derive(Clone, Copy)]
enum Exchange<'a> {
    Sr1,
    Sr2,
    Sr3,
    PartNumber,
    Lock(u32),
    /// A command's code and its bytes. No record sends one yet.
    #[allow(dead_code)]
    Command(u8, &'a [u8]),
}

/// The cable carries no further exchange.
#[derive(Debug, PartialEq, Eq)]
struct Down;

#[derive(Debug)]
struct Chip {
    part: Part,
    working: Registers,
    stored: Registers,
    locks: u64,
    arming: Arming,
    busy: u32,
    slow: u32,
    wp: bool,
    carry: u32,
}

impl Chip {
    fn new(part: Part, given: Registers, locks: u64, wp: bool, slow: u32, carry: u32) -> Chip {
        Chip {
            part,
            working: given,
            stored: Registers { sr2: given.sr2 & !(SRL | SUS), ..given },
            locks,
            arming: Arming::None,
            busy: 0,
            slow,
            wp,
            carry,
        }
    }

    /// One exchange over the cable: the number asked for, or 0 for a command
    /// that was carried, whether the chip took it or not. Inlined, since every
    /// caller knows which exchange it makes and needs but one arm of this.
    #[inline(always)]
    fn exchange(&mut self, exchange: Exchange) -> Result<u32, Down> {
        self.carry = self.carry.checked_sub(1).ok_or(Down)?;
        let idle = self.busy == 0;
        Ok(match exchange {
            Exchange::Sr1 => {
                let wel = if self.arming == Arming::Stored { WEL } else { 0 };
                let busy = if idle { 0 } else { BUSY };
                self.busy = self.busy.saturating_sub(1);
                u32::from(self.working.sr1 | wel | busy)
            }
            Exchange::Sr2 if idle => u32::from(self.working.sr2),
            Exchange::Sr3 if idle => u32::from(self.working.sr3),
            Exchange::PartNumber if idle => self.part.number(),
            Exchange::Lock(unit) if idle => self.locks.checked_shr(unit).unwrap_or(0) as u32 & 1,
            Exchange::Sr2 | Exchange::Sr3 => 0xFF,
            Exchange::PartNumber => 0xFF_FFFF,
            Exchange::Lock(_) => 1,
            Exchange::Command(code, bytes) => {
                if idle {
                    self.command(code, bytes);
                }
                0
            }
        })
    }

    fn command(&mut self, code: u8, bytes: &[u8]) {
        match (self.part, code, bytes) {
            (_, 0x06, []) => self.arming = Arming::Stored,
            (_, 0x04, []) => self.arming = Arming::None,
            (Part::Jw, 0x50, []) => self.arming = Arming::Volatile,
            (_, 0x01, &[sr1]) => self.write(Some(sr1), None, None),
            (Part::Jw, 0x01, &[sr1, sr2]) => self.write(Some(sr1), Some(sr2), None),
            (Part::Jw, 0x31, &[sr2]) => self.write(None, Some(sr2), None),
            (Part::Jw, 0x11, &[sr3]) => self.write(None, None, Some(sr3)),
            (Part::Jw, 0x36 | 0x39, &[high, middle, low]) => {
                let address = u32::from_be_bytes([0, high, middle, low]);
                if address <= LAST_ADDRESS {
                    self.set_locks(1 << unit_at(address), code == 0x36);
                }
            }
            (Part::Jw, 0x7E | 0x98, []) => self.set_locks(ALL_UNITS, code == 0x7E),
            _ => {}
        }
    }

    /// Writes the registers given. LB bits, once set, stay set; the stored SRL
    /// and SUS stay 0.
    fn write(&mut self, sr1: Option<u8>, sr2: Option<u8>, sr3: Option<u8>) {
        let refused = self.arming == Arming::None
            || self.working.locked(self.part, self.wp)
            || self.working.sr2 & SUS != 0;
        if refused {
            return;
        }
        let bits = self.part.register_bits();
        let written = |old: Registers, sr2_bits: u8| Registers {
            sr1: sr1.map_or(old.sr1, |new| new & bits.sr1),
            sr2: sr2.map_or(old.sr2, |new| new & sr2_bits | old.sr2 & LB),
            sr3: sr3.map_or(old.sr3, |new| new & bits.sr3),
        };
        self.working = written(self.working, bits.sr2 & !SUS);
        if self.arming == Arming::Stored {
            self.stored = written(self.stored, bits.sr2 & !(SUS | SRL));
            self.busy = self.slow;
        }
        self.arming = Arming::None;
    }

    fn set_locks(&mut self, units: u64, lock: bool) {
        if self.arming != Arming::Stored {
            return;
        }
        if lock {
            self.locks |= units;
        } else {
            self.locks &= !units;
        }
        self.arming = Arming::None;
    }

    fn key(&mut self, wp: bool) {
        self.wp = wp;
    }

    fn power(&mut self) {
        self.working = self.stored;
        self.locks = self.part.lock_bits();
        self.arming = Arming::None;
        self.busy = 0;
    }
}

// ---------------------------------------------------------------------------
// The session

const MOST_STATUS_READS: u32 = 100;

/// A refusal: its number and the place it is told by.
#[derive(Clone, Copy, PartialEq, Eq, Debug)]
struct No {
    number: u32,
    place: usize,
}

impl No {
    const BLIND: No = No { number: 8, place: 0 };

    const fn new(number: u32, place: usize) -> No {
        No { number, place }
    }
}

/// What ends a run before it is done.
#[derive(Clone, Copy, PartialEq, Eq, Debug)]
enum Fault {
    Down,
    StillBusy,
    UnknownPart,
}

impl From<Down> for Fault {
    fn from(_: Down) -> Fault {
        Fault::Down
    }
}

impl From<Fault> for No {
    fn from(fault: Fault) -> No {
        match fault {
            Fault::Down => No::new(14, 0),
            Fault::StillBusy => No::new(15, 0),
            Fault::UnknownPart => No::new(16, 0),
        }
    }
}

/// The chip as last seen.
#[derive(Debug)]
struct Picture {
    part: Part,
    registers: Registers,
    locks: u64,
    /// Nothing asks for the level yet.
    #[allow(dead_code)]
    wp: bool,
}

impl Picture {
    fn protected(&self) -> u64 {
        if self.registers.sr3 & WPS != 0 {
            self.locks
        } else {
            SETS[self.registers.code()]
        }
    }

    fn obeys(&self, command: ArrayCommand, address: u32) -> bool {
        if command == ArrayCommand::HalfBlock && self.part == Part::Xa {
            return false;
        }
        let last_offset = command.bytes() - 1;
        let region = units_touched(address & !last_offset, address | last_offset);
        self.protected() & region == 0
    }
}

/// The commands that alter the array.
#[derive(Clone, Copy, PartialEq, Eq, Debug)]
enum ArrayCommand {
    Page,
    Sector,
    HalfBlock,
    Block,
    All,
}

impl ArrayCommand {
    const fn of_code(code: u64) -> Option<ArrayCommand> {
        Some(match code {
            0x02 => ArrayCommand::Page,
            0x20 => ArrayCommand::Sector,
            0x52 => ArrayCommand::HalfBlock,
            0xD8 => ArrayCommand::Block,
            0xC7 => ArrayCommand::All,
            _ => return None,
        })
    }

    /// The size of the aligned region it alters.
    const fn bytes(self) -> u32 {
        match self {
            ArrayCommand::Page => 0x100,
            ArrayCommand::Sector => 0x1000,
            ArrayCommand::HalfBlock => 0x8000,
            ArrayCommand::Block => 0x1_0000,
            ArrayCommand::All => ARRAY_BYTES,
        }
    }
}

/// A chip and what is known of it; without a picture the session is blind.
#[derive(Debug)]
struct Session {
    chip: Chip,
    picture: Option<Picture>,
}

impl Session {
    fn open(chip: Chip) -> Session {
        Session { chip, picture: None }
    }

    /// Looks at the chip and gives the protected set.
    fn look(&mut self) -> Result<u64, Fault> {
        self.picture = None;
        let picture = self.take_picture()?;
        let set = picture.protected();
        self.picture = Some(picture);
        Ok(set)
    }

    fn take_picture(&mut self) -> Result<Picture, Fault> {
        let sr1 = self.wait_idle()?;
        let chip = &mut self.chip;
        let number = chip.exchange(Exchange::PartNumber)?;
        let part = Part::of_number(number).ok_or(Fault::UnknownPart)?;
        let mut registers = Registers { sr1, sr2: 0, sr3: 0 };
        let mut locks = 0;
        if part == Part::Jw {
            registers.sr2 = chip.exchange(Exchange::Sr2)? as u8;
            registers.sr3 = chip.exchange(Exchange::Sr3)? as u8;
            for unit in 0..UNITS {
                locks |= u64::from(chip.exchange(Exchange::Lock(unit))?) << unit;
            }
        }
        Ok(Picture { part, registers, locks, wp: chip.wp })
    }

    /// Reads SR1 until it shows the chip idle.
    fn wait_idle(&mut self) -> Result<u8, Fault> {
        for _ in 0..MOST_STATUS_READS {
            let sr1 = self.chip.exchange(Exchange::Sr1)? as u8;
            if sr1 & BUSY == 0 {
                return Ok(sr1);
            }
        }
        Err(Fault::StillBusy)
    }

    fn key(&mut self, wp: bool) {
        self.chip.key(wp);
        if let Some(picture) = &mut self.picture {
            picture.wp = wp;
        }
    }

    fn power(&mut self) {
        self.chip.power();
        self.picture = None;
    }
}

// ---------------------------------------------------------------------------
// Reading a line

const MOST_LINE_BYTES: usize = 200;

/// A part of a line, with the place it starts at.
#[derive(Clone, Copy)]
struct Field<'a> {
    text: &'a [u8],
    place: usize,
}

fn hex_digit(byte: u8) -> Option<u8> {
    match byte {
        b'0'..=b'9' => Some(byte - b'0'),
        b'A'..=b'F' => Some(byte - b'A' + 10),
        _ => None,
    }
}

impl Field<'_> {
    fn wrong_at(&self, offset: usize) -> No {
        No::new(4, self.place + offset)
    }

    fn hex(&self, digits: usize) -> Result<u64, No> {
        if self.text.len() != digits {
            return Err(self.wrong_at(0));
        }
        let mut value = 0;
        for (offset, &byte) in self.text.iter().enumerate() {
            let digit = hex_digit(byte).ok_or_else(|| self.wrong_at(offset))?;
            value = value << 4 | u64::from(digit);
        }
        Ok(value)
    }

    /// A hexadecimal number with no bit set but those allowed.
    fn bits(&self, digits: usize, allowed: u64) -> Result<u64, No> {
        let value = self.hex(digits)?;
        if value & !allowed != 0 {
            return Err(self.wrong_at(0));
        }
        Ok(value)
    }

    fn register(&self, allowed: u8) -> Result<u8, No> {
        Ok(self.bits(2, u64::from(allowed))? as u8)
    }

    fn level(&self) -> Result<bool, No> {
        Ok(self.bits(1, 1)? == 1)
    }

    /// A decimal number without leading zeros.
    fn decimal(&self, most_digits: usize, most: u32) -> Result<u32, No> {
        if self.text.is_empty() || self.text.len() > most_digits {
            return Err(self.wrong_at(0));
        }
        let mut value = 0;
        for (offset, &byte) in self.text.iter().enumerate() {
            if !byte.is_ascii_digit() {
                return Err(self.wrong_at(offset));
            }
            value = value * 10 + u32::from(byte - b'0');
        }
        let leading_zero = self.text.len() > 1 && self.text[0] == b'0';
        if leading_zero || value > most {
            return Err(self.wrong_at(0));
        }
        Ok(value)
    }

    fn part(&self) -> Result<Part, No> {
        match self.text {
            b"JW" => Ok(Part::Jw),
            b"XA" => Ok(Part::Xa),
            _ => Err(self.wrong_at(0)),
        }
    }
}

/// Takes a line apart into its word and its other fields, `N` in all.
fn fields<const N: usize>(line: &[u8]) -> Result<[Field<'_>; N], No> {
    let wrong_count = No::new(3, line.len());
    let mut fields = [Field { text: &[], place: 0 }; N];
    let mut place = 0;
    let mut count = 0;
    for text in line.split(|&byte| byte == b'\t') {
        *fields.get_mut(count).ok_or(wrong_count)? = Field { text, place };
        place += text.len() + 1;
        count += 1;
    }
    if count == N {
        Ok(fields)
    } else {
        Err(wrong_count)
    }
}

#[derive(Debug)]
enum Record {
    Chip(Chip),
    Look,
    Key(bool),
    Power,
    Judge(ArrayCommand, u32),
}

impl Record {
    /// Reads a line, refusing all that is wrong with the line itself.
    fn read(line: &[u8]) -> Result<Record, No> {
        let head = &line[..line.len().min(MOST_LINE_BYTES)];
        if let Some(place) = head.iter().position(|byte| !matches!(byte, b'\t' | b' '..=b'~')) {
            return Err(No::new(1, place));
        }
        if line.len() > MOST_LINE_BYTES {
            return Err(No::new(1, MOST_LINE_BYTES));
        }
        let word_end = line.iter().position(|&byte| byte == b'\t').unwrap_or(line.len());
        match &line[..word_end] {
            b"chip" => Record::read_chip(line),
            b"look" => fields::<1>(line).map(|_| Record::Look),
            b"key" => {
                let [_, level] = fields(line)?;
                Ok(Record::Key(level.level()?))
            }
            b"power" => fields::<1>(line).map(|_| Record::Power),
            b"judge" => Record::read_judge(line),
            _ => Err(No::new(2, 0)),
        }
    }

    fn read_chip(line: &[u8]) -> Result<Record, No> {
        let [_, part, sr1, sr2, sr3, locks, wp, slow, carry] = fields(line)?;
        let part = part.part()?;
        let bits = part.register_bits();
        let given = Registers {
            sr1: sr1.register(bits.sr1)?,
            sr2: sr2.register(bits.sr2)?,
            sr3: sr3.register(bits.sr3)?,
        };
        let locks = locks.bits(16, part.lock_bits())?;
        let wp = wp.level()?;
        let slow = slow.decimal(4, 1_000)?;
        let carry = carry.decimal(7, 1_000_000)?;
        Ok(Record::Chip(Chip::new(part, given, locks, wp, slow, carry)))
    }

    fn read_judge(line: &[u8]) -> Result<Record, No> {
        let [_, code, address] = fields(line)?;
        let command = ArrayCommand::of_code(code.hex(2)?).ok_or(code.wrong_at(0))?;
        let at = address.hex(6)? as u32;
        if at > LAST_ADDRESS {
            return Err(No::new(5, address.place));
        }
        Ok(Record::Judge(command, at))
    }
}

// ---------------------------------------------------------------------------
// Answering

enum Answer {
    Ok,
    Seen(u64),
    Obeyed,
    Ignored,
}

/// The bench has no session until the first good chip line.
#[derive(Default)]
struct Bench {
    session: Option<Session>,
}

impl Bench {
    fn session(&mut self) -> Result<&mut Session, No> {
        self.session.as_mut().ok_or(No::BLIND)
    }

    fn answer(&mut self, line: &[u8]) -> Result<Answer, No> {
        match Record::read(line)? {
            Record::Chip(chip) => {
                self.session = Some(Session::open(chip));
                Ok(Answer::Ok)
            }
            Record::Look => Ok(Answer::Seen(self.session()?.look()?)),
            Record::Key(wp) => {
                self.session()?.key(wp);
                Ok(Answer::Ok)
            }
            Record::Power => {
                self.session()?.power();
                Ok(Answer::Ok)
            }
            Record::Judge(command, address) => {
                let picture = self.session()?.picture.as_ref().ok_or(No::BLIND)?;
                if picture.obeys(command, address) {
                    Ok(Answer::Obeyed)
                } else {
                    Ok(Answer::Ignored)
                }
            }
        }
    }
}

fn push_hex16(out: &mut Vec<u8>, value: u64) {
    out.extend(
        (0..16).rev().map(|digit| b"0123456789ABCDEF"[(value >> (4 * digit)) as usize & 15]),
    );
}

fn push_decimal(out: &mut Vec<u8>, value: usize) {
    if value >= 10 {
        push_decimal(out, value / 10);
    }
    out.push(b'0' + (value % 10) as u8);
}

fn push_answer(out: &mut Vec<u8>, answer: Result<Answer, No>) {
    match answer {
        Ok(Answer::Ok) => out.extend_from_slice(b"ok"),
        Ok(Answer::Seen(set)) => {
            out.extend_from_slice(b"seen ");
            push_hex16(out, set);
        }
        Ok(Answer::Obeyed) => out.extend_from_slice(b"obeyed"),
        Ok(Answer::Ignored) => out.extend_from_slice(b"ignored"),
        Err(No { number, place }) => {
            out.extend_from_slice(b"no ");
            push_decimal(out, number as usize);
            out.push(b' ');
            push_decimal(out, place);
        }
    }
    out.push(b'\n');
}

fn answer_sheet(sheet: &[u8]) -> Vec<u8> {
    let mut out = Vec::with_capacity(sheet.len());
    let mut bench = Bench::default();
    for line in sheet.split_inclusive(|&byte| byte == b'\n') {
        let line = line.strip_suffix(b"\n").unwrap_or(line);
        push_answer(&mut out, bench.answer(line));
    }
    out
}

fn main() -> io::Result<()> {
    let mut sheet = Vec::new();
    io::stdin().lock().read_to_end(&mut sheet)?;
    io::stdout().lock().write_all(&answer_sheet(&sheet))
}

#[cfg(test)]
mod tests {
    use super::*;

    /// Each line of a sheet, with `>` for a tab, beside its answer.
    fn check(lines: &[(&str, &str)]) {
        let sheet: Vec<String> = lines.iter().map(|line| line.0.replace('>', "\t")).collect();
        let answers: String = lines.iter().map(|line| format!("{}\n", line.1)).collect();
        let given = answer_sheet(sheet.join("\n").as_bytes());
        assert_eq!(String::from_utf8(given).unwrap(), answers);
    }

    #[test]
    fn table() {
        assert_eq!(SETS[1], 0x3FFF_C000_0000_0000);
        assert_eq!(SETS[20], 0x3FC0_0000_0000_0000);
        assert_eq!(SETS[21], SETS[20]);
        assert_eq!(SETS[38], 0);
        assert_eq!(SETS[13], units_touched(0, 0x0F_FFFF));
        assert_eq!(SETS[37], SETS[13]);
        assert_eq!(SETS[32], ALL_UNITS);
        assert_eq!(SETS[25], 1);
        assert_eq!(SETS[57], ALL_UNITS - 1);
        assert_eq!(SETS[27], 0xF);
        assert_eq!(SETS[28], 0xFF);
        assert_eq!(SETS[9], 0xFFFF);
        assert_eq!(SETS[10], 0x1_FFFF);
        assert_eq!(SETS[12], 0x7F_FFFF);
        assert_eq!(SETS[5], 0x3FFF_FFFF_8000_0000);
    }

    #[test]
    fn ends_of_lines() {
        assert_eq!(answer_sheet(b""), b"");
        assert_eq!(answer_sheet(b"\n"), b"no 2 0\n");
        assert_eq!(answer_sheet(b"look"), b"no 8 0\n");
        assert_eq!(answer_sheet(b"look\n"), b"no 8 0\n");
        assert_eq!(answer_sheet(b"look\n\n"), b"no 8 0\nno 2 0\n");
        assert_eq!(answer_sheet(b"look\r\n"), b"no 1 4\n");
    }

    #[test]
    fn lines_as_such() {
        let at_most = format!("look{}", ">".repeat(196));
        let too_long = format!("look{}", ">".repeat(197));
        let bad_at_199 = format!("{}\x7F{}", "x".repeat(199), "x".repeat(9));
        let bad_at_200 = format!("{}\x7F{}", "x".repeat(200), "x".repeat(9));
        let bad_later = format!("{}\x7F", "x".repeat(230));
        check(&[
            (&at_most, "no 3 200"),
            (&too_long, "no 1 200"),
            (&bad_at_199, "no 1 199"),
            (&bad_at_200, "no 1 200"),
            (&bad_later, "no 1 200"),
            ("a\x01\x02", "no 1 1"),
            ("~ ", "no 2 0"),
            ("\u{e9}", "no 1 0"),
            ("Look", "no 2 0"),
            ("look ", "no 2 0"),
            (">look", "no 2 0"),
            ("reach>now", "no 2 0"),
            ("look>", "no 3 5"),
            ("power>1", "no 3 7"),
            ("key", "no 3 3"),
            ("key>", "no 4 4"),
            ("key>2", "no 4 4"),
            ("key>01", "no 4 4"),
            ("key>1>", "no 3 6"),
            ("key>1", "no 8 0"),
            ("power", "no 8 0"),
        ]);
    }

    #[test]
    fn chip_fields() {
        check(&[
            ("chip>JW>00>00>00>3FFFFFFFFFFFFFFF>1>0", "no 3 37"),
            ("chip>JX>00>00>00>3FFFFFFFFFFFFFFF>1>0>0", "no 4 5"),
            ("chip>>00>00>00>3FFFFFFFFFFFFFFF>1>0>0", "no 4 5"),
            ("chip>JW>0g>00>00>3FFFFFFFFFFFFFFF>1>0>0", "no 4 9"),
            ("chip>JW>02>00>00>3FFFFFFFFFFFFFFF>1>0>0", "no 4 8"),
            ("chip>JW>01>zz>00>3FFFFFFFFFFFFFFF>1>0>0", "no 4 8"),
            ("chip>JW>FC>04>00>3FFFFFFFFFFFFFFF>1>0>0", "no 4 11"),
            ("chip>JW>FC>FB>08>3FFFFFFFFFFFFFFF>1>0>0", "no 4 14"),
            ("chip>JW>FC>FB>E4>7FFFFFFFFFFFFFFF>1>0>0", "no 4 17"),
            ("chip>JW>FC>FB>E4>3FFFFFFFFFFFFFF>1>0>0", "no 4 17"),
            ("chip>JW>FC>FB>E4>FFFFFFFFFFFFFFFa>1>0>0", "no 4 32"),
            ("chip>JW>FC>FB>E4>3FFFFFFFFFFFFFFF>2>0>0", "no 4 34"),
            ("chip>JW>FC>FB>E4>3FFFFFFFFFFFFFFF>1>>0", "no 4 36"),
            ("chip>JW>FC>FB>E4>3FFFFFFFFFFFFFFF>1>00>0", "no 4 36"),
            ("chip>JW>FC>FB>E4>3FFFFFFFFFFFFFFF>1>0A>0", "no 4 37"),
            ("chip>JW>FC>FB>E4>3FFFFFFFFFFFFFFF>1>1001>0", "no 4 36"),
            ("chip>JW>FC>FB>E4>3FFFFFFFFFFFFFFF>1>0000A>0", "no 4 36"),
            ("chip>JW>FC>FB>E4>3FFFFFFFFFFFFFFF>1>1000>1000001", "no 4 41"),
            ("chip>JW>FC>FB>E4>3FFFFFFFFFFFFFFF>1>1000>00000001", "no 4 41"),
            ("chip>JW>FC>FB>E4>3FFFFFFFFFFFFFFF>1>1000>0000-01", "no 4 45"),
            ("look", "no 8 0"),
            ("chip>JW>FC>FB>E4>3FFFFFFFFFFFFFFF>1>1000>1000000", "ok"),
            ("look", "seen 3FFFFFFFFFFFFFFF"),
            ("chip>XA>40>00>00>0000000000000000>0>0>9", "no 4 8"),
            ("chip>XA>00>01>00>0000000000000000>0>0>9", "no 4 11"),
            ("chip>XA>00>00>04>0000000000000000>0>0>9", "no 4 14"),
            ("chip>XA>00>00>00>0000000000000001>0>0>9", "no 4 17"),
            ("judge>02>000000", "ignored"),
            ("chip>XA>BC>00>00>0000000000000000>0>0>9", "ok"),
            ("judge>02>000000", "no 8 0"),
            ("look", "seen 3FFFFFFFFFFFFFFF"),
        ]);
    }

    #[test]
    fn looking_costs_carry() {
        check(&[
            ("chip>XA>04>00>00>0000000000000000>0>0>5", "ok"),
            ("look", "seen 3FFFC00000000000"),
            ("judge>52>000000", "ignored"),
            ("judge>D8>000000", "obeyed"),
            ("look", "seen 3FFFC00000000000"),
            ("look", "no 14 0"),
            ("judge>D8>000000", "no 8 0"),
            ("key>1", "ok"),
            ("power", "ok"),
            ("look", "no 14 0"),
            ("chip>JW>00>00>00>0000000000000000>0>0>65", "ok"),
            ("look", "no 14 0"),
            ("chip>JW>00>00>00>0000000000000000>0>0>131", "ok"),
            ("look", "seen 0000000000000000"),
            ("look", "no 14 0"),
            ("chip>JW>00>00>00>0000000000000000>0>0>132", "ok"),
            ("look", "seen 0000000000000000"),
            ("look", "seen 0000000000000000"),
            ("look", "no 14 0"),
        ]);
    }

    #[test]
    fn power_brings_the_stored_state() {
        check(&[
            ("chip>JW>00>81>04>0000000000010001>0>0>999", "ok"),
            ("look", "seen 0000000000010001"),
            ("judge>20>000FFF", "ignored"),
            ("judge>20>001000", "obeyed"),
            ("judge>52>007FFF", "ignored"),
            ("judge>52>008000", "obeyed"),
            ("judge>D8>00F000", "ignored"),
            ("judge>02>01FFFF", "ignored"),
            ("judge>02>020000", "obeyed"),
            ("judge>C7>1FFFFF", "ignored"),
            ("judge>60>1FFFFG", "no 4 6"),
            ("judge>20>1FFFFG", "no 4 14"),
            ("judge>20>200000", "no 5 9"),
            ("key>0", "ok"),
            ("judge>20>001000", "obeyed"),
            ("power", "ok"),
            ("judge>20>200000", "no 5 9"),
            ("judge>20>001000", "no 8 0"),
            ("look", "seen 3FFFFFFFFFFFFFFF"),
        ]);
    }

    fn jw(sr1: u8, sr2: u8, sr3: u8, slow: u32) -> Chip {
        Chip::new(Part::Jw, Registers { sr1, sr2, sr3 }, ALL_UNITS, false, slow, 1_000)
    }

    fn send(chip: &mut Chip, code: u8, bytes: &[u8]) {
        assert_eq!(chip.exchange(Exchange::Command(code, bytes)), Ok(0));
    }

    #[test]
    fn commands() {
        let mut chip = jw(0, 0, 0, 2);
        send(&mut chip, 0x01, &[4]);
        assert_eq!(chip.exchange(Exchange::Sr1), Ok(0));
        send(&mut chip, 0x50, &[]);
        assert_eq!(chip.exchange(Exchange::Sr1), Ok(0));
        send(&mut chip, 0x01, &[0xFF, 0xFE]);
        assert_eq!(chip.exchange(Exchange::Sr1), Ok(0xFC));
        assert_eq!(chip.exchange(Exchange::Sr2), Ok(0x7A));
        send(&mut chip, 0x06, &[]);
        assert_eq!(chip.exchange(Exchange::Sr1), Ok(0xFE));
        send(&mut chip, 0x31, &[0x01]);
        assert_eq!(chip.exchange(Exchange::Sr2), Ok(0xFF));
        assert_eq!(chip.exchange(Exchange::PartNumber), Ok(0xFF_FFFF));
        assert_eq!(chip.exchange(Exchange::Lock(70)), Ok(1));
        assert_eq!(chip.exchange(Exchange::Sr1), Ok(0xFD));
        assert_eq!(chip.exchange(Exchange::Sr1), Ok(0xFD));
        assert_eq!(chip.exchange(Exchange::Sr1), Ok(0xFC));
        assert_eq!(chip.exchange(Exchange::Sr2), Ok(0x39));
        send(&mut chip, 0x06, &[]);
        send(&mut chip, 0x11, &[0x04]);
        assert_eq!(chip.exchange(Exchange::Sr3), Ok(0));
        assert_eq!(chip.exchange(Exchange::Sr1), Ok(0xFE));
        send(&mut chip, 0x39, &[0x20, 0, 0]);
        assert_eq!(chip.exchange(Exchange::Sr1), Ok(0xFE));
        send(&mut chip, 0x39, &[0x1E, 0xFF, 0xFF]);
        assert_eq!(chip.exchange(Exchange::Lock(45)), Ok(0));
        assert_eq!(chip.exchange(Exchange::Lock(46)), Ok(1));
        assert_eq!(chip.exchange(Exchange::Lock(62)), Ok(0));
        assert_eq!(chip.exchange(Exchange::Sr1), Ok(0xFC));
        chip.power();
        assert_eq!(chip.working, Registers { sr1: 0, sr2: 0, sr3: 0 });
        assert_eq!(chip.locks, ALL_UNITS);
        chip.carry = 0;
        assert_eq!(chip.exchange(Exchange::Sr1), Err(Down));
    }

    #[test]
    fn waiting_has_an_end() {
        for (slow, seen) in [(99, Ok(SETS[1])), (100, Err(Fault::StillBusy))].iter() {
            let mut session = Session::open(jw(0, 0, 0, *slow));
            send(&mut session.chip, 0x06, &[]);
            send(&mut session.chip, 0x01, &[4]);
            assert_eq!(session.look(), *seen);
            assert_eq!(session.picture.is_some(), seen.is_ok());
        }
    }
}
