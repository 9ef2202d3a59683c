//! Plain Rust callers and servers of Courier calls over a stream of items. With `--cfg plain` as one would write them first: a message's
//! bytes are joined and read as a message with words of its own, and a message that goes out is made of words, then bytes, then items.
//! Without it as one would tune them: words are read where the joined bytes lie, and written straight into items. Both know all of
//! Courier's data types, and do what the proved one does: the same faults, rejects and aborts, no more room made than there are words, no
//! call made that is too long, and a session that has failed stays failed. That a service's outcomes fit what is listed is left to the
//! service, as it is in the proved one, where it is proved; want of memory is not told. It makes as many calls Add of 5 to a tally as its
//! first word says, and then as many calls of 60,000 cardinals each way as the second says.

#[path = "peer/values.rs"]
mod values;

use std::collections::VecDeque;
use std::env;
use std::hint::black_box;
use values::{Shape, Value, put};

/// Words that lie two bytes each.
#[cfg(not(plain))]
struct Words<'a> {
    bytes: &'a [u8],
}

#[cfg(not(plain))]
impl<'a> Words<'a> {
    fn left(&self) -> usize {
        self.bytes.len() / 2
    }

    fn word(&mut self) -> Option<u16> {
        let [high, low, rest @ ..] = self.bytes else {
            return None;
        };
        self.bytes = rest;
        Some(u16::from_be_bytes([*high, *low]))
    }

    fn text(&mut self) -> Option<Vec<u8>> {
        let count = usize::from(self.word()?);
        let text = self.bytes.get(..count)?.to_vec();
        self.bytes = self.bytes.get(count.next_multiple_of(2)..)?;
        Some(text)
    }
}

/// Words of a message.
#[cfg(plain)]
struct Words<'a> {
    words: &'a [u16],
}

#[cfg(plain)]
impl<'a> Words<'a> {
    fn left(&self) -> usize {
        self.words.len()
    }

    fn word(&mut self) -> Option<u16> {
        let [word, rest @ ..] = self.words else {
            return None;
        };
        self.words = rest;
        Some(*word)
    }

    fn text(&mut self) -> Option<Vec<u8>> {
        let count = usize::from(self.word()?);
        let words = self.words.get(..count.div_ceil(2))?;
        self.words = &self.words[words.len()..];
        let mut text: Vec<u8> = words.iter().flat_map(|word| word.to_be_bytes()).collect();
        text.truncate(count);
        Some(text)
    }
}

impl<'a> Words<'a> {
    fn long(&mut self) -> Option<u32> {
        let high = self.word()?;
        let low = self.word()?;
        Some(u32::from(high) << 16 | u32::from(low))
    }

    fn values(&mut self, count: u16, element: &Shape) -> Option<Vec<Value>> {
        let mut values = Vec::with_capacity(usize::from(count).min(self.left()));
        for _ in 0..count {
            values.push(self.value(element)?);
        }
        Some(values)
    }

    fn value(&mut self, shape: &Shape) -> Option<Value> {
        Some(match shape {
            Shape::Boolean => match self.word()? {
                0 => Value::Boolean(false),
                1 => Value::Boolean(true),
                _ => return None,
            },
            Shape::Cardinal => Value::Cardinal(self.word()?),
            Shape::LongCardinal => Value::LongCardinal(self.long()?),
            Shape::Integer => Value::Integer(self.word()? as i16),
            Shape::LongInteger => Value::LongInteger(self.long()? as i32),
            Shape::Unspecified => Value::Unspecified(self.word()?),
            Shape::Text => Value::Text(self.text()?),
            Shape::Enumeration(listed) => Value::Enumeration(self.word().filter(|word| listed.contains(word))?),
            Shape::Array(count, element) => Value::Array(self.values(*count, element)?),
            Shape::Sequence(most, element) => {
                let count = self.word().filter(|count| count <= most)?;
                Value::Sequence(self.values(count, element)?)
            }
            Shape::Fields(parts) => {
                let mut values = Vec::with_capacity(parts.len());
                for part in parts {
                    values.push(self.value(part)?);
                }
                Value::Fields(values)
            }
            Shape::Choice(members) => {
                let designator = self.word()?;
                let member = members.iter().find(|member| member.0 == designator)?;
                Value::Choice(designator, Box::new(self.value(&member.1)?))
            }
        })
    }
}

/// The value that all the words are.
fn read_whole(shape: &Shape, mut words: Words) -> Option<Value> {
    let value = words.value(shape)?;
    (words.left() == 0).then_some(value)
}

fn fits(shape: &Shape, value: &Value) -> bool {
    match (shape, value) {
        (Shape::Boolean, Value::Boolean(_))
        | (Shape::Cardinal, Value::Cardinal(_))
        | (Shape::LongCardinal, Value::LongCardinal(_))
        | (Shape::Integer, Value::Integer(_))
        | (Shape::LongInteger, Value::LongInteger(_))
        | (Shape::Unspecified, Value::Unspecified(_)) => true,
        (Shape::Text, Value::Text(bytes)) => bytes.len() < 65_536,
        (Shape::Enumeration(listed), Value::Enumeration(word)) => listed.contains(word),
        (Shape::Array(count, element), Value::Array(values)) => {
            values.len() == usize::from(*count) && values.iter().all(|value| fits(element, value))
        }
        (Shape::Sequence(most, element), Value::Sequence(values)) => {
            values.len() <= usize::from(*most) && values.iter().all(|value| fits(element, value))
        }
        (Shape::Fields(parts), Value::Fields(values)) => {
            parts.len() == values.len() && parts.iter().zip(values).all(|(part, value)| fits(part, value))
        }
        (Shape::Choice(members), Value::Choice(designator, value)) => {
            members.iter().find(|member| member.0 == *designator).is_some_and(|member| fits(&member.1, value))
        }
        _ => false,
    }
}

struct Item {
    stream: u8,
    last: bool,
    body: Vec<u8>,
}

struct Procedure {
    number: u16,
    arguments: Shape,
    results: Shape,
}

struct ErrorEntry {
    number: u16,
    arguments: Shape,
}

struct Entry {
    program: u32,
    low: u16,
    high: u16,
    procedures: Vec<Procedure>,
    errors: Vec<ErrorEntry>,
}

impl Entry {
    fn error(&self, number: u16) -> Option<&ErrorEntry> {
        self.errors.iter().find(|error| error.number == number)
    }
}

struct Table {
    entries: Vec<Entry>,
}

/// Why a call is not listed.
enum Unlisted {
    Program,
    Version(u16, u16),
    Procedure,
}

impl Table {
    fn find(&self, program: u32, version: u16, number: u16) -> Result<(&Entry, &Procedure), Unlisted> {
        let entry = self.entries.iter().find(|entry| entry.program == program).ok_or(Unlisted::Program)?;
        if version < entry.low || version > entry.high {
            return Err(Unlisted::Version(entry.low, entry.high));
        }
        let procedure = entry.procedures.iter().find(|procedure| procedure.number == number).ok_or(Unlisted::Procedure)?;
        Ok((entry, procedure))
    }
}

/// Why a session stopped.
#[allow(dead_code)]
enum SessionFault {
    NoCommonVersion,
    BadVersions,
    OddLength,
    ShortMessage,
    UnknownKind(u16),
    TooLong,
    WrongTransaction,
    BadReply,
    Stream(u8),
    Failed,
}

/// Why a call was not made.
enum CallFault {
    Busy,
    BadArguments,
    TooLong,
    Failed,
}

/// A message without its words.
enum Head {
    Call { transaction: u16, program: u32, version: u16, procedure: u16 },
    Reject { transaction: u16, reason: u16 },
    Return { transaction: u16 },
    Abort { transaction: u16, error: u16 },
}

fn head_of(words: &mut Words) -> Result<Head, SessionFault> {
    let mut word = || words.word().ok_or(SessionFault::ShortMessage);
    let (kind, transaction) = (word()?, word()?);
    Ok(match kind {
        0 => Head::Call {
            transaction,
            program: words.long().ok_or(SessionFault::ShortMessage)?,
            version: words.word().ok_or(SessionFault::ShortMessage)?,
            procedure: words.word().ok_or(SessionFault::ShortMessage)?,
        },
        1 => Head::Reject { transaction, reason: word()? },
        2 => Head::Return { transaction },
        3 => Head::Abort { transaction, error: word()? },
        _ => return Err(SessionFault::UnknownKind(kind)),
    })
}

/// What follows the head of a message.
#[cfg(not(plain))]
type Rest<'a> = Words<'a>;

#[cfg(plain)]
type Rest<'a> = Vec<u16>;

#[cfg(not(plain))]
fn words_in<'a>(rest: &Rest<'a>) -> Words<'a> {
    Words { bytes: rest.bytes }
}

#[cfg(plain)]
fn words_in<'a>(rest: &'a Rest) -> Words<'a> {
    Words { words: rest }
}

#[cfg(not(plain))]
fn collected(rest: Rest) -> Vec<u16> {
    rest.bytes.chunks_exact(2).map(|pair| u16::from_be_bytes([pair[0], pair[1]])).collect()
}

#[cfg(plain)]
fn collected(rest: Rest) -> Vec<u16> {
    rest
}

/// What a message begins with, and its words.
#[cfg(not(plain))]
fn read_message(bytes: &[u8]) -> Result<(Head, Rest<'_>), SessionFault> {
    if bytes.len() % 2 == 1 {
        return Err(SessionFault::OddLength);
    }
    let mut words = Words { bytes };
    let head = head_of(&mut words)?;
    Ok((head, words))
}

#[cfg(plain)]
fn read_message(bytes: &[u8]) -> Result<(Head, Rest<'_>), SessionFault> {
    if bytes.len() % 2 == 1 {
        return Err(SessionFault::OddLength);
    }
    let all: Vec<u16> = bytes.chunks_exact(2).map(|pair| u16::from_be_bytes([pair[0], pair[1]])).collect();
    let mut words = Words { words: &all };
    let head = head_of(&mut words)?;
    let rest = words.words.to_vec();
    Ok((head, rest))
}

const MOST_WORDS: usize = 65_536;
const WORDS_AN_ITEM: usize = 267;

/// The items that the words of a message go out in.
#[cfg(not(plain))]
fn cut(words: &[u16], out: &mut VecDeque<Item>) {
    let count = words.len().div_ceil(WORDS_AN_ITEM);
    for (i, words) in words.chunks(WORDS_AN_ITEM).enumerate() {
        let body = words.iter().flat_map(|word| word.to_be_bytes()).collect();
        out.push_back(Item { stream: 0, last: i + 1 == count, body });
    }
}

#[cfg(plain)]
fn cut(words: &[u16], out: &mut VecDeque<Item>) {
    let bytes: Vec<u8> = words.iter().flat_map(|word| word.to_be_bytes()).collect();
    let count = bytes.len().div_ceil(2 * WORDS_AN_ITEM);
    for (i, body) in bytes.chunks(2 * WORDS_AN_ITEM).enumerate() {
        out.push_back(Item { stream: 0, last: i + 1 == count, body: body.to_vec() });
    }
}

/// Where in a conversation one is: in the version range, directly behind it, or in a message.
enum Stage {
    Opening,
    Fresh,
    Inside,
}

/// The bytes of the message that is coming in.
struct Incoming {
    bytes: Vec<u8>,
    stage: Stage,
}

impl Incoming {
    fn new() -> Self {
        Incoming { bytes: Vec::new(), stage: Stage::Opening }
    }

    fn agree(&mut self) -> Result<(), SessionFault> {
        let (low, high) = (u16::from_be_bytes([self.bytes[0], self.bytes[1]]), u16::from_be_bytes([self.bytes[2], self.bytes[3]]));
        if low > high {
            return Err(SessionFault::BadVersions);
        }
        if low > 3 || high < 3 {
            return Err(SessionFault::NoCommonVersion);
        }
        self.bytes.drain(..4);
        self.stage = Stage::Fresh;
        Ok(())
    }

    /// One more item: whether a message is whole.
    fn take(&mut self, item: &Item) -> Result<bool, SessionFault> {
        if item.stream != 0 {
            return Err(SessionFault::Stream(item.stream));
        }
        self.bytes.extend_from_slice(&item.body);
        if matches!(self.stage, Stage::Opening) && self.bytes.len() >= 4 {
            self.agree()?;
        }
        if self.bytes.len() > 2 * MOST_WORDS {
            return Err(SessionFault::TooLong);
        }
        if !item.last {
            return Ok(false);
        }
        match self.stage {
            Stage::Opening => Err(SessionFault::BadVersions),
            Stage::Fresh if self.bytes.is_empty() => {
                self.stage = Stage::Inside;
                Ok(false)
            }
            _ => {
                self.stage = Stage::Inside;
                Ok(true)
            }
        }
    }
}

/// What a service answers.
enum Outcome {
    Returned(Value),
    Aborted(u16, Value),
}

trait Service {
    fn carry_out(&mut self, program: u32, version: u16, procedure: u16, arguments: &Value) -> Outcome;
}

const MOST_TOTAL: u32 = 1_000_000;
const OVER_LIMIT: u16 = 1;

/// A total, at most a million.
struct Tally {
    total: u32,
}

impl Service for Tally {
    fn carry_out(&mut self, _program: u32, _version: u16, procedure: u16, arguments: &Value) -> Outcome {
        let amount = match (procedure, arguments) {
            (1, Value::Cardinal(number)) => u32::from(*number),
            _ => 0,
        };
        let total = self.total + amount;
        if total > MOST_TOTAL {
            return Outcome::Aborted(OVER_LIMIT, Value::LongCardinal(self.total));
        }
        self.total = total;
        Outcome::Returned(Value::LongCardinal(total))
    }
}

/// A service that counts down.
struct Lists {
    count: u16,
}

impl Service for Lists {
    fn carry_out(&mut self, _program: u32, _version: u16, _procedure: u16, _arguments: &Value) -> Outcome {
        Outcome::Returned(Value::Sequence((0..self.count).rev().map(Value::Cardinal).collect()))
    }
}

/// Decides a call: the words of the message that answers it.
fn decide<S: Service>(table: &Table, service: &mut S, transaction: u16, program: u32, version: u16, procedure: u16, words: Words) -> Vec<u16> {
    let listed = match table.find(program, version, procedure) {
        Ok((_, listed)) => listed,
        Err(Unlisted::Program) => return vec![1, transaction, 0],
        Err(Unlisted::Version(low, high)) => return vec![1, transaction, 1, low, high],
        Err(Unlisted::Procedure) => return vec![1, transaction, 2],
    };
    let Some(arguments) = read_whole(&listed.arguments, words) else {
        return vec![1, transaction, 3];
    };
    let (mut answer, value) = match service.carry_out(program, version, procedure, &arguments) {
        Outcome::Returned(value) => (vec![2, transaction], value),
        Outcome::Aborted(error, value) => (vec![3, transaction, error], value),
    };
    put(&value, &mut answer);
    answer
}

/// What a call is asked with: a value, or its words.
enum Arguments {
    Typed(Value),
    Raw(Vec<u16>),
}

struct Call {
    program: u32,
    version: u16,
    procedure: u16,
    arguments: Arguments,
}

struct Server<'a, S> {
    table: &'a Table,
    service: S,
    incoming: Incoming,
    out: VecDeque<Item>,
    failed: bool,
}

fn opening() -> VecDeque<Item> {
    VecDeque::from([Item { stream: 0, last: true, body: vec![0, 3, 0, 3] }])
}

impl<'a, S: Service> Server<'a, S> {
    fn new(table: &'a Table, service: S) -> Self {
        Server { table, service, incoming: Incoming::new(), out: opening(), failed: false }
    }

    fn take_item(&mut self, item: Item) -> Result<Option<Call>, SessionFault> {
        if !self.incoming.take(&item)? {
            return Ok(None);
        }
        let (head, rest) = read_message(&self.incoming.bytes)?;
        let Head::Call { transaction, program, version, procedure } = head else {
            return Err(SessionFault::BadReply);
        };
        let answer = decide(self.table, &mut self.service, transaction, program, version, procedure, words_in(&rest));
        let given = collected(rest);
        cut(&answer, &mut self.out);
        self.incoming.bytes.clear();
        Ok(Some(Call { program, version, procedure, arguments: Arguments::Raw(given) }))
    }

    fn feed(&mut self, item: Item) -> Result<Option<Call>, SessionFault> {
        if self.failed {
            return Err(SessionFault::Failed);
        }
        let fed = self.take_item(item);
        self.failed = fed.is_err();
        fed
    }
}

/// What a caller sees.
#[allow(dead_code)]
enum Seen {
    Returned(Value),
    Aborted(u16, Value),
    Rejected(u16, Vec<u16>),
}

/// What a call that waits for its answer has called.
#[derive(Clone, Copy)]
struct Target {
    program: u32,
    version: u16,
    procedure: u16,
}

/// The message as the answer to the call that waits.
fn read_answer(table: &Table, expects: u16, target: Target, head: Head, rest: Rest) -> Result<Seen, SessionFault> {
    let Target { program, version, procedure } = target;
    match head {
        Head::Call { .. } => Err(SessionFault::BadReply),
        Head::Reject { transaction, .. } | Head::Return { transaction } | Head::Abort { transaction, .. } if transaction != expects => {
            Err(SessionFault::WrongTransaction)
        }
        Head::Reject { reason, .. } => Ok(Seen::Rejected(reason, collected(rest))),
        Head::Return { .. } => {
            let (_, listed) = table.find(program, version, procedure).map_err(|_| SessionFault::BadReply)?;
            let value = read_whole(&listed.results, words_in(&rest)).ok_or(SessionFault::BadReply)?;
            Ok(Seen::Returned(value))
        }
        Head::Abort { error, .. } => {
            let (entry, _) = table.find(program, version, procedure).map_err(|_| SessionFault::BadReply)?;
            let listed = entry.error(error).ok_or(SessionFault::BadReply)?;
            let value = read_whole(&listed.arguments, words_in(&rest)).ok_or(SessionFault::BadReply)?;
            Ok(Seen::Aborted(error, value))
        }
    }
}

struct Caller<'a> {
    table: &'a Table,
    incoming: Incoming,
    out: VecDeque<Item>,
    failed: bool,
    transaction: u16,
    waiting: Option<Target>,
    outcome: Option<Seen>,
}

impl<'a> Caller<'a> {
    fn new(table: &'a Table) -> Self {
        Caller { table, incoming: Incoming::new(), out: opening(), failed: false, transaction: 0, waiting: None, outcome: None }
    }

    fn call(&mut self, call: &Call) -> Result<(), CallFault> {
        let Call { program, version, procedure, ref arguments } = *call;
        if self.failed {
            return Err(CallFault::Failed);
        }
        if self.waiting.is_some() || self.outcome.is_some() {
            return Err(CallFault::Busy);
        }
        let transaction = self.transaction.wrapping_add(1);
        let mut words = vec![0, transaction, (program >> 16) as u16, program as u16, version, procedure];
        match arguments {
            Arguments::Typed(value) => {
                let (_, listed) = self.table.find(program, version, procedure).map_err(|_| CallFault::BadArguments)?;
                if !fits(&listed.arguments, value) {
                    return Err(CallFault::BadArguments);
                }
                put(value, &mut words);
            }
            Arguments::Raw(given) => words.extend_from_slice(given),
        }
        if words.len() > MOST_WORDS {
            return Err(CallFault::TooLong);
        }
        cut(&words, &mut self.out);
        self.transaction = transaction;
        self.waiting = Some(Target { program, version, procedure });
        Ok(())
    }

    fn take_item(&mut self, item: Item) -> Result<(), SessionFault> {
        if !self.incoming.take(&item)? {
            return Ok(());
        }
        let (head, rest) = read_message(&self.incoming.bytes)?;
        let Some(target) = self.waiting else {
            return Err(if let Head::Call { .. } = head { SessionFault::BadReply } else { SessionFault::WrongTransaction });
        };
        let seen = read_answer(self.table, self.transaction, target, head, rest)?;
        self.incoming.bytes.clear();
        self.outcome = Some(seen);
        self.waiting = None;
        Ok(())
    }

    fn feed(&mut self, item: Item) -> Result<(), SessionFault> {
        if self.failed {
            return Err(SessionFault::Failed);
        }
        let fed = self.take_item(item);
        self.failed = fed.is_err();
        fed
    }
}

fn carry<S: Service>(caller: &mut Caller, server: &mut Server<S>) -> Result<(), SessionFault> {
    while let Some(item) = caller.out.pop_front() {
        black_box(server.feed(item)?);
    }
    while let Some(item) = server.out.pop_front() {
        caller.feed(item)?;
    }
    Ok(())
}

fn greet<S: Service>(caller: &mut Caller, server: &mut Server<S>) -> Result<(), SessionFault> {
    let to_server = caller.out.pop_front();
    let to_caller = server.out.pop_front();
    if let Some(item) = to_server {
        server.feed(item)?;
    }
    if let Some(item) = to_caller {
        caller.feed(item)?;
    }
    Ok(())
}

/// Makes the call so many times: the last outcome; `None` where a session stops, or a call is not made or not answered.
fn repeat<S: Service>(caller: &mut Caller, server: &mut Server<S>, call: &Call, count: u32) -> Option<Seen> {
    greet(caller, server).ok()?;
    let mut last = None;
    for _ in 0..count {
        caller.call(call).ok()?;
        carry(caller, server).ok()?;
        last = Some(caller.outcome.take()?);
    }
    last
}

fn add(count: u32) -> Option<Seen> {
    let empty = Shape::Fields(Vec::new());
    let procedures = vec![
        Procedure { number: 1, arguments: Shape::Cardinal, results: Shape::LongCardinal },
        Procedure { number: 2, arguments: empty, results: Shape::LongCardinal },
    ];
    let errors = vec![ErrorEntry { number: OVER_LIMIT, arguments: Shape::LongCardinal }];
    let table = Table { entries: vec![Entry { program: 7, low: 1, high: 2, procedures, errors }] };
    let mut caller = Caller::new(&table);
    let mut server = Server::new(&table, Tally { total: 0 });
    let call = Call { program: 7, version: 2, procedure: 1, arguments: Arguments::Typed(Value::Cardinal(5)) };
    repeat(&mut caller, &mut server, &call, count)
}

fn list(count: u32) -> Option<Seen> {
    let shape = || Shape::Sequence(60_000, Box::new(Shape::Cardinal));
    let procedures = vec![Procedure { number: 1, arguments: shape(), results: shape() }];
    let table = Table { entries: vec![Entry { program: 8, low: 1, high: 1, procedures, errors: Vec::new() }] };
    let mut caller = Caller::new(&table);
    let mut server = Server::new(&table, Lists { count: 60_000 });
    let numbers = (0..60_000).map(Value::Cardinal).collect();
    let call = Call { program: 8, version: 1, procedure: 1, arguments: Arguments::Typed(Value::Sequence(numbers)) };
    repeat(&mut caller, &mut server, &call, count)
}

/// What the long cardinal, or the list of cardinals, that was returned adds up to; 0 of any other outcome, and of none.
fn sum(outcome: &Option<Seen>) -> u64 {
    match outcome {
        Some(Seen::Returned(Value::LongCardinal(number))) => u64::from(*number),
        Some(Seen::Returned(Value::Sequence(values))) => {
            values.iter().map(|value| if let Value::Cardinal(number) = value { u64::from(*number) } else { 0 }).sum()
        }
        _ => 0,
    }
}

fn count(place: usize) -> u32 {
    env::args().nth(place).and_then(|word| word.parse().ok()).unwrap_or(0)
}

fn main() {
    let (adds, lists) = (count(1), count(2));
    println!("{adds} calls, total {}", sum(&add(adds)));
    println!("{lists} lists, sum {}", sum(&list(lists)));
}
