//! What `rb_broker` does with the requests of the bench's inputs and clients, in plain Rust, to compare its time
//! with. It is no part of the product, and proves nothing.
//!
//!     rustc --edition 2021 -O -C target-cpu=x86-64-v2 -o plain bench/plain.rs
//!     ./plain < input > output
//!     ./plain serve PORT CLIENTS
//!
//! The first does what `script` does. The second does what `serve` does: each of so many clients is served by a thread
//! of its own. They share one queue under a Mutex, and a TAKE waits at a Condvar.
//!
//! It knows AT (not as a server), OFFER, OFFERAT, POLL, TAKE (as a server), DONE, REMOVE, SIZE and QUIT, and answers any
//! other line `ERR 1 syntax`. An element that is removed stays in the heap until it comes up there.
use std::cmp::Reverse;
use std::collections::{BinaryHeap, HashMap};
use std::io::{self, BufRead, BufReader, BufWriter, Read, Write};
use std::net::{Ipv4Addr, TcpListener, TcpStream};
use std::sync::{Condvar, Mutex, PoisonError};
use std::time::{Duration, Instant};
use std::{env, thread};

/// How many calls a run may make.
const CALLS: usize = 1_000_000;

/// How many jobs are held at most.
const MOST_HELD: usize = 64;

/// How much is read or written at once, in bytes.
const BUFFER: usize = 64 * 1024;

/// The longest wait at the Condvar.
const LONGEST_WAIT: Duration = Duration::from_millis(20);

#[derive(Clone, Copy)]
struct Element {
    id: u64,
    expiry: u64,
    payload: [u8; 64],
    len: u8,
}

impl Element {
    fn payload(&self) -> &[u8] {
        &self.payload[..usize::from(self.len)]
    }
}

#[allow(dead_code)]
enum Act {
    Offer(Element),
    Poll(Option<u64>),
    Remove { id: u64, found: bool },
    Size(u64),
}

#[allow(dead_code)]
struct Event {
    asked: u64,
    at: u64,
    act: Act,
}

enum Refusal {
    Syntax,
    Number,
    Range,
    Payload,
    NotHeld,
    Full,
    Line,
    Held,
}

impl Refusal {
    fn text(&self) -> &'static [u8] {
        match self {
            Refusal::Syntax => b"ERR 1 syntax\n",
            Refusal::Number => b"ERR 2 number\n",
            Refusal::Range => b"ERR 3 range\n",
            Refusal::Payload => b"ERR 4 payload\n",
            Refusal::NotHeld => b"ERR 5 not-held\n",
            Refusal::Full => b"ERR 6 full\n",
            Refusal::Line => b"ERR 8 line\n",
            Refusal::Held => b"ERR 9 held\n",
        }
    }
}

/// What a request is answered, if it is not refused.
type Answered = Result<io::Result<()>, Refusal>;

/// The elements, and the history of the calls. Each call names the moment at which it is made.
struct Queue {
    next_id: u64,
    standing: HashMap<u64, Element>,
    order: BinaryHeap<Reverse<(u64, u64)>>,
    history: Vec<Event>,
}

impl Queue {
    fn new() -> Queue {
        Queue {
            next_id: 0,
            standing: HashMap::new(),
            order: BinaryHeap::new(),
            history: Vec::with_capacity(CALLS),
        }
    }

    fn offer(&mut self, asked: u64, expiry: u64, payload: &[u8]) -> Result<Element, Refusal> {
        self.room()?;
        let mut element = Element { id: self.next_id, expiry, payload: [0; 64], len: payload.len() as u8 };
        element.payload[..payload.len()].copy_from_slice(payload);
        self.next_id += 1;
        self.order.push(Reverse((expiry, element.id)));
        self.standing.insert(element.id, element);
        self.note(asked, Act::Offer(element));
        Ok(element)
    }

    fn poll(&mut self, asked: u64) -> Result<Option<Element>, Refusal> {
        let element = self.take(asked)?.ok();
        if element.is_none() {
            self.note(asked, Act::Poll(None));
        }
        Ok(element)
    }

    /// Takes an element, or tells when the next one expires. The latter is no event.
    fn take(&mut self, asked: u64) -> Result<Result<Element, Option<u64>>, Refusal> {
        self.room()?;
        while let Some(&Reverse((expiry, id))) = self.order.peek() {
            let Some(&element) = self.standing.get(&id) else {
                self.order.pop();
                continue;
            };
            if expiry > asked {
                return Ok(Err(Some(expiry)));
            }
            self.order.pop();
            self.standing.remove(&id);
            self.note(asked, Act::Poll(Some(id)));
            return Ok(Ok(element));
        }
        Ok(Err(None))
    }

    fn remove(&mut self, asked: u64, id: u64) -> Result<bool, Refusal> {
        self.room()?;
        let found = self.standing.remove(&id).is_some();
        self.note(asked, Act::Remove { id, found });
        Ok(found)
    }

    fn size(&mut self, asked: u64) -> Result<usize, Refusal> {
        self.room()?;
        let count = self.standing.len();
        self.note(asked, Act::Size(count as u64));
        Ok(count)
    }

    fn room(&self) -> Result<(), Refusal> {
        if self.history.len() == CALLS { Err(Refusal::Full) } else { Ok(()) }
    }

    fn note(&mut self, asked: u64, act: Act) {
        let at = self.history.last().map_or(asked, |last| asked.max(last.at));
        self.history.push(Event { asked, at, act });
    }
}

/// A session's clock, and its way to the queue.
trait Desk {
    fn now(&self) -> u64;

    /// Moves the clock on to this moment, if it can be set.
    fn set(&mut self, moment: u64) -> Result<(), Refusal>;

    /// Makes one call.
    fn call<T>(&mut self, act: impl FnOnce(&mut Queue, u64) -> T) -> T;

    /// Tells those that wait of an element.
    fn ring(&self);

    /// Takes an element, and waits while none has expired, if it can.
    fn take(&mut self) -> Result<Element, Refusal>;
}

/// The desk of a script.
struct Script {
    moment: u64,
    queue: Queue,
}

impl Desk for Script {
    fn now(&self) -> u64 {
        self.moment
    }

    fn set(&mut self, moment: u64) -> Result<(), Refusal> {
        self.moment = self.moment.max(moment);
        Ok(())
    }

    fn call<T>(&mut self, act: impl FnOnce(&mut Queue, u64) -> T) -> T {
        act(&mut self.queue, self.moment)
    }

    fn ring(&self) {}

    fn take(&mut self) -> Result<Element, Refusal> {
        Err(Refusal::Syntax)
    }
}

/// What the threads of a server share.
struct Shared {
    start: Instant,
    queue: Mutex<Queue>,
    offered: Condvar,
}

impl Desk for &Shared {
    fn now(&self) -> u64 {
        self.start.elapsed().as_nanos() as u64
    }

    fn set(&mut self, _moment: u64) -> Result<(), Refusal> {
        Err(Refusal::Syntax)
    }

    fn call<T>(&mut self, act: impl FnOnce(&mut Queue, u64) -> T) -> T {
        let now = self.now();
        act(&mut self.queue.lock().unwrap_or_else(PoisonError::into_inner), now)
    }

    fn ring(&self) {
        self.offered.notify_one();
    }

    fn take(&mut self) -> Result<Element, Refusal> {
        let mut queue = self.queue.lock().unwrap_or_else(PoisonError::into_inner);
        loop {
            let now = self.now();
            let next = match queue.take(now)? {
                Ok(element) => return Ok(element),
                Err(next) => next,
            };
            let left = next.map_or(LONGEST_WAIT, |next| Duration::from_nanos(next - now).min(LONGEST_WAIT));
            queue = self.offered.wait_timeout(queue, left).unwrap_or_else(PoisonError::into_inner).0;
        }
    }
}

struct Session<D> {
    desk: D,
    held: Vec<Element>,
}

impl<D: Desk> Session<D> {
    fn new(desk: D) -> Session<D> {
        Session { desk, held: Vec::with_capacity(MOST_HELD) }
    }

    /// Serves the lines of an input until one ends the session. The replies are handed on before it may wait.
    fn run(&mut self, input: impl Read, output: impl Write) -> io::Result<()> {
        let mut input = BufReader::with_capacity(BUFFER, input);
        let mut output = BufWriter::with_capacity(BUFFER, output);
        let mut line = Vec::with_capacity(1024);
        loop {
            if input.buffer().is_empty() {
                output.flush()?;
            }
            line.clear();
            if input.read_until(b'\n', &mut line)? == 0 {
                break;
            }
            let Some(whole) = line.strip_suffix(b"\n") else {
                output.write_all(Refusal::Line.text())?;
                break;
            };
            if self.serve(whole.strip_suffix(b"\r").unwrap_or(whole), &mut output)? {
                break;
            }
        }
        output.flush()
    }

    /// Serves one line. Whether it ends the session.
    fn serve(&mut self, line: &[u8], output: &mut impl Write) -> io::Result<bool> {
        let mut words = line.split(|&byte| byte == b' ');
        let keyword = words.next().unwrap_or_default();
        let arguments = (words.next(), words.next(), words.next());
        let answered = match (keyword, arguments) {
            (b"AT", (Some(moment), None, _)) => self.at(moment, output),
            (b"OFFER", (Some(delay), Some(payload), None)) => self.offer(delay, payload, output),
            (b"OFFERAT", (Some(expiry), Some(payload), None)) => match number(expiry) {
                Ok(expiry) => self.offer_at(expiry, payload, output),
                Err(refusal) => Err(refusal),
            },
            (b"POLL", (None, ..)) => self.poll(output),
            (b"TAKE", (None, ..)) => self.take(output),
            (b"DONE", (Some(id), None, _)) => self.done(id, output),
            (b"REMOVE", (Some(id), None, _)) => self.remove(id, output),
            (b"SIZE", (None, ..)) => self.size(output),
            (b"QUIT", (None, ..)) => {
                output.write_all(b"BYE\n")?;
                return Ok(true);
            }
            _ => Err(Refusal::Syntax),
        };
        match answered {
            Ok(written) => written?,
            Err(refusal) => output.write_all(refusal.text())?,
        }
        Ok(false)
    }

    fn at(&mut self, moment: &[u8], output: &mut impl Write) -> Answered {
        self.desk.set(number(moment)?)?;
        Ok(writeln!(output, "NOW {}", self.desk.now()))
    }

    fn offer(&mut self, delay: &[u8], payload: &[u8], output: &mut impl Write) -> Answered {
        let expiry = self.desk.now().checked_add(number(delay)?);
        if !is_payload(payload) {
            return Err(Refusal::Payload);
        }
        self.offer_at(expiry.ok_or(Refusal::Range)?, payload, output)
    }

    fn offer_at(&mut self, expiry: u64, payload: &[u8], output: &mut impl Write) -> Answered {
        if !is_payload(payload) {
            return Err(Refusal::Payload);
        }
        let element = self.desk.call(|queue, now| queue.offer(now, expiry, payload))?;
        self.desk.ring();
        Ok(writeln!(output, "OFFERED {} {expiry}", element.id))
    }

    fn poll(&mut self, output: &mut impl Write) -> Answered {
        self.may_hold()?;
        match self.desk.call(Queue::poll)? {
            Some(element) => Ok(self.hold(element, output)),
            None => Ok(output.write_all(b"NONE\n")),
        }
    }

    fn take(&mut self, output: &mut impl Write) -> Answered {
        self.may_hold()?;
        if let Err(fault) = output.flush() {
            return Ok(Err(fault));
        }
        let element = self.desk.take()?;
        Ok(self.hold(element, output))
    }

    fn may_hold(&self) -> Result<(), Refusal> {
        if self.held.len() == MOST_HELD { Err(Refusal::Held) } else { Ok(()) }
    }

    fn hold(&mut self, element: Element, output: &mut impl Write) -> io::Result<()> {
        self.held.push(element);
        write!(output, "ITEM {} {} 1 ", element.id, element.expiry)?;
        output.write_all(element.payload())?;
        output.write_all(b"\n")
    }

    fn done(&mut self, id: &[u8], output: &mut impl Write) -> Answered {
        let id = number(id)?;
        let place = self.held.iter().position(|job| job.id == id).ok_or(Refusal::NotHeld)?;
        self.held.remove(place);
        Ok(writeln!(output, "DONE {id}"))
    }

    fn remove(&mut self, id: &[u8], output: &mut impl Write) -> Answered {
        let id = number(id)?;
        let found = self.desk.call(|queue, now| queue.remove(now, id))?;
        Ok(output.write_all(if found { b"REMOVED yes\n" } else { b"REMOVED no\n" }))
    }

    fn size(&mut self, output: &mut impl Write) -> Answered {
        let count = self.desk.call(Queue::size)?;
        Ok(writeln!(output, "SIZE {count}"))
    }
}

fn is_payload(word: &[u8]) -> bool {
    (1..=64).contains(&word.len()) && word.iter().all(|byte| (0x21..=0x7e).contains(byte))
}

/// The number of a word without a sign or a needless 0.
fn number(word: &[u8]) -> Result<u64, Refusal> {
    if word.is_empty() || (word[0] == b'0' && word.len() > 1) {
        return Err(Refusal::Number);
    }
    let mut number = 0_u64;
    for &byte in word {
        if !byte.is_ascii_digit() {
            return Err(Refusal::Number);
        }
        let digit = u64::from(byte - b'0');
        number = number.checked_mul(10).and_then(|tens| tens.checked_add(digit)).ok_or(Refusal::Number)?;
    }
    Ok(number)
}

fn serve_client(shared: &Shared, stream: TcpStream) -> io::Result<()> {
    stream.set_nodelay(true)?;
    Session::new(shared).run(&stream, &stream)
}

fn serve(port: u16, clients: u64) -> io::Result<()> {
    let listener = TcpListener::bind((Ipv4Addr::LOCALHOST, port))?;
    println!("listening 127.0.0.1:{port}");
    let shared = Shared { start: Instant::now(), queue: Mutex::new(Queue::new()), offered: Condvar::new() };
    thread::scope(|scope| {
        for _ in 0..clients {
            scope.spawn(|| {
                if let Err(fault) = listener.accept().and_then(|(stream, _)| serve_client(&shared, stream)) {
                    eprintln!("plain: {fault}");
                }
            });
        }
    });
    Ok(())
}

fn main() -> io::Result<()> {
    let words: Vec<String> = env::args().skip(1).collect();
    match &words.iter().map(String::as_str).collect::<Vec<_>>()[..] {
        [] => Session::new(Script { moment: 0, queue: Queue::new() }).run(io::stdin().lock(), io::stdout().lock()),
        ["serve", port, clients] => match (port.parse(), clients.parse()) {
            (Ok(port), Ok(clients)) => serve(port, clients),
            _ => Err(io::Error::other("the port and the clients are numbers")),
        },
        _ => Err(io::Error::other("the words are not those of the first lines of bench/plain.rs")),
    }
}
