//! Clients that measure a server of jobs, and an echo server to compare it with. bench/serve.sh runs them. They
//! are no part of the product, and prove nothing.
//!
//!     rustc --edition 2021 -O -o clients bench/clients.rs
//!     ./clients measure broker|echo|lines|beanstalkd|redis PORT[,PORT ..] CLIENTS BATCHES BATCH
//!     ./clients waiting PORT TAKERS OFFERS BATCH
//!     ./clients wake PORT TAKERS OFFERS
//!     ./clients echo-server PORT THREADS CONNECTIONS
//!     ./clients lines-server PORT THREADS CONNECTIONS
//!
//! Each client does BATCHES times: it sends BATCH offers in one piece and reads their replies, then so many
//! takes, and then says that the jobs it took are done. A round is one offer, take and done; an exchange is one
//! sending with its replies. Printed are the rounds in a second of all clients together, and the median and the
//! 99th percentile of the exchanges in microseconds.
//!
//! With `waiting`, one client offers so many jobs that are due, BATCH in one piece, beside so many others of a
//! broker that wait in a take and finish what they get. These are served by one thread, which looks at them every
//! half of a millisecond, so that the time is the broker's and not theirs. Printed are the offers in a second.
//!
//! Several ports get the clients in turn. A client of `redis` calls the functions of redis/ by itself, one call for each
//! request: the queue of the node at the port is named `bench`, and a gateway has made it.
//!
//! With `wake`, so many clients wait in a take of a broker whose moments are nanoseconds since 1970, and another offers
//! so many jobs one by one, each due a hundredth of a second later. Printed are the median and the 99th percentile of
//! the time from a job's expiry until its client has it, in microseconds.
//!
//! Of an echo server the clients want the lines back that the broker is sent. It has so many threads, each of
//! which serves one connection after the other, and it ends after so many connections. What a read gave is sent
//! by one write, or by the second server by a write for each line, as the broker sends its replies.
use std::io::{self, BufRead, BufReader, Read, Write};
use std::net::{Ipv4Addr, TcpListener, TcpStream};
use std::process::ExitCode;
use std::sync::Barrier;
use std::sync::mpsc::{Sender, channel};
use std::sync::atomic::{AtomicBool, AtomicU64, Ordering};
use std::time::{Duration, Instant, SystemTime, UNIX_EPOCH};
use std::{env, thread};

/// How many batches each client makes before its time is taken.
const WARM_UP: u64 = 20;

/// How many takes a client that waits has sent, so that there is always one that waits.
const TAKES_SENT: usize = 30;

/// The front of a call of the functions of redis/.
const FCALL: &str = "*14\r\n$5\r\nFCALL\r\n$10\r\nrb_calls_7\r\n$1\r\n8\r\n$11\r\n{bench}:due\r\n$11\r\n{bench}:ids\r\n\
    $12\r\n{bench}:held\r\n$13\r\n{bench}:state\r\n$15\r\n{bench}:history\r\n$12\r\n{bench}:dead\r\n\
    $16\r\n{bench}:gateways\r\n$15\r\n{bench}:opening\r\n$0\r\n\r\n$0\r\n\r\n";

#[derive(Clone, Copy, PartialEq, Eq)]
enum Peer {
    Broker,
    Echo,
    Beanstalkd,
    Redis,
}

#[derive(Clone, Copy, PartialEq, Eq)]
enum Step {
    Offer,
    Take,
    Done,
}

impl Peer {
    fn named(name: &str) -> Option<Peer> {
        match name {
            "broker" => Some(Peer::Broker),
            "echo" | "lines" => Some(Peer::Echo),
            "beanstalkd" => Some(Peer::Beanstalkd),
            "redis" => Some(Peer::Redis),
            _ => None,
        }
    }

    /// Writes one request of the client with this seat, where that is `Done` for the job of this id.
    fn write_request(self, step: Step, seat: usize, id: u64, text: &mut Vec<u8>) {
        let written = match (self, step) {
            (Peer::Redis, step) => {
                let call = match step {
                    Step::Offer => format!("{seat} OFFER 0 a-letter"),
                    Step::Take => format!("{seat} TAKE"),
                    Step::Done => format!("{seat} DONE {id}"),
                };
                write!(text, "{FCALL}${}\r\n{call}\r\n", call.len())
            }
            (Peer::Beanstalkd, Step::Offer) => text.write_all(b"put 0 0 60 8\r\na-letter\r\n"),
            (Peer::Beanstalkd, Step::Take) => text.write_all(b"reserve\r\n"),
            (Peer::Beanstalkd, Step::Done) => write!(text, "delete {id}\r\n"),
            (_, Step::Offer) => text.write_all(b"OFFER 0 a-letter\n"),
            (_, Step::Take) => text.write_all(b"TAKE\n"),
            (_, Step::Done) => writeln!(text, "DONE {id}"),
        };
        written.expect("a vector takes all");
    }

    /// The first word of the reply.
    fn keyword(self, step: Step) -> &'static str {
        match (self, step) {
            (Peer::Broker | Peer::Redis, Step::Offer) => "OFFERED",
            (Peer::Broker | Peer::Redis, Step::Take) => "ITEM",
            (Peer::Echo, Step::Offer) => "OFFER",
            (Peer::Echo, Step::Take) => "TAKE",
            (Peer::Beanstalkd, Step::Offer) => "INSERTED",
            (Peer::Beanstalkd, Step::Take) => "RESERVED",
            (Peer::Beanstalkd, Step::Done) => "DELETED",
            (_, Step::Done) => "DONE",
        }
    }

    /// Whether the reply has a line of the job's bytes behind its first one.
    fn sends_payload(self, step: Step) -> bool {
        self == Peer::Beanstalkd && step == Step::Take
    }
}

struct Client {
    peer: Peer,
    /// A number of its own.
    seat: usize,
    requests: TcpStream,
    replies: BufReader<TcpStream>,
    /// The jobs of the batch.
    ids: Vec<u64>,
    /// What is sent at once, and one reply line.
    text: Vec<u8>,
    line: String,
}

impl Client {
    fn connect(peer: Peer, port: u16, seat: usize, batch: usize) -> io::Result<Client> {
        let requests = TcpStream::connect((Ipv4Addr::LOCALHOST, port))?;
        requests.set_nodelay(true)?;
        let replies = BufReader::with_capacity(64 * 1024, requests.try_clone()?);
        Ok(Client { peer, seat, requests, replies, ids: vec![1_000_000; batch], text: Vec::new(), line: String::new() })
    }

    /// Makes one exchange, and tells how long it took.
    fn exchange(&mut self, step: Step) -> io::Result<Duration> {
        self.text.clear();
        for id in &self.ids {
            self.peer.write_request(step, self.seat, *id, &mut self.text);
        }
        let begun = Instant::now();
        self.requests.write_all(&self.text)?;
        for place in 0..self.ids.len() {
            self.read_reply(step, place)?;
        }
        Ok(begun.elapsed())
    }

    fn read_reply(&mut self, step: Step, place: usize) -> io::Result<()> {
        if self.peer == Peer::Redis {
            self.read_line()?; // its length
        }
        self.read_line()?;
        let mut words = self.line.trim_end().split(' ');
        let id = match (words.next(), words.next()) {
            (Some(word), id) if word == self.peer.keyword(step) => id,
            _ => return Err(io::Error::other(format!("not a reply to wait for: {:?}", self.line))),
        };
        if step == Step::Take && self.peer != Peer::Echo {
            self.ids[place] = id.and_then(|id| id.parse().ok()).ok_or(io::ErrorKind::InvalidData)?;
        }
        if self.peer.sends_payload(step) || self.peer == Peer::Redis { self.read_line() } else { Ok(()) }
    }

    fn read_line(&mut self) -> io::Result<()> {
        self.line.clear();
        match self.replies.read_line(&mut self.line)? {
            0 => Err(io::ErrorKind::UnexpectedEof.into()),
            _ => Ok(()),
        }
    }

    fn exchange_batches(&mut self, batches: u64) -> io::Result<Vec<Duration>> {
        let mut times = Vec::new();
        for _ in 0..batches {
            for step in [Step::Offer, Step::Take, Step::Done] {
                times.push(self.exchange(step)?);
            }
        }
        Ok(times)
    }
}

/// Lets all clients make so many batches at the same time: how long each exchange took, and the whole.
fn run_together(clients: &mut [Client], batches: u64) -> io::Result<(Vec<Duration>, Duration)> {
    let start = Barrier::new(clients.len() + 1);
    thread::scope(|scope| {
        let mut runs = Vec::new();
        for client in clients {
            runs.push(scope.spawn(|| {
                let warm = client.exchange_batches(WARM_UP);
                start.wait();
                warm.and_then(|_| client.exchange_batches(batches))
            }));
        }
        start.wait();
        let begun = Instant::now();
        let mut times = Vec::new();
        for run in runs {
            times.extend(run.join().expect("a client panicked")?);
        }
        Ok((times, begun.elapsed()))
    })
}

fn measure(peer: Peer, ports: &[u16], clients: usize, batches: u64, batch: usize) -> io::Result<()> {
    let mut ready = Vec::new();
    for (client, port) in ports.iter().cycle().take(clients).enumerate() {
        ready.push(Client::connect(peer, *port, client, batch)?);
    }
    let (mut times, elapsed) = run_together(&mut ready, batches)?;
    times.sort_unstable();
    let rounds_per_second = clients as f64 * batches as f64 * batch as f64 / elapsed.as_secs_f64();
    let microseconds = |place: usize| times[place].as_secs_f64() * 1e6;
    let (median, late) = (microseconds(times.len() / 2), microseconds(times.len() * 99 / 100));
    println!("{rounds_per_second:.0} {median:.1} {late:.1}");
    Ok(())
}

/// A client that waits in a take.
struct Taker {
    stream: TcpStream,
    /// The beginning of a line.
    rest: Vec<u8>,
}

impl Taker {
    fn connect(port: u16) -> io::Result<Taker> {
        let mut stream = TcpStream::connect((Ipv4Addr::LOCALHOST, port))?;
        stream.set_nodelay(true)?;
        stream.write_all("TAKE\n".repeat(TAKES_SENT).as_bytes())?;
        Ok(Taker { stream, rest: Vec::new() })
    }

    /// Finishes the jobs that came, and asks for as many more.
    fn finish_jobs(&mut self, bytes: &mut [u8]) -> io::Result<()> {
        self.stream.set_nonblocking(true)?;
        let read = self.stream.read(bytes);
        self.stream.set_nonblocking(false)?;
        match read {
            Ok(0) => return Err(io::ErrorKind::UnexpectedEof.into()),
            Ok(count) => self.rest.extend_from_slice(&bytes[..count]),
            Err(fault) if fault.kind() == io::ErrorKind::WouldBlock => return Ok(()),
            Err(fault) => return Err(fault),
        }
        let whole = self.rest.iter().rposition(|&byte| byte == b'\n').map_or(0, |place| place + 1);
        let requests = answers(&self.rest[..whole])?;
        self.rest.drain(..whole);
        self.stream.write_all(requests.as_bytes())
    }
}

/// What a client that waits sends after these replies.
fn answers(replies: &[u8]) -> io::Result<String> {
    let mut requests = String::new();
    for line in String::from_utf8_lossy(replies).lines() {
        let mut words = line.split(' ');
        match (words.next(), words.next()) {
            (Some("ITEM"), Some(id)) => requests += &format!("DONE {id}\nTAKE\n"),
            (Some("DONE"), _) => {}
            _ => return Err(io::Error::other(format!("not a reply to wait for: {line:?}"))),
        }
    }
    Ok(requests)
}

/// Serves clients that wait until the offers have ended.
fn finish_until(takers: &mut [Taker], ended: &AtomicBool) -> io::Result<()> {
    let mut bytes = vec![0; 64 * 1024];
    while !ended.load(Ordering::SeqCst) {
        for taker in &mut *takers {
            taker.finish_jobs(&mut bytes)?;
        }
        thread::sleep(Duration::from_micros(500));
    }
    Ok(())
}

fn offer_beside(port: u16, takers: u64, offers: u64, batch: usize) -> io::Result<()> {
    let mut waiting = Vec::new();
    for _ in 0..takers {
        waiting.push(Taker::connect(port)?);
    }
    let mut client = Client::connect(Peer::Broker, port, 0, batch)?;
    thread::sleep(Duration::from_millis(200)); // until all wait
    let ended = AtomicBool::new(false);
    let (offered, finished) = thread::scope(|scope| {
        let finishing = scope.spawn(|| finish_until(&mut waiting, &ended));
        let begun = Instant::now();
        let offered = (0..offers / batch as u64).try_for_each(|_| client.exchange(Step::Offer).map(drop));
        let elapsed = begun.elapsed();
        ended.store(true, Ordering::SeqCst);
        (offered.map(|()| elapsed), finishing.join().expect("a client panicked"))
    });
    finished?;
    println!("{:.0}", offers as f64 / offered?.as_secs_f64());
    Ok(())
}

/// Takes what comes, and sends how late each job was.
fn lateness_of_takes(port: u16, sender: &Sender<Duration>) -> io::Result<()> {
    let mut client = Client::connect(Peer::Broker, port, 0, 1)?;
    loop {
        client.requests.write_all(b"TAKE\n")?;
        client.read_line()?;
        let now = SystemTime::now().duration_since(UNIX_EPOCH).expect("it is after 1970");
        let words: Vec<&str> = client.line.trim_end().split(' ').collect();
        match words[..] {
            ["ITEM", id, expiry, ..] => {
                let expiry = Duration::from_nanos(expiry.parse().map_err(io::Error::other)?);
                if sender.send(now.saturating_sub(expiry)).is_err() {
                    return Ok(());
                }
                writeln!(client.requests, "DONE {id}")?;
                client.read_line()?;
            }
            ["STOPPED"] => {}
            _ => return Err(io::Error::other(format!("not a reply to a take: {:?}", client.line))),
        }
    }
}

fn wake(port: u16, takers: usize, offers: usize) -> io::Result<()> {
    let (sender, lateness) = channel();
    for _ in 0..takers {
        let sender = sender.clone();
        thread::spawn(move || lateness_of_takes(port, &sender));
    }
    thread::sleep(Duration::from_millis(200)); // until all wait
    let mut client = Client::connect(Peer::Broker, port, 0, 1)?;
    for _ in 0..offers {
        client.requests.write_all(b"OFFER 10000000 a-letter\n")?;
        client.read_line()?;
        thread::sleep(Duration::from_millis(15));
    }
    let mut times: Vec<Duration> = lateness.iter().take(offers).collect();
    times.sort_unstable();
    let microseconds = |place: usize| times[place].as_secs_f64() * 1e6;
    println!("{:.1} {:.1}", microseconds(times.len() / 2), microseconds(times.len() * 99 / 100));
    Ok(())
}

fn echo(mut stream: TcpStream, by_line: bool) -> io::Result<()> {
    stream.set_nodelay(true)?;
    let mut bytes = vec![0; 64 * 1024];
    loop {
        match stream.read(&mut bytes)? {
            0 => return Ok(()),
            count if by_line => {
                for piece in bytes[..count].split_inclusive(|&byte| byte == b'\n') {
                    stream.write_all(piece)?;
                }
            }
            count => stream.write_all(&bytes[..count])?,
        }
    }
}

fn serve_echo(port: u16, threads: u64, connections: u64, by_line: bool) -> io::Result<()> {
    let listener = TcpListener::bind((Ipv4Addr::LOCALHOST, port))?;
    println!("listening 127.0.0.1:{port}");
    let asked = AtomicU64::new(0);
    thread::scope(|scope| {
        for _ in 0..threads {
            scope.spawn(|| {
                while asked.fetch_add(1, Ordering::SeqCst) < connections {
                    if let Err(fault) = listener.accept().and_then(|(stream, _)| echo(stream, by_line)) {
                        eprintln!("clients: echo: {fault}");
                    }
                }
            });
        }
    });
    Ok(())
}

fn run(words: &[String]) -> Option<io::Result<()>> {
    let number = |place: usize| words.get(place)?.parse::<u64>().ok();
    let port = |place: usize| u16::try_from(number(place)?).ok();
    let ports = |place: usize| words.get(place)?.split(',').map(|port| port.parse().ok()).collect::<Option<Vec<u16>>>();
    match words.first()?.as_str() {
        "measure" => {
            let (clients, batch) = (number(3)? as usize, number(5)? as usize);
            Some(measure(Peer::named(words.get(1)?)?, &ports(2)?, clients, number(4)?, batch))
        }
        "wake" => Some(wake(port(1)?, number(2)? as usize, number(3)? as usize)),
        "waiting" => Some(offer_beside(port(1)?, number(2)?, number(3)?, number(4)? as usize)),
        server @ ("echo-server" | "lines-server") => {
            Some(serve_echo(port(1)?, number(2)?, number(3)?, server == "lines-server"))
        }
        _ => None,
    }
}

fn main() -> ExitCode {
    let words: Vec<String> = env::args().skip(1).collect();
    match run(&words) {
        Some(Ok(())) => ExitCode::SUCCESS,
        Some(Err(fault)) => {
            eprintln!("clients: {fault}");
            ExitCode::FAILURE
        }
        None => {
            eprintln!("clients: the words are not those of the first lines of bench/clients.rs");
            ExitCode::from(2)
        }
    }
}
