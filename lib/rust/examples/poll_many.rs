//! Many requests at once over one socket, without threads: poll_many CONFIG USER LEVEL OID HOST:PORT..
//!
//! It asks each device for the variable, at the same time, and prints a line for each: its address, and the variable's
//! tag and content, as octets, or why there is none. Devices are discovered first. The loop waits for a datagram or for
//! the next timeout, so it stands as it is in a program with an event loop of its own. Level is 1, 2 or 3.

use snmpsec::{
    binding, bindings, Answer, Device, Error, Known, Level, Manager, Part, Pdu, Request, Step,
    NO_CLOCKS,
};
use std::collections::hash_map::RandomState;
use std::collections::HashMap;
use std::error::Error as Fault;
use std::hash::{BuildHasher, Hasher};
use std::net::{SocketAddr, ToSocketAddrs, UdpSocket};
use std::time::{Duration, Instant, SystemTime, UNIX_EPOCH};

const TRIES: u32 = 4;
const TIMEOUT: Duration = Duration::from_secs(1);

/// A number that nobody foresees. `RandomState` is seeded by the system; a program of your own takes the system's
/// random octets.
fn random() -> u64 {
    RandomState::new().build_hasher().finish()
}

fn now() -> u64 {
    SystemTime::now()
        .duration_since(UNIX_EPOCH)
        .map_or(0, |since| since.as_secs())
}

/// A device that is asked: what is on its way to it, and how often and when it was sent.
struct Asked {
    at: SocketAddr,
    device: Device,
    engine: Vec<u8>,
    token: u64,
    message: Vec<u8>,
    sent: u32,
    due: Instant,
}

/// The devices that are asked, by one manager over one socket.
struct Station<'a> {
    socket: UdpSocket,
    manager: Manager,
    user: &'a str,
    level: Level,
    list: Vec<u8>,
    waiting: HashMap<u64, Asked>,
}

impl Station<'_> {
    /// Writes what is to be sent next to a device, and sends it.
    fn write(&mut self, mut asked: Asked) -> Result<(), Box<dyn Fault>> {
        let id = random() as u32 >> 2;
        let is_request = asked.device.step() == Step::SendRequest;
        let request = Request {
            pdu: Pdu::GetRequest,
            message_id: id,
            request_id: id,
            error_status: 0,
            error_index: 0,
            level: if is_request {
                self.level
            } else {
                Level::AuthNoPriv
            },
            engine: &asked.engine,
            user: self.user.as_bytes(),
            context_engine: &asked.engine,
            context_name: b"",
            bindings: if is_request { &self.list } else { &[] },
        };
        asked.token = match asked.device.step() {
            Step::SendDiscovery => self.manager.ask_discovery(id)?,
            _ => self.manager.ask(now(), &request, random())?,
        };
        asked.message = self.manager.message()?;
        asked.sent = 0;
        self.send(asked)
    }

    fn send(&mut self, mut asked: Asked) -> Result<(), Box<dyn Fault>> {
        self.socket.send_to(&asked.message, asked.at)?;
        asked.sent += 1;
        asked.due = Instant::now() + TIMEOUT;
        self.waiting.insert(asked.token, asked);
        Ok(())
    }

    /// Takes what came from this address, and does what is to be done then.
    fn take(&mut self, from: SocketAddr, datagram: &[u8]) -> Result<(), Box<dyn Fault>> {
        if self.manager.take(now(), datagram).is_err() {
            return Ok(()); // it may be anybody's
        }
        let Some((token, answer)) = self.manager.answered()? else {
            return Ok(());
        };
        match self.waiting.remove(&token) {
            Some(asked) if asked.at == from => self.hear(asked, answer),
            Some(asked) => {
                self.waiting.insert(token, asked);
                Ok(())
            }
            None => Ok(()),
        }
    }

    /// A message answers what was sent last to a device.
    fn hear(&mut self, mut asked: Asked, answer: Answer) -> Result<(), Box<dyn Fault>> {
        if asked.engine.is_empty() {
            asked.engine = self.manager.part(Part::Engine)?;
        }
        let holds_clock = self.manager.clock(&asked.engine).is_ok();
        match asked.device.hear(answer, holds_clock)? {
            Step::Wait => {
                self.waiting.insert(asked.token, asked);
            }
            Step::Answered => self.print(asked.at)?,
            Step::Denied => {
                println!(
                    "{} refuses it: report {:?}",
                    asked.at,
                    asked.device.report()
                );
                self.end(asked.token)?;
            }
            Step::SendDiscovery | Step::SendTimeRequest | Step::SendRequest => {
                self.end(asked.token)?;
                self.write(asked)?;
            }
        }
        Ok(())
    }

    fn end(&mut self, token: u64) -> Result<(), Box<dyn Fault>> {
        match self.manager.give_up(token) {
            Ok(()) | Err(Error::NothingTaken) => Ok(()),
            Err(fault) => Err(fault.into()),
        }
    }

    fn print(&self, at: SocketAddr) -> Result<(), Box<dyn Fault>> {
        for one in bindings(&self.manager.part(Part::Bindings)?)? {
            let content: String = one
                .content
                .iter()
                .map(|octet| format!("{octet:02x}"))
                .collect();
            println!("{at} {:02x} {content}", one.tag);
        }
        Ok(())
    }

    /// Sends again what is due, or gives it up.
    fn turn(&mut self) -> Result<(), Box<dyn Fault>> {
        let late: Vec<u64> = self
            .waiting
            .values()
            .filter(|asked| asked.due <= Instant::now())
            .map(|asked| asked.token)
            .collect();
        for token in late {
            let Some(asked) = self.waiting.remove(&token) else {
                continue;
            };
            if asked.sent < TRIES {
                self.send(asked)?;
                continue;
            }
            println!(
                "{} doesn't answer, report {:?}",
                asked.at,
                asked.device.report()
            );
            self.end(token)?;
        }
        Ok(())
    }

    /// Goes on until no device is waited for.
    fn run(&mut self) -> Result<(), Box<dyn Fault>> {
        let mut datagram = vec![0; 65_507];
        while let Some(due) = self.waiting.values().map(|asked| asked.due).min() {
            let left = due
                .saturating_duration_since(Instant::now())
                .max(Duration::from_millis(1));
            self.socket.set_read_timeout(Some(left))?;
            if let Ok((len, from)) = self.socket.recv_from(&mut datagram) {
                self.take(from, &datagram[..len])?;
            }
            self.turn()?;
        }
        Ok(())
    }
}

fn level_of(word: &str) -> Option<Level> {
    match word {
        "1" => Some(Level::NoAuthNoPriv),
        "2" => Some(Level::AuthNoPriv),
        "3" => Some(Level::AuthPriv),
        _ => None,
    }
}

fn run(words: &[String]) -> Result<(), Box<dyn Fault>> {
    let [config, user, level, name, places @ ..] = words else {
        return Err("usage: poll_many CONFIG USER LEVEL OID HOST:PORT..".into());
    };
    let level = level_of(level).ok_or("the level isn't 1, 2 or 3")?;
    let arcs: Result<Vec<u32>, _> = name.split('.').map(str::parse).collect();
    let mut station = Station {
        socket: UdpSocket::bind("0.0.0.0:0")?,
        manager: Manager::new(&std::fs::read(config)?, NO_CLOCKS, now())?,
        user,
        level,
        list: binding(&arcs?, 5, b"").map_err(|_| Error::BadArgument)?,
        waiting: HashMap::new(),
    };
    for place in places {
        let at = place
            .to_socket_addrs()?
            .next()
            .ok_or("the host has no address")?;
        station.write(Asked {
            at,
            device: Device::new(level, Known::Nothing)?,
            engine: Vec::new(),
            token: 0,
            message: Vec::new(),
            sent: 0,
            due: Instant::now(),
        })?;
    }
    station.run()
}

fn main() {
    let words: Vec<String> = std::env::args().skip(1).collect();
    if let Err(fault) = run(&words) {
        eprintln!("poll_many: {fault}");
        std::process::exit(1);
    }
}
