//! A GetRequest over UDP: get CONFIG HOST:PORT USER LEVEL OID..
//!
//! It discovers the agent, asks it for the variables and prints them, a line each: name, tag and content, as octets.
//! Level is 1, 2 or 3.

use snmpsec::{binding, bindings, Error, Level, Manager, Part, Pdu, Reply, Request, NO_CLOCKS};
use std::collections::hash_map::RandomState;
use std::error::Error as Fault;
use std::hash::{BuildHasher, Hasher};
use std::net::UdpSocket;
use std::time::{Duration, Instant, SystemTime, UNIX_EPOCH};

const UNKNOWN_ENGINES: Option<u32> = Some(4);
const NOT_IN_WINDOWS: Option<u32> = Some(2);
const TRIES: u32 = 3;
const TIMEOUT: Duration = Duration::from_secs(1);

/// A number that nobody foresees. `RandomState` is seeded by the system; a program of your own takes the system's
/// random octets.
fn random() -> u64 {
    RandomState::new().build_hasher().finish()
}

fn now() -> u64 {
    SystemTime::now()
        .duration_since(UNIX_EPOCH)
        .map_or(0, |since| since.as_secs())
}

/// The next reply to the request among what comes. What isn't one is passed over: it may be anybody's.
fn replied(socket: &UdpSocket, manager: &mut Manager) -> Result<Reply, Box<dyn Fault>> {
    let mut datagram = vec![0; 65_507];
    let until = Instant::now() + TIMEOUT;
    while Instant::now() < until {
        let len = socket.recv(&mut datagram)?;
        if manager.take(now(), &datagram[..len]).is_err() {
            continue;
        }
        let reply = manager.take_reply()?;
        if reply != Reply::Other {
            return Ok(reply);
        }
    }
    Err("no reply in time".into())
}

/// Sends the manager's message until a reply to it comes.
fn exchange(socket: &UdpSocket, manager: &mut Manager) -> Result<Reply, Box<dyn Fault>> {
    let message = manager.message()?;
    for _ in 0..TRIES {
        socket.send(&message)?;
        if let Ok(reply) = replied(socket, manager) {
            return Ok(reply);
        }
    }
    Err("no answer".into())
}

fn print(manager: &Manager) -> Result<(), Box<dyn Fault>> {
    let info = manager.info()?;
    if info.error_status != 0 {
        return Err(format!(
            "error-status {}, error-index {}",
            info.error_status, info.error_index
        )
        .into());
    }
    for one in bindings(&manager.part(Part::Bindings)?)? {
        let name: Vec<String> = one.name.iter().map(u32::to_string).collect();
        let content: String = one
            .content
            .iter()
            .map(|octet| format!("{octet:02x}"))
            .collect();
        println!("{} {:02x} {content}", name.join("."), one.tag);
    }
    Ok(())
}

fn get(
    socket: &UdpSocket,
    manager: &mut Manager,
    user: &str,
    level: Level,
    list: &[u8],
) -> Result<(), Box<dyn Fault>> {
    manager.discover(random() as u32 >> 2)?;
    if exchange(socket, manager)? != Reply::Report(UNKNOWN_ENGINES) {
        return Err("no engine".into());
    }
    let engine = manager.part(Part::Engine)?;
    for _ in 0..TRIES {
        let id = random() as u32 >> 2;
        let request = Request {
            pdu: Pdu::GetRequest,
            message_id: id,
            request_id: id,
            error_status: 0,
            error_index: 0,
            level,
            engine: &engine,
            user: user.as_bytes(),
            context_engine: &engine,
            context_name: b"",
            bindings: list,
        };
        manager.request(now(), &request, random())?;
        match exchange(socket, manager)? {
            Reply::Response => return print(manager),
            Reply::Report(NOT_IN_WINDOWS) => continue, // the manager learned the engine's boots and time by it
            reply => return Err(format!("{reply:?}").into()),
        }
    }
    Err("not in the time window".into())
}

fn level_of(word: &str) -> Option<Level> {
    match word {
        "1" => Some(Level::NoAuthNoPriv),
        "2" => Some(Level::AuthNoPriv),
        "3" => Some(Level::AuthPriv),
        _ => None,
    }
}

/// The bindings that ask for these variables.
fn list_of(words: &[String]) -> Result<Vec<u8>, Box<dyn Fault>> {
    let mut list = Vec::new();
    for word in words {
        let arcs: Result<Vec<u32>, _> = word.split('.').map(str::parse).collect();
        list.extend(binding(&arcs?, 5, b"").map_err(|_| Error::BadArgument)?);
    }
    Ok(list)
}

fn run(words: &[String]) -> Result<(), Box<dyn Fault>> {
    let [config, at, user, level, names @ ..] = words else {
        return Err("usage: get CONFIG HOST:PORT USER LEVEL OID..".into());
    };
    let level = level_of(level).ok_or("the level isn't 1, 2 or 3")?;
    let mut manager = Manager::new(&std::fs::read(config)?, NO_CLOCKS, now())?;
    let socket = UdpSocket::bind("0.0.0.0:0")?;
    socket.connect(at)?;
    socket.set_read_timeout(Some(TIMEOUT))?;
    get(&socket, &mut manager, user, level, &list_of(names)?)
}

fn main() {
    let words: Vec<String> = std::env::args().skip(1).collect();
    if let Err(fault) = run(&words) {
        eprintln!("get: {fault}");
        std::process::exit(1);
    }
}
