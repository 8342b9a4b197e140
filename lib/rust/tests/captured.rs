//! What net-snmp's tools sent each other is taken, and answered.

mod common;

use common::{file, ENGINE};
use snmpsec::{
    binding, bindings, Access, Agent, Clock, Error, Level, Manager, Part, Pdu, Refusal, View,
};

fn octets(hex: &str) -> Vec<u8> {
    (0..hex.len() / 2)
        .map(|i| u8::from_str_radix(&hex[2 * i..2 * i + 2], 16).unwrap())
        .collect()
}

/// The moments and the datagrams of the log.
fn log() -> Vec<(u64, Vec<u8>)> {
    let words = |line: &str| {
        line.split_once(' ')
            .map(|(moment, hex)| (moment.parse().unwrap(), octets(hex)))
    };
    file("captured.log")
        .lines()
        .map(|line| words(line).unwrap())
        .collect()
}

fn agent() -> Agent {
    Agent::new(file("config.toml").as_bytes(), &ENGINE, 1, 997).unwrap()
}

#[test]
fn an_agent_answers_the_requests() {
    let mut agent = agent();
    assert_eq!(agent.message(), Err(Error::NothingTaken));
    assert_eq!(agent.info(), Err(Error::NothingTaken));
    let mut accepted = 0;
    for (_, datagram) in log() {
        if agent.take(1000, &datagram).is_err() || !agent.info().unwrap().is(Pdu::GetRequest) {
            continue;
        }
        accepted += 1;
        let list = agent.part(Part::Bindings).unwrap();
        for asked in bindings(&list).unwrap() {
            assert_eq!(
                agent.access(View::Read, &asked.name),
                Ok(Access::NoSuchContext)
            );
            assert!(!agent.allows(View::Read, &asked.name));
            assert_eq!(agent.next(View::Read, &asked.name), Ok(None));
            let text = binding(&asked.name, 4, b"hello").unwrap();
            agent.respond(1000, 0, 0, &text, accepted).unwrap();
            assert!(!agent.message().unwrap().is_empty());
        }
        assert_eq!(
            agent.respond(1000, 0, 0, b"no", accepted),
            Err(Error::BadBindings)
        );
    }
    assert_eq!(accepted, 5);
    assert_eq!(agent.counters().unwrap().unknown_engines, 6);
}

#[test]
fn an_agent_refuses_what_is_out_of_range() {
    let config = file("config.toml");
    assert_eq!(
        agent().user_access(b"ann", Level::NoAuthNoPriv, b"", View::Read, &[1, 3]),
        Ok(Access::NoSuchContext)
    );
    assert_eq!(
        agent().access(View::Read, &[1, 3]),
        Err(Error::NothingTaken)
    );
    assert!(!agent().allows(View::Read, &[1, 3]));
    assert_eq!(
        agent().next(View::Read, &[1, 3]),
        Err(Error::NothingTaken)
    );
    for engine in [b"1234".as_slice(), &[0; 12], &[255; 12]] {
        assert_eq!(
            Agent::new(config.as_bytes(), engine, 1, 0).err(),
            Some(Error::BadArgument)
        );
    }
    assert_eq!(
        Agent::new(b"no", &ENGINE, 1, 0).err(),
        Some(Error::BadConfiguration)
    );
    assert_eq!(binding(&[3, 1], 4, b""), Err(Error::BadArgument));
    assert_eq!(
        Error::Refused(Refusal::WrongDigest).to_string(),
        "refused: its digest is wrong: mostly another password"
    );
    let error: Box<dyn std::error::Error> = Error::BadClocks.into();
    assert_eq!(error.to_string(), "the text saves no clocks");
}

/// The lines that the program's replay prints of the same.
#[test]
fn a_manager_tells_what_replay_prints() {
    let mut manager = Manager::new(
        file("config.toml").as_bytes(),
        file("begin.clocks").as_bytes(),
        0,
    )
    .unwrap();
    let mut printed = String::new();
    for (i, (moment, datagram)) in log().iter().enumerate() {
        let line = match manager.take(*moment, datagram) {
            Ok(()) => manager
                .info()
                .map(|info| format!("accepted {} {:x}", info.level, info.pdu))
                .unwrap(),
            Err(Error::Refused(refusal)) => format!("refused {} {refusal:?}", refusal as i32),
            Err(error) => panic!("{error}"),
        };
        printed += &format!("{} {moment} {line}\n", i + 1);
    }
    printed += &String::from_utf8(manager.saved().unwrap()).unwrap();
    assert_eq!(printed, file("printed.txt"));
    assert_eq!(manager.clock(&ENGINE), Ok(Clock { boots: 1, time: 3 }));
}
