//! A manager and an agent of the library talk to each other.

mod common;

use common::{file, ENGINE};
use snmpsec::{
    binding, bindings, scoped_pdu, Agent, Clock, Error, Level, Manager, Notification, Part, Pdu,
    Refusal, Reply, Request, ScopedPdu, Sealing, LARGEST, NO_CLOCKS,
};

const NOW: u64 = 1000;
const BOOTS: u32 = 5;
const TIME: u32 = 900;
const SYS_DESCR: [u32; 9] = [1, 3, 6, 1, 2, 1, 1, 1, 0];
const LEVELS: [Level; 3] = [Level::NoAuthNoPriv, Level::AuthNoPriv, Level::AuthPriv];

struct Both {
    agent: Agent,
    manager: Manager,
}

fn both(clocks: &[u8]) -> Both {
    let config = file("config.toml");
    let agent = Agent::new(config.as_bytes(), &ENGINE, BOOTS, NOW - u64::from(TIME)).unwrap();
    let manager = Manager::new(config.as_bytes(), clocks, NOW).unwrap();
    Both { agent, manager }
}

impl Both {
    fn agent_takes(&mut self) -> Result<(), Error> {
        self.agent.take(NOW, &self.manager.message().unwrap())
    }

    /// What the agent's message is to the manager's request.
    fn manager_takes(&mut self) -> Result<Reply, Error> {
        self.manager.take(NOW, &self.agent.message()?)?;
        self.manager.reply()
    }

    fn ask(&mut self, message_id: u32, user: &[u8], level: Level) {
        let list = binding(&SYS_DESCR, 5, b"").unwrap();
        let of = Request {
            pdu: Pdu::GetRequest,
            message_id,
            request_id: message_id,
            error_status: 0,
            error_index: 0,
            level,
            engine: &ENGINE,
            user,
            context_engine: &ENGINE,
            context_name: b"",
            bindings: &list,
        };
        self.manager.request(NOW, &of, message_id.into()).unwrap();
    }

    fn discover(&mut self) {
        self.manager.discover(1).unwrap();
        assert_eq!(
            self.agent_takes(),
            Err(Error::Refused(Refusal::UnknownEngine))
        );
        assert_eq!(self.manager_takes(), Ok(Reply::Report(Some(4))));
        assert_eq!(self.manager.part(Part::Engine).unwrap(), ENGINE);
    }

    fn learn(&mut self) {
        assert_eq!(self.manager.clock(&ENGINE), Err(Error::NothingTaken));
        assert_eq!(
            self.agent_takes(),
            Err(Error::Refused(Refusal::NotInWindow))
        );
        assert_eq!(self.manager_takes(), Ok(Reply::Report(Some(2))));
        assert_eq!(
            self.manager.clock(&ENGINE),
            Ok(Clock {
                boots: BOOTS,
                time: TIME
            })
        );
    }

    fn respond(&mut self) {
        let list = binding(&SYS_DESCR, 4, b"hello").unwrap();
        self.agent.respond(NOW, 0, 0, &list, 7).unwrap();
        assert_eq!(self.manager_takes(), Ok(Reply::Response));
        let back = self.manager.part(Part::Bindings).unwrap();
        assert_eq!(back, list);
        assert_eq!(bindings(&back).unwrap()[0].content, b"hello");
    }
}

fn exchanged(user: &[u8], level: Level) {
    let mut both = both(NO_CLOCKS);
    both.discover();
    both.ask(2, user, level);
    if level != Level::NoAuthNoPriv {
        both.learn();
        both.ask(3, user, level);
    }
    assert_eq!(both.agent_takes(), Ok(()));
    assert_eq!(both.agent.info().unwrap().level, level);
    assert_eq!(both.agent.part(Part::User).unwrap(), user);
    both.respond();
    assert_eq!(
        both.agent.counters().unwrap().not_in_windows,
        u32::from(level != Level::NoAuthNoPriv)
    );
}

#[test]
fn each_user_is_answered_at_each_level() {
    for user in [b"ann", b"bob", b"sam"] {
        for level in LEVELS {
            exchanged(user, level);
        }
    }
}

#[test]
fn saved_clocks_are_joined_in() {
    let mut both = both(b"snmp-clocks 2\n0102030405 1 9 7\n");
    assert_eq!(both.manager.absorb(b"no", NOW), Err(Error::BadClocks));
    both.manager
        .absorb(b"snmp-clocks 1\n0102030405 1 8\n0102030406 2 3\n", NOW)
        .unwrap();
    both.manager.discover(1).unwrap();
    let request = both.manager.message().unwrap();
    assert_eq!(
        both.manager.saved().unwrap(),
        b"snmp-clocks 2\n0102030405 1 9 7\n0102030406 2 3 1000\n"
    );
    assert_eq!(both.manager.message().unwrap(), request);
    assert_eq!(both.manager.clock(b"1234"), Err(Error::BadArgument));
    assert_eq!(both.manager.discover(1 << 31), Err(Error::BadArgument));
    assert_eq!(Manager::new(b"", b"no", NOW).err(), Some(Error::BadClocks));
}

#[test]
fn a_saved_text_may_be_longer_than_a_datagram() {
    let engines: String = (0..5000)
        .map(|i| format!("010203{i:04x} 1 2 3\n"))
        .collect();
    let text = [NO_CLOCKS, engines.as_bytes()].concat();
    assert!(text.len() > LARGEST);
    let mut both = both(&text);
    assert_eq!(both.manager.saved().unwrap(), text);
}

#[test]
fn a_trap_is_taken() {
    for level in LEVELS {
        let mut both = both(NO_CLOCKS);
        let list = binding(&SYS_DESCR, 4, b"hello").unwrap();
        let of = Notification {
            message_id: 9,
            user: b"bob",
            level,
            request_id: 8,
            context_engine: &ENGINE,
            context_name: b"",
            bindings: &list,
        };
        both.agent.notify(NOW, &of, 1).unwrap();
        assert_eq!(both.manager_takes(), Err(Error::NothingTaken));
        let info = both.manager.info().unwrap();
        assert!(info.is(Pdu::Trap));
        assert_eq!(
            (info.level, info.message_id, info.request_id),
            (level, 9, 8)
        );
        assert_eq!(both.manager.part(Part::Bindings).unwrap(), list);
        assert_eq!(
            both.manager.clock(&ENGINE).is_ok(),
            level != Level::NoAuthNoPriv
        );
    }
}

const SEALING: Sealing<'static> = Sealing {
    message_id: 7,
    max_size: 484,
    is_reportable: false,
    level: Level::AuthPriv,
    engine: &ENGINE,
    user: b"ann",
    clock: Clock {
        boots: BOOTS,
        time: TIME,
    },
};

const SCOPED: ScopedPdu<'static> = ScopedPdu {
    pdu: Pdu::GetBulkRequest,
    request_id: -1,
    error_status: i32::MIN,
    error_index: i32::MAX,
    context_engine: &ENGINE,
    context_name: b"",
    bindings: b"",
};

#[test]
fn a_scoped_pdu_is_sealed_under_any_header() {
    let mut both = both(NO_CLOCKS);
    let scoped = scoped_pdu(&SCOPED).unwrap();
    both.manager.seal(&SEALING, &scoped, 1).unwrap();
    assert_eq!(both.agent_takes(), Ok(()));
    let info = both.agent.info().unwrap();
    assert_eq!(
        (info.request_id, info.error_status, info.error_index),
        (-1, i32::MIN, i32::MAX)
    );
    assert_eq!((info.level, info.message_id), (Level::AuthPriv, 7));
    assert_eq!(both.agent.max_size(), Ok(484));
    assert_eq!(both.manager.clock(&ENGINE), Err(Error::NothingTaken));
    assert_eq!(both.agent.fits(NOW, 0, 0, b"", 484), Ok(0));
    assert_eq!(
        both.agent.fits(NOW, 0, 0, b"", 10),
        Err(Error::Refused(Refusal::TooLarge))
    );
    both.agent.respond(NOW, 0, 0, b"", 2).unwrap();
    assert_eq!(both.manager_takes(), Err(Error::NothingTaken));
    assert_eq!(both.manager.info().unwrap().request_id, -1);
}

#[test]
fn what_is_sealed_is_reported_where_it_asks_for_that() {
    let mut both = both(NO_CLOCKS);
    let scoped = scoped_pdu(&SCOPED).unwrap();
    for is_reportable in [false, true] {
        let late = Sealing {
            is_reportable,
            clock: Clock {
                boots: BOOTS,
                time: TIME + 151,
            },
            ..SEALING
        };
        both.manager.seal(&late, &scoped, 1).unwrap();
        assert_eq!(
            both.agent_takes(),
            Err(Error::Refused(Refusal::NotInWindow))
        );
        assert_eq!(both.agent.message().is_ok(), is_reportable);
    }
}

#[test]
fn what_cant_be_sealed_is_refused() {
    let mut manager = both(NO_CLOCKS).manager;
    let scoped = scoped_pdu(&SCOPED).unwrap();
    let small = Sealing {
        max_size: 483,
        ..SEALING
    };
    let nobody = Sealing {
        user: b"eve",
        ..SEALING
    };
    let junk = ScopedPdu {
        bindings: b"junk",
        ..SCOPED
    };
    assert_eq!(manager.seal(&small, &scoped, 1), Err(Error::BadArgument));
    assert_eq!(
        manager.seal(&SEALING, &scoped[1..], 1),
        Err(Error::BadArgument)
    );
    assert_eq!(
        manager.seal(&nobody, &scoped, 1),
        Err(Error::Refused(Refusal::UnknownUser))
    );
    assert_eq!(scoped_pdu(&junk), Err(Error::BadBindings));
    assert_eq!(manager.message(), Err(Error::NothingTaken));
}
