//! Requests that wait outside of their agent for their Responses.

mod common;

use common::{file, ENGINE};
use snmpsec::{
    binding, Access, Agent, Answer, Error, Level, Manager, Part, Pdu, Refusal, Request, Response,
    View, NO_CLOCKS,
};

const NOW: u64 = 1000;
const LATER: u64 = 1040;
const SYS_DESCR: [u32; 9] = [1, 3, 6, 1, 2, 1, 1, 1, 0];

fn saying(bindings: &[u8]) -> Response<'_> {
    Response {
        bindings,
        ..Response::default()
    }
}

fn agent() -> Agent {
    Agent::new(file("config.toml").as_bytes(), &ENGINE, 5, NOW - 900).unwrap()
}

fn ask(manager: &mut Manager, request_id: u32, level: Level) -> (u64, Vec<u8>) {
    let list = binding(&SYS_DESCR, 5, b"").unwrap();
    let of = Request {
        pdu: Pdu::GetRequest,
        message_id: 7,
        request_id,
        error_status: 0,
        error_index: 0,
        level,
        engine: &ENGINE,
        user: b"ann",
        context_engine: &ENGINE,
        context_name: b"",
        bindings: &list,
    };
    let token = manager.ask(NOW, &of, request_id.into()).unwrap();
    (token, manager.message().unwrap())
}

/// An agent, and a manager that knows its time.
fn both() -> (Agent, Manager) {
    let mut agent = agent();
    let mut manager = Manager::new(file("config.toml").as_bytes(), NO_CLOCKS, NOW).unwrap();
    let (token, request) = ask(&mut manager, 1, Level::AuthNoPriv);
    agent.take(NOW, &request).unwrap_err();
    manager.take(NOW, &agent.message().unwrap()).unwrap();
    manager.give_up(token).unwrap();
    (agent, manager)
}

#[test]
fn many_are_answered_out_of_order() {
    let (mut one, mut manager) = both();
    let mut other = agent();
    let value = binding(&SYS_DESCR, 4, b"a device").unwrap();
    let mut waiting = Vec::new();
    for id in 10..70 {
        let level = [Level::NoAuthNoPriv, Level::AuthNoPriv, Level::AuthPriv][id as usize % 3];
        let (token, request) = ask(&mut manager, id, level);
        one.take(NOW, &request).unwrap();
        waiting.push((token, id, request, one.keep().unwrap()));
        assert_eq!(one.info(), Err(Error::NothingTaken));
    }
    assert!(matches!(one.keep(), Err(Error::NothingTaken)));
    while !waiting.is_empty() {
        let (token, id, request, mut kept) = waiting.swap_remove(waiting.len() / 3);
        other.take(NOW, &request).unwrap();
        assert_eq!(kept.info(), other.info());
        assert_eq!(kept.info().unwrap().request_id, id as i32);
        for part in [
            Part::Bindings,
            Part::User,
            Part::ContextEngine,
            Part::ContextName,
            Part::Engine,
        ] {
            assert_eq!(kept.part(part), other.part(part));
        }
        assert_eq!(kept.max_size(), other.max_size());
        other.respond(LATER, 0, 0, &value, id.into()).unwrap();
        kept.respond(&mut one, LATER, &saying(&value), id.into())
            .unwrap();
        let response = one.message().unwrap();
        assert_eq!(Ok(&response), other.message().as_ref());
        manager.take(LATER, &response).unwrap();
        assert_eq!(manager.answered(), Ok(Some((token, Answer::Response))));
    }
}

#[test]
fn another_configuration_counts_on() {
    let (mut agent, mut manager) = both();
    let (_, request) = ask(&mut manager, 10, Level::AuthPriv);
    agent.take(NOW, &request).unwrap();
    let mut kept = agent.keep().unwrap();
    let before = agent.counters().unwrap();
    assert_eq!(agent.reconfigure(b"no"), Err(Error::BadConfiguration));
    agent.reconfigure(b"").unwrap();
    assert_eq!(agent.counters(), Ok(before));
    let unknown = Err(Error::Refused(Refusal::UnknownUser));
    assert_eq!(kept.respond(&mut agent, LATER, &saying(b""), 1), unknown);
    assert_eq!(agent.take(NOW, &request), unknown);
    assert_eq!(
        agent.counters().unwrap().unknown_users,
        before.unknown_users + 1
    );
    agent.reconfigure(file("config.toml").as_bytes()).unwrap();
    assert_eq!(kept.respond(&mut agent, LATER, &saying(b""), 1), Ok(()));
}

#[test]
fn what_is_kept_goes_back() {
    let (mut agent, mut manager) = both();
    let (_, first) = ask(&mut manager, 10, Level::AuthPriv);
    let (_, second) = ask(&mut manager, 20, Level::AuthPriv);
    agent.take(NOW, &first).unwrap();
    let kept = agent.keep().unwrap();
    assert_eq!(
        agent.access(View::Read, &SYS_DESCR),
        Err(Error::NothingTaken)
    );
    agent.take(NOW, &second).unwrap();
    agent.restore(kept).unwrap();
    assert_eq!(agent.info().unwrap().request_id, 10);
    assert_eq!(
        agent.access(View::Read, &SYS_DESCR),
        Ok(Access::NoSuchContext)
    );
}

#[test]
fn another_agent_answers_within_a_limit() {
    let (mut first, mut manager) = both();
    let (token, request) = ask(&mut manager, 10, Level::AuthPriv);
    first.take(NOW, &request).unwrap();
    let mut kept = std::thread::spawn(move || first.keep().unwrap())
        .join()
        .unwrap();
    let mut next = Agent::new(file("config.toml").as_bytes(), &ENGINE, 6, NOW).unwrap();
    let value = binding(&SYS_DESCR, 4, &[7; 600]).unwrap();
    let (of, junk) = (saying(&value), saying(b"junk"));
    let too_large = Err(Error::Refused(Refusal::TooLarge));
    assert_eq!(
        kept.respond_within(&mut next, LATER, &of, 1, 484),
        too_large
    );
    assert_eq!(next.message(), Err(Error::NothingTaken));
    assert_eq!(kept.respond_front(&mut next, LATER, &of, 2, 484), Ok(0));
    assert_eq!(kept.respond_front(&mut next, LATER, &of, 3, 2000), Ok(1));
    let wide = Response {
        error_status: 1 << 31,
        ..of
    };
    assert_eq!(
        kept.respond(&mut next, LATER, &wide, 4),
        Err(Error::BadArgument)
    );
    assert_eq!(
        kept.respond(&mut next, LATER, &junk, 5),
        Err(Error::BadBindings)
    );
    manager.take(LATER, &next.message().unwrap()).unwrap();
    assert_eq!(manager.answered(), Ok(Some((token, Answer::Response))));
}
