//! Many requests at once, which an agent of the library answers in any order.

mod common;

use common::{file, ENGINE};
use snmpsec::{
    binding, Agent, Answer, Device, Error, Known, Level, Manager, Pdu, Request, Step, NO_CLOCKS,
};

const NOW: u64 = 1000;
const SYS_DESCR: [u32; 9] = [1, 3, 6, 1, 2, 1, 1, 1, 0];

fn both() -> (Agent, Manager) {
    let config = file("config.toml");
    let agent = Agent::new(config.as_bytes(), &ENGINE, 5, NOW - 900).unwrap();
    let manager = Manager::new(config.as_bytes(), NO_CLOCKS, NOW).unwrap();
    (agent, manager)
}

fn ask(manager: &mut Manager, request_id: u32, level: Level) -> u64 {
    let list = binding(&SYS_DESCR, 5, b"").unwrap();
    let of = Request {
        pdu: Pdu::GetRequest,
        message_id: 7,
        request_id,
        error_status: 0,
        error_index: 0,
        level,
        engine: &ENGINE,
        user: b"ann",
        context_engine: &ENGINE,
        context_name: b"",
        bindings: &list,
    };
    manager.ask(NOW, &of, request_id.into()).unwrap()
}

#[test]
fn each_response_is_of_its_request() {
    let (mut agent, mut manager) = both();
    let mut responses = Vec::new();
    for request_id in 1..=20 {
        let token = ask(&mut manager, request_id, Level::NoAuthNoPriv);
        agent.take(NOW, &manager.message().unwrap()).unwrap();
        agent.respond(NOW, 0, 0, b"", 1).unwrap();
        responses.push((token, agent.message().unwrap()));
    }
    manager.give_up(9).unwrap();
    assert_eq!(manager.give_up(9), Err(Error::NothingTaken));
    for (token, response) in responses.into_iter().rev() {
        manager.take(NOW, &response).unwrap();
        let found = (token != 9).then_some((token, Answer::Response));
        assert_eq!(manager.answered(), Ok(found));
        assert_eq!(manager.answered(), Ok(None));
    }
}

#[test]
fn a_report_ends_no_request() {
    let (mut agent, mut manager) = both();
    assert_eq!(manager.answered(), Err(Error::NothingTaken));
    let token = manager.ask_discovery(7).unwrap();
    agent.take(NOW, &manager.message().unwrap()).unwrap_err();
    manager.take(NOW, &agent.message().unwrap()).unwrap();
    let unknown_engine = Answer::Report {
        counter: Some(4),
        is_authentic: false,
    };
    assert_eq!(manager.answered(), Ok(Some((token, unknown_engine))));
    assert_eq!(manager.answered(), Ok(Some((token, unknown_engine))));
    let token = ask(&mut manager, 1, Level::AuthPriv);
    agent.take(NOW, &manager.message().unwrap()).unwrap_err();
    manager.take(NOW, &agent.message().unwrap()).unwrap();
    let not_in_window = Answer::Report {
        counter: Some(2),
        is_authentic: true,
    };
    assert_eq!(manager.answered(), Ok(Some((token, not_in_window))));
}

#[test]
fn anybodys_report_ends_no_request() {
    let mut device = Device::new(Level::AuthPriv, Known::Clock).unwrap();
    assert_eq!((device.step(), device.report()), (Step::SendRequest, None));
    let report = |is_authentic| Answer::Report {
        counter: Some(2),
        is_authentic,
    };
    assert_eq!(device.hear(report(false), true), Ok(Step::Wait));
    assert_eq!(device.report(), Some((2, false)));
    assert_eq!(device.hear(report(true), true), Ok(Step::SendRequest));
    assert_eq!(device.hear(report(true), true), Ok(Step::Denied));
    assert_eq!(device.report(), Some((2, true)));
}
