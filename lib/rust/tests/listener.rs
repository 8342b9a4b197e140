//! A Trap and an Inform are each reported once, if they are at the least level and fresh.

use snmpsec::{
    Agent, Clock, Dropped, Error, Level, Listener, Listening, Manager, Notification, Notified,
    Part, Pdu, Refusal, Request, NO_CLOCKS,
};

const NOW: u64 = 1_000_000;
const OWN: &[u8] = b"\x80\0\x1f\x88\x04listener";
const SENDER: &[u8] = b"\x80\0\x1f\x88\x04sender";
const CONFIG: &[u8] = b"[[user]]\nname = 'ann'\nauth = 'sha256'\nauth-password = 'maplesyrup'\n\
    priv-password = 'another passphrase'\n[[user]]\nname = 'eve'\n";
const BINDING: &[u8] = b"\x30\x0d\x06\x08\x2b\x06\x01\x02\x01\x01\x03\x00\x43\x01\x05";

fn listener(of: &Listening<'_>) -> Listener {
    let of = Listening {
        engine: OWN,
        started: NOW,
        ..*of
    };
    Listener::new(CONFIG, &of).unwrap()
}

fn trap(user: &[u8], level: Level, boots: u32, message_id: u32) -> Vec<u8> {
    let mut agent = Agent::new(CONFIG, SENDER, boots, NOW - 100).unwrap();
    let notification = Notification {
        message_id,
        request_id: message_id,
        level,
        user,
        context_engine: SENDER,
        context_name: b"",
        bindings: BINDING,
    };
    agent.notify(NOW, &notification, 1).unwrap();
    agent.message().unwrap()
}

fn inform(clocks: &[u8]) -> (Manager, Vec<u8>) {
    let mut manager = Manager::new(CONFIG, clocks, NOW).unwrap();
    let request = Request {
        pdu: Pdu::InformRequest,
        message_id: 7,
        request_id: 8,
        error_status: 0,
        error_index: 0,
        level: Level::AuthPriv,
        engine: OWN,
        user: b"ann",
        context_engine: OWN,
        context_name: b"",
        bindings: BINDING,
    };
    manager.request(NOW, &request, 2).unwrap();
    let message = manager.message().unwrap();
    (manager, message)
}

#[test]
fn a_trap_is_reported_once_at_the_level_of_its_user() {
    let mut listener = listener(&Listening::default());
    let dropped = |why| Ok(Notified::Dropped(why));
    for level in [Level::NoAuthNoPriv, Level::AuthNoPriv] {
        let low = trap(b"ann", level, 1, 1);
        assert_eq!(listener.take(NOW, b"", &low, 1), dropped(Dropped::LowLevel));
    }
    let first = trap(b"ann", Level::AuthPriv, 1, 2);
    assert_eq!(listener.take(NOW, b"", &first, 2), Ok(Notified::Trap));
    assert_eq!(listener.part(Part::User).unwrap(), b"ann");
    assert_eq!(listener.part(Part::Bindings).unwrap(), BINDING);
    assert_eq!(listener.info().unwrap().level, Level::AuthPriv);
    assert_eq!(listener.take(NOW, b"", &first, 3), dropped(Dropped::Copy));
    assert_eq!(listener.info(), Err(Error::NothingTaken));
    assert_eq!(listener.message(), Err(Error::NothingTaken));
    assert_eq!(listener.count(Dropped::LowLevel), Ok(2));
    assert_eq!(listener.count(Dropped::Copy), Ok(1));
    let held = listener.clock(SENDER).unwrap();
    assert_eq!(
        held,
        Clock {
            boots: 1,
            time: 100
        }
    );
}

#[test]
fn a_trap_of_before_is_refused_after_a_restart() {
    let old = trap(b"ann", Level::AuthPriv, 4, 1);
    let mut listener = listener(&Listening::default());
    let new = trap(b"ann", Level::AuthPriv, 5, 2);
    assert_eq!(listener.take(NOW, b"", &new, 1), Ok(Notified::Trap));
    let clocks = listener.saved().unwrap();
    let mut again = self::listener(&Listening {
        clocks: &clocks,
        ..Listening::default()
    });
    let why = Dropped::Refused(Refusal::NotInWindow);
    assert_eq!(again.take(NOW, b"", &old, 2), Ok(Notified::Dropped(why)));
    assert_eq!(again.count(why), Ok(1));
}

#[test]
fn an_address_is_named_for_notifications_without_authentication() {
    let mut listener = listener(&Listening {
        sources: &[b"192.0.2.1", b"192.0.2.2"],
        ..Listening::default()
    });
    let eve = trap(b"eve", Level::NoAuthNoPriv, 1, 1);
    let other = Notified::Dropped(Dropped::OtherAddress);
    assert_eq!(listener.take(NOW, b"192.0.2.3", &eve, 1), Ok(other));
    assert_eq!(
        listener.take(NOW, b"192.0.2.2", &eve, 2),
        Ok(Notified::Trap)
    );
}

#[test]
fn an_inform_is_acknowledged_with_its_copies() {
    let mut listener = listener(&Listening::default());
    let (mut discovering, _) = inform(NO_CLOCKS);
    discovering.discover(3).unwrap();
    let discovery = discovering.message().unwrap();
    let refused = Notified::Dropped(Dropped::Refused(Refusal::UnknownEngine));
    assert_eq!(listener.take(NOW, b"", &discovery, 1), Ok(refused));
    discovering.take(NOW, &listener.message().unwrap()).unwrap();
    let clocks = format!("snmp-clocks 2\n80001f88046c697374656e6572 1 0 {NOW}\n");
    let (mut manager, message) = inform(clocks.as_bytes());
    assert_eq!(listener.take(NOW, b"", &message, 2), Ok(Notified::Inform));
    let acknowledgement = listener.message().unwrap();
    assert_eq!(
        listener.take(NOW, b"", &message, 3),
        Ok(Notified::Dropped(Dropped::Copy))
    );
    for text in [acknowledgement, listener.message().unwrap()] {
        manager.take(NOW, &text).unwrap();
        assert_eq!(manager.reply(), Ok(snmpsec::Reply::Response));
        assert_eq!(manager.part(Part::Bindings).unwrap(), BINDING);
    }
}
