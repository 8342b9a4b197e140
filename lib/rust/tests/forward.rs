//! A device's Trap goes to two receivers, to one as a Trap and to the other as an Inform, which it acknowledges.

use snmpsec::{
    Access, Agent, Error, Forwarded, Forwarder, Gate, InformMessage, Level, Manager, Part, Pdu,
    ReceiverTaken, Refusal, TrapTaken, NO_CLOCKS,
};

const NOW: u64 = 1_000_000;
const RECEIVER: &[u8] = b"\x80\0\x1f\x88\x04receiver";
const USER: &str = "[[user]]\nname = 'ann'\nauth = 'sha256'\nauth-password = 'maplesyrup'\n\
    priv-password = 'another passphrase'\n";
const GATE: &str = "[gate]\nengine = '80001f8804676174652d31'\nboots = '/var/lib/boots'\n\
    listen = ['192.0.2.1:161']\ntraps = ['0.0.0.0:162']\n\
    [[device]]\ncontext = 'pdu'\naddress = '10.1.0.7:161'\ncommunity = 'public'\n\
    [[receiver]]\naddress = '192.0.2.50:162'\nuser = 'ann'\nlevel = 'authPriv'\n\
    [[receiver]]\naddress = '192.0.2.51:162'\nuser = 'ann'\nlevel = 'authPriv'\nkind = 'inform'\n\
    [[group]]\nmodel = 3\nname = 'ann'\ngroup = 'all'\n\
    [[access]]\ngroup = 'all'\nprefix = ''\nmodel = 3\nlevel = 'authPriv'\nmatch = 'prefix'\nnotify = 'all'\n\
    [[family]]\nview = 'all'\nsubtree = '1.3.6.1'\ninclude = true\n";

/// coldStart of a device with the community "public".
const TRAP: &[u8] = b"\x30\x40\x02\x01\x01\x04\x06public\
    \xa7\x33\x02\x01\x07\x02\x01\x00\x02\x01\x00\x30\x28\
    \x30\x0d\x06\x08\x2b\x06\x01\x02\x01\x01\x03\x00\x43\x01\x05\
    \x30\x17\x06\x0a\x2b\x06\x01\x06\x03\x01\x01\x04\x01\x00\x06\x09\x2b\x06\x01\x06\x03\x01\x01\x05\x01";

fn forwarder() -> Forwarder {
    Forwarder::new(format!("{GATE}{USER}").as_bytes(), 5, NOW / 1000 - 100).unwrap()
}

#[test]
fn the_configuration_says_who_is_notified_how() {
    let gate = Gate::new(format!("{GATE}{USER}").as_bytes(), 5, 0).unwrap();
    assert_eq!(gate.traps().unwrap(), ["0.0.0.0:162"]);
    let receivers = gate.receivers().unwrap();
    let kinds: Vec<_> = receivers.iter().map(|it| it.kind.as_str()).collect();
    assert_eq!(kinds, ["trap", "inform"]);
    assert_eq!(receivers[1].address, "192.0.2.51:162");
    assert_eq!(
        (receivers[1].user.as_slice(), receivers[1].level.as_str()),
        (&b"ann"[..], "authPriv")
    );
    let may = |name: &[u32]| gate.may_notify(1, 0, name);
    assert_eq!(may(&[1, 3, 6, 1, 2, 1, 1, 3, 0]), Ok(Access::Allowed));
    assert_eq!(may(&[1, 3, 5]), Ok(Access::NotInView));
    assert_eq!(
        gate.may_notify(2, 0, &[1, 3, 6, 1]),
        Err(Error::NothingTaken)
    );
}

#[test]
fn what_is_no_notification_is_told() {
    let mut forwarder = forwarder();
    assert_eq!(
        forwarder.take_trap(0, b"no message"),
        Ok(TrapTaken::Unreadable)
    );
    assert_eq!(forwarder.take_trap(1, TRAP), Ok(TrapTaken::OtherCommunity));
    assert_eq!((forwarder.due(), forwarder.waiting()), (None, Ok(0)));
    assert_eq!(
        forwarder.take_receiver(NOW, 1, b"no message"),
        Err(Error::Refused(Refusal::NotMessage))
    );
}

/// The datagram of a Trap, and the Inform that begins.
fn sent_on(forwarder: &mut Forwarder) -> (Vec<u8>, u64) {
    assert_eq!(forwarder.take_trap(0, TRAP), Ok(TrapTaken::Waits(0)));
    assert_eq!((forwarder.due(), forwarder.waiting()), (Some(0), Ok(1)));
    let Some(Forwarded::Trap {
        notification: 0,
        receiver: 0,
        datagram,
    }) = forwarder.next(NOW, 1, 1).unwrap()
    else {
        panic!("no Trap goes to the first receiver");
    };
    let Some(Forwarded::InformBegins {
        notification: 0,
        receiver: 1,
        inform,
    }) = forwarder.next(NOW, 2, 2).unwrap()
    else {
        panic!("no Inform begins for the second receiver");
    };
    assert_eq!((forwarder.waiting(), forwarder.informs()), (Ok(0), Ok(1)));
    (datagram, inform)
}

/// What the forwarder sends now for the Inform, and what the receiver's engine answers.
fn answered(
    forwarder: &mut Forwarder,
    receiver: &mut Agent,
    salt: u64,
) -> (InformMessage, Vec<u8>) {
    let Some(Forwarded::Inform {
        receiver: 1,
        message,
        datagram,
        ..
    }) = forwarder.next(NOW, salt, salt as u32).unwrap()
    else {
        panic!("nothing goes out for the Inform");
    };
    if receiver.take(NOW / 1000, &datagram).is_ok() {
        assert_eq!(receiver.info().unwrap().pdu, Pdu::InformRequest as i32);
        assert_eq!(receiver.part(Part::ContextName).unwrap(), b"pdu");
        let bindings = receiver.part(Part::Bindings).unwrap();
        receiver.respond(NOW / 1000, 0, 0, &bindings, 7).unwrap();
    }
    (message, receiver.message().unwrap())
}

#[test]
fn a_trap_goes_to_one_receiver_and_an_inform_to_the_other() {
    let mut forwarder = forwarder();
    let mut receiver = Agent::new(USER.as_bytes(), RECEIVER, 3, NOW / 1000 - 50).unwrap();
    let mut manager = Manager::new(USER.as_bytes(), NO_CLOCKS, 0).unwrap();
    let (trap, inform) = sent_on(&mut forwarder);
    manager.take(NOW / 1000, &trap).unwrap();
    assert_eq!(manager.info().unwrap().pdu, Pdu::Trap as i32);
    assert_eq!(manager.info().unwrap().level, Level::AuthPriv);
    let expected = [
        (InformMessage::InformDiscovery, ReceiverTaken::Heard(inform)),
        (InformMessage::InformTime, ReceiverTaken::Heard(inform)),
        (
            InformMessage::InformItself,
            ReceiverTaken::Acknowledged(inform),
        ),
    ];
    for (number, (message, taken)) in expected.into_iter().enumerate() {
        let (sent, answer) = answered(&mut forwarder, &mut receiver, 10 + number as u64);
        assert_eq!(sent, message);
        assert_eq!(
            forwarder.take_receiver(NOW, 0, &answer),
            Ok(ReceiverTaken::NoAnswer)
        );
        assert_eq!(forwarder.take_receiver(NOW, 1, &answer), Ok(taken));
    }
    assert_eq!((forwarder.informs(), forwarder.due()), (Ok(0), None));
}

#[test]
fn an_inform_that_nobody_answers_is_given_up() {
    let mut forwarder = forwarder();
    let (_, inform) = sent_on(&mut forwarder);
    let mut sent = 0;
    for number in 0..4 {
        let now = NOW + 5_000 * number;
        match forwarder.next(now, 100 + number, number as u32).unwrap() {
            Some(Forwarded::Inform { .. }) => sent += 1,
            other => assert_eq!(
                other,
                Some(Forwarded::InformGivenUp {
                    inform,
                    receiver: 1,
                    counter: None
                })
            ),
        }
    }
    assert_eq!((sent, forwarder.due()), (3, None));
}
