//! A manager of the library asks a device that speaks SNMPv2c, through a gateway.

use snmpsec::{
    binding, datagram_user, gate_fault, ClientTaken, DeviceTaken, Ended, Error, Gate, Level,
    Manager, Misfit, Part, Pdu, Refusal, Reply, Request, ResponseStatus, Sent, Unhandled,
    NO_CLOCKS,
};

const NOW: u64 = 1_000_000;
const ENGINE: [u8; 11] = [0x80, 0, 0x1f, 0x88, 4, b'g', b'a', b't', b'e', b'-', b'1'];
const SYS_NAME: [u32; 9] = [1, 3, 6, 1, 2, 1, 1, 5, 0];
const USER: &str = "[[user]]\nname = 'ann'\nauth = 'sha256'\nauth-password = 'maplesyrup'\n\
    priv-password = 'another passphrase'\n";
const GATE: &str = "[gate]\nengine = '80001f8804676174652d31'\nboots = '/var/lib/boots'\n\
    listen = ['192.0.2.1:161', '[2001:db8::1]:161']\n\
    [[device]]\ncontext = 'pdu'\naddress = '10.1.0.7:161'\ncommunity = 'reads'\n\
    [[group]]\nmodel = 3\nname = 'ann'\ngroup = 'all'\n\
    [[access]]\ngroup = 'all'\nprefix = ''\nmodel = 3\nlevel = 'noAuthNoPriv'\nmatch = 'prefix'\nread = 'all'\n\
    write = 'all'\n\
    [[family]]\nview = 'all'\nsubtree = '1.3.6.1'\ninclude = true\n";

struct Both {
    gate: Gate,
    manager: Manager,
}

fn both() -> Both {
    Both {
        gate: Gate::new(format!("{GATE}{USER}").as_bytes(), 5, NOW / 1000 - 100).unwrap(),
        manager: Manager::new(USER.as_bytes(), NO_CLOCKS, 0).unwrap(),
    }
}

/// An element with fewer than 128 octets.
fn element(tag: u8, parts: &[&[u8]]) -> Vec<u8> {
    let content = parts.concat();
    [&[tag, content.len() as u8], content.as_slice()].concat()
}

/// The Response of a device to a datagram, of these bindings: its front, up to the PDU, and its request-id are copied.
fn answer(asked: &[u8], list: &[u8]) -> Vec<u8> {
    let pdu = 2 + 3 + 2 + usize::from(asked[6]);
    let id_len = 2 + usize::from(asked[pdu + 3]);
    let (front, id) = (&asked[2..pdu], &asked[pdu + 2..pdu + 2 + id_len]);
    let list = element(0x30, &[list]);
    let pdu = element(0xa2, &[id, &[2, 1, 0, 2, 1, 0], &list]);
    element(0x30, &[front, &pdu])
}

impl Both {
    fn ask(&mut self, message_id: u32, level: Level) -> Vec<u8> {
        let list = binding(&SYS_NAME, 5, b"").unwrap();
        let of = Request {
            pdu: Pdu::GetRequest,
            message_id,
            request_id: message_id,
            error_status: 0,
            error_index: 0,
            level,
            engine: &ENGINE,
            user: b"ann",
            context_engine: &ENGINE,
            context_name: b"pdu",
            bindings: &list,
        };
        self.manager
            .request(NOW / 1000, &of, message_id.into())
            .unwrap();
        self.manager.message().unwrap()
    }

    /// The manager learns the gateway's boots and time by the report on a request.
    fn learn(&mut self) {
        let request = self.ask(1, Level::AuthNoPriv);
        assert_eq!(datagram_user(&request).unwrap(), b"ann");
        assert_eq!(
            self.gate.take_client(NOW, b"client", &request),
            Err(Error::Refused(Refusal::NotInWindow))
        );
        self.manager
            .take(NOW / 1000, &self.gate.message().unwrap())
            .unwrap();
        assert_eq!(self.manager.reply(), Ok(Reply::Report(Some(2))));
        assert_eq!(self.gate.counters().unwrap().not_in_windows, 1);
    }

    fn next(&mut self, number: u32) -> Option<Sent> {
        self.gate.next(NOW, number.into(), number).unwrap()
    }
}

#[test]
fn a_request_goes_to_its_device_and_back() {
    let mut both = both();
    both.learn();
    for (id, level) in [(2, Level::NoAuthNoPriv), (3, Level::AuthPriv)] {
        let message = both.ask(id, level);
        let taken = both.gate.take_client(NOW, b"client", &message);
        let Ok(ClientTaken::Begins {
            request: number,
            pdu,
        }) = taken
        else {
            panic!("a request begins");
        };
        assert_eq!(pdu, Pdu::GetRequest as u8);
        assert_eq!(
            both.gate.asker(number).unwrap().as_deref(),
            Some(b"client".as_slice())
        );
        assert_eq!(both.gate.asker(number + 1), Ok(None));
        let joins = ClientTaken::Joins {
            request: number,
            pdu,
        };
        let again = both.gate.take_client(NOW, b"client", &message);
        assert_eq!(again, Ok(joins));
        assert_eq!(both.gate.waiting(), Ok(1));
        let Some(Sent::ToDevice {
            device: 0,
            datagram,
            request,
            again: false,
        }) = both.next(10 * id)
        else {
            panic!("the device is asked");
        };
        assert_eq!(request, number);
        assert!(datagram.windows(5).any(|part| part == b"reads"));
        assert!(both.gate.due().is_some());
        let list = binding(&SYS_NAME, 4, b"router").unwrap();
        let answer = answer(&datagram, &list);
        assert_eq!(
            both.gate.take_device(NOW, 0, &answer),
            Ok(DeviceTaken::Answers {
                request: number,
                misfit: None,
                hidden: 0
            })
        );
        assert_eq!(
            both.gate.take_device(NOW, 0, &answer),
            Ok(DeviceTaken::NotWaitedFor)
        );
        assert_eq!(
            both.gate.take_device(NOW, 0, b"junk"),
            Ok(DeviceTaken::Unreadable)
        );
        let line = "device pdu sends a datagram that isn't a Response of SNMPv2c";
        assert_eq!(both.gate.lines("", b"junk"), Ok(vec![line.to_string()]));
        for n in 1..3 {
            let Some(Sent::ToClient {
                client,
                says,
                datagram,
                ..
            }) = both.next(10 * id + n)
            else {
                panic!("each message is answered");
            };
            assert_eq!(client, b"client");
            assert_eq!(
                says,
                Some(ResponseStatus {
                    status: 0,
                    index: 0
                })
            );
            both.manager.take(NOW / 1000, &datagram).unwrap();
            assert_eq!(both.manager.reply(), Ok(Reply::Response));
            assert_eq!(both.manager.part(Part::Bindings).unwrap(), list);
        }
        assert_eq!(both.next(10 * id + 3), None);
    }
}

#[test]
fn an_answer_of_another_name_is_told() {
    let mut both = both();
    both.learn();
    let message = both.ask(2, Level::AuthPriv);
    both.gate.take_client(NOW, b"client", &message).unwrap();
    let Some(Sent::ToDevice { datagram, .. }) = both.next(1) else {
        panic!("the device is asked");
    };
    let other = binding(&SYS_NAME[..8], 4, b"router").unwrap();
    let Ok(DeviceTaken::Answers { misfit, .. }) =
        both.gate.take_device(NOW, 0, &answer(&datagram, &other))
    else {
        panic!("it is the answer");
    };
    assert_eq!(misfit, Some(Misfit::OtherName(1)));
    let Some(Sent::ToClient { says, .. }) = both.next(2) else {
        panic!("it is answered");
    };
    let gen_err = ResponseStatus {
        status: 5,
        index: 0,
    };
    assert_eq!(says, Some(gen_err));
}

#[test]
fn bindings_that_are_hidden_are_counted() {
    let mut both = both();
    both.learn();
    let message = both.ask(2, Level::AuthPriv);
    both.gate.take_client(NOW, b"client", &message).unwrap();
    let Some(Sent::ToDevice { datagram, .. }) = both.next(1) else {
        panic!("the device is asked");
    };
    let seen = binding(&SYS_NAME, 4, b"router").unwrap();
    let outside = binding(&[1, 0, 8802], 4, b"router").unwrap();
    let list = [seen, outside.clone(), outside].concat();
    let Ok(DeviceTaken::Answers { misfit, hidden, .. }) =
        both.gate.take_device(NOW, 0, &answer(&datagram, &list))
    else {
        panic!("it is the answer");
    };
    assert_eq!((misfit, hidden), (Some(Misfit::TooMany), 2));
}

#[test]
fn a_device_is_given_up() {
    let mut both = both();
    both.learn();
    let message = both.ask(2, Level::AuthPriv);
    both.gate.take_client(NOW, b"client", &message).unwrap();
    let (mut now, mut asks, mut again, mut last) = (NOW, 0, 0, None);
    for n in 0..100 {
        match both.gate.next(now, n, n as u32).unwrap() {
            Some(Sent::ToDevice { again: is, .. }) => {
                asks += 1;
                again += u32::from(is);
            }
            Some(other) => last = Some(other),
            None => match both.gate.due() {
                Some(at) => now = at,
                None => break,
            },
        }
    }
    assert_eq!((asks, again), (3, 2));
    assert!(matches!(
        last,
        Some(Sent::Unanswered {
            why: None,
            ended: Ended::InSilence,
            ..
        })
    ));
    assert_eq!(both.gate.waiting(), Ok(0));
}

#[test]
fn another_context_is_reported() {
    let mut both = both();
    both.learn();
    let list = binding(&SYS_NAME, 5, b"").unwrap();
    let of = Request {
        pdu: Pdu::GetRequest,
        message_id: 2,
        request_id: 2,
        error_status: 0,
        error_index: 0,
        level: Level::AuthPriv,
        engine: &ENGINE,
        user: b"ann",
        context_engine: &ENGINE,
        context_name: b"other",
        bindings: &list,
    };
    both.manager.request(NOW / 1000, &of, 2).unwrap();
    let message = both.manager.message().unwrap();
    both.gate.take_client(NOW, b"client", &message).unwrap();
    let Some(Sent::ToClient {
        datagram,
        says,
        ended,
        ..
    }) = both.next(1)
    else {
        panic!("it is reported");
    };
    assert_eq!(says, None);
    assert_eq!(ended, Ended::Unhandled(Unhandled::UnknownContexts));
    both.manager.take(NOW / 1000, &datagram).unwrap();
    assert_eq!(both.manager.report().unwrap().counter, Some(9));
    assert_eq!(both.gate.counts().unwrap().unknown_contexts, 1);
}

#[test]
fn a_configuration_says_its_addresses_and_devices() {
    let text = format!("{GATE}{USER}[[device]]\ncontext = 'ups'\naddress = '[fe80::7%2]:161'\ncommunity = 'reads'\n");
    says_its_addresses_and_devices(&Gate::new(text.as_bytes(), 1, 0).unwrap());
    says_its_addresses_and_devices(&Gate::read(text.as_bytes()).unwrap());
}

fn says_its_addresses_and_devices(gate: &Gate) {
    assert_eq!(gate.boots_path().unwrap(), "/var/lib/boots");
    assert_eq!(
        gate.listen().unwrap(),
        ["192.0.2.1:161", "[2001:db8::1]:161"]
    );
    let devices = gate.devices().unwrap();
    assert_eq!(
        (devices[0].context.as_slice(), devices[0].address.as_str()),
        (b"pdu".as_slice(), "10.1.0.7:161")
    );
    assert_eq!(
        devices[0].note.as_deref(),
        Some("access 0 gives a write view, and it has no write-community")
    );
    assert_eq!(devices[1].address, "[fe80::7%2]:161");
    assert!(gate.views_without_family().unwrap().is_empty());
}

#[test]
fn a_configuration_says_its_views_without_a_family() {
    let text = GATE.replace("read = 'all'", "read = 'none'");
    let gate = Gate::read(text.as_bytes()).unwrap();
    assert_eq!(gate.views_without_family().unwrap(), [b"none"]);
}

#[test]
fn a_refused_configuration_has_its_cause() {
    let text = GATE.replace("address", "adress");
    assert_eq!(
        Gate::new(text.as_bytes(), 1, 0).err(),
        Some(Error::BadConfiguration)
    );
    assert_eq!(
        Gate::read(text.as_bytes()).err(),
        Some(Error::BadConfiguration)
    );
    let fault = gate_fault(text.as_bytes()).unwrap().unwrap();
    assert!(
        fault.starts_with("refused config device 0 BadKey\n"),
        "{fault}"
    );
    assert_eq!(gate_fault(GATE.as_bytes()), Ok(None));
    assert_eq!(
        Gate::new(GATE.as_bytes(), 1 << 31, 0).err(),
        Some(Error::BadArgument)
    );
}
