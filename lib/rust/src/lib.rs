//! SNMPv3 user security and view access: an agent, a manager and a gateway, and keys, codes and sealed texts. The calls
//! are safe; the library behind them is proved, and this crate isn't.
//!
//! A method does what the call of its name in `include/snmpsec.h` does. What a call writes is the message, which
//! `message` copies. Here a manager discovers an agent; between the two there would be a socket.
//!
//! ```
//! use snmpsec::{Agent, Error, Manager, Part, Refusal, Reply, NO_CLOCKS};
//! # fn main() -> Result<(), Error> {
//! let engine = b"\x80\0\x1f\x88\x04example";
//! let mut agent = Agent::new(b"", engine, 1, 0)?;
//! let mut manager = Manager::new(b"", NO_CLOCKS, 0)?;
//! manager.discover(1)?;
//! let refused = agent.take(0, &manager.message()?);
//! assert_eq!(refused, Err(Error::Refused(Refusal::UnknownEngine)));
//! manager.take(0, &agent.message()?)?; // the agent's report
//! assert_eq!(manager.reply()?, Reply::Report(Some(4)));
//! assert_eq!(manager.part(Part::Engine)?, engine);
//! # Ok(())
//! # }
//! ```
//!
//! [`password_key`], [`localise`], [`mac`], [`seal`] and [`open`] do what the calls of their names do, and keep
//! nothing: they are for programs that spell messages themselves. A message that came is checked by `take`.
//!
//! ```
//! use snmpsec::{localise, mac, open, password_key, seal, wipe, Protocol};
//! # fn main() -> Result<(), snmpsec::Error> {
//! let (boots, time, salt) = (1, 2, [3; 8]);
//! let mut key = password_key(Protocol::Sha1, b"maplesyrup")?;
//! let mut local = localise(Protocol::Sha1, &key, b"\x80\0\x1f\x88\x04example")?;
//! let mut text = *b"a scoped PDU";
//! seal(&local[..16], boots, time, &salt, &mut text)?;
//! let code = mac(Protocol::Sha1, &local, b"what stands before", 12, &text)?; // 12 zeros stand for the code
//! assert_eq!(code.len(), 12);
//! open(&local[..16], boots, time, &salt, &mut text)?;
//! assert_eq!(&text, b"a scoped PDU");
//! wipe(&mut key);
//! wipe(&mut local);
//! # Ok(())
//! # }
//! ```
//!
//! [`scoped_pdu`] and [`Manager::seal`] make messages that no well-behaved manager sends, for programs that test
//! agents:
//!
//! ```
//! use snmpsec::{scoped_pdu, Clock, Level, Manager, Pdu, ScopedPdu, Sealing, NO_CLOCKS};
//! # fn main() -> Result<(), snmpsec::Error> {
//! let engine = b"\x80\0\x1f\x88\x04example";
//! let mut manager = Manager::new(b"[[user]]\nname = 'eve'\n", NO_CLOCKS, 0)?;
//! let scoped = scoped_pdu(&ScopedPdu {
//!     pdu: Pdu::GetBulkRequest,
//!     request_id: -1,
//!     error_status: -1, // non-repeaters
//!     error_index: 10,  // max-repetitions
//!     context_engine: engine,
//!     context_name: b"",
//!     bindings: b"",
//! })?;
//! let sealing = Sealing {
//!     message_id: 1,
//!     max_size: 484,
//!     is_reportable: false,
//!     level: Level::NoAuthNoPriv,
//!     engine,
//!     user: b"eve",
//!     clock: Clock { boots: 0, time: 0 },
//! };
//! manager.seal(&sealing, &scoped, 0)?;
//! assert!(manager.message()?.ends_with(&scoped));
//! # Ok(())
//! # }
//! ```
//!
//! A configuration that is refused is [`Error::BadConfiguration`], and [`config_fault`] says where and why:
//!
//! ```
//! use snmpsec::{config_fault, ConfigReason, ConfigTable};
//! # fn main() -> Result<(), snmpsec::Error> {
//! let fault = config_fault(b"[[user]]\nname = \"ann\"\nauht = \"md5\"\n")?.unwrap();
//! assert_eq!((fault.table, fault.reason), (Some(ConfigTable::UserTable), ConfigReason::UnlistedKey));
//! assert!(fault.to_string().ends_with("user 0: auht: not a key of this table, the nearest is auth"));
//! # Ok(())
//! # }
//! ```
//!
//! A [`Gate`] stands between managers and devices that speak SNMPv2c. It takes what both send, and `next` says what
//! goes out:
//!
//! ```
//! use snmpsec::{Gate, Sent};
//! # fn main() -> Result<(), snmpsec::Error> {
//! let config = br#"
//! [gate]
//! engine = "80001f8804676174652d31"
//! boots = "/var/lib/snmpsec-gate/boots"
//! listen = ["192.0.2.1:161"]
//! [[device]]
//! context = "rack-1-pdu"
//! address = "10.1.0.7:161"
//! community = "read-only"
//! "#;
//! let mut gate = Gate::new(config, 1, 0)?;
//! assert_eq!(gate.devices()?[0].address, "10.1.0.7:161");
//! // (the message is then the report, if there is one)
//! assert!(gate.take_client(1000, b"a client", b"no message").is_err());
//! while let Some(sent) = gate.next(1000, 1, 1)? {
//!     if let Sent::ToDevice { device, datagram, .. } = sent {
//!         println!("{} octets to device {device}", datagram.len());
//!     }
//! }
//! # Ok(())
//! # }
//! ```
//!
//! A [`Forwarder`] sends Traps of these devices on to receivers that speak SNMPv3, as Traps or as Informs. A
//! [`Listener`] is such a receiver: it reports each notification once, and acknowledges Informs.
//!
//! A message that is answered later is kept outside of its agent, and any number may wait so:
//!
//! ```no_run
//! # use snmpsec::Response;
//! # fn main() -> Result<(), snmpsec::Error> {
//! # let (mut agent, datagrams): (snmpsec::Agent, Vec<Vec<u8>>) = todo!();
//! let mut waiting = Vec::new();
//! for datagram in &datagrams {
//!     agent.take(1000, datagram)?;
//!     waiting.push(agent.keep()?);
//! }
//! while let Some(mut kept) = waiting.pop() {
//!     kept.respond(&mut agent, 1002, &Response::default(), 1)?;
//!     let _response = agent.message()?;
//! }
//! # Ok(())
//! # }
//! ```
//!
//! Handles go to other threads, and one thread uses each at a time:
//!
//! ```
//! # fn main() -> Result<(), snmpsec::Error> {
//! let agent = snmpsec::Agent::new(b"", b"\x80\0\x1f\x88\x04example", 1, 0)?;
//! std::thread::spawn(move || drop(agent)).join().unwrap();
//! # Ok(())
//! # }
//! ```
//!
//! ```compile_fail,E0277
//! fn shared<T: Sync>() {}
//! shared::<snmpsec::Agent>();
//! ```

mod agent;
mod bindings;
mod calls;
mod config;
mod device;
mod fault;
mod forward;
mod gate;
mod held;
mod kept;
mod keys;
mod listener;
mod manager;
mod octets;
mod words;

pub use agent::{status_of, Agent, Counters, Counts, Notification};
pub use bindings::{binding, bindings, scoped_pdu, value_is, Binding, ScopedPdu};
pub use config::{config_fault, ConfigFault, ConfigReason, ConfigTable};
pub use device::{Device, Known, Step};
pub use fault::{Error, Refusal};
pub use forward::{Forwarded, Forwarder, InformMessage, ReceiverTaken, TrapTaken};
pub use gate::{
    datagram_user, gate_fault, ClientTaken, DeviceTaken, Ended, Gate, GateDevice, GateReceiver,
    Misfit, ResponseStatus, Sent,
};
pub use kept::{Kept, Response};
pub use keys::{localise, mac, open, password_key, seal, wipe, Protocol};
pub use listener::{Dropped, Listener, Listening, Notified};
pub use manager::{Answer, Clock, Manager, Reply, Report, Request, Sealing};
pub use words::{Access, Info, Level, Part, Pdu, Status, Unhandled, View};

/// The version of the library that is loaded.
pub fn version() -> String {
    let version = unsafe { std::ffi::CStr::from_ptr(calls::snmpsec_version()) };
    version.to_string_lossy().into_owned()
}

/// The most octets of a datagram over UDP and IPv4.
pub const LARGEST: usize = 65_507;

/// The most octets of a key.
pub const LARGEST_KEY: usize = 32;

/// The saved text of no clocks.
pub const NO_CLOCKS: &[u8] = b"snmp-clocks 2\n";
