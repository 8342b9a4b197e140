//! Handles in other threads.

use snmpsec::{Agent, Manager};

fn is_send<T: Send>() {}

#[test]
fn handles_go_to_other_threads() {
    is_send::<Agent>();
    is_send::<Manager>();
    let threads: Vec<_> = (0..4)
        .map(|_| {
            let mut agent = Agent::new(b"", b"\x80\0\x1f\x88\x04x", 1, 0).unwrap();
            std::thread::spawn(move || {
                for _ in 0..1000 {
                    assert!(agent.take(1, b"no message").is_err());
                }
            })
        })
        .collect();
    for thread in threads {
        thread.join().unwrap();
    }
}
