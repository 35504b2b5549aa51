//! (vi): longer programs. A message that the former limits did not answer with 2 or 9 keeps number and place, and the
//! longer ones that are safe now got 2 or 9.

use common::{files, path};
use oracle::fuzz::compare::Cases;
use oracle::limits::{FORMER, LONGEST, PLENTY, PRESENT};
use oracle::verify::{Read, inspect, verify, verify_within};
use oracle::{message, stress};

mod common;

/// Compares both limits on a message; true if they answer alike.
fn kept(message: &[u8], lent: usize) -> bool {
    let former = verify_within(message, &mut vec![0; lent], &FORMER);
    let present = verify(message, &mut vec![0; lent]);
    let alike = former == present;
    assert!(alike || [2, 9].contains(&former.number), "{former:?} became {present:?}");
    if present.number == 0 {
        assert_eq!(passes_former(message), !alike, "{former:?}");
    }
    alike
}

/// True if R, S or the counters of a safe message pass a former limit.
fn passes_former(message: &[u8]) -> bool {
    let mut read = Read::default();
    inspect(message, &mut read).expect("safe");
    let (m, system) = read.message.zip(read.system).expect("all is read");
    m.rows > FORMER.rows.1 as usize || m.states > FORMER.states.1 as usize || system.counters() > FORMER.counters
}

#[test]
fn random_messages_keep_their_answers() {
    let mut cases = Cases::new(606);
    let alike = (0..3000).filter(|_| {
        let case = cases.next_case();
        kept(&case.message, case.lent)
    });
    let alike = alike.count();
    assert!((2700..3000).contains(&alike), "{alike} of 3,000 alike");
}

#[test]
fn examples_and_hostile_messages_keep_their_answers() {
    let longer = files("examples", "msg").into_iter().filter(|file| !kept(&std::fs::read(file).unwrap(), PLENTY));
    assert!(longer.eq([path("examples/pumping-station.msg")]), "one example needs the present limits");
    let longer = stress::hostile().unwrap().into_iter().filter(|hostile| !kept(&hostile.message, PLENTY));
    assert_eq!(longer.count(), 63);
}

/// A message whose sizes are these and whose words are zeros otherwise.
fn zeros(rows: u16, flow: u16, mail: u16, states: u16, entries: u16) -> Vec<u16> {
    let mut words = vec![rows, 1, 0, 0];
    words.extend(vec![0; 2 * rows as usize]);
    words.extend([1, 256]);
    words.extend([0; 512]);
    words.extend([flow, mail, states]);
    words.extend(vec![0; 2 * (flow as usize + mail as usize + states as usize) + states as usize]);
    words.extend([0, 0, 1, entries]);
    words.extend(vec![0; 2 * entries as usize]);
    words
}

#[test]
fn the_longest_message_is_read_whole() {
    let longest = common::bytes(&zeros(1536, 4096, 512, 1024, 8192));
    assert_eq!(longest.len(), LONGEST);
    const { assert!(LONGEST < 65_536) };
    assert!(message::read(&longest).is_ok());
    assert_eq!(common::verdict(&longest), (3, 4));
    assert_eq!(common::verdict(&[&longest[..], &[0]].concat()), (1, LONGEST / 2));
    for (at, most) in [(0, PRESENT.rows.1), (4 + 2 * 1536 + 2 + 512 + 2, PRESENT.states.1)] {
        let mut words = message::to_words(&longest);
        assert_eq!(words[at], most);
        words[at] += 1;
        assert_eq!(common::verdict(&common::bytes(&words)), (2, at));
    }
}
