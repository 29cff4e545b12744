//! Carries messages from one gateway to another and says how many came as they were taken: the same work as the library's
//! program `carry`, so that the instructions of the two can be told apart. `bench/run` runs both, and `tests/compare.sh` holds their lines together.
//!
//! `carry2 COUNT OCTETS WHAT`, where WHAT is `carry`, or `check`, the same with one refused call more before each call; or
//! `bare`, the program's own work without a call; or `still` or `full`, COUNT refused calls on a book that holds nothing, or
//! whose windows and owed lists are full.

use second::channel::LARGEST;
use second::gateway::Gateway;
use second::line::Settings;
use second::modes::Mode;
use second::refusal::Refusal;

/// A packet's head, three acknowledgements and the largest message.
const PACKET: usize = 12 + LARGEST;

/// What was counted: messages that came as they were taken and their octets, and calls that were refused RANGE.
#[derive(Default)]
struct Tally {
    carried: u64,
    octets: u64,
    refused: u64,
}

/// A gateway with four lines in modem relay.
fn ready() -> Gateway {
    let mut gateway = Gateway::fresh();
    for line in 0..4 {
        let settings = Settings {
            identifier: line,
            payload_type: 98,
            vbd: true,
            relay: true,
        };
        let _ = gateway.open(line, settings, 0);
        let _ = gateway.ask(line, Mode::Relay, 0);
    }
    gateway
}

/// A call that is refused right behind BOOK, because there is no line 9.
fn refused(gateway: &mut Gateway) -> u64 {
    u64::from(gateway.held(9, 1) == Err(Refusal::Range))
}

/// The message of a number.
fn fill(message: &mut [u8], number: u64) {
    for (i, octet) in message.iter_mut().enumerate() {
        *octet = (number ^ i as u64) as u8;
    }
}

/// Whether the octets of the two are the same. All are looked at, whatever they are.
fn alike(one: &[u8], other: &[u8]) -> bool {
    let differ = one.iter().zip(other).fold(0, |all, (a, b)| all | (a ^ b));
    one.len() == other.len() && differ == 0
}

/// A message goes from A to B, is handed out there, and A hears of it. Where `check` is set, each call is preceded by one that
/// is refused.
fn carry(
    a: &mut Gateway,
    b: &mut Gateway,
    message: &[u8],
    check: bool,
    tally: &mut Tally,
) -> Result<Vec<u8>, Refusal> {
    let mut look = |gateway: &mut Gateway| {
        if check {
            tally.refused += refused(gateway);
        }
    };
    look(a);
    a.take(0, 1, message)?;
    look(a);
    let packet = a.send(0, 1, 0, PACKET)?;
    look(b);
    b.arrive(&packet)?;
    look(b);
    let got = b.out(0, 1, LARGEST)?;
    look(b);
    let news = b.empty(0, 1, PACKET)?;
    look(a);
    a.arrive(&news)?;
    Ok(got)
}

/// Carries that many messages of that many octets.
fn run(count: u64, size: usize, what: &str) -> Tally {
    let mut tally = Tally::default();
    let mut a = ready();
    let mut b = ready();
    let mut message = vec![0; size];
    let mut got = vec![0; size];
    for number in 0..count {
        fill(&mut message, number);
        if what == "bare" {
            got.clone_from(&message);
        } else {
            got = carry(&mut a, &mut b, &message, what == "check", &mut tally).unwrap_or_default();
        }
        if alike(&message, &got) {
            tally.carried += 1;
            tally.octets += size as u64;
        }
    }
    tally
}

/// Makes that many calls that are refused.
fn refusals(mut gateway: Gateway, count: u64) -> Tally {
    Tally {
        refused: (0..count).map(|_| refused(&mut gateway)).sum(),
        ..Tally::default()
    }
}

/// A message of a line's channel is taken, and one of that number arrives.
fn fill_place(gateway: &mut Gateway, line: u8, channel: u8, number: u8) {
    let _ = gateway.take(line, channel, b"abc");
    let _ = gateway.arrive(&[line, 98, channel << 6, number, 0, 0, 1, 2, 3]);
}

/// A gateway whose windows are all full, and that owes 64 numbers on each line: 32 and 24 old ones of channel 1, and 8 of
/// channel 2.
fn full() -> Gateway {
    let mut gateway = ready();
    for i in 0..224 {
        fill_place(&mut gateway, i & 3, 1, i >> 2);
        if i >> 2 < 8 {
            fill_place(&mut gateway, i & 3, 2, i >> 2);
        }
    }
    gateway
}

/// The number that a word says, or else that one.
fn number(word: Option<String>, other: u64) -> u64 {
    word.and_then(|word| word.parse().ok()).unwrap_or(other)
}

fn main() {
    let mut words = std::env::args().skip(1);
    let count = number(words.next(), 1000);
    let size = number(words.next(), LARGEST as u64) as usize;
    let what = words.next().unwrap_or_default();
    let tally = match what.as_str() {
        "still" => refusals(ready(), count),
        "full" => refusals(full(), count),
        _ => run(count, size, &what),
    };
    println!(
        "carried {} of {} messages of {} octets, {} octets, {} calls refused",
        tally.carried, count, size, tally.octets, tally.refused
    );
}
