// The limits that a log's reader is told, `--limits CARD BAN N1`.

use super::*;
use crate::{asked, explain, fresh, limited, question, Asked, Mode, Output};

fn words(text: &str) -> Vec<String> {
    text.split(' ').filter(|word| !word.is_empty()).map(String::from).collect()
}

/// The limits and what is asked for behind them.
fn told(text: &str) -> Result<([u8; 3], Asked), String> {
    let words = words(text);
    let (limits, rest) = limited(&words)?;
    Ok(([limits.card, limits.ban, limits.n1], asked(rest)?))
}

#[test]
fn in_front() {
    assert_eq!(told(""), Ok(([3, 3, 3], Asked::Log(Mode::Lines))));
    assert_eq!(told("--full"), Ok(([3, 3, 3], Asked::Log(Mode::Full))));
    assert_eq!(told("--limits 5 1 10"), Ok(([5, 1, 10], Asked::Log(Mode::Lines))));
    assert_eq!(told("--limits 5 1 10 --full"), Ok(([5, 1, 10], Asked::Log(Mode::Full))));
    assert_eq!(told("--limits 1 2 3 --cells 0"), Ok(([1, 2, 3], Asked::Cells(0, vec![]))));
    for rest in ["--request", "--explain 002-02 0 each"] {
        assert!(told(&format!("--limits 3 3 3 {rest}")).is_ok(), "{rest}");
    }
    for rest in ["", "5", "5 5", "5 5 --full", "0 5 5", "5 11 5", "5 5 05", "5 5 +5", "5 5 x"] {
        assert!(told(&format!("--limits {rest}")).is_err(), "{rest}");
    }
    for text in ["--limits 5 5 5 5", "--limits 5 5 5 --read", "--full --limits 5 5 5", "--read x"] {
        assert!(told(text).is_err(), "{text}");
    }
}

/// Facts 2 to 4 of document 01 by other limits: T3247 lifts a ban below its limit, and none at it.
#[test]
fn lifted_below() {
    let turn = [&LISTING[16..40], &LISTING[52..58]].concat();
    for (limit, rejects) in [(1, 1), (2, 2), (5, 5), (10, 10)] {
        for count in 1..=rejects {
            let log = [&LISTING[..16], &turn.repeat(count)].concat();
            let mut output = Output::new(vec![]);
            let limits = Limits { card: 3, ban: limit, n1: 3 };
            let asked = question(&words("002-02 0")).unwrap();
            explain(&log[..], &mut output, &asked, fresh(limits)).unwrap();
            output.flush().unwrap();
            let text = String::from_utf8(output.sink).unwrap();
            let banned = if count == rejects { "yes" } else { "no" };
            assert!(
                text.contains(&format!("\nban counter {count} of {limit}, N1 counter 0 of 3\n"))
            );
            assert!(text.contains(&format!("\nforbidden: {banned}, ")), "{text}");
        }
    }
}
