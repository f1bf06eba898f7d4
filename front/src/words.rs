//! What a sheet says, in sentences and in one line.

use crate::outside::{receivers, sent, Pair};
use crate::refusal::{Account, Place};
use crate::sheet::{Breach, Sets, OUTSIDE};
use crate::tree::FromOutside;

/// The sentences after a clear sheet, for a plan that has this outside every desk.
pub fn clear(outside: &FromOutside, sets: &Sets) -> Vec<String> {
    let mut sentences = vec![
        "Yes: no level may send anything on a channel where a lower level may receive it."
            .to_owned(),
    ];
    if sets.nothing_sent() {
        sentences.push(
            "Nothing is ever sent in this plan: the answer says no more than that.".to_owned(),
        );
    }
    let pairs = sent(outside, sets);
    if !pairs.is_empty() {
        sentences
            .push("The answer does not speak of what is sent from outside every desk.".to_owned());
    }
    sentences.extend(pairs.into_iter().map(|pair| from(pair, sets)));
    sentences
}

/// The sentences after a breach.
pub fn breach(breach: &Breach) -> Vec<String> {
    let Breach {
        higher,
        lower,
        channel,
        handle,
    } = breach;
    vec![
        format!(
            "No: level {higher} may send handle {handle} on channel {channel}, \
             where level {lower}, which is lower, may receive it."
        ),
        "There may be other breaches: mend this one, and ask again.".to_owned(),
    ]
}

/// The sentence on a handle at a level or, as `OUTSIDE`, in the whole relay, with the channel on
/// which it may be received there, if there is one.
pub fn reach(handle: u8, level: u8, channel: Option<u8>) -> String {
    match (level, channel) {
        (OUTSIDE, Some(channel)) => {
            format!("Handle {handle} may be received somewhere in the relay, on channel {channel}.")
        }
        (OUTSIDE, None) => format!("Handle {handle} is received nowhere in the relay."),
        (_, Some(channel)) => {
            format!("Handle {handle} may reach level {level}, on channel {channel}.")
        }
        (_, None) => format!("Handle {handle} never reaches level {level}."),
    }
}

/// The sentence after a refusal of a plan's text or of a source.
pub fn refused(account: &Account, source: bool) -> String {
    let of_source = match account.place {
        Place::Line(_) if source => " of the source",
        _ => "",
    };
    format!(
        "The plan is refused{}{of_source}: {} (refusal {}).",
        place(account),
        account.reason,
        account.number
    )
}

/// A breach in one line.
pub fn breach_in_brief(breach: &Breach) -> String {
    let Breach {
        higher,
        lower,
        channel,
        handle,
    } = breach;
    format!(
        "flow breach: level {higher} may send handle {handle} on channel {channel} to level {lower}"
    )
}

/// A refusal in one line.
pub fn refused_in_brief(account: &Account) -> String {
    let place = place(account);
    format!("refused {}{place}: {}", account.number, account.reason)
}

/// Where a refusal points, with a blank before it.
fn place(account: &Account) -> String {
    match account.place {
        Place::Text => String::new(),
        Place::Line(line) => format!(" at line {line}"),
        Place::End => " after the last line".to_owned(),
    }
}

/// The sentence on a handle that may be sent on a channel from outside.
fn from((channel, handle): Pair, sets: &Sets) -> String {
    let receivers = levels(&receivers((channel, handle), sets));
    format!(
        "From outside, handle {handle} may be sent on channel {channel}, \
         where {receivers} may receive it."
    )
}

/// Levels as a sentence names them.
fn levels(levels: &[u8]) -> String {
    let numbers: Vec<String> = levels.iter().map(u8::to_string).collect();
    match numbers.as_slice() {
        [] => "no level".to_owned(),
        [only] => format!("level {only}"),
        [first @ .., last] => format!("levels {} and {last}", first.join(", ")),
    }
}

#[cfg(test)]
mod tests {
    use super::*;
    use crate::sheet::{parse, Sheet};
    use crate::tree::Offer;

    #[test]
    fn what_is_offered_is_said_without_any_send() {
        let output = "2f0003\n200000000020\n21021100000020\n21071100000020\n22071100000120\n\
                      3001\nflow clear\n";
        let Some(Sheet::Clear(sets)) = parse(output.as_bytes()) else {
            panic!("no clear sheet");
        };
        let outside = FromOutside {
            offers: vec![Offer {
                channel: 17,
                handles: vec![5, 8],
            }],
            sends: Vec::new(),
        };
        assert_eq!(
            clear(&outside, &sets)[1..],
            [
                "The answer does not speak of what is sent from outside every desk.",
                "From outside, handle 5 may be sent on channel 17, where level 2 may receive it.",
                "From outside, handle 8 may be sent on channel 17, where no level may receive it.",
            ]
        );
    }

    #[test]
    fn a_handle_is_said_to_reach_a_level_or_the_relay() {
        for (level, channel, said) in [
            (5, Some(17), "Handle 29 may reach level 5, on channel 17."),
            (5, None, "Handle 29 never reaches level 5."),
            (
                OUTSIDE,
                Some(17),
                "Handle 29 may be received somewhere in the relay, on channel 17.",
            ),
            (OUTSIDE, None, "Handle 29 is received nowhere in the relay."),
        ] {
            assert_eq!(reach(29, level, channel), said);
        }
    }

    #[test]
    fn levels_are_listed_as_people_do() {
        assert_eq!(levels(&[]), "no level");
        assert_eq!(levels(&[4]), "level 4");
        assert_eq!(levels(&[0, 2]), "levels 0 and 2");
        assert_eq!(levels(&[0, 2, 6]), "levels 0, 2 and 6");
    }
}
