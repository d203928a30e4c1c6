//! The history of an account for a spreadsheet: comma-separated values, a line for each event under a line of names. Sums are
//! whole cents, so that no spreadsheet takes the point of a sum for something else.
use crate::core::Answer;
use crate::history::Step;
use crate::{dates, kinds, words};

/// The columns. `option` is the till of a payment or of a returned one, and `receipt` is counted at that till; `answer` is 0
/// where the event is accepted, else the number that refuses it.
pub const COLUMNS: &str = "day,date,event,option,amount,answer,receipt,added,owed,reason";

pub fn tell(steps: &[Step]) -> String {
    let lines = steps.iter().map(line);
    let all: Vec<String> = std::iter::once(COLUMNS.to_string()).chain(lines).collect();
    all.join("\n") + "\n"
}

fn line(step: &Step) -> String {
    let event = step.event;
    let word = match kinds::of_number(event.kind) {
        Some(kind) => kind.word.to_string(),
        None => event.kind.to_string(),
    };
    let reason = match step.answer {
        Answer::Accepted(_) => "",
        Answer::Refused(number) => words::reason(number, event.kind),
    };
    let cells = [
        event.day.to_string(),
        dates::date(event.day).unwrap_or_default(),
        word,
        event.option.to_string(),
        event.amount.to_string(),
        step.number().to_string(),
        step.receipt().map_or(String::new(), |n| n.to_string()),
        step.added.to_string(),
        step.owed.to_string(),
        reason.to_string(),
    ];
    cells.map(|cell| quoted(&cell)).join(",")
}

/// A cell in which something could be taken for its end is put between quotes, and a quote in it is doubled.
fn quoted(cell: &str) -> String {
    match cell.contains([',', '"', '\n', '\r']) {
        true => format!("\"{}\"", cell.replace('"', "\"\"")),
        false => cell.to_string(),
    }
}

#[cfg(test)]
mod tests {
    use super::*;
    use crate::event::Event;
    use crate::history::History;

    #[test]
    fn every_event_is_a_line_of_as_many_cells() {
        let events = [
            Event::of(1, 100, 10_000),
            Event::of(1, 130, 5_000),
            Event::of(2, 131, 4_000),
            Event::of(14, 131, 0),
            Event::new(2, 3, 73_049, 7),
            Event::of(2, 131, 20_000),
            Event::new(2, 3, 132, 50),
            Event::new(3, 3, 132, 1),
            Event::new(3, 4, 132, 1),
        ];
        let expected = "\
day,date,event,option,amount,answer,receipt,added,owed,reason
100,2000-04-10,bill,0,10000,0,,0,10000,
130,2000-05-10,bill,0,5000,0,,75,15075,
131,2000-05-11,payment,0,4000,0,1,0,11075,
131,2000-05-11,cut,0,0,12,,0,11075,\"no live final notice, or it is too new or too old\"
73049,,payment,3,7,1,,0,11075,the day is after 31 December 2199
131,2000-05-11,payment,0,20000,0,2,0,-8925,
132,2000-05-12,payment,3,50,0,1,0,-8975,
132,2000-05-12,returned,3,1,0,,2500,-6425,
132,2000-05-12,returned,4,1,6,,0,-6425,the till has no payment of this receipt that can be returned
";
        assert_eq!(tell(&History::of(&events).1), expected);
        assert_eq!(tell(&[]), format!("{COLUMNS}\n"));
    }

    #[test]
    fn a_cell_never_ends_too_early() {
        assert_eq!(quoted("plain; so"), "plain; so");
        assert_eq!(quoted("a, b"), "\"a, b\"");
        assert_eq!(quoted("say \"a\""), "\"say \"\"a\"\"\"");
        assert_eq!(quoted("two\nlines"), "\"two\nlines\"");
    }
}
