//! Lists that can't be written: one fault, or several, of which the one with the lowest number is told.
use tools::columns::Columns;
use tools::event::Event;

/// The numbers that a list's faults earn, every one of them alone and every two and three together.
pub const ORDERS: [&[u8]; 7] = [
    &[20],
    &[21],
    &[22],
    &[20, 21],
    &[20, 22],
    &[21, 22],
    &[20, 21, 22],
];

/// An order in words.
pub fn words(order: &[u8]) -> String {
    let numbers: Vec<String> = order.iter().map(u8::to_string).collect();
    match numbers.len() {
        1 => format!("by {}", numbers[0]),
        _ => format!("by {} before {}", numbers[0], numbers[1..].join(" and ")),
    }
}

/// What is wrong with a list; `turn` chooses among the faults that earn a number.
pub struct Faults {
    order: &'static [u8],
    turn: usize,
}

impl Faults {
    pub fn new(order: &'static [u8], turn: usize) -> Faults {
        Faults { order, turn }
    }

    pub fn lowest(&self) -> u8 {
        self.order[0]
    }

    /// Whether a list has a record, which an unknown kind wants, and two accounts for counts that wrap.
    pub fn fit(&self, list: &[Vec<Event>]) -> bool {
        list.len() >= 2 && list.iter().any(|events| !events.is_empty())
    }

    /// The list with its faults, and how long the output is.
    pub fn of(&self, list: &[Vec<Event>], length: usize) -> (Columns, usize) {
        let mut columns = Columns::of(list);
        let mut room = length + 8 * 1_025;
        for number in self.order {
            match number {
                20 => self.sizes(&mut columns),
                21 => self.kind(&mut columns),
                _ => room = length - 1 - self.turn % length,
            }
        }
        (columns, room)
    }

    fn kind(&self, list: &mut Columns) {
        let at = self.turn % list.kinds.len();
        list.kinds[at] = [0, 17, 255][self.turn % 3];
    }

    /// Too many accounts, counts that do not add up, or columns of different lengths.
    fn sizes(&self, list: &mut Columns) {
        let counts = &mut list.counts;
        let at = self.turn / 12 % counts.len();
        match self.turn % 12 {
            0 => counts.resize(1_025, 0),
            1 => counts[at] = counts[at].wrapping_add(1),
            2 => counts[at] = counts[at].wrapping_sub(1),
            3 => counts.push(1),
            4 => {
                // More by 2 to the 32, where a sum of 32 bits would wrap to the right one.
                counts[0] = counts[0].wrapping_add(1 << 31);
                counts[1] = counts[1].wrapping_add(1 << 31);
            }
            5 => list.kinds.push(1),
            6 => list.options.push(0),
            7 => list.days.push(0),
            8 => list.amounts.push(0),
            9 => list.options.truncate(list.options.len() - 1),
            10 => list.days.truncate(list.days.len() - 1),
            _ => list.amounts.truncate(list.amounts.len() - 1),
        }
    }
}
