//! Tables of signs, once all questions are answered: how rows come about from the innermost table outwards.

use crate::sign::Sign;
use std::rc::Rc;

pub type Row = Vec<Sign>;

/// What one table that called another did: which polynomials had one sign in all rows, and which one was the pivot, the
/// polynomial of the highest degree that the called table doesn't have.
pub struct Frame {
    /// For each polynomial its sign, if it is the same in all rows.
    pub constants: Vec<Option<Sign>>,
    /// The pivot's place among the polynomials that aren't constant.
    pub pivot: usize,
    pub caller: Option<Rc<Frame>>,
}

/// How to make a table: the signs of the last called table, in which all polynomials are constant, and its callers.
pub struct TableRecipe {
    pub innermost: Row,
    pub caller: Option<Rc<Frame>>,
}

/// Rows of signs: `intervals[0]`, `points[0]`, `intervals[1]`, and so on to the last interval.
struct Table {
    intervals: Vec<Row>,
    points: Vec<Row>,
}

impl TableRecipe {
    /// The rows from left to right; nothing if the table is given up.
    pub fn rows(&self) -> Option<Vec<Row>> {
        let mut table = Table {
            intervals: vec![self.innermost.clone()],
            points: Vec::new(),
        };
        let mut caller = &self.caller;
        while let Some(frame) = caller {
            table = frame.table_from_called(&table)?;
            caller = &frame.caller;
        }
        Some(table.into_rows())
    }
}

impl Table {
    fn into_rows(self) -> Vec<Row> {
        let mut points = self.points.into_iter();
        let mut rows = Vec::new();
        for interval in self.intervals {
            rows.push(interval);
            rows.extend(points.next());
        }
        rows
    }

    fn last_interval(&self) -> &Row {
        self.intervals.last().expect("a table has an interval")
    }

    /// Drops points at which nothing is zero, each with the interval before it.
    fn without_idle_points(self) -> Table {
        let mut kept = Table {
            intervals: Vec::new(),
            points: Vec::new(),
        };
        let last = self.last_interval().clone();
        for (interval, point) in self.intervals.into_iter().zip(self.points) {
            if point.contains(&Sign::Zero) {
                kept.intervals.push(interval);
                kept.points.push(point);
            }
        }
        kept.intervals.push(last);
        kept
    }

    /// The table with each row changed.
    fn map(self, change: impl Fn(Row) -> Row) -> Table {
        Table {
            intervals: self.intervals.into_iter().map(&change).collect(),
            points: self.points.into_iter().map(&change).collect(),
        }
    }
}

impl Frame {
    fn count_of_moving(&self) -> usize {
        self.constants
            .iter()
            .filter(|constant| constant.is_none())
            .count()
    }

    /// From the table of the derivative, the rest and the remainders, the table of all polynomials.
    fn table_from_called(&self, called: &Table) -> Option<Table> {
        let (divisors, pivot_at_points) = pivot_at_points(called, self.count_of_moving());
        let with_pivot = with_pivot_on_intervals(&divisors, &pivot_at_points)?;
        let moving = with_pivot
            .map(|row| self.pivot_into_its_place(row))
            .without_idle_points();
        Some(moving.map(|row| self.with_constants(row)))
    }

    /// From signs of the derivative, the rest and the pivot to those of the polynomials that aren't constant, in their order.
    fn pivot_into_its_place(&self, mut row: Row) -> Row {
        let pivot = row.pop().expect("the pivot stands last");
        row.remove(0);
        row.insert(self.pivot, pivot);
        row
    }

    fn with_constants(&self, row: Row) -> Row {
        let mut moving = row.into_iter();
        let fill = |constant: &Option<Sign>| {
            constant
                .or_else(|| moving.next())
                .expect("a sign for each polynomial")
        };
        self.constants.iter().map(fill).collect()
    }
}

/// The table of the divisors, that is of the derivative and the rest, without points at which none of them is zero, and the
/// pivot's sign at each point left: that of the remainder by the first divisor that is zero there.
fn pivot_at_points(called: &Table, divisors: usize) -> (Table, Vec<Sign>) {
    let mut kept = Table {
        intervals: Vec::new(),
        points: Vec::new(),
    };
    let mut signs = Vec::new();
    for (interval, point) in called.intervals.iter().zip(&called.points) {
        let (of_divisors, of_remainders) = point.split_at(divisors);
        if let Some(first_zero) = of_divisors.iter().position(|sign| *sign == Sign::Zero) {
            signs.push(of_remainders[first_zero]);
            kept.intervals.push(interval[..divisors].to_vec());
            kept.points.push(of_divisors.to_vec());
        }
    }
    kept.intervals
        .push(called.last_interval()[..divisors].to_vec());
    (kept, signs)
}

/// Puts the pivot's sign at the end of each row, with a new point wherever it has a root within an interval; nothing if it is
/// zero at both ends of one. The derivative stands first in the rows.
fn with_pivot_on_intervals(divisors: &Table, pivot_at_points: &[Sign]) -> Option<Table> {
    let mut table = Table {
        intervals: Vec::new(),
        points: Vec::new(),
    };
    let mut left = divisors.intervals[0][0].opposite();
    for (i, interval) in divisors.intervals.iter().enumerate() {
        let right = pivot_at_points
            .get(i)
            .copied()
            .unwrap_or(divisors.last_interval()[0]);
        match (left, right) {
            (Sign::Zero, Sign::Zero) => return None,
            (Sign::Zero, sign) | (sign, Sign::Zero) => {
                table.intervals.push(appended(interval, sign))
            }
            (left, right) if left == right => table.intervals.push(appended(interval, left)),
            (left, right) => {
                table.intervals.push(appended(interval, left));
                table.points.push(appended(interval, Sign::Zero));
                table.intervals.push(appended(interval, right));
            }
        }
        if let Some(point) = divisors.points.get(i) {
            table.points.push(appended(point, right));
        }
        left = right;
    }
    Some(table)
}

fn appended(row: &Row, sign: Sign) -> Row {
    let mut longer = row.clone();
    longer.push(sign);
    longer
}
