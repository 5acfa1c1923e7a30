//! A call, timed on copies of the same tables beside the outside implementation, one plain read of
//! the tables, the test of their form and a full plain run.

use crate::tables::{copy_into, read};
use crate::timing::{best_in_turn, time, Pass};
use comparison::proved::calls as proved;
use outside::calls::Refusal;
use outside::program::SETTINGS;
use std::cell::RefCell;
use std::fmt::Debug;
use std::hint::black_box;
use tolbezun::Tables;

/// What a call gave, and times in µs.
pub struct Measured<A> {
    /// The answer.
    pub answer: A,
    /// The tables after the call.
    pub after: Tables,
    /// The time of the proved call.
    pub proved: f64,
    /// That of the outside implementation, if it was asked.
    pub outside: Option<f64>,
    /// One plain read of all bytes of the tables before the call.
    pub read: f64,
    /// The proved test of their form, by the call current value, which does little else.
    pub form: f64,
    /// The proved call plain run on them.
    pub run: f64,
}

impl<A> Measured<A> {
    /// How many times the outside implementation's time the proved call took.
    pub fn by_outside(&self) -> Option<f64> {
        self.outside.map(|outside| self.proved / outside)
    }
}

/// Measures a call on these tables. It must not be refused, and both must give the same answer and
/// leave the same tables.
pub fn measure<A: Debug + PartialEq>(
    n: usize,
    tables: &Tables,
    proved: impl Fn(usize, &mut Tables) -> Result<A, u8>,
    outside: Option<impl Fn(usize, &mut outside::tables::Tables) -> Result<A, Refusal>>,
) -> Measured<A> {
    let mut after = tables.clone();
    let answer = proved(n, &mut after).expect("the call is not refused");
    let outside = outside.map(|call| (call, proved::take_back(tables)));
    if let Some((call, tables)) = &outside {
        let mut after_outside = tables.clone();
        let answer_outside = call(n, &mut after_outside);
        assert_eq!(answer_outside.as_ref(), Ok(&answer), "answers differ");
        let unlike = proved::unlike(&after, &after_outside);
        assert!(unlike.is_empty(), "unlike tables: {unlike:?}");
    }

    // All that is timed begins on tables just copied, into the same memory.
    let copy = RefCell::new(tables.clone());
    let on_copy = |call: &dyn Fn(&mut Tables)| {
        let mut copy = copy.borrow_mut();
        copy_into(&mut copy, tables);
        time(|| call(black_box(&mut copy)))
    };
    let mut time_proved = || {
        on_copy(&|copy| {
            let _ = black_box(proved(n, copy));
        })
    };
    let mut time_read = || on_copy(&|copy| read(copy));
    let mut time_form = || {
        on_copy(&|copy| {
            let _ = black_box(proved::current_value(n, copy, 0));
        })
    };
    let mut time_run = || {
        on_copy(&|copy| {
            let mut settings = [0; SETTINGS];
            let _ = black_box(proved::plain_run(n, copy, &mut settings));
        })
    };
    let mut time_outside = outside.as_ref().map(|(call, tables)| {
        move || {
            let mut copy = tables.clone();
            time(|| call(n, black_box(&mut copy)))
        }
    });
    let mut passes: Vec<&mut Pass> = vec![
        &mut time_proved,
        &mut time_read,
        &mut time_form,
        &mut time_run,
    ];
    if let Some(time_outside) = &mut time_outside {
        passes.push(time_outside);
    }
    let times = best_in_turn(&mut passes);
    Measured {
        answer,
        after,
        proved: times[0],
        read: times[1],
        form: times[2],
        run: times[3],
        outside: times.get(4).copied(),
    }
}

/// A number for a column of this width and so many places behind the point, or a dash.
pub fn column(number: Option<f64>, width: usize, places: usize) -> String {
    match number {
        Some(number) => format!("{number:width$.places$}"),
        None => format!("{:>width$}", "-"),
    }
}
