//! The proved library: what it exports, called safely.
//!
//! [`Linked`] has the entries over lent areas, one call of C each. [`Planner`] is for everyday use:
//! it owns its work area and takes and gives the types of [`crate::net`].

mod planner;

use crate::entries::{Columns, Counts, Entries, Planned, Tables};
use crate::net::Refusal;
pub use planner::{Area, Planner};

/// What `include/zombrict.h` declares. A slice crosses as its pointer and its length.
mod c {
    extern "C" {
        pub fn zombrict_read(
            text: *const u8,
            text_length: usize,
            types: *mut u32,
            types_length: usize,
            rows: *mut u32,
            rows_length: usize,
            due: *mut i64,
            due_length: usize,
            answer: *mut i64,
            answer_length: usize,
        ) -> u32;

        pub fn zombrict_check(
            types: *const u32,
            types_length: usize,
            rows: *const u32,
            rows_length: usize,
            due: *const i64,
            due_length: usize,
            type_count: usize,
            row_count: usize,
            answer: *mut i64,
            answer_length: usize,
        ) -> u32;

        pub fn zombrict_slack(
            types: *const u32,
            types_length: usize,
            rows: *const u32,
            rows_length: usize,
            due: *const i64,
            due_length: usize,
            type_count: usize,
            row_count: usize,
            placement: *const u64,
            placement_length: usize,
            answer: *mut i64,
            answer_length: usize,
        ) -> u32;

        pub fn zombrict_plan(
            types: *const u32,
            types_length: usize,
            rows: *const u32,
            rows_length: usize,
            due: *const i64,
            due_length: usize,
            type_count: usize,
            row_count: usize,
            placement: *mut u64,
            placement_length: usize,
            loads: *mut u32,
            loads_length: usize,
            times: *mut i64,
            times_length: usize,
            words: *mut u64,
            words_length: usize,
            answer: *mut i64,
            answer_length: usize,
        ) -> u32;

        pub fn zombrict_list(
            types: *const u32,
            types_length: usize,
            rows: *const u32,
            rows_length: usize,
            due: *const i64,
            due_length: usize,
            type_count: usize,
            row_count: usize,
            row: usize,
            list_loads: *mut u32,
            list_loads_length: usize,
            list_times: *mut i64,
            list_times_length: usize,
            loads: *mut u32,
            loads_length: usize,
            times: *mut i64,
            times_length: usize,
            words: *mut u64,
            words_length: usize,
            answer: *mut i64,
            answer_length: usize,
        ) -> u32;

        pub fn zombrict_loads(
            types: *const u32,
            types_length: usize,
            rows: *const u32,
            rows_length: usize,
            due: *const i64,
            due_length: usize,
            type_count: usize,
            row_count: usize,
            row: usize,
            list_loads: *mut u32,
            list_loads_length: usize,
            loads: *mut u32,
            loads_length: usize,
            times: *mut i64,
            times_length: usize,
            words: *mut u64,
            words_length: usize,
            answer: *mut i64,
            answer_length: usize,
        ) -> u32;

        pub fn zombrict_check_text(
            text: *const u8,
            text_length: usize,
            answer: *mut i64,
            answer_length: usize,
        ) -> u32;

        pub fn zombrict_slack_text(
            text: *const u8,
            text_length: usize,
            placement: *const u64,
            placement_length: usize,
            answer: *mut i64,
            answer_length: usize,
        ) -> u32;

        pub fn zombrict_plan_text(
            text: *const u8,
            text_length: usize,
            placement: *mut u64,
            placement_length: usize,
            answer: *mut i64,
            answer_length: usize,
        ) -> u32;

        pub fn zombrict_list_text(
            text: *const u8,
            text_length: usize,
            row: usize,
            list_loads: *mut u32,
            list_loads_length: usize,
            list_times: *mut i64,
            list_times_length: usize,
            answer: *mut i64,
            answer_length: usize,
        ) -> u32;

        pub fn zombrict_loads_text(
            text: *const u8,
            text_length: usize,
            row: usize,
            list_loads: *mut u32,
            list_loads_length: usize,
            answer: *mut i64,
            answer_length: usize,
        ) -> u32;
    }
}

/// One call of C. A slice that is read crosses by `in`, one that is written by `out`, each as its
/// pointer and its length; a number crosses by `number`; `tables` and `work` are the areas of both.
///
/// Each slice is borrowed for the length of the call, which is all that the library asks: it takes
/// any contents at any length, and keeps nothing.
macro_rules! call {
    (@ $name:ident [$($done:tt)*]) => {
        unsafe { c::$name($($done)*) }
    };
    (@ $name:ident [$($done:tt)*] in $area:ident, $($rest:tt)*) => {
        call!(@ $name [$($done)* $area.as_ptr(), $area.len(),] $($rest)*)
    };
    (@ $name:ident [$($done:tt)*] out $area:ident, $($rest:tt)*) => {
        call!(@ $name [$($done)* $area.as_mut_ptr(), $area.len(),] $($rest)*)
    };
    (@ $name:ident [$($done:tt)*] number $value:ident, $($rest:tt)*) => {
        call!(@ $name [$($done)* $value,] $($rest)*)
    };
    (@ $name:ident [$($done:tt)*] tables $given:ident, $($rest:tt)*) => {{
        let Tables { types, rows, due, type_count, row_count } = $given;
        call!(
            @ $name [$($done)*]
            in types, in rows, in due, number type_count, number row_count, $($rest)*
        )
    }};
    (@ $name:ident [$($done:tt)*] work $lent:ident, $($rest:tt)*) => {{
        let Columns { loads, times, words } = $lent;
        call!(@ $name [$($done)*] out loads, out times, out words, $($rest)*)
    }};
    ($name:ident: $($areas:tt)*) => {
        call!(@ $name [] $($areas)*)
    };
}

/// The place of a refusal, and the two values of an entry.
pub type Answer = [i64; 3];

/// What a call answered: its values, or the refusal.
fn settled(call: impl FnOnce(&mut Answer) -> u32) -> Result<(i64, i64), Refusal> {
    let mut answer = Answer::default();
    let number = call(&mut answer);
    let [place, first, second] = answer;
    if number == 0 {
        return Ok((first, second));
    }
    Err(Refusal { number, place: place as u32 })
}

fn counted((types, rows): (i64, i64)) -> Counts {
    Counts { types: types as usize, rows: rows as usize }
}

fn planned((slack, load): (i64, i64)) -> Planned {
    Planned { slack, load: load as u32 }
}

fn listed((length, _): (i64, i64)) -> usize {
    length as usize
}

/// The entries of the proved library. No call keeps what it is lent.
#[derive(Clone, Copy, Debug, Default)]
pub struct Linked;

#[allow(unsafe_code)]
impl Entries for Linked {
    fn read_net(
        &self,
        text: &[u8],
        types: &mut [u32],
        rows: &mut [u32],
        due: &mut [i64],
    ) -> Result<Counts, Refusal> {
        settled(|answer| call!(zombrict_read: in text, out types, out rows, out due, out answer,))
            .map(counted)
    }

    fn check_net(&self, tables: Tables) -> Result<(), Refusal> {
        settled(|answer| call!(zombrict_check: tables tables, out answer,)).map(|_| ())
    }

    fn slack_of(&self, tables: Tables, placement: &[u64]) -> Result<Planned, Refusal> {
        settled(|answer| call!(zombrict_slack: tables tables, in placement, out answer,))
            .map(planned)
    }

    fn plan_net(
        &self,
        tables: Tables,
        placement: &mut [u64],
        work: Columns,
    ) -> Result<Planned, Refusal> {
        settled(|answer| call!(zombrict_plan: tables tables, out placement, work work, out answer,))
            .map(planned)
    }

    fn list_at(
        &self,
        tables: Tables,
        row: usize,
        loads: &mut [u32],
        times: &mut [i64],
        work: Columns,
    ) -> Result<usize, Refusal> {
        let (list_loads, list_times) = (loads, times);
        settled(|answer| {
            call!(
                zombrict_list:
                tables tables, number row, out list_loads, out list_times, work work, out answer,
            )
        })
        .map(listed)
    }

    fn loads_at(
        &self,
        tables: Tables,
        row: usize,
        loads: &mut [u32],
        work: Columns,
    ) -> Result<usize, Refusal> {
        let list_loads = loads;
        settled(|answer| {
            call!(
                zombrict_loads:
                tables tables, number row, out list_loads, work work, out answer,
            )
        })
        .map(listed)
    }
}

/// The calls that take a net as text and have tables and work area of their own.
#[allow(unsafe_code)]
impl Linked {
    pub fn check_text(&self, text: &[u8]) -> Result<Counts, Refusal> {
        settled(|answer| call!(zombrict_check_text: in text, out answer,)).map(counted)
    }

    pub fn slack_text(&self, text: &[u8], placement: &[u64]) -> Result<Planned, Refusal> {
        settled(|answer| call!(zombrict_slack_text: in text, in placement, out answer,))
            .map(planned)
    }

    pub fn plan_text(&self, text: &[u8], placement: &mut [u64]) -> Result<Planned, Refusal> {
        settled(|answer| call!(zombrict_plan_text: in text, out placement, out answer,))
            .map(planned)
    }

    pub fn list_text(
        &self,
        text: &[u8],
        row: usize,
        loads: &mut [u32],
        times: &mut [i64],
    ) -> Result<usize, Refusal> {
        settled(|answer| {
            call!(zombrict_list_text: in text, number row, out loads, out times, out answer,)
        })
        .map(listed)
    }

    pub fn loads_text(&self, text: &[u8], row: usize, loads: &mut [u32]) -> Result<usize, Refusal> {
        settled(|answer| call!(zombrict_loads_text: in text, number row, out loads, out answer,))
            .map(listed)
    }

    /// One call whose answer's area may be of any length: how a short one is refused.
    pub fn check_into(&self, tables: Tables, answer: &mut [i64]) -> u32 {
        call!(zombrict_check: tables tables, out answer,)
    }
}
