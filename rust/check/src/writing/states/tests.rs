//! That the generated states reach every edge of the rules in docs/FORMAT.md, Writing in pieces.

use super::*;

/// Each edge is reached at least this often among the generated states.
const OFTEN: usize = 10;

/// How many states of each kind are generated.
const STATES: u64 = 20_000;

/// Fails if an edge is reached too seldom. `reached` counts the states that reach it.
fn often(edge: &str, reached: usize) {
    assert!(reached >= OFTEN, "{edge}: {reached} of {STATES} states");
}

/// Counts the states that reach an edge, which has a name, and fails if they are too few.
type Count<'a, T> = &'a dyn Fn(&str, &dyn Fn(&T) -> bool);

/// Edges of the numbers of a state that both kinds of writing have.
fn number_edges(states: &[Writing]) {
    let count = |edge: &str, reaches: &dyn Fn(&Writing) -> bool| {
        often(edge, states.iter().filter(|state| reaches(state)).count());
    };
    for begun in [0, 1, 2, 31, 32, 33, u64::MAX] {
        let edge = format!("sections_begun {begun}, section_left not 0");
        count(&edge, &|s| s.sections_begun == begun && s.section_left != 0);
    }
    for more in 0..=2 {
        let edge = format!("sections_begun 1 below the count and {more} more, section_left not 0");
        count(&edge, &|s| {
            s.section_left != 0 && s.sections_begun.checked_add(1) == s.count.checked_add(more)
        });
    }
    for written in [0, 1, 547, 548, 549, u64::MAX] {
        let edge = format!("header_written {written}, section_left 0");
        count(&edge, &|s| {
            s.header_written == written && s.section_left == 0
        });
    }
    for number in [0, 1, 31, 32, 33, 65_535, 65_536, 65_537, 1 << 32, u64::MAX] {
        let edge = format!("count {number}, an own header or none to be written");
        count(&edge, &|s| {
            s.count == number && s.section_left == 0 && s.header_written >= 548
        });
    }
    for number in [0, 1, u64::MAX] {
        count(&format!("section_left {number}"), &|s| {
            s.section_left == number
        });
        count(&format!("data_left {number}"), &|s| s.data_left == number);
    }
    count("section_left above data_left", &|s| {
        s.section_left > s.data_left
    });
    places(&count);
}

/// Edges of the places.
fn places(count: Count<Writing>) {
    let own_header = |s: &Writing| s.section_left == 0 && s.header_written >= 548;
    for (begun, least) in [(31, 32), (31, 33), (31, 65_536), (32, 33), (33, 34)] {
        let edge = format!("sections_begun {begun}, count {least} or more, section_left 0");
        count(&edge, &|s| {
            own_header(s) && s.sections_begun == begun && s.count >= least
        });
    }
    count("data at places past the count", &|s| {
        let unused = s.places.iter().skip(s.count.min(32) as usize);
        unused.into_iter().any(|place| place.length.0 != 0)
    });
    count("finish, all own headers to come, count above 32", &|s| {
        s.data_left == 0 && s.sections_begun == 0 && s.count > 32
    });
    count("finish, sections_begun above the count", &|s| {
        s.data_left == 0 && s.count != 0 && s.sections_begun > s.count
    });
}

#[test]
fn states_of_writing_reach_every_edge() {
    let state = |ordinal| any_writing_input(&mut Rng::of_input(1, ordinal)).1;
    number_edges(&(0..STATES).map(state).collect::<Vec<_>>());
}

/// A state over a staged view with section_left not 0, and what its step finds.
struct Lent {
    state: StagedWriting,
    /// The base.
    base: Vec<u8>,
    /// The length of the replacement.
    replacement: u64,
    written: u64,
}

impl Lent {
    /// The place of the section begun last, if it is not the replaced one.
    fn place(&self) -> Option<u64> {
        let place = last_place(&self.state);
        (place != self.state.replaced).then_some(place)
    }

    /// How many bytes of the table's entry are there, if the data is to be found by it.
    fn entry(&self) -> Option<usize> {
        let place = self.place().filter(|&place| place < 32)?;
        let at = OFFSETS_AT + 8 * place as usize;
        Some(self.base.len().saturating_sub(at).min(8))
    }

    /// The offset, if the data is to be found by it.
    fn offset(&self) -> Option<u64> {
        let place = self.place().filter(|&place| place < 32)?;
        let entry = self.base.iter().skip(OFFSETS_AT + 8 * place as usize);
        let number = |offset, &byte| offset << 8 | u64::from(byte);
        Some(entry.take(8).fold(0, number))
    }

    /// Where the data starts and ends, exact.
    fn data(&self) -> Option<(u128, u128)> {
        let start = u128::from(self.offset()?) + 12;
        let length = self.state.writing.places[self.place()? as usize].length.0;
        Some((start, start + u128::from(length)))
    }

    /// Whether the data starts this far past the base's end.
    fn starts(&self, past: i128) -> bool {
        let end = self.base.len() as i128;
        self.data()
            .is_some_and(|(start, _)| start as i128 == end + past)
    }

    /// Whether data that starts in the base ends this far past the base's end.
    fn ends(&self, past: i128) -> bool {
        let length = self.base.len() as i128;
        self.data().is_some_and(|(start, end)| {
            (start as i128) < length && end as i128 == length + past && self.written != 0
        })
    }
}

/// A state and what its step finds, if section_left is not 0.
fn lent(given: StagedInput, state: StagedWriting) -> Option<Lent> {
    let mut out = [0; 1000];
    let stepped = staged::staged_writing_step(state, &given.base, &given.replacement, &mut out);
    (state.writing.section_left != 0).then_some(Lent {
        state,
        replacement: given.replacement.len() as u64,
        base: given.base,
        written: stepped.written,
    })
}

/// Edges of where a section's data lies. In all of them section_left is not 0.
fn data_edges(states: &[Lent]) {
    let count = |edge: &str, reaches: &dyn Fn(&Lent) -> bool| {
        often(edge, states.iter().filter(|lent| reaches(lent)).count());
    };
    for past in [-1, 0, 1] {
        count(&format!("starts {past} past the base's end"), &|l| {
            l.starts(past)
        });
        count(&format!("ends {past} past the base's end"), &|l| {
            l.ends(past)
        });
    }
    for past in [-12, -11, -1, 0, 1] {
        count(&format!("offset {past} past the base's end"), &|l| {
            l.starts(12 + past)
        });
    }
    count("the start is above 2 to the 64", &|l| {
        l.offset().is_some_and(|offset| offset > u64::MAX - 12)
    });
    count("the end is above 2 to the 64", &|l| {
        l.data()
            .is_some_and(|(_, end)| end > u128::from(u64::MAX) + 1)
    });
    for there in 0..=8 {
        count(&format!("{there} bytes of the table's entry"), &|l| {
            l.entry() == Some(there)
        });
    }
    count("no base", &|l| l.entry().is_some() && l.base.is_empty());
    count("part of the entry, data written", &|l| {
        l.entry().is_some_and(|there| there < 8) && l.written != 0
    });
    count("part of the entry, not 0, data written", &|l| {
        l.entry().is_some_and(|there| there < 8) && l.offset() > Some(0) && l.written != 0
    });
    lengths(&count);
    places_begun(&count);
}

/// Edges of section_left and of the data's length.
fn lengths(count: Count<Lent>) {
    count("less is lent than the data", &|l| {
        let length = l.data().map(|(start, end)| end - start);
        l.written != 0 && length > Some(l.state.writing.section_left.into())
    });
    count("less is there than section_left", &|l| {
        l.place().is_some() && l.written != 0 && l.written < l.state.writing.section_left
    });
    count("less is lent than the replacement", &|l| {
        l.place().is_none() && l.written != 0 && l.state.writing.section_left < l.replacement
    });
    count("the replacement is less than section_left", &|l| {
        l.place().is_none() && l.written != 0 && l.state.writing.section_left > l.replacement
    });
}

/// Edges of which section is begun last, and of the replaced one.
fn places_begun(count: Count<Lent>) {
    for begun in [0, 1, 2, 31, 32] {
        let is = |l: &Lent| l.state.writing.sections_begun == begun && l.written != 0;
        count(&format!("sections_begun {begun}, data of the base"), &|l| {
            is(l) && l.place().is_some()
        });
        count(&format!("sections_begun {begun}, replacement"), &|l| {
            is(l) && l.place().is_none()
        });
    }
    for begun in [33, u64::MAX] {
        let is = |l: &Lent| l.state.writing.sections_begun == begun;
        count(&format!("sections_begun {begun}, no data"), &|l| {
            is(l) && l.place().is_some()
        });
        count(&format!("sections_begun {begun}, replacement"), &|l| {
            is(l) && l.place().is_none() && l.written != 0
        });
    }
    for begun in [1, 2, 31, 32] {
        let edge = format!("sections_begun {begun}, above the count, data written");
        count(&edge, &|l| {
            let writing = &l.state.writing;
            writing.sections_begun == begun && writing.count < begun && l.written != 0
        });
    }
    for replaced in [0, 1, 2, 31, 32, u64::MAX] {
        count(&format!("replaced {replaced}, another begun"), &|l| {
            l.state.replaced == replaced && l.place().is_some() && l.written != 0
        });
    }
}

#[test]
fn states_over_a_staged_view_reach_every_edge() {
    let (mut numbers, mut data) = (Vec::new(), Vec::new());
    for ordinal in 0..STATES {
        let rng = &mut Rng::of_input(2, ordinal);
        let mut given = any_staged(rng);
        let state = any_staged_writing(rng, &mut given);
        numbers.push(state.writing);
        data.extend(lent(given, state));
    }
    number_edges(&numbers);
    data_edges(&data);
}
