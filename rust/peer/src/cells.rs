//! Cells at or above q, and the finder of forbidden patterns.

use crate::answers::{
    Answer, CELL, INPUT_LENGTH, LEVELS, LEVELS_RANGE, PATTERN, REACH, REACH_RANGE, Tested,
    refuse_at, refuse_if,
};

/// The most cells that the finder takes.
const MOST_CELLS: usize = 65_536;

/// Finds the first forbidden pattern in a run of cells.
pub fn find(q: usize, x: usize, cells: &[u8]) -> Answer {
    Answer::of(test_run(q, x, cells).map(|()| 0))
}

/// The finder's tests, in the order of their numbers.
fn test_run(q: usize, x: usize, cells: &[u8]) -> Tested<()> {
    refuse_if(!LEVELS_RANGE.contains(&q), LEVELS)?;
    refuse_if(!REACH_RANGE.contains(&x), REACH)?;
    refuse_if(cells.len() > MOST_CELLS, INPUT_LENGTH)?;
    test_cells(q, x, cells)
}

/// Refuses a cell at or above q, then a forbidden pattern: one pass with the distance from top to top.
pub fn test_cells(q: usize, x: usize, cells: &[u8]) -> Tested<()> {
    let top = (q - 1) as u8;
    let mut last_top = None;
    let mut pattern = None;
    for (place, &cell) in cells.iter().enumerate() {
        if cell < top {
            continue;
        }
        refuse_at((cell > top).then_some(place), CELL)?;
        if pattern.is_none() {
            pattern = last_top.filter(|first| (2..=x + 1).contains(&(place - first)));
        }
        last_top = Some(place);
    }
    refuse_at(pattern, PATTERN)
}

/// The place of the first cell at or above q.
pub fn first_above(q: usize, cells: &[u8]) -> Option<usize> {
    cells.iter().position(|&cell| usize::from(cell) >= q)
}

/// The first top of the first forbidden pattern in cells that are all below q.
pub fn first_pattern(q: usize, x: usize, cells: &[u8]) -> Option<usize> {
    test_cells(q, x, cells).err().map(|refusal| refusal.place)
}
