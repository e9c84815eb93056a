//! Where a value is in a ring of cells.
// From crates/rw_values/src/ring.rt, with its contracts as comments. //+
//~ ghost use Rattle.std.specs.Prelude.{◌≡◌, ◌<◌, ◌≤◌};
//~ ghost use Rattle.rw_ring.specs.declared.ring.TheConstants.{MOST_CAPACITY};
//~ ghost use Rattle.rw_values.specs.Cells.{cell_of};

use crate::source::rw_ring::MOST_CAPACITY;

/// Returns the index of the cell that comes this many after the first one, in a ring of that many cells.
#[inline(always)]
pub(crate) fn cell_of(first: usize, count: usize, age: usize) -> usize
//~     requires first { first < count }
//~     requires age { age ≤ count }
//~     requires small { count ≤ MOST_CAPACITY }
//~     ensures cell { result ≡ cell_of first count age }
//~     ensures within { result < count }
{
    let cell = first + age;
    if cell < count { cell } else { cell - count }
}

/// Returns the index of the cell after this one.
#[inline(always)]
pub(crate) fn next_cell(cell: usize, count: usize) -> usize
//~     requires cell { cell < count }
//~     requires small { count ≤ MOST_CAPACITY }
//~     ensures cell { result ≡ cell_of cell count 1 }
//~     ensures within { result < count }
{
    let next = cell + 1;
    if next < count { next } else { 0 }
}
