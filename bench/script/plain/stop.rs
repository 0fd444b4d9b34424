//! Why a run ends before its script does.

pub enum Stop {
    /// The line means nothing.
    Form,
    /// A number is out of its range.
    Range,
    Memory,
    Write,
}

/// What a command comes to: its answer is written, or the run ends.
pub type Told = Result<(), Stop>;

/// Room for so many more at the end.
pub fn reserve<T>(list: &mut Vec<T>, more: usize) -> Told {
    list.try_reserve(more).map_err(|_| Stop::Memory)
}

/// Room for so many and no more.
pub fn reserve_exact<T>(list: &mut Vec<T>, more: usize) -> Told {
    list.try_reserve_exact(more).map_err(|_| Stop::Memory)
}

/// A table of so many alike.
pub fn table<T: Clone>(count: usize, each: T) -> Result<Vec<T>, Stop> {
    let mut made = Vec::new();
    reserve_exact(&mut made, count)?;
    made.resize(count, each);
    Ok(made)
}
