//! The names of groups.

use crate::ffi::{self, Handle};

/// The name of each group, in order.
pub(crate) struct Names(Vec<Option<String>>);

impl Names {
    /// Returns the names of a pattern's groups; `None` if the library returns something else.
    pub(crate) fn of(handle: &Handle) -> Option<Names> {
        let name = |group| {
            let output = handle.group_name(group);
            match output.status {
                ffi::OK => String::from_utf8(output.items).ok(),
                _ => None,
            }
        };
        let names = (1..=handle.group_count()).map(|group| {
            let name = name(group)?;
            // No group has the empty text as its name.
            Some(Some(name).filter(|name| !name.is_empty()))
        });
        names.collect::<Option<Vec<_>>>().map(Names)
    }

    /// Returns whether some group has a name.
    pub(crate) fn any(&self) -> bool {
        self.0.iter().any(Option::is_some)
    }

    /// Returns the name of each group, in order.
    pub(crate) fn iter(&self) -> impl Iterator<Item = Option<&str>> {
        self.0.iter().map(Option::as_deref)
    }
}
