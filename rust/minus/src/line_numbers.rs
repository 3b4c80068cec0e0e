//! Whether rows begin with the numbers of their lines.

/// Whether rows begin with the numbers of their lines, and whether the user may change that.
///
/// ```
/// use minus::LineNumbers;
///
/// assert_eq!(!LineNumbers::Enabled, LineNumbers::Disabled);
/// assert_eq!(!LineNumbers::AlwaysOn, LineNumbers::AlwaysOn);
/// ```
#[derive(Debug, PartialEq, Eq, Copy, Clone)]
pub enum LineNumbers {
    /// On, and the user cannot turn them off.
    AlwaysOn,
    /// On, until the user turns them off.
    Enabled,
    /// Off, until the user turns them on.
    Disabled,
    /// Off, and the user cannot turn them on.
    AlwaysOff,
}

impl std::ops::Not for LineNumbers {
    type Output = Self;

    /// What a user who asks for the other setting gets.
    fn not(self) -> Self {
        match self {
            Self::Enabled => Self::Disabled,
            Self::Disabled => Self::Enabled,
            locked => locked,
        }
    }
}

#[cfg(test)]
mod tests {
    use super::LineNumbers::{AlwaysOff, AlwaysOn, Disabled, Enabled};

    #[test]
    fn a_user_can_turn_over_what_is_not_locked() {
        assert_eq!([!Enabled, !Disabled, !AlwaysOn, !AlwaysOff], [Disabled, Enabled, AlwaysOn, AlwaysOff]);
    }
}
