//! The nodes of an expression.
use crate::ether_filter::primitive::Primitive;

/// An operator between two operands.
#[derive(Clone, Copy, PartialEq, Eq, Hash, Debug)]
pub enum Operator {
    /// `and`
    And,
    /// `or`
    Or,
}

/// A node of an expression in postfix order: each operator follows its operands.
#[derive(Clone, Copy, PartialEq, Eq, Hash, Debug)]
pub enum Node {
    /// A primitive.
    Test(Primitive),
    /// `not`, for the operand before it.
    Not,
    /// An operator, for the two operands before it.
    Join(Operator),
}

impl Default for Node {
    #[inline]
    fn default() -> Node {
        Node::Not
    }
}
