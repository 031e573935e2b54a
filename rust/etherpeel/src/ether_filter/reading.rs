//! Reads an expression word by word.

use crate::ether_filter::awaited::{Awaited, Numbered, Step, existence, first_step, kind_of, member, next_step};
use crate::ether_filter::filter::MAX_WORDS;
use crate::ether_filter::filter_error::FilterErrorKind;
use crate::ether_filter::node::{Node, Operator};
use crate::ether_filter::primitive::Primitive;
use crate::ether_filter::subject::Subject;
use crate::ether_filter::token::Token;
use arrayvec::ArrayVec;

/// A part of an expression that is not complete yet.
#[derive(Clone, Copy)]
pub(in crate::ether_filter) enum Pending {
    /// A parenthesis that is not closed.
    Open,
    /// A negation without its operand.
    Not,
    /// An operator without its right operand.
    Join(Operator),
}

impl Default for Pending {
    #[inline]
    fn default() -> Pending {
        Pending::Open
    }
}

/// An expression that is read up to some word.
pub(in crate::ether_filter) struct Reading {
    /// The nodes of its complete parts.
    nodes: ArrayVec<Node, MAX_WORDS>,
    /// The incomplete parts, the innermost last.
    pending: ArrayVec<Pending, MAX_WORDS>,
    awaited: Awaited,
}

impl Reading {
    /// The expression before its first character is read.
    ///
    /// <details><summary>Contract</summary>
    ///
    /// ```text
    /// ensures { state_of result ≡ begun }
    /// ```
    ///
    /// Words: [`state_of`](crate::definitions::ether_filter#def.state_of),
    /// [`begun`](crate::definitions::ether_filter#def.begun). [Notation](crate::definitions::notation)
    ///
    /// </details>
    #[must_use]
    #[inline]
    pub fn new() -> Reading {
        Reading {
            nodes: ArrayVec::new(),
            pending: ArrayVec::new(),
            awaited: Awaited::Operand,
        }
    }

    /// Consumes the next word.
    ///
    /// # Panics
    ///
    /// The call may panic, or return something else, if a `requires` of its contract is not met.
    ///
    /// <details><summary>Contract</summary>
    ///
    /// ```text
    /// requires { size_of (state_of self.old) < MAX_WORDS }
    /// ensures { MatchResult result (λ _. taken (state_of self.old) token ≡ Ok (state_of self.new))
    ///     (λ kind. taken (state_of self.old) token ≡ Err kind) }
    /// ```
    ///
    /// Words: [`size_of`](crate::definitions::ether_filter#def.size_of),
    /// [`state_of`](crate::definitions::ether_filter#def.state_of),
    /// [`taken`](crate::definitions::ether_filter#def.taken). [Notation](crate::definitions::notation)
    ///
    /// </details>
    #[inline]
    pub fn take(&mut self, token: Token) -> Result<(), FilterErrorKind> {
        match self.awaited {
            Awaited::Operand => match token {
                Token::Not => {
                    self.pending.push(Pending::Not);
                    Ok(())
                }
                Token::Open => {
                    self.pending.push(Pending::Open);
                    Ok(())
                }
                _ => self.step(first_step(token)),
            },
            Awaited::Operator => self.take_operator(token),
            Awaited::VlanId => match token {
                Token::Number(_) => {
                    self.step(next_step(Awaited::Number(Numbered::VlanId), token))
                }
                Token::Join(_) | Token::Close => {
                    self.complete(Primitive::Vlan);
                    self.take_operator(token)
                }
                _ => Err(FilterErrorKind::ExpectedVlanIdOrOperator),
            },
            Awaited::Relation(subject) => match token {
                Token::Relation(_) | Token::Mask | Token::In => {
                    self.step(next_step(Awaited::Relation(subject), token))
                }
                Token::Join(_) | Token::Close => {
                    self.complete(existence(subject));
                    self.take_operator(token)
                }
                _ => Err(FilterErrorKind::ExpectedRelationOrOperator),
            },
            Awaited::FirstMember(subject, mask) => self.take_member(subject, mask, token),
            Awaited::Member(subject, mask) => {
                self.take_member(subject, mask, token)?;
                self.nodes.push(Node::Join(Operator::Or));
                Ok(())
            }
            Awaited::SetEnd(subject, mask) => match token {
                Token::CloseSet => {
                    self.close();
                    Ok(())
                }
                _ => self.step(next_step(Awaited::SetEnd(subject, mask), token)),
            },
            awaited => self.step(next_step(awaited, token)),
        }
    }

    /// Does what a word does to a primitive.
    #[inline]
    fn step(&mut self, step: Step) -> Result<(), FilterErrorKind> {
        match step {
            Step::Done(primitive) => self.complete(primitive),
            Step::More(awaited) => self.awaited = awaited,
            Step::Fails => return Err(kind_of(self.awaited)),
        }
        Ok(())
    }

    /// Consumes a value of a set.
    #[inline]
    fn take_member(
        &mut self,
        subject: Subject,
        mask: u64,
        token: Token,
    ) -> Result<(), FilterErrorKind> {
        let Some(primitive) = member(subject, mask, token) else {
            return Err(kind_of(self.awaited));
        };
        self.nodes.push(Node::Test(primitive));
        self.awaited = Awaited::SetEnd(subject, mask);
        Ok(())
    }

    /// Adds a primitive, which is an operand.
    #[inline]
    fn complete(&mut self, primitive: Primitive) {
        self.nodes.push(Node::Test(primitive));
        self.close();
    }

    /// Completes the negations of the operand that was read last.
    #[inline]
    fn close(&mut self) {
        while let Some(last) = self.pending.pop() {
            if !matches!(last, Pending::Not) {
                self.pending.push(last);
                break;
            }
            self.nodes.push(Node::Not);
        }
        self.awaited = Awaited::Operator;
    }

    /// Consumes a word after an operand.
    #[inline]
    fn take_operator(&mut self, token: Token) -> Result<(), FilterErrorKind> {
        match token {
            Token::Join(operator) => self.join(operator),
            Token::Close => self.close_group(),
            _ => Err(FilterErrorKind::ExpectedOperator),
        }
    }

    /// Consumes an operator.
    #[inline]
    fn join(&mut self, operator: Operator) -> Result<(), FilterErrorKind> {
        match self.pending.pop() {
            Some(Pending::Join(last)) => {
                if differ(last, operator) {
                    return Err(FilterErrorKind::MixedOperators);
                }
                self.nodes.push(Node::Join(last));
            }
            Some(open) => self.pending.push(open),
            None => {}
        }
        self.pending.push(Pending::Join(operator));
        self.awaited = Awaited::Operand;
        Ok(())
    }

    /// Consumes a closing parenthesis.
    #[inline]
    fn close_group(&mut self) -> Result<(), FilterErrorKind> {
        self.settle();
        match self.pending.pop() {
            Some(Pending::Open) => {
                self.close();
                Ok(())
            }
            _ => Err(FilterErrorKind::Unopened),
        }
    }

    /// Completes the operator before an operand.
    #[inline]
    fn settle(&mut self) {
        match self.pending.pop() {
            Some(Pending::Join(operator)) => self.nodes.push(Node::Join(operator)),
            Some(open) => self.pending.push(open),
            None => {}
        }
    }

    /// The nodes of the expression, if it is complete.
    ///
    /// # Panics
    ///
    /// The call may panic, or return something else, if a `requires` of its contract is not met.
    ///
    /// <details><summary>Contract</summary>
    ///
    /// ```text
    /// requires { size_of (state_of self) ≤ MAX_WORDS }
    /// ensures { MatchResult result (λ ns. ended (state_of self) ≡ Ok ns.items)
    ///     (λ kind. ended (state_of self) ≡ Err kind) }
    /// ```
    ///
    /// Words: [`size_of`](crate::definitions::ether_filter#def.size_of),
    /// [`state_of`](crate::definitions::ether_filter#def.state_of),
    /// [`ended`](crate::definitions::ether_filter#def.ended). [Notation](crate::definitions::notation)
    ///
    /// </details>
    #[inline]
    pub fn finish(mut self) -> Result<ArrayVec<Node, MAX_WORDS>, FilterErrorKind> {
        match self.awaited {
            Awaited::Operator => {}
            Awaited::VlanId => self.complete(Primitive::Vlan),
            Awaited::Relation(subject) => self.complete(existence(subject)),
            awaited => return Err(kind_of(awaited)),
        }
        self.settle();
        if self.pending.is_empty() {
            Ok(self.nodes)
        } else {
            Err(FilterErrorKind::Unclosed)
        }
    }
}

/// Whether two operators differ.
#[inline]
fn differ(first: Operator, second: Operator) -> bool {
    matches!(
        (first, second),
        (Operator::And, Operator::Or) | (Operator::Or, Operator::And)
    )
}
