//! Filters: `ether_filter`.

use etherpeel::ether_filter::{Decision, Filter, FilterError, Node, filter_program, number_of};
use properties::cases::check;
use properties::expressions::{
    captured, changed_text, letter_text, long_text, numeral, primitives, questions, style, word_text,
};
use properties::filter::Expression;
use properties::grammar;
use proptest::collection::vec;
use proptest::prelude::{any, prop_assert, prop_assert_eq, prop_oneof};

/// The nodes of a filter, or why there is none.
fn nodes(text: &[u8]) -> Result<Vec<Node>, FilterError> {
    let filter = Filter::parse(text)?;
    Ok(filter.instructions().iter().map(|it| it.node().expect("each instruction has a node")).collect())
}

/// The filter of an expression, read from its text.
fn filter(expression: &Expression, mut style: properties::expressions::Style) -> Filter {
    let text = style.text(expression);
    Filter::parse(text.as_bytes()).unwrap_or_else(|error| panic!("{text}: {error}"))
}

/// The text of an expression is read as the nodes of that expression, however it is written.
///
/// Holds: `Filter::parse`, `Filter::instructions`, `Instruction::node`
#[test]
fn expressions_are_read() {
    check((questions(), style()), |((_, expression), mut style)| {
        let text = style.text(&expression);
        prop_assert_eq!(nodes(text.as_bytes()), Ok(expression.postfix()), "{}", text);
        Ok(())
    });
}

/// A text is read exactly if the grammar has it. Else the error names the first word that does not fit, or the end,
/// and what is expected there.
///
/// Holds: `Filter::parse`, `Filter::instructions`, `Instruction::node`
#[test]
fn texts_are_read_or_refused() {
    check(prop_oneof![word_text(), changed_text(), letter_text()], |text| {
        let wanted = grammar::parse(&text).map(|expression| expression.postfix());
        prop_assert_eq!(nodes(&text), wanted, "{}", String::from_utf8_lossy(&text));
        Ok(())
    });
}

/// An expression has at most 192 words; the next one is refused if all before it fit.
///
/// Holds: `Filter::parse`
#[test]
fn long_texts_are_read_or_refused() {
    check(long_text(), |text| {
        let wanted = grammar::parse(&text).map(|expression| expression.postfix());
        prop_assert_eq!(nodes(&text), wanted, "{}", String::from_utf8_lossy(&text));
        Ok(())
    });
}

/// A word is a number if it has decimal digits without a leading zero, or hexadecimal digits after `0x`; the number is
/// returned if it fits in 32 bits.
///
/// Holds: `number_of`
#[test]
fn words_are_numbers() {
    check(numeral(), |word| {
        prop_assert_eq!(number_of(&word), grammar::number_in(&word));
        Ok(())
    });
}

/// Each primitive about a packet, asked alone, matches and is decided as the model says.
///
/// Holds: `Filter::parse`, `Filter::matches`, `Filter::decide`
#[test]
fn primitives_are_answered() {
    check((captured(), style()), |(packet, style)| {
        for primitive in primitives(&packet) {
            let expression = Expression::Test(primitive);
            let filter = filter(&expression, style.clone());
            prop_assert_eq!(filter.matches(&packet.packet()), expression.holds(&packet), "{:?}", primitive);
            prop_assert_eq!(filter.decide(&packet.packet()), expression.decision(&packet), "{:?}", primitive);
        }
        Ok(())
    });
}

/// A filter matches a packet exactly if its expression holds of the captured bytes. So do its instructions in other
/// memory.
///
/// Holds: `Filter::matches`, `filter_program::matches`, `Filter::instructions`
#[test]
fn filters_match_where_expressions_hold() {
    check((questions(), style()), |((packet, expression), style)| {
        let filter = filter(&expression, style);
        let wanted = expression.holds(&packet);
        prop_assert_eq!(filter.matches(&packet.packet()), wanted);
        let copied = filter.instructions().to_vec();
        prop_assert_eq!(filter_program::matches(&copied, &packet.packet()), wanted);
        Ok(())
    });
}

/// A filter decides on a packet that lacks bytes as Kleene's logic does. A primitive needs bytes exactly if some missing
/// bytes make it match and others do not, and names the least length with which some bytes decide it. (A test of a field
/// needs bytes if the header that was cut, or one after it, could still change its answer.)
///
/// Holds: `Filter::decide`, `filter_program::decide`
#[test]
fn filters_decide_on_cut_packets() {
    check((questions(), style()), |((packet, expression), style)| {
        let filter = filter(&expression, style);
        let wanted = expression.decision(&packet);
        prop_assert_eq!(filter.decide(&packet.packet()), wanted);
        let copied = filter.instructions().to_vec();
        prop_assert_eq!(filter_program::decide(&copied, &packet.packet()), wanted);
        Ok(())
    });
}

/// A decision holds whatever the missing bytes are: the packet with any such bytes matches, or does not.
///
/// Holds: `Filter::decide`, `Filter::matches`
#[test]
fn decisions_hold_for_all_missing_bytes() {
    let more = prop_oneof![vec(any::<u8>(), 0..40), vec(0..9u8, 0..40)];
    check((questions(), style(), more), |((packet, expression), style, mut more)| {
        if packet.lost() > 3000 {
            return Ok(()); // too long to be completed
        }
        let filter = filter(&expression, style);
        more.resize(packet.lost(), 0);
        let completed = packet.longer(&more, 0);
        match filter.decide(&packet.packet()) {
            Decision::Matches => prop_assert!(filter.matches(&completed.packet())),
            Decision::Fails => prop_assert!(!filter.matches(&completed.packet())),
            Decision::Needs(_) => {}
        }
        Ok(())
    });
}

/// A packet that needs n bytes of the frame is undecided while fewer of them are captured, if the expression does not ask
/// how many are.
///
/// Holds: `Filter::decide`
#[test]
fn undecided_packets_wait_for_the_length() {
    check((questions(), style(), vec(any::<u8>(), 1..40)), |((packet, expression), style, more)| {
        if expression.asks_captured() {
            return Ok(());
        }
        let filter = filter(&expression, style);
        let Decision::Needs(needed) = filter.decide(&packet.packet()) else { return Ok(()) };
        prop_assert!(packet.frame.bytes.len() < needed);
        for len in 0..=more.len().min(needed - 1 - packet.frame.bytes.len()) {
            let longer = packet.longer(&more[..len], len);
            prop_assert!(matches!(filter.decide(&longer.packet()), Decision::Needs(_)));
        }
        Ok(())
    });
}
