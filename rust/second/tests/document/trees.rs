//! Expressions in few words.

use second::expression::Expression;

pub fn val(n: i32) -> Expression {
    Expression::Val(n)
}

pub fn add(x: Expression, y: Expression) -> Expression {
    Expression::Add(Box::new(x), Box::new(y))
}

pub fn seqn(x: Expression, y: Expression) -> Expression {
    Expression::Seqn(Box::new(x), Box::new(y))
}

pub fn catch(x: Expression, y: Expression) -> Expression {
    Expression::Catch(Box::new(x), Box::new(y))
}

pub fn block(x: Expression) -> Expression {
    Expression::Block(Box::new(x))
}

pub fn unblock(x: Expression) -> Expression {
    Expression::Unblock(Box::new(x))
}
