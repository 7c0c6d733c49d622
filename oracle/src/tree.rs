//! The tree that an image's nodes spell, as T wants it: each node's number stands in its span.

use crate::image::{kind::*, Image};
use crate::parser::ast::{BinaryOp, Expr, ExprS, Literal, Stmt, StmtS, UnaryOp};
use crate::types::Span;

pub fn program(image: &Image) -> Vec<StmtS> {
    block(image, 0)
}

fn span(node: usize) -> Span {
    node..node
}

/// The numbers of a node's children: the first is the next node, each further one starts where the last ended.
fn children(image: &Image, node: usize) -> Vec<usize> {
    let mut at = node + 1;
    let mut found = Vec::new();
    for _ in 0..image.nodes[node].children {
        found.push(at);
        at = image.nodes[at].end as usize;
    }
    found
}

fn name(image: &Image, node: usize) -> String {
    image.names[image.nodes[node].arg as usize].text.clone()
}

fn block(image: &Image, node: usize) -> Vec<StmtS> {
    children(image, node).into_iter().map(|child| statement(image, child)).collect()
}

fn statement(image: &Image, node: usize) -> StmtS {
    let parts = children(image, node);
    let stmt = match image.nodes[node].kind {
        BREAK => Stmt::Break,
        CONTINUE => Stmt::Continue,
        PASS => Stmt::Pass,
        // T looks into no class.
        CLASS => Stmt::Class { name: String::new(), methods: Vec::new(), attributes: Vec::new() },
        ASSIGN => Stmt::Assign { target: expression(image, parts[0]), value: expression(image, parts[1]) },
        EXPR => Stmt::Expr(expression(image, parts[0])),
        RETURN => Stmt::Return(expression(image, parts[0])),
        IF => {
            // An odd count means that an else Block stands last.
            let paired = parts.len() - parts.len() % 2;
            Stmt::If {
                condition: expression(image, parts[0]),
                then_block: block(image, parts[1]),
                elif_blocks: parts[2..paired]
                    .chunks(2)
                    .map(|pair| (expression(image, pair[0]), block(image, pair[1])))
                    .collect(),
                else_block: parts.get(paired).map(|last| block(image, *last)),
            }
        }
        WHILE => Stmt::While { condition: expression(image, parts[0]), body: block(image, parts[1]) },
        FOR => {
            Stmt::For { var: name(image, node), iterable: expression(image, parts[0]), body: block(image, parts[1]) }
        }
        DEF => {
            let (body, params) = parts.split_last().expect("a Def has a Block");
            Stmt::Def {
                name: name(image, node),
                params: params.iter().map(|param| name(image, *param)).collect(),
                body: block(image, *body),
            }
        }
        other => unreachable!("kind {} is no statement", other),
    };
    (stmt, span(node))
}

fn expression(image: &Image, node: usize) -> ExprS {
    let parts = children(image, node);
    let one = |nth: usize| Box::new(expression(image, parts[nth]));
    let all = |from: usize| -> Vec<ExprS> { parts[from..].iter().map(|part| expression(image, *part)).collect() };
    let arg = image.nodes[node].arg;
    let expr = match image.nodes[node].kind {
        LITERAL => Expr::Literal(literal(arg)),
        VARIABLE => Expr::Variable(name(image, node)),
        UNARY => Expr::Unary { op: unary(arg), expr: one(0) },
        BINARY => Expr::Binary { op: binary(arg), left: one(0), right: one(1) },
        CALL => Expr::Call { func_name: one(0), args: all(1) },
        ATTRIBUTE => Expr::Attribute { object: one(0), attr: String::new() },
        LIST => Expr::List(all(0)),
        DICT => {
            Expr::Dict(parts.chunks(2).map(|pair| (expression(image, pair[0]), expression(image, pair[1]))).collect())
        }
        TUPLE => Expr::Tuple(all(0)),
        SET => Expr::Set(all(0)),
        TREE_SET => Expr::TreeSet(all(0)),
        INDEX => Expr::Index { object: one(0), index: one(1) },
        // T looks into no lambda.
        LAMBDA => Expr::Lambda { params: Vec::new(), body: Box::new((Expr::Literal(Literal::None), span(node))) },
        other => unreachable!("kind {} is no expression", other),
    };
    (expr, span(node))
}

/// T looks at a literal's case alone.
fn literal(arg: u32) -> Literal {
    match arg {
        0 => Literal::Bool(false),
        1 => Literal::Int(0),
        2 => Literal::String(String::new()),
        3 => Literal::Float(0.0),
        4 => Literal::None,
        other => unreachable!("{} is no literal", other),
    }
}

/// In the order of ast.rs.
fn unary(arg: u32) -> UnaryOp {
    match arg {
        0 => UnaryOp::Not,
        1 => UnaryOp::Negate,
        2 => UnaryOp::Pos,
        other => unreachable!("{} is no unary operator", other),
    }
}

/// In the order of ast.rs.
fn binary(arg: u32) -> BinaryOp {
    match arg {
        0 => BinaryOp::Add,
        1 => BinaryOp::Subtract,
        2 => BinaryOp::Multiply,
        3 => BinaryOp::Divide,
        4 => BinaryOp::FloorDivide,
        5 => BinaryOp::Modulo,
        6 => BinaryOp::Equal,
        7 => BinaryOp::NotEqual,
        8 => BinaryOp::Less,
        9 => BinaryOp::LessEqual,
        10 => BinaryOp::Greater,
        11 => BinaryOp::GreaterEqual,
        12 => BinaryOp::And,
        13 => BinaryOp::Or,
        other => unreachable!("{} is no binary operator", other),
    }
}
