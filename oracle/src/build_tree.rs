//! The original's tree of an accepted tree file.

use crate::names::name_of;
use crate::original::sifc_parse::ast::AstNode;
use crate::original::sifc_parse::token::{Token, TokenTy};
use crate::tree::kind::*;
use crate::tree::Node;

pub fn ast_of(node: &Node) -> AstNode {
    match node.kind {
        PROGRAM => AstNode::Program { blocks: all(&node.kids) },
        BLOCK => AstNode::Block { decls: all(&node.kids), scope: 0 },
        IF => if_of(node),
        ELIF => AstNode::ElifStmt { cond_expr: kid(node, 0), stmts: kid(node, 1) },
        FOR => for_of(node),
        RETURN => AstNode::ReturnStmt { ret_expr: optional(node) },
        EXPR_STMT => AstNode::ExprStmt { expr: kid(node, 0) },
        VAR_DECL => {
            AstNode::VarDecl { ident_tkn: named(node), is_global: false, rhs: optional(node) }
        }
        FN_DECL => fn_of(node),
        TABLE => table_of(node),
        ARRAY => array_of(node),
        ACCESS => AstNode::ArrayAccess { array_tkn: named(node), index: kid(node, 0) },
        MUTATE => {
            AstNode::ArrayMutExpr { array_tkn: named(node), index: kid(node, 0), rhs: kid(node, 1) }
        }
        CALL => AstNode::FnCallExpr {
            fn_ident_tkn: named(node),
            fn_params: all(&node.kids),
            is_std: false,
        },
        ASSIGN => {
            AstNode::VarAssignExpr { ident_tkn: named(node), is_global: false, rhs: kid(node, 0) }
        }
        BINARY => AstNode::BinaryExpr {
            op_tkn: token(binary_token(node.body[0])),
            lhs: kid(node, 0),
            rhs: kid(node, 1),
        },
        UNARY => AstNode::UnaryExpr { op_tkn: token(unary_token(node.body[0])), rhs: kid(node, 0) },
        NUM => primary(TokenTy::Val(node.number())),
        TEXT => primary(TokenTy::Str(name_of(node.text()))),
        NAME => primary(TokenTy::Ident(name_of(node.text()))),
        TRUE => primary(TokenTy::True),
        FALSE => primary(TokenTy::False),
        other => panic!("kind {other} has no node of its own"),
    }
}

fn token(ty: TokenTy) -> Token {
    Token::new(ty, 0, 0)
}

fn ident(text: u8) -> Token {
    token(TokenTy::Ident(name_of(text)))
}

fn named(node: &Node) -> Token {
    ident(node.text())
}

fn primary(ty: TokenTy) -> AstNode {
    AstNode::PrimaryExpr { tkn: token(ty) }
}

fn kid(node: &Node, at: usize) -> Box<AstNode> {
    Box::new(ast_of(&node.kids[at]))
}

fn optional(node: &Node) -> Option<Box<AstNode>> {
    node.kids.first().map(|kid| Box::new(ast_of(kid)))
}

fn all(nodes: &[Node]) -> Vec<AstNode> {
    nodes.iter().map(ast_of).collect()
}

fn if_of(node: &Node) -> AstNode {
    AstNode::IfStmt {
        cond_expr: kid(node, 0),
        if_stmts: kid(node, 1),
        elif_exprs: all(node.elifs()),
        else_stmts: all(node.else_statements()),
    }
}

fn for_of(node: &Node) -> AstNode {
    let pair = [node.text(), node.item_name()];
    let idents = pair.iter().map(|text| primary(TokenTy::Ident(name_of(*text)))).collect();
    AstNode::ForStmt {
        var_list: Box::new(AstNode::IdentPair { idents }),
        in_expr_list: kid(node, 0),
        stmts: kid(node, 1),
    }
}

fn fn_of(node: &Node) -> AstNode {
    let (body, params) = node.kids.split_last().expect("a Block");
    AstNode::FnDecl {
        ident_tkn: named(node),
        fn_params: Box::new(AstNode::FnParams { params: all(params) }),
        fn_body: Box::new(ast_of(body)),
        scope: 0,
    }
}

/// The table's own name is not used by the lowering.
fn table_of(node: &Node) -> AstNode {
    let item = |item: &Node| (name_of(item.text()), ast_of(&item.kids[0]));
    let items = node.kids.iter().map(item).collect();
    AstNode::Table { ident_tkn: ident(0), items: Box::new(AstNode::ItemList { items }) }
}

fn array_of(node: &Node) -> AstNode {
    AstNode::Array {
        ident_tkn: named(node),
        body: Some(Box::new(AstNode::ArrayItems { items: all(&node.kids) })),
        len: node.kids.len(),
    }
}

fn binary_token(op: u8) -> TokenTy {
    match op {
        1 => TokenTy::Plus,
        2 => TokenTy::Minus,
        3 => TokenTy::Star,
        4 => TokenTy::Slash,
        5 => TokenTy::Percent,
        6 => TokenTy::EqEq,
        7 => TokenTy::LtEq,
        8 => TokenTy::Lt,
        9 => TokenTy::GtEq,
        10 => TokenTy::Gt,
        11 => TokenTy::AmpAmp,
        12 => TokenTy::PipePipe,
        13 => TokenTy::BangEq,
        other => panic!("operator {other}"),
    }
}

fn unary_token(op: u8) -> TokenTy {
    match op {
        1 => TokenTy::Bang,
        2 => TokenTy::Minus,
        other => panic!("operator {other}"),
    }
}
