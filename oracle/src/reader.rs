//! Reads a tree file: document 01's checks in their order, each made on the whole file before
//! the next begins; 39 (document 02, M-104) is checked with 5.

use crate::refuse::{
    FILE_COUNTS, FILE_CUT, FILE_NUMBERS, FILE_STRUCTURE, FILE_TEXTS, NUMBER_NOT_FINITE,
};
use crate::tree::kind::*;
use crate::tree::{body_length, is_expression, is_right_side, is_statement, Node};

pub const NODES: usize = 1024;
pub const TEXTS: usize = 64;
pub const TEXT_BYTES: usize = 40;
pub const DEPTH: usize = 32;
pub const LOOPS: usize = 8;
pub const ARRAY_ITEMS: usize = 24;
pub const TABLE_ITEMS: usize = 16;

/// The tree of an accepted file, or the number that refuses it (1 to 5 and 39).
pub fn read(file: &[u8]) -> Result<Node, u8> {
    let contents = contents(file)?;
    kinds_known(&contents)?;
    lengths_allowed(&contents)?;
    let bodies = bodies(file, &contents)?;
    texts_allowed(&bodies.texts)?;
    numbers_known(&contents, &bodies)?;
    structure(&contents, &bodies).ok_or(FILE_STRUCTURE)
}

struct Contents {
    lengths: Vec<usize>,
    /// Kind and child count of each node.
    nodes: Vec<(u8, usize)>,
    end: usize,
}

struct Bodies<'f> {
    texts: Vec<&'f [u8]>,
    nodes: Vec<&'f [u8]>,
}

fn contents(file: &[u8]) -> Result<Contents, u8> {
    if file.len() < 3 {
        return Err(FILE_CUT);
    }
    let node_count = usize::from(file[0]) * 256 + usize::from(file[1]);
    let text_count = usize::from(file[2]);
    if !(1..=NODES).contains(&node_count) || !(1..=TEXTS).contains(&text_count) {
        return Err(FILE_COUNTS);
    }
    let nodes_at = 3 + text_count;
    let end = nodes_at + 2 * node_count;
    if file.len() < end {
        return Err(FILE_CUT);
    }
    let lengths = file[3..nodes_at].iter().map(|b| usize::from(*b)).collect();
    let nodes = file[nodes_at..end].chunks(2).map(|e| (e[0], usize::from(e[1]))).collect();
    Ok(Contents { lengths, nodes, end })
}

fn kinds_known(contents: &Contents) -> Result<(), u8> {
    let known = contents.nodes.iter().all(|(kind, _)| body_length(*kind).is_some());
    known.then_some(()).ok_or(FILE_STRUCTURE)
}

fn lengths_allowed(contents: &Contents) -> Result<(), u8> {
    let allowed = contents.lengths.iter().all(|length| *length <= TEXT_BYTES);
    allowed.then_some(()).ok_or(FILE_TEXTS)
}

/// Cuts the bodies out of the file; they have to end exactly with it.
fn bodies<'f>(file: &'f [u8], contents: &Contents) -> Result<Bodies<'f>, u8> {
    let of_kind = |node: &(u8, usize)| body_length(node.0).expect("known kind");
    let total: usize =
        contents.lengths.iter().sum::<usize>() + contents.nodes.iter().map(of_kind).sum::<usize>();
    if contents.end + total != file.len() {
        return Err(FILE_CUT);
    }
    let mut at = contents.end;
    let mut cut = |length: usize| {
        at += length;
        &file[at - length..at]
    };
    let texts = contents.lengths.iter().map(|length| cut(*length)).collect();
    let nodes = contents.nodes.iter().map(|node| cut(of_kind(node))).collect();
    Ok(Bodies { texts, nodes })
}

fn texts_allowed(texts: &[&[u8]]) -> Result<(), u8> {
    let later = &texts[1..];
    let printable = texts.iter().all(|t| t.iter().all(|b| (32..=126).contains(b)));
    let ascending = later.windows(2).all(|pair| pair[0] < pair[1]);
    let first = texts[0] == b"fortmp" && !later.contains(&texts[0]);
    (printable && ascending && first).then_some(()).ok_or(FILE_TEXTS)
}

/// One pass over the bodies: the first node at fault gives the number.
fn numbers_known(contents: &Contents, bodies: &Bodies) -> Result<(), u8> {
    let count = bodies.texts.len();
    let mut nodes = contents.nodes.iter().zip(&bodies.nodes);
    nodes.try_for_each(|((kind, _), body)| {
        fields_known(*kind, body, count).then_some(()).ok_or(FILE_NUMBERS)?;
        (*kind != NUM || is_finite(body)).then_some(()).ok_or(NUMBER_NOT_FINITE)
    })
}

/// Text numbers below the text count, operators within their range.
fn fields_known(kind: u8, body: &[u8], count: usize) -> bool {
    match kind {
        IF | NUM => true,
        BINARY => (1..=13).contains(&body[0]),
        UNARY => (1..=2).contains(&body[0]),
        _ => body.iter().all(|text| usize::from(*text) < count),
    }
}

/// Whether a Num's body is neither a NaN nor infinite.
fn is_finite(body: &[u8]) -> bool {
    let number = f64::from_be_bytes(body.try_into().expect("8 bytes"));
    number.is_finite()
}

/// What may stand at a place of the tree.
#[derive(Clone, Copy)]
enum Place {
    Program,
    Statement,
    Expression,
    RightSide,
    Block,
    Elif,
    Item,
    ArrayItem,
    Name,
    LoopOver,
}

fn may_stand(place: Place, kind: u8) -> bool {
    match place {
        Place::Program => kind == PROGRAM,
        Place::Statement => is_statement(kind),
        Place::Expression => is_expression(kind),
        Place::RightSide => is_right_side(kind),
        Place::Block => kind == BLOCK,
        Place::Elif => kind == ELIF,
        Place::Item => kind == ITEM,
        Place::ArrayItem => matches!(kind, NUM | TEXT | TRUE | FALSE),
        Place::Name => kind == NAME,
        Place::LoopOver => matches!(kind, NAME | CALL),
    }
}

/// The places below a node, or none for a wrong child count.
fn places(kind: u8, count: usize, body: &[u8]) -> Option<Vec<Place>> {
    use Place::*;
    match kind {
        PROGRAM | BLOCK => Some(vec![Statement; count]),
        IF => if_places(count, usize::from(body[0])),
        ELIF => (count == 2).then(|| vec![Expression, Block]),
        FOR => (count == 2).then(|| vec![LoopOver, Block]),
        RETURN => (count <= 1).then(|| vec![Expression; count]),
        VAR_DECL => (count <= 1).then(|| vec![RightSide; count]),
        ASSIGN => (count == 1).then(|| vec![RightSide]),
        FN_DECL => fn_places(count),
        TABLE => (count <= TABLE_ITEMS).then(|| vec![Item; count]),
        ARRAY => (count <= ARRAY_ITEMS).then(|| vec![ArrayItem; count]),
        EXPR_STMT | ITEM | ACCESS | UNARY => (count == 1).then(|| vec![Expression]),
        MUTATE | BINARY => (count == 2).then(|| vec![Expression; 2]),
        CALL => Some(vec![Expression; count]),
        _ => (count == 0).then(Vec::new),
    }
}

fn if_places(count: usize, elifs: usize) -> Option<Vec<Place>> {
    let others = count.checked_sub(2 + elifs)?;
    let mut places = vec![Place::Expression, Place::Block];
    places.extend(vec![Place::Elif; elifs]);
    places.extend(vec![Place::Statement; others]);
    Some(places)
}

fn fn_places(count: usize) -> Option<Vec<Place>> {
    let mut places = vec![Place::Name; count.checked_sub(1)?];
    places.push(Place::Block);
    Some(places)
}

/// What lies above a node.
#[derive(Clone, Copy)]
struct Above {
    depth: usize,
    loops: usize,
    function: bool,
}

fn structure(contents: &Contents, bodies: &Bodies) -> Option<Node> {
    let above = Above { depth: 0, loops: 0, function: false };
    let mut at = 0;
    let root = subtree(contents, bodies, &mut at, Place::Program, above)?;
    (at == contents.nodes.len()).then_some(root)
}

fn subtree(
    contents: &Contents,
    bodies: &Bodies,
    at: &mut usize,
    place: Place,
    above: Above,
) -> Option<Node> {
    let (kind, count) = *contents.nodes.get(*at)?;
    let body = bodies.nodes[*at];
    *at += 1;
    let here = Above {
        depth: above.depth + 1,
        loops: above.loops + usize::from(kind == FOR),
        function: above.function || kind == FN_DECL,
    };
    let nested = kind == FN_DECL && above.function;
    if !may_stand(place, kind) || here.depth > DEPTH || here.loops > LOOPS || nested {
        return None;
    }
    let mut kids = Vec::new();
    for place in places(kind, count, body)? {
        kids.push(subtree(contents, bodies, at, place, here)?);
    }
    let node = Node::new(kind, body, kids);
    (kind != TABLE || keys_differ(&node)).then_some(node)
}

fn keys_differ(table: &Node) -> bool {
    let mut keys: Vec<u8> = table.kids.iter().map(Node::text).collect();
    keys.sort_unstable();
    keys.windows(2).all(|pair| pair[0] != pair[1])
}
