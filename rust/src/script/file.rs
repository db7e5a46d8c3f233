//! The bytes of a tree file: the checks before the structure, and writing.
//!
//! Document 01: "1 (under 3 bytes); 2; 1 (contents); 4 (unknown kind); 3 (length); 1 (bodies); 3; 5;
//! 4". Each check is made on the whole file before the next begins; document 02's 39 is "checked
//! with 5, in node order" (M-104).

use super::fault::Fault;
use super::kind::{self, Body};
use super::node::Node;
use super::{FINITE, FORTMP, NODES, TEXTS, TEXT_BYTES};
use crate::decimal;

/// Where the parts of a file lie.
struct Contents<'f> {
    lengths: &'f [u8],
    /// Kind and child count of each node, as nodes without bodies.
    nodes: Vec<Node>,
    /// Where the nodes' entries begin.
    entries: usize,
    /// Where the bodies begin.
    end: usize,
}

/// The texts and the nodes of a file whose structure is not yet checked.
pub(super) fn read(file: &[u8]) -> Result<(Vec<String>, Vec<Node>), Fault> {
    let mut contents = contents(file)?;
    check_kinds(&contents)?;
    check_lengths(file, &contents)?;
    let texts = bodies(file, &mut contents)?;
    check_texts(&texts, contents.end)?;
    check_numbers(&contents, &texts, file.len())?;
    let texts = texts.into_iter().map(|text| String::from_utf8_lossy(text).into_owned());
    Ok((texts.collect(), contents.nodes))
}

/// Adds to a fault of the structure the byte where its node's entry lies.
pub(super) fn with_entry_byte(fault: Fault, file: &[u8]) -> Fault {
    match (&fault.node, file.get(2)) {
        (Some(node), Some(texts)) => {
            let byte = 3 + usize::from(*texts) + 2 * node.number;
            fault.at_byte(byte)
        }
        _ => fault,
    }
}

fn contents(file: &[u8]) -> Result<Contents<'_>, Fault> {
    let [high, low, texts, rest @ ..] = file else {
        let words = format!("the file has {} bytes; the counts alone take 3", file.len());
        return Err(Fault::new(1, words).at_byte(file.len()));
    };
    let node_count = usize::from(u16::from_be_bytes([*high, *low]));
    let text_count = usize::from(*texts);
    check_count("node", node_count, NODES, 0)?;
    check_count("text", text_count, TEXTS, 2)?;
    let size = text_count + 2 * node_count;
    let Some((lengths, entries)) = rest.get(..size).map(|all| all.split_at(text_count)) else {
        let words = format!(
            "the contents are cut off: {node_count} nodes and {text_count} texts take {} bytes, the \
             file has {}",
            3 + size,
            file.len()
        );
        return Err(Fault::new(1, words).at_byte(file.len()));
    };
    let nodes = entries.chunks_exact(2).filter_map(|entry| match entry {
        [kind, count] => Some(Node::new(*kind, usize::from(*count), &[])),
        _ => None,
    });
    let nodes = nodes.collect();
    Ok(Contents { lengths, nodes, entries: 3 + text_count, end: 3 + size })
}

fn check_count(what: &str, count: usize, most: usize, byte: usize) -> Result<(), Fault> {
    if (1..=most).contains(&count) {
        return Ok(());
    }
    Err(Fault::new(2, format!("the {what} count is {count}, not 1 to {most}")).at_byte(byte))
}

fn check_kinds(contents: &Contents) -> Result<(), Fault> {
    let unknown = |node: &Node| kind::body(node.kind).is_none();
    match contents.nodes.iter().position(unknown) {
        None => Ok(()),
        Some(number) => {
            let kind = contents.nodes.get(number).map_or(0, |node| node.kind);
            Err(Fault::new(4, format!("kind {kind} is unknown; kinds are 1 to 23"))
                .at_byte(contents.entries + 2 * number)
                .at_node(&contents.nodes, number))
        }
    }
}

fn check_lengths(file: &[u8], contents: &Contents) -> Result<(), Fault> {
    let mut at = contents.end;
    for (number, length) in contents.lengths.iter().enumerate() {
        let length = usize::from(*length);
        if length > TEXT_BYTES {
            let bytes = file.get(at..at + length).unwrap_or(&[]);
            let words = format!("text {number} has {length} bytes; {TEXT_BYTES} is the most");
            return Err(Fault::new(3, words).at_byte(3 + number).at_text(number, bytes));
        }
        at += length;
    }
    Ok(())
}

/// Cuts the texts out of the file and puts the nodes' bodies in; they have to end with the file.
fn bodies<'f>(file: &'f [u8], contents: &mut Contents) -> Result<Vec<&'f [u8]>, Fault> {
    let texts: usize = contents.lengths.iter().map(|length| usize::from(*length)).sum();
    let nodes: usize = contents.nodes.iter().map(|node| node.holds().size()).sum();
    let end = contents.end + texts + nodes;
    if end != file.len() {
        return Err(wrong_end(end, file.len()));
    }
    let mut rest = file.get(contents.end..).unwrap_or(&[]);
    let mut cut = |length: usize| {
        let (part, behind) = rest.split_at_checked(length).unwrap_or((rest, &[]));
        rest = behind;
        part
    };
    let texts = contents.lengths.iter().map(|length| cut(usize::from(*length))).collect();
    for node in &mut contents.nodes {
        *node = Node::new(node.kind, node.count, cut(node.holds().size()));
    }
    Ok(texts)
}

fn wrong_end(end: usize, length: usize) -> Fault {
    let words = if end < length {
        // How far it goes on is not told: a long file is not read to its end.
        format!("the file goes on behind its last body: by its contents it has {end} bytes")
    } else {
        format!("the bodies are cut off: by its contents the file has {end} bytes, not {length}")
    };
    Fault::new(1, words).at_byte(end.min(length))
}

/// 3: "with a byte outside 32 to 126, out of order, text 0 not `fortmp`, or a later text equal to
/// it".
fn check_texts(texts: &[&[u8]], bodies: usize) -> Result<(), Fault> {
    let mut at = bodies;
    let mut before: Option<&[u8]> = None;
    for (number, text) in texts.iter().enumerate() {
        if let Some((offset, words)) = wrong_text(number, text, before) {
            return Err(Fault::new(3, words).at_byte(at + offset).at_text(number, text));
        }
        if number > 0 {
            before = Some(text);
        }
        at += text.len();
    }
    Ok(())
}

/// What is wrong with a text, and at which of its bytes.
fn wrong_text(number: usize, text: &[u8], before: Option<&[u8]>) -> Option<(usize, String)> {
    let odd = text.iter().copied().enumerate().find(|(_, byte)| !(32..=126).contains(byte));
    if let Some((offset, byte)) = odd {
        return Some((offset, format!("byte {byte} in text {number}; texts have bytes 32 to 126")));
    }
    let is_fortmp = text == FORTMP.as_bytes();
    if number == 0 && !is_fortmp {
        return Some((0, "text 0 is not fortmp".to_string()));
    }
    if number > 0 && is_fortmp {
        return Some((0, format!("text {number} is fortmp, which is text 0 alone")));
    }
    match before {
        Some(before) if before == text => {
            Some((0, format!("text {number} is the same as text {}", number - 1)))
        }
        Some(before) if before > text => {
            Some((0, format!("text {number} sorts before text {}", number - 1)))
        }
        _ => None,
    }
}

/// 5: "a text number not below the text count, or an unknown operator"; 39: "a Num body that is NaN
/// or infinite". The first node at fault decides which of the two it is.
fn check_numbers(contents: &Contents, texts: &[&[u8]], length: usize) -> Result<(), Fault> {
    let bodies: usize = contents.nodes.iter().map(|node| node.holds().size()).sum();
    let mut at = length.saturating_sub(bodies);
    for (number, node) in contents.nodes.iter().enumerate() {
        if let Some((refusal, offset, words)) = wrong_number(node, texts.len()) {
            let fault = Fault::new(refusal, words).at_byte(at + offset);
            return Err(fault.at_node(&contents.nodes, number));
        }
        at += node.holds().size();
    }
    Ok(())
}

/// What is wrong with a node's body: 5 or 39, at which of its bytes, and in words. No body can be
/// both; 5 would come first.
fn wrong_number(node: &Node, texts: usize) -> Option<(u8, usize, String)> {
    match node.holds() {
        Body::Texts(_) => {
            let wrong = |byte: &u8| usize::from(*byte) >= texts;
            let offset = node.bytes().iter().position(wrong)?;
            let byte = node.bytes().get(offset)?;
            let of = match texts {
                1 => "the file has text 0 alone".to_string(),
                _ => format!("the file has texts 0 to {}", texts - 1),
            };
            Some((5, offset, format!("text number {byte}; {of}")))
        }
        Body::Operator(last) if !(1..=last).contains(&node.first()) => {
            let name = kind::name(node.kind);
            let words = format!("operator {} of a {name}; operators are 1 to {last}", node.first());
            Some((5, 0, words))
        }
        Body::Binary64 => {
            let number = f64::from_bits(node.binary64());
            let wrong = || (39, 0, format!("the number is {}; {FINITE}", decimal::write(number)));
            (!number.is_finite()).then(wrong)
        }
        _ => None,
    }
}

/// The file of texts and nodes.
pub(super) fn write(texts: &[String], nodes: &[Node]) -> Vec<u8> {
    let mut file = (nodes.len() as u16).to_be_bytes().to_vec();
    file.push(texts.len() as u8);
    file.extend(texts.iter().map(|text| text.len() as u8));
    file.extend(nodes.iter().flat_map(|node| [node.kind, node.count as u8]));
    file.extend(texts.iter().flat_map(|text| text.bytes()));
    file.extend(nodes.iter().flat_map(|node| node.bytes().iter().copied()));
    file
}
