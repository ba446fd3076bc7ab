use crate::account::Spot;
use crate::args::NodeArguments;
use crate::outcome::{At, Failure, Outcome};
use crate::output::Output;
use crate::source::Source;
use crate::words::{counted, hex, spaced_hex};
use crate::write::Goal;
use rekwonuda::{Node, NodeId};

const PREVIEW: usize = 256;

/// Hands out the data of a node.
pub fn node(
    source: &Source,
    arguments: &NodeArguments,
    out: &mut Output<'_>,
) -> Result<Outcome, Failure> {
    let goal = Goal::of(&arguments.output, source)?;
    out.fact("node", arguments.node)?;
    let (_, data) = read(source, arguments.node)?;
    out.fact("length", data.len())?;
    match goal {
        Goal::File(target) => target.put(&data, out)?,
        _ if out.is_json() => out.fact("data", hex(&data))?,
        Goal::Screen => preview(&data, out)?,
        Goal::Standard => out.bytes(&data)?,
    }
    Ok(Outcome::Done)
}

/// Looks up a node and reads its data.
pub fn read(source: &Source, number: u32) -> Result<(Node, Vec<u8>), Failure> {
    let image = source.image();
    let id = NodeId(number);
    let found = image.find_node(id).at(Spot::NodeTree)?;
    let node = found.entry.ok_or_else(|| absent(id))?;
    let data = image.node_data(id).at(Spot::Data(node))?;
    Ok((node, data.ok_or_else(|| absent(id))?))
}

pub fn absent(id: NodeId) -> Failure {
    Failure::Absent(format!(
        "node {id} is absent: the node tree is sound as far as it was read, and does not list it"
    ))
}

fn preview(data: &[u8], out: &mut Output<'_>) -> Result<(), Failure> {
    let shown = &data[..data.len().min(PREVIEW)];
    for (row, bytes) in shown.chunks(16).enumerate() {
        let text: String = bytes.iter().map(|byte| printed(*byte)).collect();
        let offset = row * 16;
        out.row(format!("{offset:06x}  {:<47}  {text}", spaced_hex(bytes)))?;
    }
    let rest = if data.len() > PREVIEW {
        ", the first 256 shown"
    } else {
        ""
    };
    let length = counted(data.len() as u64, "byte");
    out.line(format!("{length}{rest}; -o OUT writes them to a file"))
}

fn printed(byte: u8) -> char {
    match byte {
        b' '..=b'~' => byte.into(),
        _ => '.',
    }
}
