use rekwonuda::{Heap, Image, NodeId, Value};

fn main() -> Result<(), Box<dyn std::error::Error>> {
    let file = std::env::args().nth(1).ok_or("which file?")?;
    let bytes = std::fs::read(file)?;
    let image = Image::new(&bytes);
    image.check_nodes()?;
    let data = image.node_data(NodeId(0x20_0024))?.ok_or("absent")?;
    let message = Heap::new(&data);
    for property in message.properties() {
        let property = property?;
        print!("{:#06x}  ", property.id);
        match property.value {
            Value::Number(number) => println!("{number}"),
            Value::Empty => println!("empty"),
            Value::Item(item) => println!("{} bytes", message.item(item)?.len()),
            Value::Subnode(subnode) => println!("in subnode {subnode}"),
        }
    }
    Ok(())
}
