//! page json|typed FILE: writes a document of the items in a file of JSON with `write_json`, or of
//! a paragraph for each line of the file with `write`. Prints the length of the text.

use typst_html_proved::{write, write_json, Document, Element, Kind, Options};

fn main() -> Result<(), Box<dyn std::error::Error>> {
    let words: Vec<String> = std::env::args().skip(1).collect();
    let (how, path) = match words.as_slice() {
        [how, path] => (how.as_str(), path),
        _ => return Err("wanted: page json|typed FILE".into()),
    };
    let input = std::fs::read_to_string(path)?;
    let text = match how {
        "json" => write_json(Kind::Items, input.as_bytes(), false)?,
        _ => {
            let paragraph = |line| Element::new("p").attr("class", "long").child(line);
            let document: Document = input.lines().map(paragraph).collect();
            write(&document, Options::new())?
        }
    };
    println!("{}", text.len());
    Ok(())
}
