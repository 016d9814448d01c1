//! `jump FILE LAYER`: the record of a layer's header, by the directory; where that is of edition 2, its item total and last record too.

use crate::arguments::{number, Arguments};
use crate::asked::Asked;
use crate::directory::naming;
use crate::explain;
use crate::failure::{output_failed, Done, FINE};
use crate::files;
use std::io::Write;
use zvaigulta::{jump_either_edition, Edition, LayerEntry, Reading, RECORD_BYTES};

/// Prints the record number of the header of a layer, what the directory states of the layer beside it, and what names the layer.
pub fn run(arguments: &Arguments, out: &mut impl Write) -> Done {
    let [path, layer] = arguments.exactly("jump FILE LAYER [--lines | --plain]")?;
    let layer = number(layer, "LAYER", "the number of a layer")?;
    let bytes = files::read(path)?;
    files::whole(path, &bytes)?;
    let reading = Reading { directory: true, ..arguments.reading_of(&bytes) };
    let asked = Asked { path, reading, bytes: &bytes };
    let plain = asked.plain()?;
    let found = jump_either_edition(&plain, plain.len(), layer).map_err(|refusal| explain::jump(&asked, &plain, refusal))?;
    let named = plain.chunks(RECORD_BYTES).nth(found.header.saturating_sub(1)).map_or(String::new(), naming);
    let line = files::as_read(reading, &bytes, format!("layer {layer}: {}, {named}", stated(asked.edition(), found)));
    writeln!(out, "{}: {line}", files::name(path)).map_err(output_failed)?;
    Ok(FINE)
}

/// What a directory states of a layer. Edition 1 states the header alone, and nothing else is counted.
fn stated(edition: Option<Edition>, layer: LayerEntry) -> String {
    let LayerEntry { header, total, last, .. } = layer;
    match edition {
        Some(Edition::Second) => format!("record {header}, total {total}, last {last}"),
        _ => format!("record {header}"),
    }
}
