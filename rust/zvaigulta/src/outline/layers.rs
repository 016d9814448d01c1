//! The layers of a sheet, told in one pass.

use super::{Outline, Record, Sort};

/// A layer of a sheet.
#[derive(Clone, Copy, Debug)]
#[non_exhaustive]
pub struct Layer<'a> {
    /// Its header.
    pub header: Record<'a>,
    /// Its records, the header included.
    pub records: usize,
    /// Its items, at any level.
    pub items: usize,
}

impl Layer<'_> {
    /// The number of its last record.
    ///
    /// ```
    /// use zvaigulta::{outline::layers, EXAMPLE};
    ///
    /// assert_eq!(layers(EXAMPLE)[0].last(), 9);
    /// ```
    pub fn last(&self) -> usize {
        self.header.number + self.records.saturating_sub(1)
    }
}

/// The layers of a sheet without a directory, in the order of the file. Of a sheet that is refused they are the best guess.
///
/// ```
/// use zvaigulta::{outline::layers, EXAMPLE};
///
/// let layers = layers(EXAMPLE);
/// assert_eq!((layers[0].header.number, layers[0].records, layers[0].items), (6, 4, 1));
/// assert_eq!(layers.len(), 1);
/// ```
pub fn layers(bytes: &[u8]) -> Vec<Layer<'_>> {
    let mut layers: Vec<Layer> = Vec::new();
    for record in Outline::of(bytes) {
        let header = record.sort() == Some(Sort::Header);
        if header && record.level == Some(1) {
            layers.push(Layer { header: record, records: 0, items: 0 });
        }
        if let Some(layer) = layers.last_mut() {
            layer.records += 1;
            layer.items += usize::from(record.sort().is_some() && !header);
        }
    }
    layers
}
