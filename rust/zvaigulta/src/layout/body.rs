//! The layouts of headers, items and their data, each under document 01's sentence.

use super::build::{a, any, at_least_1, between, i, integer_or_spaces, laid, twelve, x};
use super::{Column, Layout};

/// Header: A2 "H ", class I4, area I2, information I4, number I4, level I2, then ten I5: total, groups, area, line, circle, arc, point,
/// direction, note, attribute; grid and net I1, A4, A4, A4, method I2, 1X.
pub static HEADER: Layout = Layout {
    name: "header",
    columns: &laid([
        a("type", 2),
        i("class", 4),
        i("area code", 2),
        i("information", 4),
        i("number", 4),
        i("level", 2),
        i("total", 5),
        i("groups", 5),
        i("area", 5),
        i("line", 5),
        i("circle", 5),
        i("arc", 5),
        i("point", 5),
        i("direction", 5),
        i("note", 5),
        i("attribute", 5),
        i("grid and net", 1),
        a("acquired", 4),
        a("updated", 4),
        a("deleted", 4),
        i("method", 2),
        x(1),
    ]),
};

/// Element: A2 "E1" to "E8", I4, I2, I4, number I4, level I2, figure I2, data kind I1 (0..6), accuracy I2, note kind I1 (0..2), shift I2
/// (-9..9), break I1, data count I4, records I4, X I7, Y I7 (any sign), value I7 (any sign) or seven spaces, I2, A7, A4, A4, A4, 6X,
/// repeat I1 (1..9).
pub static ELEMENT: Layout = Layout {
    name: "element",
    columns: &laid([
        a("type", 2),
        i("class", 4),
        i("area code", 2),
        i("information", 4),
        i("number", 4),
        i("level", 2),
        i("figure", 2),
        between("data kind", 1, 0, 6),
        i("accuracy", 2),
        between("note kind", 1, 0, 2),
        between("shift", 2, -9, 9),
        i("break", 1),
        i("data count", 4),
        i("records", 4),
        any("X", 7),
        any("Y", 7),
        integer_or_spaces("value", 7),
        i("attribute class", 2),
        a("attribute format", 7),
        a("acquired", 4),
        a("updated", 4),
        a("deleted", 4),
        x(6),
        between("repeat", 1, 1, 9),
    ]),
};

/// Grid header: A2 "G ", I4, I2, I4, I4, level I2, rows I4, columns I4 (both at least 1), records I4, cell sizes I7, I7 (at least 1), origin
/// I7, I7 (any sign), A4, A4, A4, I2, I2, 9X, repeat I1 (1..9).
pub static GRID_HEADER: Layout = Layout {
    name: "grid header",
    columns: &laid([
        a("type", 2),
        i("class", 4),
        i("area code", 2),
        i("information", 4),
        i("number", 4),
        i("level", 2),
        at_least_1("rows", 4),
        at_least_1("columns", 4),
        i("records", 4),
        at_least_1("cell rows", 7),
        at_least_1("cell columns", 7),
        any("origin X", 7),
        any("origin Y", 7),
        a("acquired", 4),
        a("updated", 4),
        a("deleted", 4),
        i("figure", 2),
        i("accuracy", 2),
        x(9),
        between("repeat", 1, 1, 9),
    ]),
};

/// Net header: A2 "T ", I4, I2, I4, I4, level I2, I2, triangles I6 (at least 1), records I6, A4, A4, A4, I2, 38X.
pub static NET_HEADER: Layout = Layout {
    name: "net header",
    columns: &laid([
        a("type", 2),
        i("class", 4),
        i("area code", 2),
        i("information", 4),
        i("number", 4),
        i("level", 2),
        i("figure", 2),
        at_least_1("triangles", 6),
        i("records", 6),
        a("acquired", 4),
        a("updated", 4),
        a("deleted", 4),
        i("accuracy", 2),
        x(38),
    ]),
};

const FOUR_POINTS: [Column; 12] = twelve(["X 1", "Y 1", "Z 1", "X 2", "Y 2", "Z 2", "X 3", "Y 3", "Z 3", "X 4", "Y 4", "Z 4"]);

/// Data 3D: four points of three I7 (any sign).
pub static DATA_3D: Layout = Layout { name: "3D data", columns: &FOUR_POINTS };

/// Data of a net: four points of three I7 (any sign).
pub static DATA_NET: Layout = Layout { name: "net data", columns: &FOUR_POINTS };

/// Data 2D: six points of two I7 (any sign).
pub static DATA_2D: Layout = Layout {
    name: "2D data",
    columns: &twelve(["X 1", "Y 1", "X 2", "Y 2", "X 3", "Y 3", "X 4", "Y 4", "X 5", "Y 5", "X 6", "Y 6"]),
};

/// Data of a grid: twelve I7 (any sign).
pub static DATA_GRID: Layout = Layout {
    name: "grid data",
    columns: &twelve([
        "height 1",
        "height 2",
        "height 3",
        "height 4",
        "height 5",
        "height 6",
        "height 7",
        "height 8",
        "height 9",
        "height 10",
        "height 11",
        "height 12",
    ]),
};

/// Data of a note: I1 (0,1), direction I7, I5, I5, I2, A64.
///
/// The names are those of source 002: the writing direction is 0 across and 1 down, the direction is in degrees, letter size and spacing are in
/// tenths of a millimetre, and the line weight is how thick the letters are drawn.
///
/// ```
/// use zvaigulta::layout::DATA_NOTE;
///
/// let names: Vec<&str> = DATA_NOTE.columns.iter().map(|column| column.name).collect();
/// assert_eq!(names, ["writing direction", "direction", "letter size", "letter spacing", "line weight", "text"]);
/// ```
pub static DATA_NOTE: Layout = Layout {
    name: "note data",
    columns: &laid([
        between("writing direction", 1, 0, 1),
        any("direction", 7),
        i("letter size", 5),
        i("letter spacing", 5),
        i("line weight", 2),
        a("text", 64),
    ]),
};

/// Data of an attribute: 84 free.
pub static DATA_ATTRIBUTE: Layout = Layout { name: "attribute data", columns: &laid([a("free", 84)]) };
