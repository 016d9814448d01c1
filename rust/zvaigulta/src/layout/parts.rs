//! The layouts of the index and of the sheet part, each under document 01's sentence.

use super::build::{a, any, between, i, laid, one_of, x};
use super::Layout;

/// Index a: A2 "I ", system I2 (1..19), A30, sheets I3, number of b records I2, number of c records I4, two flags I1 (0,1),
/// year I4, A30, version I1 (1), blank use I1, 3X.
pub static INDEX_A: Layout = Layout {
    name: "index a",
    columns: &laid([
        a("type", 2),
        between("system", 2, 1, 19),
        a("planning agency", 30),
        i("sheets", 3),
        i("b records", 2),
        i("c records", 4),
        between("shift flag", 1, 0, 1),
        between("break flag", 1, 0, 1),
        i("year", 4),
        a("regulation", 30),
        between("version", 1, 1, 1),
        i("blank use", 1),
        x(3),
    ]),
};

/// Index b: ten A8, 4X.
pub static INDEX_B: Layout = Layout {
    name: "index b",
    columns: &laid([
        a("sheet 1", 8),
        a("sheet 2", 8),
        a("sheet 3", 8),
        a("sheet 4", 8),
        a("sheet 5", 8),
        a("sheet 6", 8),
        a("sheet 7", 8),
        a("sheet 8", 8),
        a("sheet 9", 8),
        a("sheet 10", 8),
        x(4),
    ]),
};

/// Index c: I4, I4, nine flags I1 (0,1), direction I1 (0,1), dimension I1 (0,2,3), A65.
pub static INDEX_C: Layout = Layout {
    name: "index c",
    columns: &laid([
        i("class used", 4),
        i("standard class", 4),
        between("area used", 1, 0, 1),
        between("line used", 1, 0, 1),
        between("circle used", 1, 0, 1),
        between("arc used", 1, 0, 1),
        between("point used", 1, 0, 1),
        between("direction used", 1, 0, 1),
        between("note used", 1, 0, 1),
        between("attribute used", 1, 0, 1),
        between("grid and net used", 1, 0, 1),
        between("direction", 1, 0, 1),
        one_of("dimension", 1, &[0, 2, 3]),
        a("description", 65),
    ]),
};

/// Sheet a: A2 "M ", A8, A20, level I5, A30, revisions I2, version I1 (1), blank use I1, 15X.
pub static SHEET_A: Layout = Layout {
    name: "sheet a",
    columns: &laid([
        a("type", 2),
        a("sheet", 8),
        a("sheet name", 20),
        one_of("level", 5, &[500, 1000, 2500, 5000, 10000]),
        a("title", 30),
        i("revisions", 2),
        between("version", 1, 1, 1),
        i("blank use", 1),
        x(15),
    ]),
};

/// Sheet b: lower left X, Y, upper right X, Y (I7, any sign), 3 unjudged, element count I6, record count I7, unit I3, upper left X, Y,
/// lower right X, Y (I7, any sign), 9X. The three unjudged ones stand here as X, which is not judged either.
pub static SHEET_B: Layout = Layout {
    name: "sheet b",
    columns: &laid([
        any("lower left X", 7),
        any("lower left Y", 7),
        any("upper right X", 7),
        any("upper right Y", 7),
        x(3),
        i("element count", 6),
        i("record count", 7),
        i("unit", 3),
        any("upper left X", 7),
        any("upper left Y", 7),
        any("lower right X", 7),
        any("lower right Y", 7),
        x(9),
    ]),
};

/// Sheet c: eight A8, 20X.
pub static SHEET_C: Layout = Layout {
    name: "sheet c",
    columns: &laid([
        a("neighbour 1", 8),
        a("neighbour 2", 8),
        a("neighbour 3", 8),
        a("neighbour 4", 8),
        a("neighbour 5", 8),
        a("neighbour 6", 8),
        a("neighbour 7", 8),
        a("neighbour 8", 8),
        x(20),
    ]),
};

/// Sheet d: A4, A4, courses I1, number of f records I1, A30, A30, I1 (0..2), I1 and I1 (each 0..3 or 9), 11X.
pub static SHEET_D: Layout = Layout {
    name: "sheet d",
    columns: &laid([
        a("made", 4),
        a("surveyed", 4),
        i("courses", 1),
        i("f records", 1),
        a("device", 30),
        a("approval", 30),
        between("datum", 1, 0, 2),
        one_of("first code", 1, &[0, 1, 2, 3, 9]),
        one_of("second code", 1, &[0, 1, 2, 3, 9]),
        x(11),
    ]),
};

/// Sheet e: A40, eight fractions I4 (any sign, corners in the order of b), 12X.
pub static SHEET_E: Layout = Layout {
    name: "sheet e",
    columns: &laid([
        a("surveying agency", 40),
        any("lower left X", 4),
        any("lower left Y", 4),
        any("upper right X", 4),
        any("upper right Y", 4),
        any("upper left X", 4),
        any("upper left Y", 4),
        any("lower right X", 4),
        any("lower right Y", 4),
        x(12),
    ]),
};

/// Sheet f: three times (A4, A4, I5, I1, I4, I4), 18X.
pub static SHEET_F: Layout = Layout {
    name: "sheet f",
    columns: &laid([
        a("course 1", 4),
        a("flown 1", 4),
        i("scale 1", 5),
        i("photographs 1", 1),
        i("first photograph 1", 4),
        i("last photograph 1", 4),
        a("course 2", 4),
        a("flown 2", 4),
        i("scale 2", 5),
        i("photographs 2", 1),
        i("first photograph 2", 4),
        i("last photograph 2", 4),
        a("course 3", 4),
        a("flown 3", 4),
        i("scale 3", 5),
        i("photographs 3", 1),
        i("first photograph 3", 4),
        i("last photograph 3", 4),
        x(18),
    ]),
};
