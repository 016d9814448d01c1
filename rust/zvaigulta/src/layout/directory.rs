//! The layouts of a directory of layers behind a sheet, orders 5 and 13 of document 02. They are not among the nineteen of document 01.

use super::build::{a, at_least_1, between, i, integer_or_spaces, laid, named_blank};
use super::Layout;

/// Directory: "records that start "Z ", each with up to eleven I7 record numbers of layer headers in order and the rest spaces".
///
/// ```
/// use zvaigulta::layout::DIRECTORY;
///
/// let record = b"Z       7     19                                                                    ";
/// assert_eq!((DIRECTORY.value("header 1", record), DIRECTORY.value("header 2", record)), (Some(7), Some(19)));
/// ```
pub static DIRECTORY: Layout = Layout {
    name: "directory",
    columns: &laid([
        a("type", 2),
        integer_or_spaces("header 1", 7),
        integer_or_spaces("header 2", 7),
        integer_or_spaces("header 3", 7),
        integer_or_spaces("header 4", 7),
        integer_or_spaces("header 5", 7),
        integer_or_spaces("header 6", 7),
        integer_or_spaces("header 7", 7),
        integer_or_spaces("header 8", 7),
        integer_or_spaces("header 9", 7),
        integer_or_spaces("header 10", 7),
        integer_or_spaces("header 11", 7),
        named_blank("rest", 5),
    ]),
};

/// Directory end: "then one record "ZE" with the number of the first "Z " record, or of "ZE" itself for no layers, and the layer count, both I7,
/// and 68 spaces".
///
/// ```
/// use zvaigulta::layout::DIRECTORY_END;
///
/// let record = b"ZE     29      2                                                                    ";
/// assert_eq!((DIRECTORY_END.value("pointer", record), DIRECTORY_END.value("layers", record)), (Some(29), Some(2)));
/// ```
pub static DIRECTORY_END: Layout = Layout {
    name: "directory end",
    columns: &laid([a("type", 2), at_least_1("pointer", 7), i("layers", 7), named_blank("rest", 68)]),
};

/// Directory, edition 2: "Edition 2 records start "Y " and hold three I7 numbers a layer (header, total, last), up to three layers, the rest spaces".
///
/// ```
/// use zvaigulta::layout::SECOND_DIRECTORY;
///
/// let record = b"Y       7      2     18     19      4     28                                        ";
/// let number = |name| SECOND_DIRECTORY.value(name, record);
/// assert_eq!((number("header 2"), number("total 2"), number("last 2")), (Some(19), Some(4), Some(28)));
/// ```
pub static SECOND_DIRECTORY: Layout = Layout {
    name: "directory, edition 2",
    columns: &laid([
        a("type", 2),
        integer_or_spaces("header 1", 7),
        integer_or_spaces("total 1", 7),
        integer_or_spaces("last 1", 7),
        integer_or_spaces("header 2", 7),
        integer_or_spaces("total 2", 7),
        integer_or_spaces("last 2", 7),
        integer_or_spaces("header 3", 7),
        integer_or_spaces("total 3", 7),
        integer_or_spaces("last 3", 7),
        named_blank("rest", 19),
    ]),
};

/// Directory end, edition 2: "it ends in "YE" with back pointer, layer count and edition 2, all I7, the rest spaces".
///
/// ```
/// use zvaigulta::layout::SECOND_DIRECTORY_END;
///
/// let record = b"YE     29      2      2                                                             ";
/// assert_eq!(SECOND_DIRECTORY_END.value("edition", record), Some(2));
/// ```
pub static SECOND_DIRECTORY_END: Layout = Layout {
    name: "directory end, edition 2",
    columns: &laid([
        a("type", 2),
        at_least_1("pointer", 7),
        i("layers", 7),
        between("edition", 7, 2, 2),
        named_blank("rest", 61),
    ]),
};
