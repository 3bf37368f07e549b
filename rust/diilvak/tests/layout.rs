//! The structs of the findings book: the proved code (crates/, read as text), the header (read as text, and
//! compiled) and this package have the same fields in the same order, of the same types and at the same
//! bytes. Padding is no part of them.
mod c;

use c::all_true_in_c;
use c::fields::{in_c, in_header, in_source};
use diilvak::raw::{Book, Entry, Kept, Pixel};
use std::mem::{align_of, offset_of, size_of};

const HEADER: &str = "include/diilvak_book.h";

#[test]
fn fields() {
    let structs = [
        ("Entry", "crates/book/src/entry.rt"),
        ("Book", "crates/book/src/lib.rt"),
        ("Kept", "crates/book/src/lib.rt"),
        ("Pixel", "crates/entering/src/pixel.rt"),
    ];
    for (name, file) in structs {
        let code = in_source(file, name);
        assert_eq!(in_source("rust/diilvak/src/raw/book.rs", name), code, "{name}");
        assert_eq!(in_header(HEADER, name), code, "{name}");
    }
}

/// `offsetof` and `sizeof` of the header are this package's.
#[test]
fn bytes() {
    let mut claims = Vec::new();
    macro_rules! claim {
        ($of:ident: $($field:ident)*) => {
            let name = in_c(stringify!($of));
            claims.push(format!("sizeof({name}) == {}", size_of::<$of>()));
            claims.push(format!("_Alignof({name}) == {}", align_of::<$of>()));
            $(claims.push(format!(
                "offsetof({name}, {}) == {}", stringify!($field), offset_of!($of, $field)
            ));)*
        };
    }
    claim!(Entry: serial plate place mode level direction);
    claim!(Book: last count entries);
    claim!(Kept: number book);
    claim!(Pixel: plate place);
    all_true_in_c("layout.c", &[HEADER], claims);
}
