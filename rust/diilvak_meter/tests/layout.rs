//! The structs of the figures: the proved code (crates/, read as text), the header (read as text, and compiled)
//! and this package have the same fields in the same order, of the same types and at the same bytes.
#[path = "../../diilvak/tests/c/mod.rs"]
mod c;

use c::all_true_in_c;
use c::fields::{in_header, in_source};
use diilvak_meter::raw::{Report, Reported};
use std::mem::{align_of, offset_of, size_of};

const HEADER: &str = "include/diilvak_meter.h";

#[test]
fn fields() {
    for name in ["Reported", "Report"] {
        let code = in_source("crates/diilvak_meter/src/lib.rt", name);
        assert_eq!(in_source("rust/diilvak_meter/src/raw.rs", name), code, "{name}");
        assert_eq!(in_header(HEADER, name), code, "{name}");
    }
}

/// `offsetof` and `sizeof` of the header are this package's.
#[test]
fn bytes() {
    let claims = [
        ("sizeof(diilvak_reported)", size_of::<Reported>()),
        ("_Alignof(diilvak_reported)", align_of::<Reported>()),
        ("offsetof(diilvak_reported, first)", offset_of!(Reported, first)),
        ("offsetof(diilvak_reported, second)", offset_of!(Reported, second)),
        ("offsetof(diilvak_reported, drifting)", offset_of!(Reported, drifting)),
        ("sizeof(diilvak_report)", size_of::<Report>()),
        ("_Alignof(diilvak_report)", align_of::<Report>()),
        ("offsetof(diilvak_report, lamp)", offset_of!(Report, lamp)),
        ("offsetof(diilvak_report, dark)", offset_of!(Report, dark)),
    ];
    let claims = claims.map(|(name, number)| format!("{name} == {number}"));
    all_true_in_c("meter_layout.c", &[HEADER], claims);
}
