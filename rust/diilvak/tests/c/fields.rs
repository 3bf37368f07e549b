//! The fields of structs, read off source files and headers.
use super::read;

/// A field's name and its type, as C has it.
pub type Field = (String, String);

/// The name of a type in C.
pub fn in_c(name: &str) -> String {
    match name {
        "u16" => "uint16_t".to_string(),
        "u32" => "uint32_t".to_string(),
        "i16" => "int16_t".to_string(),
        "f32" => "float".to_string(),
        "usize" => "size_t".to_string(),
        _ => format!("diilvak_{}", name.to_lowercase()),
    }
}

/// The fields of a struct of a source file, Rattle's or Rust's: lines `pub name: type,`.
pub fn in_source(file: &str, name: &str) -> Vec<Field> {
    let source = read(file);
    let head = format!("#[repr(C)]\npub struct {name} {{\n");
    let (_, after) = source.split_once(&head).unwrap_or_else(|| panic!("{file}: {name}"));
    let (body, _) = after.split_once("\n}").expect("an end");
    let lines = body.lines().map(str::trim).filter(|line| !line.starts_with("//"));
    lines
        .map(|line| {
            let field = line.strip_prefix("pub ").and_then(|line| line.strip_suffix(','));
            let (field, kind) = field.and_then(|field| field.split_once(": ")).expect(line);
            // The slots of a book are an array, whose length C has with the name.
            match kind.strip_prefix('[').and_then(|kind| kind.split_once("; ")) {
                Some((kind, length)) => {
                    assert!(["256]", "MAX_ENTRIES]"].contains(&length), "{line}");
                    (format!("{field}[DIILVAK_MAX_ENTRIES]"), in_c(kind))
                }
                None => (field.to_string(), in_c(kind)),
            }
        })
        .collect()
}

/// The fields of a struct of a header: lines `type name;`.
pub fn in_header(header: &str, name: &str) -> Vec<Field> {
    let header = read(header);
    let name = in_c(name);
    let (_, after) = header.split_once(&format!("typedef struct {name} {{\n")).expect(&name);
    let (body, _) = after.split_once(&format!("\n}} {name};\n")).expect("an end of that name");
    body.lines()
        .map(|line| {
            let field = line.trim().strip_suffix(';').and_then(|line| line.split_once(' '));
            let (kind, field) = field.expect(line);
            (field.to_string(), kind.to_string())
        })
        .collect()
}
