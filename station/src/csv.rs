//! Tables of comma separated values, by RFC 4180.

/// A row, with its line end.
pub fn row(fields: &[String]) -> String {
    let fields: Vec<String> = fields.iter().map(|text| field(text)).collect();
    fields.join(",") + "\r\n"
}

/// A field, in quotes where it needs them.
fn field(text: &str) -> String {
    let quotes = text.contains(['"', ',', '\r', '\n']) || text.starts_with(' ') || text.ends_with(' ');
    if quotes { format!("\"{}\"", text.replace('"', "\"\"")) } else { String::from(text) }
}

#[cfg(test)]
mod tests {
    use super::*;

    #[test]
    fn what_needs_quotes_has_them() {
        let fields = ["K.txt", "a,b", "say \"no\"", " x", ""].map(String::from);
        assert_eq!(row(&fields), "K.txt,\"a,b\",\"say \"\"no\"\"\",\" x\",\r\n");
    }
}
