//! Pages that stand alone: no file, script or font beside them.

/// A text as a page shows it.
pub fn escaped(text: &str) -> String {
    text.replace('&', "&amp;")
        .replace('<', "&lt;")
        .replace('>', "&gt;")
        .replace('"', "&quot;")
}

/// A whole page.
pub fn page(title: &str, style: &str, body: &str) -> String {
    let title = escaped(title);
    format!(
        "<!DOCTYPE html>\n<html lang=\"en\">\n<head>\n<meta charset=\"utf-8\">\n\
         <title>{title}</title>\n<style>\n{style}</style>\n</head>\n<body>\n{body}</body>\n</html>\n"
    )
}

/// One row of a table; the cells are shown as they are.
pub fn row(cell: &str, cells: &[String]) -> String {
    let cells: Vec<String> = cells
        .iter()
        .map(|text| format!("<{cell}>{text}</{cell}>"))
        .collect();
    format!("<tr>{}</tr>\n", cells.concat())
}

/// A table under a row of headings.
pub fn table(class: &str, headings: &[&str], rows: &[Vec<String>]) -> String {
    let headings: Vec<String> = headings.iter().map(|text| escaped(text)).collect();
    let rows: String = rows.iter().map(|cells| row("td", cells)).collect();
    let head = row("th", &headings);
    format!("<table class=\"{class}\">\n<thead>{head}</thead>\n<tbody>\n{rows}</tbody>\n</table>\n")
}
