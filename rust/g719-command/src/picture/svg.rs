//! The elements that pictures are made of.

use super::plan::Plan;
use super::text::escape;

/// Text, lines and paper: each keeps its contrast in grey.
pub const INK: &str = "#1b1f24";
pub const RULE: &str = "#c9c7bf";
pub const PANEL: &str = "#ffffff";
const PAPER: &str = "#fbfaf6";

/// How small text is set: by its weight, and by where it stands to its place.
pub const SMALL: &str = r#"font-size="11""#;
pub const SMALL_MIDDLE: &str = r#"font-size="11" text-anchor="middle""#;
pub const SMALL_END: &str = r#"font-size="11" text-anchor="end""#;
pub const FAINT: &str = r##"font-size="11" fill="#555b63""##;
pub const FAINT_MIDDLE: &str = r##"font-size="11" fill="#555b63" text-anchor="middle""##;
pub const FAINT_END: &str = r##"font-size="11" fill="#555b63" text-anchor="end""##;

/// The fill where no frame has data: no shade of a map is striped.
pub const STRIPES: &str = "url(#no-data)";
const DEFINED: &str = r##"<defs><pattern id="no-data" width="6" height="6" patternUnits="userSpaceOnUse">
<rect width="6" height="6" fill="#ffffff"/>
<path d="M-1 1l2 -2M0 6l6 -6M5 7l2 -2" stroke="#a9a9a4" stroke-width="1"/>
</pattern></defs>
"##;

/// The whole picture, its parts on paper.
pub fn whole(plan: &Plan, title: &str, description: &str, parts: &str) -> String {
    let (width, height) = (plan.width, plan.height);
    let size = format!(r#"width="{width}" height="{height}""#);
    let letters = format!(r#"font-family="sans-serif" font-size="12" fill="{INK}""#);
    let named = named("picture", "group", title, description);
    format!(
        r#"<svg xmlns="http://www.w3.org/2000/svg" {size} viewBox="0 0 {width} {height}" {letters} {named}
{DEFINED}<rect {size} fill="{PAPER}"/>
{parts}</svg>
"#
    )
}

/// A part of the picture, with what it is and how it is read.
pub fn part(id: &str, title: &str, description: &str, inner: &str) -> String {
    let named = named(id, "img", title, description);
    format!("<g id=\"{id}\" {named}\n{inner}</g>\n")
}

/// The rest of a tag, and behind it the title and the description that belong to it.
fn named(id: &str, role: &str, title: &str, description: &str) -> String {
    let (title, description) = (escape(title), escape(description));
    format!(
        r#"role="{role}" aria-labelledby="{id}-title {id}-desc">
<title id="{id}-title">{title}</title>
<desc id="{id}-desc">{description}</desc>"#
    )
}

/// A line of text; set says size, weight and anchor.
pub fn text(x: usize, y: usize, set: &str, words: &str) -> String {
    format!("<text x=\"{x}\" y=\"{y}\" {set}>{}</text>\n", escape(words))
}

/// The name of a part, and behind it in small what it shows.
pub fn heading(x: usize, y: usize, name: &str, says: &str) -> String {
    let name = format!(
        r#"<tspan font-size="14" font-weight="bold">{}</tspan>"#,
        escape(name)
    );
    let says = format!(r#"<tspan dx="10" {FAINT}>{}</tspan>"#, escape(says));
    format!("<text x=\"{x}\" y=\"{y}\">{name}{says}</text>\n")
}

/// A path, by its attributes.
pub fn path(attributes: &str) -> String {
    format!("<path {attributes}/>\n")
}

/// A path that says what it stands for when it is pointed at.
pub fn titled_path(attributes: &str, title: &str) -> String {
    format!("<path {attributes}><title>{}</title></path>\n", escape(title))
}

/// A rectangle with sharp edges.
pub fn rect(x: usize, y: usize, (width, height): (usize, usize), fill: &str) -> String {
    let place = format!(r#"x="{x}" y="{y}" width="{width}" height="{height}""#);
    format!("<rect {place} fill=\"{fill}\" shape-rendering=\"crispEdges\"/>\n")
}

/// Straight lines, sharp at every size.
pub fn rules(lines: &str, colour: &str) -> String {
    path(&format!(
        r#"d="{lines}" fill="none" stroke="{colour}" shape-rendering="crispEdges""#
    ))
}
