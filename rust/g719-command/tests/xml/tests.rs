//! What the reader takes and what it refuses.

use super::parse;

/// Each is refused for another reason; they stand apart by spaces, which none of them has.
const BAD: &str = "a <a> </a> <a></b> <a><b></a></b> <a/><b/> <a/>x x<a/> <1/> <:a/> <a:b/> <a <a/ <a></a \
    <a></1> <a>&</a> <a>&no;</a> <a>&lt</a> <a>&#0;</a> <a>&;</a> <a>]]></a> <a>\u{1}</a> <a>\u{ffff}</a> \
    <!----> <!--<a/> <a/><!-- <a><!--<b/></a> <a><!------></a> \
    <!DOCTYPEa><a/> <a><![CDATA[x]]></a> <?x?><a/>";
/// And what has spaces in it.
const BAD_TAGS: [&str; 11] = [
    "",
    " ",
    "< a/>",
    "<a b/>",
    "<a b=1/>",
    "<a b=\"1'/>",
    "<a b='1'/>",
    "<a b=\"<\"/>",
    "<a b=\"&\"/>",
    "<a b=\"1\" b=\"2\"/>",
    "<a b=\"1\"c=\"2\"/>",
];

#[test]
fn what_is_well_formed_is_read() {
    let text = "<!-- a --> <a b=\"1 &amp; 2\" c=\"&quot;\">x<d/>&lt;&gt;&apos;<!-- no -->y</a >\n<!-- b -->";
    let root = parse(text).unwrap();
    assert_eq!((root.name.as_str(), root.text.as_str()), ("a", "x<>'y"));
    assert_eq!(root.attribute("b"), Some("1 & 2"));
    assert_eq!(root.attribute("c"), Some("\""));
    let names: Vec<&str> = root.all().iter().map(|element| element.name.as_str()).collect();
    assert_eq!(names, ["a", "d"]);
}

#[test]
fn what_is_not_is_refused() {
    for text in BAD.split(' ').chain(BAD_TAGS) {
        assert!(parse(text).is_err(), "{text}");
    }
}
