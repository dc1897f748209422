//! Pictures: those in docs/ are the ones drawn today, and every picture is sound XML.

use super::example;
use crate::draw::picture;
use crate::explain::input::Handed;
use crate::explain::story::Story;
use crate::explain::turn_text;
use crate::generate::session::random_session;
use std::path::Path;

/// The story of a session in the text form.
fn story(text: &str) -> Story {
    let handed = Handed::from(text.as_bytes().to_vec()).expect("a session");
    Story::of(&handed.bytes).expect("a sound block")
}

/// How often a piece stands in a picture.
fn count(svg: &str, piece: &str) -> usize {
    svg.matches(piece).count()
}

#[test]
fn the_pictures_in_docs_are_those_drawn_today() {
    let docs = Path::new(env!("CARGO_MANIFEST_DIR")).join("../docs");
    for name in ["session-s", "error-abandon", "error-older-readers"] {
        let path = docs.join(name).with_extension("svg");
        let kept = std::fs::read_to_string(&path).expect("a picture");
        let drawn = picture(&story(&example(name)));
        assert!(
            kept == drawn,
            "{} is another picture: ./draw examples/{name}.session > docs/{name}.svg",
            path.display()
        );
    }
}

/// Two listed reads, one from the start table; one mark; a letter for each of the 16 turns.
#[test]
fn session_s() {
    let svg = picture(&story(&example("session-s")));
    let legend = 1;
    assert_eq!(count(&svg, "<circle"), 2 + legend);
    assert_eq!(count(&svg, "stroke-dasharray"), 1 + legend);
    assert_eq!(count(&svg, "<title>turn "), 16);
    let letters: Vec<&str> = svg
        .split("<title>")
        .skip(1)
        .filter_map(|turn| turn.split("</text>").next()?.rsplit('>').next())
        .collect();
    assert_eq!(letters.concat(), "SSSSSEBSSSEWFFIN");
    assert!(svg.contains("<title>turn 13: job 1 becomes final"));
    assert!(svg.contains(">cell 5: 7 (3 at the start; by job 1)</text>"));
    assert!(svg.contains(">16 turns; f is 2 of 2 jobs</text>"));
    assert_eq!(count(&svg, ">no job</text>"), 1);
    // Turn 2, the lost read, and the legend's sample have a stroke.
    assert_eq!(count(&svg, "stroke=\"#8a8a8a\""), 1 + legend);
}

#[test]
fn names_stand_again_in_a_wide_picture() {
    let wide = |turns: usize| picture(&story(&format!("job\nSTOP\nturns 1x{turns}")));
    assert_eq!(count(&wide(50), ">job 1</text>"), 1);
    assert_eq!(count(&wide(51), ">job 1</text>"), 2);
    assert_eq!(count(&wide(201), ">job 1</text>"), 5);
    let width = |svg: &str| number_after(svg, "width=\"");
    assert_eq!(width(&wide(201)) - width(&wide(101)), 100 * 26);
}

#[test]
fn settled_cells_of_a_wide_picture_stand_together() {
    let cells: String = (0..=255).map(|cell| format!("cell {cell} 1\n")).collect();
    let svg = picture(&story(&format!("{cells}job\nSTOP\nturns 1x300")));
    let told: Vec<&str> = svg.lines().filter(|line| line.contains(">cell ")).collect();
    assert_eq!(told.len(), 256);
    let right = told.iter().map(|line| number_after(line, "x=\""));
    assert!(right.max() < Some(1_400), "{told:?}");
}

/// The number that follows a piece of text.
fn number_after(text: &str, piece: &str) -> usize {
    let (_, after) = text.split_once(piece).expect("the piece");
    let digits = after.split(|letter: char| !letter.is_ascii_digit()).next();
    digits
        .and_then(|digits| digits.parse().ok())
        .expect("a number")
}

#[test]
fn pictures_of_random_sessions() {
    let mut drawn = 0;
    for item in 0..400 {
        let input = random_session(12, item);
        let Ok(story) = Story::of(&input) else {
            continue;
        };
        let svg = picture(&story);
        if let Err(fault) = check_xml(&svg) {
            panic!("item {item}: {fault}");
        }
        assert_eq!(count(&svg, "<title>"), story.turns.len());
        if let Some(number) = story.turns.len().checked_sub(1) {
            let told = turn_text(&story, number + 1);
            assert!(svg.contains(&format!("<title>{told}</title>")), "{told}");
        }
        nothing_is_cut_off(&svg);
        drawn += 1;
    }
    assert!(drawn > 200, "only {drawn} pictures");
}

/// Every line of text ends within the picture.
#[track_caller]
fn nothing_is_cut_off(svg: &str) {
    let width = number_after(svg, "width=\"");
    let height = number_after(svg, "height=\"");
    for line in svg.lines().filter(|line| line.starts_with("<text")) {
        let told = line.trim_end_matches("</text>").rsplit('>').next();
        let letters = told.unwrap_or_default().len();
        // A letter of 13 pixels' height is at most 8 wide on average.
        let right = number_after(line, "x=\"") + 8 * letters;
        let is_small = line.contains("text-anchor=\"middle\"");
        assert!(is_small || right <= width, "{line}");
        assert!(number_after(line, "y=\"") < height, "{line}");
    }
}

/// Whether tags are closed in order, attributes quoted, and nothing unescaped stands between.
fn check_xml(text: &str) -> Result<(), String> {
    let mut open: Vec<&str> = Vec::new();
    let mut rest = text;
    while let Some((before, after)) = rest.split_once('<') {
        sound_text(before)?;
        let (tag, behind) = after.split_once('>').ok_or("a tag without end")?;
        rest = behind;
        if let Some(name) = tag.strip_prefix('/') {
            if open.pop() != Some(name) {
                return Err(format!("</{name}> closes another tag"));
            }
            continue;
        }
        let told = tag.strip_suffix('/').unwrap_or(tag);
        let (name, attributes) = told.split_once(' ').unwrap_or((told, ""));
        sound_attributes(attributes)?;
        if told.len() == tag.len() {
            open.push(name);
        }
    }
    match open.is_empty() && rest.trim().is_empty() {
        true => Ok(()),
        false => Err(format!("open at the end: {open:?} {rest}")),
    }
}

/// `name="value"` pairs.
fn sound_attributes(attributes: &str) -> Result<(), String> {
    let mut rest = attributes.trim();
    let mut names = Vec::new();
    while !rest.is_empty() {
        let (name, after) = rest.split_once("=\"").ok_or(format!("no value: {rest}"))?;
        let (value, behind) = after.split_once('"').ok_or(format!("no end: {rest}"))?;
        let sound = |letter: char| letter.is_ascii_alphanumeric() || letter == '-';
        if name.is_empty() || !name.chars().all(sound) || names.contains(&name) {
            return Err(format!(
                "`{name}` is no name of an attribute, or stands twice"
            ));
        }
        sound_text(value)?;
        names.push(name);
        rest = behind.trim_start();
    }
    Ok(())
}

/// No `<`, no `>`, and `&` only in one of the known names.
fn sound_text(text: &str) -> Result<(), String> {
    let known = ["amp;", "lt;", "gt;", "quot;"];
    let mut after_sign = text.split('&').skip(1);
    let escaped = after_sign.all(|after| known.iter().any(|name| after.starts_with(name)));
    match escaped && !text.contains(['<', '>']) {
        true => Ok(()),
        false => Err(format!("not escaped: {text}")),
    }
}

#[test]
fn the_checker_of_xml_finds_faults() {
    for sound in ["<a b=\"1\" c=\"2\"><d/>x &amp; y</a>", "<a></a>\n"] {
        assert_eq!(check_xml(sound), Ok(()), "{sound}");
    }
    for faulty in [
        "<a>",
        "<a></b>",
        "<a b=1/>",
        "<a b=\"1\" b=\"2\"/>",
        "<a>x & y</a>",
        "<a b=\"<\"/>",
        "x",
    ] {
        assert!(check_xml(faulty).is_err(), "{faulty}");
    }
}
