//! Pictures that the built program draws: well-formed, with every vertex, edge and pair of the plant, and none of a
//! refused one.
mod support;

use support::plants::{big, examples, of_repository, tree, LOOP, NINE};
use support::{said, Folder};

/// The picture of a plant, and the plain answer that it is of.
fn drawn(plant: &str) -> (String, String) {
    let folder = Folder::with(&[("p", plant)]);
    let (answer, _, status) = folder.run(&["match", "--plain", "p"]);
    assert_eq!(status, 0);
    folder.put("a", &answer);
    let svg = folder.run(&["picture", "p"]);
    assert_eq!((svg.1.as_str(), svg.2), ("", 0));
    assert_eq!(folder.run(&["picture", "p", "--answer", "a"]), svg);
    (svg.0, answer)
}

/// Tests that every tag is closed in order, that values stand in quotes, and that no text has a bare `&`.
fn well_formed(svg: &str) {
    let mut rest = svg.strip_prefix("<?xml version=\"1.0\" encoding=\"UTF-8\"?>\n").expect("the first line");
    let mut open: Vec<&str> = Vec::new();
    while let Some((text, after)) = rest.split_once('<') {
        assert!(!open.is_empty() || text.trim().is_empty(), "text outside: {text}");
        no_bare_sign(text);
        let (tag, after) = after.split_once('>').expect("the end of a tag");
        rest = after;
        no_bare_sign(tag);
        if let Some(name) = tag.strip_prefix('/') {
            assert_eq!(open.pop(), Some(name), "closes another tag");
        } else {
            let name = tag.split([' ', '/']).next().unwrap_or_default();
            attributes(tag.strip_suffix('/').unwrap_or(tag)[name.len()..].trim_start());
            open.extend(Some(name).filter(|_| !tag.ends_with('/')));
        }
    }
    assert_eq!((open, rest), (vec![], "\n"));
}

fn no_bare_sign(text: &str) {
    let known = ["amp;", "lt;", "gt;", "quot;"];
    assert!(text.split('&').skip(1).all(|rest| known.iter().any(|name| rest.starts_with(name))), "a bare &: {text}");
}

/// `NAME="VALUE" ..`, no name twice.
fn attributes(mut text: &str) {
    let mut names = Vec::new();
    while !text.is_empty() {
        let (name, rest) = text.split_once("=\"").expect("a name and a quote");
        let (_, rest) = rest.split_once('"').expect("the other quote");
        assert!(!names.contains(&name) && name.chars().all(|c| c.is_ascii_alphanumeric() || c == '-'), "{name}");
        names.push(name);
        text = rest.trim_start();
    }
}

/// The value of an attribute in a line.
fn value<'a>(line: &'a str, name: &str) -> &'a str {
    let (_, rest) = line.split_once(&format!(" {name}=\"")).unwrap_or_else(|| panic!("no {name} in {line}"));
    rest.split('"').next().unwrap_or_default()
}

fn number(line: &str, name: &str) -> f64 {
    value(line, name).parse().expect(name)
}

/// Each line across is level, runs from left to right, and has the row and colour of one circle on either side; gives
/// how many there are.
fn lines_across(svg: &str) -> usize {
    let circles: Vec<&str> = svg.lines().filter(|line| line.starts_with("<circle ")).collect();
    let lines: Vec<&str> = svg.lines().filter(|line| line.starts_with("<line class=\"pair\"")).collect();
    for line in &lines {
        assert!(value(line, "y1") == value(line, "y2") && number(line, "x1") < number(line, "x2"), "{line}");
        let ends =
            circles.iter().filter(|circle| value(circle, "cy") == value(line, "y1") && value(circle, "fill") == value(line, "stroke"));
        let x: Vec<f64> = ends.map(|circle| number(circle, "cx")).collect();
        assert_eq!(x.len(), 2, "{line}");
        assert!(x[0] < number(line, "x1") && number(line, "x2") < x[1], "{line}");
    }
    assert_eq!(circles.iter().filter(|circle| value(circle, "fill") != "#fff").count(), 2 * lines.len());
    lines.len()
}

/// Tests a picture; every vertex is drawn, or folded into one that says so.
fn pictured(plant: &str) {
    let (svg, answer) = drawn(plant);
    well_formed(&svg);
    let pairs = answer.lines().skip(1).filter(|line| !line.ends_with('-')).count();
    assert_eq!(lines_across(&svg), pairs);
    // in its plain form a tree has all its vertices in its first line
    let plain = String::from_utf8(Folder::with(&[("p", plant)]).bytes(&["text", "p"])).expect("UTF-8");
    let words = |line: &str| line.split(' ').count() - 1;
    let vertices: usize = plain.lines().filter(|line| line.starts_with("recorded ") || line.starts_with("found ")).map(words).sum();
    let folded: usize = svg.split(" and ").skip(1).filter_map(|rest| rest.split_once(" more")?.0.parse::<usize>().ok()).sum();
    assert_eq!(svg.matches("<circle ").count() + folded, vertices);
    assert_eq!(svg.matches("<path ").count() + folded, vertices - 2);
}

#[test]
fn the_picture_of_the_pool_is_the_one_in_docs() {
    let folder = Folder::new();
    folder.put("pool.txt", of_repository("examples/pool.txt"));
    assert!(folder.bytes(&["picture", "pool.txt"]) == of_repository("docs/pool.svg"), "docs/pool.svg is another picture");
}

#[test]
fn the_picture_of_the_pool_has_its_vertices_pairs_and_edges() {
    let (svg, _) = drawn(&String::from_utf8(of_repository("examples/pool.txt")).expect("UTF-8"));
    let counts =
        ["<circle ", "<line class=\"pair\" ", "<path ", "stroke-dasharray", "fill=\"#fff\" stroke="].map(|part| svg.matches(part).count());
    assert_eq!(counts, [13, 6, 11, 1, 1]);
}

#[test]
fn pictures_of_the_examples_are_whole() {
    examples().iter().for_each(|(_, text)| pictured(text));
}

#[test]
fn pictures_of_the_largest_plants_are_whole() {
    (1..4).for_each(|seed| pictured(&big(seed)));
}

#[test]
fn a_picture_of_64_pairs_in_the_opposite_order_is_whole() {
    let recorded = tree("recorded", 64, |i| i * i / 70);
    let edges: String = (1..64).map(|i| format!("{}-{}\n", 63 - i, 63 - i * i / 70)).collect();
    pictured(&format!("labels 1 1\nvertex 1\nedge 1\n{recorded}found{}\n{edges}", " 0".repeat(64)));
}

#[test]
fn a_picture_of_long_paths_is_whole() {
    let path = |word: &str, size| tree(word, size, |i| i - 1);
    pictured(&format!("labels 1 1\nvertex 1\nedge 1\n{}{}", path("recorded", 64), path("found", 40)));
}

#[test]
fn pictures_of_one_vertex_each_with_and_without_a_pair_are_whole() {
    pictured(NINE);
    pictured(&NINE.replace("found 0", "found 1"));
    let (svg, _) = drawn(&NINE.replace("found 0", "found 1"));
    assert!(svg.contains(">No vertex has a partner.</text>"), "{svg}");
}

#[test]
fn a_picture_has_the_name_of_the_file_without_its_folder_and_the_weight() {
    let folder = Folder::new();
    std::fs::create_dir(folder.path("sub")).expect("a folder");
    folder.put("sub/a & b.txt", NINE);
    let titled = |svg: String| svg.lines().find(|line| line.starts_with("<title id")).map(str::to_owned);
    let (svg, _, _) = folder.run(&["picture", "sub/a & b.txt"]);
    assert_eq!(titled(svg).as_deref(), Some("<title id=\"title\">a &amp; b.txt: weight 5</title>"));
    let (svg, _, _) = folder.fed(&["picture", "-"], NINE);
    assert_eq!(titled(svg).as_deref(), Some("<title id=\"title\">plant: weight 5</title>"));
}

#[test]
fn names_with_the_signs_of_xml_are_escaped() {
    let pool = String::from_utf8(of_repository("examples/pool.txt")).expect("UTF-8");
    let (svg, _) = drawn(&pool.replace("circulation pump", "\"<a> & b\""));
    well_formed(&svg);
    assert_eq!(svg.matches(">&quot;&lt;a&gt; &amp; b&quot; (0)</text>").count(), 2, "{svg}");
}

#[test]
fn what_is_not_certain_has_a_question_mark() {
    let twins = "labels 2 1\nvertex 5 forbidden\nvertex forbidden 3\nedge 1\nrecorded 0 1 1\n0-1 0-2\nfound 0 1 1\n0-1 0-2\n";
    let (svg, _) = drawn(twins);
    assert_eq!((svg.matches(">label 1 ?</text>").count(), svg.matches(">label 0</text>").count()), (4, 2), "{svg}");
    assert!(svg.contains("Not certain, with ?: another heaviest mapping says otherwise."), "{svg}");
    let (svg, _) = drawn(&twins.replace("found 0 1 1\n0-1 0-2", "found 0"));
    assert!(!svg.contains('?') || svg.matches('?').count() == 2, "only the first line has any: {svg}");
}

#[test]
fn a_refused_plant_and_a_text_that_is_none_have_no_picture() {
    let folder = Folder::with(&[("p", LOOP), ("q", "labels 1 1\nvertex x\n")]);
    let message = "pensummer: refused 6: an edge of the recorded tree closes a loop\np:5:5: the edge 1-0 closes a loop\n";
    assert_eq!(folder.run(&["picture", "p"]), said("", message, 1));
    let message = "q:2:8: a weight is a number of 32 bits or `forbidden`, not `x`\n";
    assert_eq!(folder.run(&["picture", "q"]), said("", message, 2));
    assert_eq!(folder.run(&["picture", "none.txt"]), said("", "pensummer: none.txt: No such file or directory\n", 2));
}
