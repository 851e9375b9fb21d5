//! The shapes and texts of a drawing, by their classes.

/// The shapes and texts of a class.
pub fn of_class<'a>(picture: &'a str, class: &str) -> Vec<&'a str> {
    let class = format!(" class=\"{class}\"");
    picture.lines().filter(|line| line.contains(&class)).collect()
}

/// What a shape says where the pointer rests on it.
pub fn titles<'a>(picture: &'a str, class: &str) -> Vec<&'a str> {
    let title = |line: &'a str| Some(line.split_once("<title>")?.1.split_once("</title>")?.0);
    of_class(picture, class).into_iter().filter_map(title).collect()
}
