//! Elements of a picture, written one after the other. How they look is the style sheet's, by their class.

#[derive(Default)]
pub struct Svg {
    pub text: String,
}

/// What an element says when one points at it; none where it is empty.
pub type Title<'a> = &'a str;

impl Svg {
    pub fn rect(&mut self, [x, y, width, height]: [f64; 4], class: &str, title: Title) {
        let (x, y, width, height) = (short(x), short(y), short(width), short(height));
        let head = format!(
            "<rect class=\"{class}\" x=\"{x}\" y=\"{y}\" width=\"{width}\" height=\"{height}\""
        );
        self.element(&head, "rect", title);
    }

    pub fn path(&mut self, drawn: &str, class: &str, title: Title) {
        self.element(
            &format!("<path class=\"{class}\" d=\"{drawn}\""),
            "path",
            title,
        );
    }

    /// A straight line.
    pub fn stroke(&mut self, [x1, y1, x2, y2]: [f64; 4], class: &str, title: Title) {
        let drawn = format!("M{} {}L{} {}", short(x1), short(y1), short(x2), short(y2));
        self.path(&drawn, class, title);
    }

    pub fn diamond(&mut self, x: f64, y: f64, half: f64, class: &str, title: Title) {
        let (left, right, up, down) = (
            short(x - half),
            short(x + half),
            short(y - half),
            short(y + half),
        );
        let (x, y) = (short(x), short(y));
        self.path(
            &format!("M{x} {up}L{right} {y}L{x} {down}L{left} {y}Z"),
            class,
            title,
        );
    }

    pub fn cross(&mut self, x: f64, y: f64, half: f64, class: &str, title: Title) {
        let (left, right, up, down) = (
            short(x - half),
            short(x + half),
            short(y - half),
            short(y + half),
        );
        self.path(
            &format!("M{left} {up}L{right} {down}M{left} {down}L{right} {up}"),
            class,
            title,
        );
    }

    /// Nothing where there are no words.
    pub fn words(&mut self, x: f64, y: f64, class: &str, words: &str) {
        if words.is_empty() {
            return;
        }
        let (x, y, words) = (short(x), short(y), escaped(words));
        self.text.push_str(&format!(
            "<text class=\"{class}\" x=\"{x}\" y=\"{y}\">{words}</text>\n"
        ));
    }

    fn element(&mut self, head: &str, name: &str, title: Title) {
        self.text.push_str(head);
        if title.is_empty() {
            self.text.push_str("/>\n");
        } else {
            let title = escaped(title);
            self.text
                .push_str(&format!("><title>{title}</title></{name}>\n"));
        }
    }
}

/// A length to a tenth, without a fraction where there is none.
pub fn short(length: f64) -> String {
    let tenths = format!("{length:.1}");
    tenths.strip_suffix(".0").unwrap_or(&tenths).to_string()
}

/// Words as the text of an element or of an attribute.
pub fn escaped(words: &str) -> String {
    let mut text = String::with_capacity(words.len());
    for letter in words.chars() {
        match letter {
            '&' => text.push_str("&amp;"),
            '<' => text.push_str("&lt;"),
            '>' => text.push_str("&gt;"),
            '"' => text.push_str("&quot;"),
            _ if letter.is_control() && letter != '\n' => text.push('\u{fffd}'),
            _ => text.push(letter),
        }
    }
    text
}

#[cfg(test)]
mod tests {
    use super::*;

    #[test]
    fn words_can_not_become_elements() {
        assert_eq!(
            escaped("<b> & \"c\"\u{7}"),
            "&lt;b&gt; &amp; &quot;c&quot;\u{fffd}"
        );
    }

    #[test]
    fn lengths_are_short() {
        assert_eq!(
            (short(3.0), short(3.14)),
            ("3".to_string(), "3.1".to_string())
        );
    }

    #[test]
    fn a_title_stands_inside_its_element() {
        let mut svg = Svg::default();
        svg.rect([0.0, 1.0, 2.0, 3.5], "bar", "slot 0");
        svg.diamond(5.0, 5.0, 2.0, "mark", "");
        let expected = "<rect class=\"bar\" x=\"0\" y=\"1\" width=\"2\" height=\"3.5\"><title>slot 0</title></rect>\n\
                        <path class=\"mark\" d=\"M5 3L7 5L5 7L3 5Z\"/>\n";
        assert_eq!(svg.text, expected);
    }
}
