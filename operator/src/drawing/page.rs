//! The page: one file, without a script and without anything from elsewhere.

use super::picture::picture;
use super::svg::escaped;
use super::tables;
use crate::account::log::log;
use crate::account::story::Story;

const STYLE: &str = include_str!("style.css");

const HELD: &str = "A vacuum names who holds what it found: the lowest slot that retains that xmin, or else the lowest such pin. \
From then on the line stands still until the one named ends or takes a newer snapshot. A row tells one xmin that somebody kept: \
from the record that took it to the record that let it go, the line that the vacuums gave meanwhile, and how many ids the line \
was kept back: the most by which the sample of such a vacuum lay above its line.";

const SOURCE: &str = "Every answer here is the proved replay's. A trace headed trace=proc-1 is replayed as proc-2, under which the \
same calls also print who holds the tiles.";

pub fn page(name: &str, story: &Story) -> String {
    let mut body = format!(
        "<p class=\"summary\">{}</p>\n",
        escaped(&tables::summary(story))
    );
    body.push_str(&picture(story));
    body.push_str(&format!(
        "<h2>Who held the line, longest first</h2>\n{}<p>{HELD}</p>\n",
        tables::culprits_table(story)
    ));
    body.push_str(&format!(
        "<h2>Refused calls</h2>\n{}",
        tables::refused_table(story)
    ));
    body.push_str(&format!(
        "<h2>Every record</h2>\n<details><summary>in words</summary>\n<pre class=\"wide\">{}</pre></details>\n",
        escaped(&log(story))
    ));
    whole(name, &body)
}

/// The page for a text that is no trace: why, and the line.
pub fn refused(name: &str, reason: &str) -> String {
    let reason = escaped(reason);
    whole(
        name,
        &format!(
            "<p class=\"summary\">This is no trace, so no call was run: refusal 9. {reason}</p>\n"
        ),
    )
}

fn whole(name: &str, body: &str) -> String {
    let name = escaped(name);
    format!(
        "<!DOCTYPE html>\n<html lang=\"en\">\n<head>\n<meta charset=\"utf-8\">\n\
         <meta name=\"viewport\" content=\"width=device-width, initial-scale=1\">\n\
         <title>Who kept old tiles alive: {name}</title>\n<style>\n{STYLE}</style>\n</head>\n<body>\n\
         <h1>Who kept old tiles alive</h1>\n<p class=\"file\">{name}</p>\n{body}<footer>{SOURCE}</footer>\n</body>\n</html>\n"
    )
}

#[cfg(test)]
mod tests {
    use super::*;
    use crate::account::made_up;

    /// Each element is closed, in the order in which they were opened.
    fn balanced(page: &str) -> bool {
        let mut open: Vec<&str> = Vec::new();
        for part in page.split('<').skip(1) {
            let Some((inside, _)) = part.split_once('>') else {
                return false;
            };
            let name = inside.split([' ', '/']).next().unwrap_or("");
            if let Some(closed) = inside.strip_prefix('/') {
                if open.pop() != Some(closed) {
                    return false;
                }
            } else if !inside.ends_with('/') && !matches!(name, "meta" | "!DOCTYPE") {
                open.push(name);
            }
        }
        open.is_empty()
    }

    #[test]
    fn the_page_is_one_file_and_has_no_script() {
        let (text, said) = made_up::with_pins();
        let page = page("a <b> & c", &made_up::story_of(&text, &said));
        assert!(balanced(&page));
        assert!(page.contains("a &lt;b&gt; &amp; c"));
        for word in [
            "<script",
            "http",
            "src=",
            "href=",
            "@import",
            "<link",
            "url(h",
            "javascript",
        ] {
            assert!(!page.contains(word), "{word}");
        }
        assert_eq!(
            page.matches("url(").count(),
            page.matches("url(#hatch)").count()
        );
    }

    #[test]
    fn an_empty_trace_and_no_trace_are_pages() {
        let empty = page(
            "empty",
            &Story::of(b"trace=proc-2\n", b"records=0\n").unwrap(),
        );
        assert!(balanced(&empty) && empty.contains("0 records"));
        let none = refused("x", "Line 5 is `<stamp>`.");
        assert!(balanced(&none) && none.contains("refusal 9. Line 5 is `&lt;stamp&gt;`."));
    }

    #[test]
    fn what_is_not_closed_is_seen() {
        assert!(balanced("<p>a<br/></p>"));
        assert!(!balanced("<p>a") && !balanced("<p><b></p></b>"));
    }
}
