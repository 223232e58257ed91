//! Text of both languages: comments cut out, words, and a hash.

/// The text with its comments as blanks, every other character at its place. Of code: `//` and `/* */`; of the logic:
/// `--` at the start of a word and `{- -}`. Both nest, and nothing begins one inside a quoted text.
pub fn bare(text: &str, code: bool) -> String {
    let (line, open, close) = if code { ("//", "/*", "*/") } else { ("--", "{-", "-}") };
    let mut out = String::with_capacity(text.len());
    let (mut rest, mut depth, mut before) = (text, 0, ' ');
    while let Some(c) = rest.chars().next() {
        let mut take = c.len_utf8();
        let mut keep = depth == 0;
        if rest.starts_with(open) || (depth > 0 && rest.starts_with(close)) {
            depth = if rest.starts_with(open) { depth + 1 } else { depth - 1 };
            (take, keep) = (2, false);
        } else if depth == 0 && rest.starts_with(line) && (code || !is_of_name(before)) {
            (take, keep) = (rest.find('\n').unwrap_or(rest.len()), false);
        } else if depth == 0 && (c == '"' || (code && c == '\'')) {
            take = quoted(rest);
        }
        for c in rest[..take].chars() {
            if keep || c == '\n' { out.push(c) } else { out.extend(std::iter::repeat_n(' ', c.len_utf8())) }
        }
        before = rest[..take].chars().next_back().unwrap_or(' ');
        rest = &rest[take..];
    }
    out
}

/// The length of the quoted text at the start; of a lifetime, whose quote opens nothing, 1.
pub fn quoted(text: &str) -> usize {
    let quote = text.chars().next().unwrap_or('"');
    let mut escaped = false;
    for (at, c) in text.char_indices().skip(1) {
        if quote == '\'' && at > 1 && c != '\'' && !escaped && !text.starts_with("'\\") {
            return 1;
        }
        if c == quote && !escaped && (quote == '"' || at > 1) {
            return at + 1;
        }
        escaped = c == '\\' && !escaped;
    }
    if quote == '"' { text.len() } else { 1 }
}

/// Whether a character can stand in a name of the logic.
pub fn is_of_name(c: char) -> bool {
    !c.is_whitespace() && !"(){}.;,@\"«»".contains(c)
}

/// The words of a text of the logic: names (`.x` for a part, `«x»` whole), quoted texts, and the other characters.
pub fn words(text: &str) -> Vec<String> {
    let mut out = Vec::new();
    let mut rest = text.trim_start();
    while let Some(c) = rest.chars().next() {
        let first = c.len_utf8();
        let name = |from: usize| rest[from..].find(|c| !is_of_name(c)).map_or(rest.len(), |n| from + n);
        let end = match c {
            '"' => quoted(rest),
            '«' => rest.find('»').map_or(rest.len(), |n| n + '»'.len_utf8()),
            '.' if rest[1..].starts_with('«') => rest.find('»').map_or(rest.len(), |n| n + '»'.len_utf8()),
            '.' if rest[1..].starts_with(is_of_name) => name(1),
            _ if is_of_name(c) => name(first),
            _ => first,
        };
        out.push(rest[..end].to_string());
        rest = rest[end..].trim_start();
    }
    out
}

/// One blank for each run of blanks.
pub fn squeezed(text: &str) -> String {
    text.split_whitespace().collect::<Vec<_>>().join(" ")
}

/// The number of the line, from 1, in which a byte stands.
pub fn line_of(text: &str, at: usize) -> usize {
    text[..at].matches('\n').count() + 1
}

/// All that stands between two backquotes in a line.
pub fn backquoted(line: &str) -> impl Iterator<Item = &str> {
    line.split('`').skip(1).step_by(2)
}

/// The cells of a row of a table, without what stands outside its first and last bar. `\|` is no bar.
pub fn cells(line: &str) -> Vec<String> {
    let Some(row) = line.trim_end().strip_prefix('|').and_then(|l| l.strip_suffix('|')) else { return Vec::new() };
    row.replace("\\|", "\0").split('|').map(|c| c.trim().replace('\0', "\\|")).collect()
}

const ROUND: [u32; 64] = [
    0x428a2f98, 0x71374491, 0xb5c0fbcf, 0xe9b5dba5, 0x3956c25b, 0x59f111f1, 0x923f82a4, 0xab1c5ed5, 0xd807aa98, 0x12835b01, 0x243185be,
    0x550c7dc3, 0x72be5d74, 0x80deb1fe, 0x9bdc06a7, 0xc19bf174, 0xe49b69c1, 0xefbe4786, 0x0fc19dc6, 0x240ca1cc, 0x2de92c6f, 0x4a7484aa,
    0x5cb0a9dc, 0x76f988da, 0x983e5152, 0xa831c66d, 0xb00327c8, 0xbf597fc7, 0xc6e00bf3, 0xd5a79147, 0x06ca6351, 0x14292967, 0x27b70a85,
    0x2e1b2138, 0x4d2c6dfc, 0x53380d13, 0x650a7354, 0x766a0abb, 0x81c2c92e, 0x92722c85, 0xa2bfe8a1, 0xa81a664b, 0xc24b8b70, 0xc76c51a3,
    0xd192e819, 0xd6990624, 0xf40e3585, 0x106aa070, 0x19a4c116, 0x1e376c08, 0x2748774c, 0x34b0bcb5, 0x391c0cb3, 0x4ed8aa4a, 0x5b9cca4f,
    0x682e6ff3, 0x748f82ee, 0x78a5636f, 0x84c87814, 0x8cc70208, 0x90befffa, 0xa4506ceb, 0xbef9a3f7, 0xc67178f2,
];

/// The first sixteen digits of SHA-256.
pub fn hash(bytes: &[u8]) -> String {
    let mut state: [u32; 8] = [0x6a09e667, 0xbb67ae85, 0x3c6ef372, 0xa54ff53a, 0x510e527f, 0x9b05688c, 0x1f83d9ab, 0x5be0cd19];
    let mut padded = bytes.to_vec();
    padded.push(0x80);
    let end = (padded.len() + 8).next_multiple_of(64) - 8;
    padded.resize(end + 8, 0);
    padded[end..].copy_from_slice(&(bytes.len() as u64 * 8).to_be_bytes());
    for block in padded.chunks(64) {
        let mut w: Vec<u32> = block.chunks(4).map(|b| u32::from_be_bytes([b[0], b[1], b[2], b[3]])).collect();
        for i in 16..64 {
            let s0 = w[i - 15].rotate_right(7) ^ w[i - 15].rotate_right(18) ^ (w[i - 15] >> 3);
            let s1 = w[i - 2].rotate_right(17) ^ w[i - 2].rotate_right(19) ^ (w[i - 2] >> 10);
            w.push(w[i - 16].wrapping_add(s0).wrapping_add(w[i - 7]).wrapping_add(s1));
        }
        let [mut a, mut b, mut c, mut d, mut e, mut f, mut g, mut h] = state;
        for i in 0..64 {
            let s1 = e.rotate_right(6) ^ e.rotate_right(11) ^ e.rotate_right(25);
            let t1 = h.wrapping_add(s1).wrapping_add((e & f) ^ (!e & g)).wrapping_add(ROUND[i]).wrapping_add(w[i]);
            let s0 = a.rotate_right(2) ^ a.rotate_right(13) ^ a.rotate_right(22);
            let t2 = s0.wrapping_add((a & b) ^ (a & c) ^ (b & c));
            (h, g, f, e, d, c, b, a) = (g, f, e, d.wrapping_add(t1), c, b, a, t1.wrapping_add(t2));
        }
        for (s, x) in state.iter_mut().zip([a, b, c, d, e, f, g, h]) {
            *s = s.wrapping_add(x);
        }
    }
    format!("{:08x}{:08x}", state[0], state[1])
}
