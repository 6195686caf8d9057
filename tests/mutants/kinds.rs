//! One-line mutants of a source file, by a fixed list of kinds.

/// One line that is changed.
pub struct Mutant {
    pub file: &'static str,
    /// The number of the line, from 1.
    pub line: usize,
    pub kind: &'static str,
    pub old: String,
    pub new: String,
}

pub const KINDS: [&str; 5] = ["comparison", "connective", "constant", "left out", "key"];

/// What a comparison or a connective is turned to.
const TURNED: [(&str, &str, &str); 9] = [
    ("comparison", " == ", " != "),
    ("comparison", " != ", " == "),
    ("comparison", " < ", " <= "),
    ("comparison", " <= ", " < "),
    ("comparison", " > ", " >= "),
    ("comparison", " >= ", " > "),
    ("comparison", "..=", ".."),
    ("connective", " && ", " || "),
    ("connective", " || ", " && "),
];

/// Functions that neither program calls, by their files; the tests `reference` and `vectors` hold them against published vectors.
const NOT_CALLED: [(&str, &str); 13] = [
    ("keywrap", "wrap"),
    ("keywrap", "wrap_steps"),
    ("keywrap", "open"),
    ("aes", "last_word"),
    ("gcm", "seal"),
    ("sealing", "seal_frame"),
    ("sealing", "seal_plain"),
    ("sealing", "seal_payload"),
    ("sealing", "padded"),
    ("fragments", "seal_fragment"),
    ("journal", "read_back"),
    ("journal", "take"),
    ("journal", "report"),
];

/// Keys with a bit flipped and fields left out: the file, a text of one of its lines, and what takes its place.
const BY_HAND: [(&str, &str, &str, &str); 47] = [
    ("key", "keywrap", "Some(padded[..octets].to_vec())", "Some(flipped(&padded[..octets]))"),
    ("key", "reach", "self.keys.push(Key { id, value: value.to_vec(),", "self.keys.push(Key { id, value: flipped(value),"),
    ("key", "reach", "None => self.add(entry.key_id, &value),", "None => self.add(entry.key_id, &flipped(&value)),"),
    ("key", "reach", "(*id, key.value.clone())", "(*id, flipped(&key.value))"),
    ("key", "reach", "found = Some(octets);", "found = Some(flipped(&octets));"),
    ("key", "member", "Sa { protocol, spi, keying, encryption,", "Sa { protocol, spi, keying: flipped(&keying), encryption,"),
    (
        "key",
        "member",
        "Sa { protocol, spi, keying, encryption,",
        "Sa { protocol, spi, keying: if protocol == ESP { flipped(&keying) } else { keying }, encryption,",
    ),
    (
        "key",
        "member",
        "Sa { protocol, spi, keying, encryption,",
        "Sa { protocol, spi, keying: if protocol == REKEY { [&flipped(&keying[..20]), &keying[20..]].concat() } else { keying }, \
            encryption,",
    ),
    ("key", "member", "spi, keying, encryption, condition:", "spi: flipped(&spi), keying, encryption, condition:"),
    ("key", "reach", "keys.add(*id, value)", "keys.add(*id, &flipped(value))"),
    ("key", "member", "Keys::starting(lent, [].iter())", "Keys::starting(&flipped(lent), [].iter())"),
    ("key", "sealing", "Schedule::expand(key)?", "Schedule::expand(&flipped(key))?"),
    ("key", "sealing", "[salt, iv].concat()", "[&flipped(salt), iv].concat()"),
    ("key", "text", "let lent = default_key(&line);", "let lent = flipped(&default_key(&line));"),
    ("key", "trace", "*lent = octets(digits)?;", "*lent = flipped(&octets(digits)?);"),
    ("key", "trace", "hex(&sa.keying), condition(sa)", "hex(&flipped(&sa.keying)), condition(sa)"),
    ("left out", "member", "(two[0].protocol, &two[0].spi) < (two[1].protocol, &two[1].spi)", "&two[0].spi < &two[1].spi"),
    ("left out", "member", "(a.protocol, &a.spi).cmp(&(b.protocol, &b.spi))", "a.spi.cmp(&b.spi)"),
    ("left out", "member", "(a.protocol, &a.spi).cmp(&(b.protocol, &b.spi))", "a.protocol.cmp(&b.protocol)"),
    ("left out", "member", "sa.protocol == protocol && sa.spi == spi", "sa.spi == spi"),
    ("left out", "member", "sa.protocol == protocol && sa.spi == spi", "sa.protocol == protocol"),
    ("left out", "member", ".filter(|_| self.is_whole())", ""),
    ("left out", "member", "if request.exchange == Exchange::Registration {", "if false {"),
    ("left out", "member", "start: tick, delay: request.delay", "start: 0, delay: request.delay"),
    ("left out", "member", "start: tick, delay: request.delay", "start: tick, delay: 0"),
    ("left out", "member", "Lifetime { start: tick, seconds }", "Lifetime { start: 0, seconds }"),
    ("left out", "member", "Some(request.initial_id.unwrap_or(0))", "Some(0)"),
    ("left out", "fragments", "(sa.spi.clone(), message_id)", "(sa.spi.clone(), 0)"),
    ("left out", "fragments", "(sa.spi.clone(), message_id)", "(vec![1], message_id)"),
    ("left out", "fragments", "place.total == self.total && self.pieces", "self.pieces"),
    ("left out", "fragments", "self.frame == frame && self.total == place.total", "self.frame == frame"),
    ("left out", "fragments", "self.frame == frame && self.total == place.total", "self.total == place.total"),
    ("left out", "fragments", "(place.total < self.total || is_copy)", "is_copy"),
    ("left out", "fragments", "if goes_on { self.pieces", "if true { self.pieces"),
    ("left out", "fragments", ".filter(|_| room.len() >= MOST_FRAME)", ""),
    ("left out", "fragments", "if place.number == 1 {", "if true {"),
    ("left out", "fragments", "opened_frame(header, *next, &payloads)", "opened_frame(header, 42, &payloads)"),
    ("left out", "judging", "message_id: frame.message_id,", "message_id: 0,"),
    ("left out", "judging", "deleted: self.deletes.iter().flat_map(|delete| delete.spis.chunks_exact(4)).collect(),", "deleted: vec![],"),
    ("left out", "judging", "entries: self.wrap_keys().chain(self.fresh_keys()).copied().collect(),", "entries: vec![],"),
    ("left out", "judging", "map(|policy| (policy.protocol, policy.spi))", "map(|policy| (0, policy.spi))"),
    ("left out", "judging", "map(|bag| (bag.protocol, bag.spi))", "map(|bag| (0, bag.spi))"),
    ("left out", "judging", "policy.protocol == sa.protocol && policy.spi == sa.spi", "policy.spi == sa.spi"),
    ("left out", "judging", "bag.protocol == policy.protocol && bag.spi == policy.spi", "bag.spi == policy.spi"),
    ("left out", "judging", "lent_key_fits && !parts.have_unfit_bag_or_delete()", "!parts.have_unfit_bag_or_delete()"),
    ("left out", "judging", "filter(|sa| !sa.is_due(tick));", "filter(|_| true);"),
    ("left out", "judging", "sa.spi == frame.spis && !sa.is_due(tick)", "sa.spi == frame.spis"),
];

/// Octets with a bit of the last one flipped, for the mutants of keys.
pub const FLIPPED: &str = "pub fn flipped(octets: &[u8]) -> Vec<u8> {
    let mut octets = octets.to_vec();
    if let Some(last) = octets.last_mut() {
        *last ^= 1;
    }
    octets
}
";

/// Every mutant of a file.
pub fn mutants(file: &'static str, text: &str) -> Vec<Mutant> {
    let mut all = Vec::new();
    let mut function = String::new();
    for (number, line) in text.lines().enumerate() {
        if let Some(name) = line.trim_start().strip_prefix("pub ").unwrap_or(line.trim_start()).strip_prefix("fn ") {
            function = name.chars().take_while(|c| c.is_alphanumeric() || *c == '_').collect();
        }
        if line == "}" {
            function.clear();
        }
        if !NOT_CALLED.contains(&(file, function.as_str())) {
            let mut add = |kind: &'static str, new: String| {
                all.push(Mutant { file, line: number + 1, kind, old: line.to_string(), new });
            };
            turned(line, &mut add);
            constants(line, &mut add);
            left_out(line, !function.is_empty(), &mut add);
            by_hand(file, line, &mut add);
        }
    }
    all
}

fn turned(line: &str, add: &mut impl FnMut(&'static str, String)) {
    let code = code(line);
    for (kind, old, new) in TURNED {
        for (at, _) in code.match_indices(old) {
            add(kind, [&line[..at], new, &line[at + old.len()..]].concat());
        }
    }
    for (at, _) in code.match_indices('!') {
        let before = code[..at].chars().last().unwrap_or(' ');
        let behind = code[at + 1..].chars().next().unwrap_or(' ');
        if (before == ' ' || before == '(') && (behind.is_alphabetic() || behind == '(') {
            add("connective", [&line[..at], &line[at + 1..]].concat());
        }
    }
}

/// Each number one higher, in a constant's own line also one lower; of a line of a table the first alone.
fn constants(line: &str, add: &mut impl FnMut(&'static str, String)) {
    let code = code(line);
    let is_const = code.starts_with("const ") || code.starts_with("pub const ");
    let numbers = numbers(&code);
    let some = if numbers.len() > 8 { &numbers[..1] } else { &numbers[..] };
    for &(start, end) in some {
        let digits = line[start..end].replace('_', "");
        let value = match digits.strip_prefix("0x") {
            Some(hex) => u64::from_str_radix(hex, 16),
            None => digits.parse(),
        };
        let Ok(value) = value else { continue };
        let mut put = |value: u64| add("constant", format!("{}{value}{}", &line[..start], &line[end..]));
        put(value + 1);
        if is_const && value > 0 {
            put(value - 1);
        }
    }
}

/// Where the numbers of a line stand; not those of names, fields and types.
fn numbers(code: &str) -> Vec<(usize, usize)> {
    let octets = code.as_bytes();
    let (mut all, mut at) = (Vec::new(), 0);
    while at < octets.len() {
        let is_part = |c: u8| c.is_ascii_alphanumeric() || c == b'_';
        if !is_part(octets[at]) {
            at += 1;
            continue;
        }
        let end = (at..octets.len()).find(|&i| !is_part(octets[i])).unwrap_or(octets.len());
        let field = at > 0 && octets[at - 1] == b'.' && (at < 2 || octets[at - 2] != b'.');
        if octets[at].is_ascii_digit() && !field {
            let word = &code[at..end];
            let suffix =
                ["u8", "u16", "u32", "u64"].iter().find(|suffix| word.ends_with(**suffix)).map_or(0, |suffix| suffix.len());
            all.push((at, end - suffix));
        }
        at = end;
    }
    all
}

/// A clause that stands on a line of its own, or a statement.
fn left_out(line: &str, inside: bool, add: &mut impl FnMut(&'static str, String)) {
    let code = code(line);
    let code = code.trim();
    let is_clause = code.starts_with("|| ") || code.starts_with("&& ");
    let words = ["let ", "use ", "return ", "const ", "pub ", "mod ", "fn ", "type ", "}", ")"];
    let is_statement = inside && code.ends_with(';') && !words.iter().any(|word| code.starts_with(word)) && balanced(code);
    if (is_clause && balanced(code)) || is_statement {
        add("left out", String::new());
    }
}

fn balanced(code: &str) -> bool {
    let count = |set: &str| code.chars().filter(|c| set.contains(*c)).count();
    count("([{") == count(")]}")
}

fn by_hand(file: &str, line: &str, add: &mut impl FnMut(&'static str, String)) {
    for (kind, of, old, new) in BY_HAND {
        if of == file && line.contains(old) {
            let new = new.replace("flipped(", "crate::flipped(");
            add(kind, line.replace(old, &new));
        }
    }
}

/// The line with blanks in the place of comments, texts and characters.
fn code(line: &str) -> String {
    let mut code = line.as_bytes().to_vec();
    let mut at = 0;
    let mut inside = false;
    while at < code.len() {
        match code[at] {
            b'/' if !inside && code.get(at + 1) == Some(&b'/') => {
                code[at..].fill(b' ');
                break;
            }
            b'"' => inside = !inside,
            b'\'' if !inside => {
                let end = if code.get(at + 1) == Some(&b'\\') { at + 3 } else { at + 2 };
                if code.get(end) == Some(&b'\'') {
                    code[at..=end].fill(b' ');
                }
            }
            _ if inside => code[at] = b' ',
            _ => {}
        }
        at += 1;
    }
    String::from_utf8_lossy(&code).into_owned()
}

/// The entries by hand that no line of the sources has.
pub fn stale(files: &[(&'static str, String)]) -> Vec<&'static str> {
    let stands =
        |of: &str, old: &str| files.iter().any(|(file, text)| *file == of && text.lines().any(|line| line.contains(old)));
    BY_HAND.iter().filter(|(_, of, old, _)| !stands(of, old)).map(|entry| entry.2).collect()
}
