//! A plain program that loads a model, edits it, saves it and lists its objects and trees: what `bench/models` and
//! `bench/edits` measure the proved one beside.
//!
//! Compile with `rustc -O --edition 2021 bench/plain_model.rs` and run as `plain_model --load NAME < SCRIPT`, where each line of the
//! script is `save FILE`, `ls`, `tree NAME`, `in NAME sph X Y Z R`, `mvall OLD NEW` with a name that nothing has, or `r` with
//! a new name. The text form, its checks and the kinds of faults are those of docs/TEXT_FORM.md, the transcript is that of
//! docs/COMMANDS.md. Nothing of it is proved, it has no other commands, and it edits its one directory in place.

use std::collections::HashMap;
use std::io::{Read, Write};

type Text = Box<[u8]>;

/// Lengths count tenths of a millimetre.
const MILLIMETRE: i64 = 10;
const REACH: i64 = 16_384 * MILLIMETRE;
const NORMAL_REACH: i64 = 16_384;

#[derive(Clone, Copy, PartialEq, Eq, PartialOrd, Ord)]
enum Kind { Words, Type, Attr, Tree, Name, Number, Shape, Exists, Full, Cycle, Deep }

const KINDS: [&str; 11] = ["words", "type", "attr", "tree", "name", "number", "shape", "exists", "full", "cycle", "deep"];

// ---- the directory

type Point = [i32; 3];

/// A turn, as the column and the sign of each row's entry, and a shift.
struct Placement { turn: [(u8, i8); 3], shift: Point }

/// A tree is a list of nodes, each operator before its two sides.
enum Node { Leaf(u32, Option<Box<Placement>>), Op(u8) }

#[derive(Default)]
struct Comb { region: bool, id: i32, air: i32, los: i32, mater: i32, rgb: Option<Point>, inherit: bool, tree: Vec<Node> }

enum Thing { Sphere(Point, i32), Rcc(Point, Point, i32), Half(Point, i32), Arb8(Box<[Point; 8]>), Comb(Box<Comb>) }

struct Object { name: u32, thing: Thing, kept: Vec<(Text, Text)>, places: HashMap<Text, usize> }

/// What is known of a name: the object that has it, the depth, and the names of the combinations that refer to it.
struct Known { name: Text, object: Option<u32>, depth: u8, above: Vec<u32> }

#[derive(Default)]
struct Directory { title: Text, objects: Vec<Object>, names: HashMap<Text, u32>, known: Vec<Known> }

impl Directory {
    fn number_of(&mut self, name: &[u8]) -> u32 {
        if let Some(&number) = self.names.get(name) {
            return number;
        }
        let number = self.known.len() as u32;
        self.names.insert(name.into(), number);
        self.known.push(Known { name: name.into(), object: None, depth: 0, above: Vec::new() });
        number
    }

    fn object(&self, name: &[u8]) -> Option<usize> {
        self.names.get(name).and_then(|&number| self.known[number as usize].object).map(|place| place as usize)
    }

    fn put(&mut self, name: u32, thing: Thing) -> Result<(), Kind> {
        if self.known[name as usize].object.is_some() {
            return Err(Kind::Exists);
        }
        if self.objects.len() == 65_535 {
            return Err(Kind::Full);
        }
        if let Thing::Comb(comb) = &thing {
            let mut members: Vec<u32> = comb.tree.iter().filter_map(|node| if let Node::Leaf(member, _) = node { Some(*member) } else { None }).collect();
            members.sort_unstable();
            members.dedup();
            if !self.known[name as usize].above.is_empty() || members.contains(&name) {
                self.refuse_cycle(name, &members)?;
            }
            let depth = 1 + members.iter().map(|&member| self.known[member as usize].depth).max().unwrap_or(0);
            self.deepen(name, depth)?;
            for member in members {
                self.known[member as usize].above.push(name);
            }
        }
        self.known[name as usize].object = Some(self.objects.len() as u32);
        self.objects.push(Object { name, thing, kept: Vec::new(), places: HashMap::new() });
        Ok(())
    }

    /// Whether a combination of these members would be below itself: goes down from the members, each name once.
    fn refuse_cycle(&self, name: u32, members: &[u32]) -> Result<(), Kind> {
        let mut seen = vec![false; self.known.len()];
        let mut open = members.to_vec();
        while let Some(member) = open.pop() {
            if member == name {
                return Err(Kind::Cycle);
            }
            if std::mem::replace(&mut seen[member as usize], true) {
                continue;
            }
            if let Some(Thing::Comb(comb)) = self.known[member as usize].object.map(|place| &self.objects[place as usize].thing) {
                open.extend(comb.tree.iter().filter_map(|node| if let Node::Leaf(below, _) = node { Some(*below) } else { None }));
            }
        }
        Ok(())
    }

    /// Gives a name a depth, and what is above it the depths that follow.
    fn deepen(&mut self, name: u32, depth: u8) -> Result<(), Kind> {
        let mut open = vec![(name, depth)];
        while let Some((name, depth)) = open.pop() {
            if depth > 16 {
                return Err(Kind::Deep);
            }
            if depth > self.known[name as usize].depth {
                self.known[name as usize].depth = depth;
                open.extend(self.known[name as usize].above.iter().map(|&above| (above, depth + 1)));
            }
        }
        Ok(())
    }

    fn keep(&mut self, place: usize, key: &[u8], value: &[u8]) {
        let object = &mut self.objects[place];
        let found = if object.places.is_empty() { object.kept.iter().position(|(other, _)| **other == *key) } else { object.places.get(key).copied() };
        if let Some(found) = found {
            object.kept[found].1 = value.into();
            return;
        }
        object.kept.push((key.into(), value.into()));
        // a few keys are looked for one by one, and many by their hashes
        if object.kept.len() == 16 {
            object.places = object.kept.iter().enumerate().map(|(at, (key, _))| (key.clone(), at)).collect();
        } else if object.kept.len() > 16 {
            object.places.insert(key.into(), object.kept.len() - 1);
        }
    }
}

// ---- words

fn is_blank(byte: u8) -> bool { matches!(byte, b' ' | b'\t' | b'\r' | b'\n') }

/// A word of a command: an atom, or what stands between the braces of a group. It begins and ends at these bytes.
#[derive(Clone, Copy)]
struct Word<'a> { text: &'a [u8], is_group: bool, begin: usize, end: usize }

impl<'a> Word<'a> {
    /// The atom that the word is, or counts as.
    fn atom(&self) -> Option<&'a [u8]> {
        if !self.is_group {
            return Some(self.text);
        }
        let text = self.text.trim_ascii();
        let is_atom = !text.is_empty() && !text.iter().any(|&byte| is_blank(byte) || byte == b'{' || byte == b'}');
        if is_atom { Some(text) } else { None }
    }
}

struct Reader<'a> { text: &'a [u8], at: usize, line: usize, words: Vec<Word<'a>> }

impl<'a> Reader<'a> {
    /// Reads the words of the next command: the line on which it begins, or none at the end of the text.
    fn next(&mut self) -> Result<Option<usize>, (usize, Kind)> {
        let text = self.text;
        loop {
            self.words.clear();
            while self.at < text.len() && matches!(text[self.at], b' ' | b'\t' | b'\r') {
                self.at += 1;
            }
            let Some(&first) = text.get(self.at) else { return Ok(None) };
            let line = self.line;
            if first == b'#' {
                self.at += text[self.at..].iter().position(|&byte| byte == b'\n').unwrap_or(text.len() - self.at);
            } else {
                self.words_of_command().map_err(|kind| (line, kind))?;
            }
            if self.at < text.len() {
                self.at += 1;
                self.line += 1;
            }
            if !self.words.is_empty() {
                return Ok(Some(line));
            }
        }
    }

    fn words_of_command(&mut self) -> Result<(), Kind> {
        let text = self.text;
        let (mut open, mut begin) = (0, None); // open groups; where the atom or the outermost group begins
        let mut last = b' ';
        while let Some(&byte) = text.get(self.at) {
            match byte {
                b' ' | b'\t' | b'\r' | b'\n' => {
                    if open == 0 {
                        if let Some(from) = begin.take() {
                            self.words.push(Word { text: &text[from..self.at], is_group: false, begin: from, end: self.at });
                        }
                    }
                    if byte == b'\n' {
                        if open == 0 {
                            break;
                        }
                        self.line += 1;
                    }
                }
                b'{' => {
                    if !is_blank(last) && last != b'{' || open == 4_100 {
                        return Err(Kind::Words);
                    }
                    if open == 0 {
                        begin = Some(self.at);
                    }
                    open += 1;
                }
                b'}' => {
                    if open == 0 {
                        return Err(Kind::Words);
                    }
                    open -= 1;
                    if open == 0 {
                        let from = begin.take().unwrap_or(0);
                        self.words.push(Word { text: &text[from + 1..self.at], is_group: true, begin: from, end: self.at + 1 });
                    }
                }
                0..=31 | 127 | b'\\' => return Err(Kind::Words),
                b'"' | b'[' | b']' | b'$' | b';' if open == 0 => return Err(Kind::Words),
                _ => {
                    if last == b'}' {
                        return Err(Kind::Words);
                    }
                    if open == 0 && begin.is_none() {
                        begin = Some(self.at);
                    }
                }
            }
            last = byte;
            self.at += 1;
        }
        if open > 0 {
            return Err(Kind::Words);
        }
        if let Some(from) = begin {
            self.words.push(Word { text: &text[from..self.at], is_group: false, begin: from, end: self.at });
        }
        Ok(())
    }
}

// ---- values

/// The sign, what stands before the point, and what follows that.
fn parts(text: &[u8]) -> Result<(i64, i64, &[u8]), Kind> {
    let (sign, digits) = match text {
        [b'-', rest @ ..] => (-1, rest),
        [b'+', rest @ ..] => (1, rest),
        _ => (1, text),
    };
    let (mut value, mut size, mut at) = (0i64, 0, 0);
    while at < digits.len() && digits[at].is_ascii_digit() {
        value = value * 10 + i64::from(digits[at] - b'0');
        size += usize::from(value > 0);
        if size > 9 {
            return Err(Kind::Number);
        }
        at += 1;
    }
    if at > 0 { Ok((sign, value, &digits[at..])) } else { Err(Kind::Number) }
}

fn are_zeros(digits: &[u8]) -> bool { digits.iter().all(|&byte| byte == b'0') }

/// A whole number.
fn number(text: &[u8], least: i64, most: i64) -> Result<i32, Kind> {
    let (sign, size, rest) = parts(text)?;
    let is_whole = match rest {
        [] => true,
        [b'.', zeros @ ..] => are_zeros(zeros),
        _ => false,
    };
    let value = sign * size;
    if is_whole && least <= value && value <= most { Ok(value as i32) } else { Err(Kind::Number) }
}

/// A length with at most one decimal, in tenths of a millimetre.
fn length(text: &[u8]) -> Result<i32, Kind> {
    let (sign, size, rest) = parts(text)?;
    let tenth = match rest {
        [] | [b'.'] => 0,
        [b'.', digit, zeros @ ..] if digit.is_ascii_digit() && are_zeros(zeros) => i64::from(digit - b'0'),
        _ => return Err(Kind::Number),
    };
    let value = sign * (size * MILLIMETRE + tenth);
    if value.abs() <= REACH { Ok(value as i32) } else { Err(Kind::Number) }
}

fn is_name(text: &[u8]) -> bool {
    !text.is_empty() && text.len() <= 64 && !matches!(text[0], b'.' | b'-')
        && text.iter().all(|&byte| byte.is_ascii_alphanumeric() || matches!(byte, b'_' | b'.' | b'-'))
}

/// A title or a kept value. What else it may not have is no word.
fn is_kept_text(text: &[u8]) -> bool { text.len() <= 1_024 && !text.iter().any(|&byte| byte == b'\n' || byte == b'\r') }

/// The rest of a group's words.
struct Inside<'a> { text: &'a [u8], at: usize }

impl<'a> Inside<'a> {
    /// The first byte of the next word, or `}` at the end of the group.
    fn peek(&mut self) -> u8 {
        while self.at < self.text.len() && is_blank(self.text[self.at]) {
            self.at += 1;
        }
        self.text.get(self.at).copied().unwrap_or(b'}')
    }

    fn plain_atom(&mut self) -> Option<&'a [u8]> {
        if matches!(self.peek(), b'{' | b'}') {
            return None;
        }
        let begin = self.at;
        while self.at < self.text.len() && !is_blank(self.text[self.at]) && self.text[self.at] != b'}' {
            self.at += 1;
        }
        Some(&self.text[begin..self.at])
    }

    fn enter(&mut self) -> Option<()> { if self.peek() == b'{' { self.at += 1; Some(()) } else { None } }

    fn leave(&mut self) -> Option<()> { if self.peek() == b'}' { self.at += 1; Some(()) } else { None } }

    /// An atom, or a group of one atom.
    fn atom(&mut self) -> Option<&'a [u8]> {
        if self.peek() != b'{' {
            return self.plain_atom();
        }
        self.enter()?;
        let atom = self.plain_atom()?;
        self.leave()?;
        Some(atom)
    }

    fn at_end(&mut self) -> bool { self.peek() == b'}' && self.at >= self.text.len() }
}

/// What is read of one command. Of several faults the one whose kind comes first counts.
struct Values { fault: Option<Kind> }

impl Values {
    fn note(&mut self, kind: Kind) { self.fault = Some(self.fault.map_or(kind, |other| other.min(kind))); }

    fn number(&mut self, text: &[u8], least: i64, most: i64) -> i32 { number(text, least, most).unwrap_or_else(|kind| { self.note(kind); 0 }) }

    fn length(&mut self, text: &[u8]) -> i32 { length(text).unwrap_or_else(|kind| { self.note(kind); 0 }) }

    /// A value of a solid's key that is one atom.
    fn single<'a>(&mut self, word: &Word<'a>) -> &'a [u8] { word.atom().unwrap_or_else(|| { self.note(Kind::Attr); b"0" }) }

    /// A value of a solid's key that is a group of three atoms.
    fn three<'a>(&mut self, word: &Word<'a>) -> [&'a [u8]; 3] {
        let mut inside = Inside { text: word.text, at: 0 };
        let parts = [(); 3].map(|()| inside.atom());
        match parts {
            [Some(a), Some(b), Some(c)] if word.is_group && inside.at_end() => [a, b, c],
            _ => { self.note(Kind::Attr); [b"0"; 3] }
        }
    }

    fn point(&mut self, word: &Word) -> Point { self.three(word).map(|text| self.length(text)) }

    fn normal(&mut self, word: &Word) -> Point { self.three(word).map(|text| self.number(text, -NORMAL_REACH, NORMAL_REACH)) }

    fn attribute(&mut self, word: &Word, most: i64) -> i32 {
        match word.atom() {
            Some(text) => self.number(text, 0, most),
            None => { self.note(Kind::Number); 0 }
        }
    }

    fn truth(&mut self, word: &Word) -> bool {
        match word.atom() {
            Some(b"yes" | b"1") => true,
            Some(b"no" | b"0") => false,
            _ => { self.note(Kind::Number); false }
        }
    }

    fn colour(&mut self, word: &Word) -> Option<Point> {
        let mut parts = [None; 3];
        if let Some(text) = word.atom() {
            let mut pieces = text.split(|&byte| byte == b'/');
            parts = [(); 3].map(|()| pieces.next());
            if pieces.next().is_some() {
                self.note(Kind::Number);
            }
        } else {
            let mut inside = Inside { text: word.text, at: 0 };
            parts = parts.map(|_: Option<&[u8]>| inside.atom());
            if !inside.at_end() {
                self.note(Kind::Number);
            }
        }
        Some(parts.map(|part| self.number(part.unwrap_or(b""), 0, 255)))
    }

    fn tree(&mut self, word: &Word, directory: &mut Directory) -> Vec<Node> {
        let mut inside = Inside { text: word.text, at: 0 };
        let (mut tree, mut leaves) = (Vec::new(), 0);
        if !word.is_group || !inside.at_end() && (self.node(&mut inside, directory, &mut tree, &mut leaves).is_none() || !inside.at_end()) {
            self.note(Kind::Tree);
        }
        tree
    }

    /// Reads a node. There is none where the text is not in its form or has too many leaves.
    fn node(&mut self, inside: &mut Inside, directory: &mut Directory, tree: &mut Vec<Node>, leaves: &mut usize) -> Option<()> {
        match inside.atom()? {
            b"l" => {
                let text = inside.atom()?;
                let place = if inside.peek() == b'{' { self.placement(inside)? } else { None };
                let name = if is_name(text) { directory.number_of(text) } else { self.note(Kind::Name); 0 };
                tree.push(Node::Leaf(name, place));
                *leaves += 1;
                if *leaves > 4_096 {
                    return None;
                }
            }
            op @ (b"u" | b"n" | b"+" | b"-" | b"^") => {
                tree.push(Node::Op(if op == b"+" { b'n' } else { op[0] }));
                for _ in 0..2 {
                    inside.enter()?;
                    self.node(inside, directory, tree, leaves)?;
                    inside.leave()?;
                }
            }
            _ => return None,
        }
        Some(())
    }

    /// Reads a matrix: a placement, and none where it is the identity or faulty.
    fn placement(&mut self, inside: &mut Inside) -> Option<Option<Box<Placement>>> {
        inside.enter()?;
        let mut numbers = [0; 16];
        for at in 0..16 {
            let text = inside.atom()?;
            numbers[at] = if matches!(at, 3 | 7 | 11) { self.length(text) } else { self.number(text, -999_999_999, 999_999_999) };
        }
        inside.leave()?;
        let (mut turn, mut columns) = ([(0, 0); 3], 0);
        for (row, entries) in numbers[..12].chunks(4).enumerate() {
            for column in 0..3 {
                if entries[column] != 0 {
                    if entries[column].abs() != 1 || turn[row].1 != 0 || columns & 1 << column != 0 {
                        self.note(Kind::Number);
                    }
                    turn[row] = (column as u8, if entries[column] < 0 { -1 } else { 1 });
                    columns |= 1 << column;
                }
            }
        }
        let shift = [numbers[3], numbers[7], numbers[11]];
        if columns != 7 || numbers[12..] != [0, 0, 0, 1] {
            self.note(Kind::Number);
        }
        let is_identity = turn == [(0, 1), (1, 1), (2, 1)] && shift == [0; 3];
        Some(if is_identity { None } else { Some(Box::new(Placement { turn, shift })) })
    }
}

// ---- solids

const FACES: [[usize; 4]; 6] = [[0, 1, 2, 3], [4, 5, 6, 7], [0, 1, 5, 4], [1, 2, 6, 5], [2, 3, 7, 6], [3, 0, 4, 7]];

fn less(a: &Point, b: &Point) -> [i64; 3] { [0, 1, 2].map(|axis| i64::from(a[axis]) - i64::from(b[axis])) }

fn cross(a: [i64; 3], b: [i64; 3]) -> [i64; 3] { [a[1] * b[2] - a[2] * b[1], a[2] * b[0] - a[0] * b[2], a[0] * b[1] - a[1] * b[0]] }

/// The normal of the first three of four vertices that are not on one line, and one of them, or none.
fn plane(vertices: [&Point; 4]) -> Option<([i64; 3], Point)> {
    let [a, b, c, d] = vertices;
    [(a, b, c), (a, b, d), (a, c, d), (b, c, d)].into_iter().find_map(|(a, b, c)| {
        let normal = cross(less(b, a), less(c, a));
        if normal == [0; 3] { None } else { Some((normal, *a)) }
    })
}

/// Whether eight vertices make a solid: they are not in one plane, and each face is flat with all of them on one side.
fn is_solid(vertices: &[Point; 8]) -> bool {
    let mut is_flat = true;
    for face in &FACES {
        let Some((normal, at)) = plane(face.map(|vertex| &vertices[vertex])) else { continue };
        let sides: [i64; 8] = std::array::from_fn(|vertex| less(&vertices[vertex], &at).iter().zip(normal).map(|(a, b)| a * b).sum());
        if face.iter().any(|&vertex| sides[vertex] != 0) || sides.iter().any(|&side| side < 0) && sides.iter().any(|&side| side > 0) {
            return false;
        }
        is_flat &= sides.iter().all(|&side| side == 0);
    }
    !is_flat
}

// ---- commands

const SOLIDS: [(&[u8], &[&[u8]]); 5] = [
    (b"sph", &[b"V", b"r"]),
    (b"ell", &[b"V", b"A", b"B", b"C"]),
    (b"rcc", &[b"V", b"H", b"r"]),
    (b"half", &[b"N", b"d"]),
    (b"arb8", &[b"V1", b"V2", b"V3", b"V4", b"V5", b"V6", b"V7", b"V8"]),
];

const COMB: [&[u8]; 8] = [b"region", b"id", b"air", b"los", b"mater", b"rgb", b"inherit", b"tree"];

/// The value of each key, in the order of the keys, of those of the pairs.
fn values_of<'a>(keys: &[&[u8]], pairs: &[Word<'a>]) -> Result<[Option<Word<'a>>; 8], Kind> {
    let mut values = [None; 8];
    if pairs.is_empty() || pairs.len() % 2 == 1 {
        return Err(Kind::Attr);
    }
    for pair in pairs.chunks(2) {
        let key = pair[0].atom().and_then(|atom| keys.iter().position(|key| *key == atom)).ok_or(Kind::Attr)?;
        if values[key].replace(pair[1]).is_some() {
            return Err(Kind::Attr);
        }
    }
    Ok(values)
}

fn solid(kind: usize, pairs: &[Word], read: &mut Values) -> Result<Thing, Kind> {
    let keys = SOLIDS[kind].1;
    let found = values_of(keys, pairs)?;
    if found[..keys.len()].iter().any(Option::is_none) {
        return Err(Kind::Attr);
    }
    let word = |at: usize| found[at].as_ref().unwrap();
    Ok(match kind {
        0 => Thing::Sphere(read.point(word(0)), { let text = read.single(word(1)); read.length(text) }),
        1 => {
            let centre = read.point(word(0));
            let axes = [1, 2, 3].map(|at| read.three(word(at)).map(|text| read.length(text)));
            let radius = axes[0][0];
            if axes != [[radius, 0, 0], [0, radius, 0], [0, 0, radius]] {
                read.note(Kind::Number);
            }
            Thing::Sphere(centre, radius)
        }
        2 => Thing::Rcc(read.point(word(0)), read.point(word(1)), { let text = read.single(word(2)); read.length(text) }),
        3 => Thing::Half(read.normal(word(0)), { let text = read.single(word(1)); read.length(text) }),
        _ => Thing::Arb8(Box::new(std::array::from_fn(|at| read.point(word(at))))),
    })
}

fn comb(pairs: &[Word], read: &mut Values, directory: &mut Directory) -> Result<Thing, Kind> {
    let mut comb = Comb::default();
    for (key, value) in values_of(&COMB, pairs)?.iter().enumerate() {
        let Some(value) = value else { continue };
        match key {
            0 => comb.region = read.truth(value),
            1 => comb.id = read.attribute(value, 999_999),
            2 => comb.air = read.attribute(value, 999_999),
            3 => comb.los = read.attribute(value, 100),
            4 => comb.mater = read.attribute(value, 999_999),
            5 => comb.rgb = read.colour(value),
            6 => comb.inherit = read.truth(value),
            _ => comb.tree = read.tree(value, directory),
        }
    }
    Ok(Thing::Comb(Box::new(comb)))
}

fn put(words: &[Word], directory: &mut Directory) -> Result<(), Kind> {
    let kind = words.get(2).and_then(Word::atom).ok_or(Kind::Type)?;
    let mut read = Values { fault: None };
    let name = words[1].atom().filter(|name| is_name(name));
    if name.is_none() {
        read.note(Kind::Name);
    }
    let thing = if kind == b"comb" {
        comb(&words[3..], &mut read, directory)?
    } else {
        solid(SOLIDS.iter().position(|(other, _)| *other == kind).ok_or(Kind::Type)?, &words[3..], &mut read)?
    };
    let is_made = match &thing {
        Thing::Sphere(_, radius) => *radius >= 1,
        Thing::Rcc(_, height, radius) => height.iter().filter(|part| **part != 0).count() == 1 && *radius >= 1,
        Thing::Half(normal, _) => *normal != [0; 3],
        Thing::Arb8(vertices) => is_solid(vertices),
        Thing::Comb(_) => true,
    };
    if !is_made {
        read.note(Kind::Shape);
    }
    match (read.fault, name) {
        (None, Some(name)) => { let number = directory.number_of(name); directory.put(number, thing) }
        (fault, _) => Err(fault.unwrap_or(Kind::Name)),
    }
}

fn attr_set(words: &[Word], directory: &mut Directory) -> Result<(), Kind> {
    if words.len() < 3 || words[1].atom() != Some(b"set") {
        return Err(Kind::Type);
    }
    let pairs = &words[3..];
    if pairs.is_empty() || pairs.len() % 2 == 1 || pairs.chunks(2).any(|pair| pair[0].atom().is_none() || !is_kept_text(pair[1].text)) {
        return Err(Kind::Attr);
    }
    let name = words[2].atom().filter(|name| is_name(name)).ok_or(Kind::Name)?;
    let place = directory.object(name).ok_or(Kind::Attr)?;
    if pairs.chunks(2).any(|pair| !pair[0].atom().map_or(false, is_name)) {
        return Err(Kind::Name);
    }
    for pair in pairs.chunks(2) {
        directory.keep(place, pair[0].atom().unwrap(), pair[1].text);
    }
    Ok(())
}

fn command(text: &[u8], words: &[Word], directory: &mut Directory) -> Result<(), Kind> {
    match words[0].atom() {
        Some(b"put") => put(words, directory),
        Some(b"attr") => attr_set(words, directory),
        Some(b"units") if words.len() == 2 && words[1].atom() == Some(b"mm") => Ok(()),
        Some(b"title") if words.len() > 1 => {
            let is_one = words.len() == 2 && words[1].is_group;
            let title = if is_one { words[1].text } else { &text[words[1].begin..words[words.len() - 1].end] };
            directory.title = title.into();
            if is_kept_text(title) { Ok(()) } else { Err(Kind::Attr) }
        }
        _ => Err(Kind::Type),
    }
}

fn load(text: &[u8]) -> Result<Directory, (usize, Kind)> {
    let mut directory = Directory::default();
    let mut reader = Reader { text, at: 0, line: 1, words: Vec::new() };
    while let Some(line) = reader.next()? {
        command(text, &reader.words, &mut directory).map_err(|kind| (line, kind))?;
    }
    Ok(directory)
}

// ---- the written text

fn add_number(out: &mut Vec<u8>, number: i32) {
    let (mut digits, mut at, mut left) = ([0; 10], 10, number.unsigned_abs());
    loop {
        at -= 1;
        digits[at] = b'0' + (left % 10) as u8;
        left /= 10;
        if left == 0 {
            break;
        }
    }
    if number < 0 {
        out.push(b'-');
    }
    out.extend_from_slice(&digits[at..]);
}

fn add(out: &mut Vec<u8>, text: &str) { out.extend_from_slice(text.as_bytes()); }

/// A length in millimetres, with a point and one digit where it is no whole number of these.
fn add_length(out: &mut Vec<u8>, length: i32) {
    if length < 0 {
        out.push(b'-');
    }
    let (whole, tenth) = (length.abs() / MILLIMETRE as i32, length.abs() % MILLIMETRE as i32);
    add_number(out, whole);
    if tenth != 0 {
        out.extend_from_slice(&[b'.', b'0' + tenth as u8]);
    }
}

fn add_labelled(out: &mut Vec<u8>, label: &str, number: i32) { add(out, label); add_number(out, number); }

fn add_labelled_length(out: &mut Vec<u8>, label: &str, length: i32) { add(out, label); add_length(out, length); }

fn add_three(out: &mut Vec<u8>, label: &str, numbers: &[i32; 3], add_one: fn(&mut Vec<u8>, i32)) {
    add(out, label);
    for (axis, &number) in numbers.iter().enumerate() {
        out.push(if axis == 0 { b'{' } else { b' ' });
        add_one(out, number);
    }
    out.push(b'}');
}

impl Directory {
    fn name(&self, number: u32) -> &[u8] { &self.known[number as usize].name }

    fn written(&self) -> Vec<u8> {
        let mut out = b"title {".to_vec();
        out.extend_from_slice(&self.title);
        add(&mut out, "}\nunits mm\n");
        for object in &self.objects {
            add(&mut out, "put ");
            out.extend_from_slice(self.name(object.name));
            self.add_thing(&mut out, &object.thing);
            if !object.kept.is_empty() {
                add(&mut out, "\nattr set ");
                out.extend_from_slice(self.name(object.name));
                for (key, value) in &object.kept {
                    for part in [b" ", &**key, b" {", &**value, b"}"] {
                        out.extend_from_slice(part);
                    }
                }
            }
            out.push(b'\n');
        }
        out
    }

    fn add_thing(&self, out: &mut Vec<u8>, thing: &Thing) {
        match thing {
            Thing::Sphere(centre, radius) => { add_three(out, " sph V ", centre, add_length); add_labelled_length(out, " r ", *radius); }
            Thing::Rcc(base, height, radius) => {
                add_three(out, " rcc V ", base, add_length);
                add_three(out, " H ", height, add_length);
                add_labelled_length(out, " r ", *radius);
            }
            Thing::Half(normal, distance) => { add_three(out, " half N ", normal, add_number); add_labelled_length(out, " d ", *distance); }
            Thing::Arb8(vertices) => {
                add(out, " arb8");
                for (label, vertex) in [" V1 ", " V2 ", " V3 ", " V4 ", " V5 ", " V6 ", " V7 ", " V8 "].iter().zip(vertices.iter()) {
                    add_three(out, label, vertex, add_length);
                }
            }
            Thing::Comb(comb) => {
                add(out, if comb.region { " comb region yes" } else { " comb region no" });
                for (label, number) in [(" id ", comb.id), (" air ", comb.air), (" los ", comb.los), (" mater ", comb.mater)] {
                    add_labelled(out, label, number);
                }
                if let Some(colour) = &comb.rgb {
                    add_three(out, " rgb ", colour, add_number);
                }
                add(out, if comb.inherit { " inherit yes" } else { " inherit no" });
                if !comb.tree.is_empty() {
                    add(out, " tree {");
                    self.add_node(out, &mut comb.tree.iter());
                    out.push(b'}');
                }
            }
        }
    }

    fn add_node(&self, out: &mut Vec<u8>, nodes: &mut std::slice::Iter<Node>) {
        match nodes.next() {
            Some(Node::Leaf(name, place)) => {
                add(out, "l ");
                out.extend_from_slice(self.name(*name));
                if let Some(place) = place {
                    out.extend_from_slice(b" {");
                    for (row, &(column, sign)) in place.turn.iter().enumerate() {
                        for other in 0..3 {
                            add_number(out, if other == column { i32::from(sign) } else { 0 });
                            out.push(b' ');
                        }
                        add_length(out, place.shift[row]);
                        out.push(b' ');
                    }
                    add(out, "0 0 0 1}");
                }
            }
            Some(Node::Op(op)) => {
                out.push(*op);
                for _ in 0..2 {
                    add(out, " {");
                    self.add_node(out, nodes);
                    out.push(b'}');
                }
            }
            None => {}
        }
    }

    // ---- listings

    fn add_entry(&self, out: &mut Vec<u8>, lines: &mut usize, name: u32, thing: Option<&Thing>) {
        out.extend_from_slice(self.name(name));
        add(out, match thing {
            Some(Thing::Comb(comb)) => if comb.region { "/R\n" } else { "/\n" },
            Some(_) => "\n",
            None => "?\n",
        });
        *lines += 1;
    }

    fn add_listing(&self, out: &mut Vec<u8>, lines: &mut usize, name: u32, level: usize) {
        let thing = self.known[name as usize].object.map(|place| &self.objects[place as usize].thing);
        self.add_entry(out, lines, name, thing);
        if let Some(Thing::Comb(comb)) = thing {
            if !comb.tree.is_empty() {
                self.add_leaves(out, lines, &mut comb.tree.iter(), b'u', level + 1);
            }
        }
    }

    fn add_leaves(&self, out: &mut Vec<u8>, lines: &mut usize, nodes: &mut std::slice::Iter<Node>, op: u8, level: usize) {
        match nodes.next() {
            Some(Node::Leaf(name, _)) => {
                out.resize(out.len() + 2 * level, b' ');
                out.extend_from_slice(&[if op == b'n' { b'+' } else { op }, b' ']);
                self.add_listing(out, lines, *name, level);
            }
            Some(Node::Op(own)) => {
                self.add_leaves(out, lines, nodes, op, level);
                self.add_leaves(out, lines, nodes, *own, level);
            }
            None => {}
        }
    }
}

// ---- edits

/// A sphere of these words.
fn ball(words: [&str; 4]) -> Thing {
    let [x, y, z, radius] = words.map(|word| length(word.as_bytes()).unwrap_or_else(|_| stop(1, "only numbers in range are here")));
    if radius < 1 {
        stop(1, "only spheres with a radius are here");
    }
    Thing::Sphere([x, y, z], radius)
}

/// The tree of operators and members by turns: `u` begins a product, and the others go on with the last one.
fn tree_of(words: &[&str], directory: &mut Directory) -> Vec<Node> {
    let (mut unions, mut products, mut product) = (0, Vec::new(), Vec::new());
    for pair in words.chunks(2) {
        let &[op, member] = pair else { stop(1, "only whole lists are here") };
        let leaf = Node::Leaf(directory.number_of(member.as_bytes()), None);
        if op == "u" || product.is_empty() {
            unions += usize::from(!product.is_empty());
            products.append(&mut product);
        } else {
            product.insert(0, Node::Op(match op { "+" => b'n', "-" | "^" => op.as_bytes()[0], _ => stop(1, "an operator that is none") }));
        }
        product.push(leaf);
    }
    products.append(&mut product);
    let mut tree: Vec<Node> = (0..unions).map(|_| Node::Op(b'u')).collect();
    tree.append(&mut products);
    tree
}

/// Makes what the words of a line say, or says why not.
fn edit(words: &[&str], directory: &mut Directory) -> Result<(), String> {
    let (name, made) = match words {
        ["in", name, "sph", x, y, z, radius] => (*name, directory_put(name, ball([x, y, z, radius]), directory)),
        ["r", name, list @ ..] if directory.object(name.as_bytes()).is_none() => {
            let tree = tree_of(list, directory);
            let comb = Comb { region: true, id: 1_000, los: 100, mater: 1, tree, ..Comb::default() };
            (*name, directory_put(name, Thing::Comb(Box::new(comb)), directory))
        }
        ["mvall", old, new] => return rename(old, new, directory),
        _ => stop(1, "only save, ls, tree, in, r and mvall are here"),
    };
    made.map_err(|kind| match kind {
        Kind::Full => "full".into(),
        Kind::Exists | Kind::Cycle => format!("{} {name}", KINDS[kind as usize]),
        _ => stop(1, "only trees of few levels are here"),
    })
}

fn directory_put(name: &str, thing: Thing, directory: &mut Directory) -> Result<(), Kind> {
    if !is_name(name.as_bytes()) {
        stop(1, "only names are here");
    }
    let number = directory.number_of(name.as_bytes());
    directory.put(number, thing)
}

fn rename(old: &str, new: &str, directory: &mut Directory) -> Result<(), String> {
    if directory.object(new.as_bytes()).is_some() {
        return Err(format!("exists {new}"));
    }
    if directory.object(old.as_bytes()).is_none() {
        return Err(format!("missing {old}"));
    }
    if directory.names.contains_key(new.as_bytes()) || !is_name(new.as_bytes()) {
        stop(1, "only names that nothing has are here");
    }
    if let Some(number) = directory.names.remove(old.as_bytes()) {
        directory.names.insert(new.as_bytes().into(), number);
        directory.known[number as usize].name = new.as_bytes().into();
    }
    Ok(())
}

// ---- the program

fn stop(status: i32, line: &str) -> ! {
    eprintln!("plain_model: {line}");
    std::process::exit(status)
}

fn main() -> std::process::ExitCode {
    let words: Vec<String> = std::env::args().skip(1).collect();
    let mut directory = match &words[..] {
        [] => Directory::default(),
        [option, file] if option == "--load" => {
            let text = std::fs::read(file).unwrap_or_else(|_| stop(3, &format!("load missing {file}")));
            if text.len() > 16_777_216 {
                stop(3, "load size");
            }
            load(&text).unwrap_or_else(|(line, kind)| stop(3, &format!("load line {line} {}", KINDS[kind as usize])))
        }
        _ => stop(2, "usage"),
    };
    let (mut script, mut order, mut answers) = (String::new(), String::from("order"), Vec::new());
    if std::io::stdin().read_to_string(&mut script).is_err() {
        stop(5, "read");
    }
    let (mut files, mut version, mut some_refused) = (Vec::new(), 0, false);
    for (at, line) in script.lines().enumerate() {
        let (mut body, mut lines, mut refused) = (Vec::new(), 0, None);
        let words: Vec<&str> = line.split(' ').collect();
        match words[..] {
            ["save", file] => { files.push((file, directory.written())); body = format!("saved {file}\n").into_bytes(); lines = 1; }
            ["ls"] => for object in &directory.objects {
                directory.add_entry(&mut body, &mut lines, object.name, Some(&object.thing));
            },
            ["tree", name] => match directory.object(name.as_bytes()) {
                Some(place) => directory.add_listing(&mut body, &mut lines, directory.objects[place].name, 0),
                None => stop(1, &format!("missing {name}")),
            },
            _ => match edit(&words, &mut directory) {
                Ok(()) => version += 1,
                Err(why) => refused = Some(why),
            },
        }
        order += " 1";
        some_refused |= refused.is_some();
        match refused {
            Some(why) => answers.extend_from_slice(format!("1.{} refused v{version} {why}\n", at + 1).as_bytes()),
            None => answers.extend_from_slice(format!("1.{} ok v{version} {lines}\n", at + 1).as_bytes()),
        }
        answers.append(&mut body);
    }
    order += "\n";
    let mut out = std::io::stdout().lock();
    let is_written = out.write_all(order.as_bytes()).and_then(|()| out.write_all(&answers)).and_then(|()| out.flush());
    if is_written.is_err() || files.iter().any(|(file, text)| std::fs::write(file, text).is_err()) {
        stop(6, "write");
    }
    std::process::ExitCode::from(u8::from(some_refused))
}
