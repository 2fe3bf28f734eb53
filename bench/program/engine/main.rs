//! A live sheet written by hand in plain Rust for a few forms of lines. bench/program/cells compares edits of one cell and added rows with it.
//! It reads lines from standard input and answers them as aplsheet does:
//!
//!     )DATA N←E     N←E     N[i]←k     N[i;j]←k     )ROW N k     )ROW N k k k     E
//!
//! E is a list of numbers, a name, N[k], A+B, A-B, A×B, A⍴B, ⍳B, f/B or f⌿B, where f is one of + × ⌈ ⌊, and A is one of the first three.
//! Each node of a formula keeps its result. An edit of a cell visits the formulas that it reaches, and each writes the one item that changes.
//! A changed line of a total is added again from its right, with a check for each step. A row is appended in place. So are its items in A+B,
//! A-B and A×B, if the other argument has one item or has grown too, and its total in +/B of a matrix. Any other node that the row reaches is
//! evaluated again as a whole. Matrices are not printed.

use std::collections::HashMap;
use std::fmt::{self, Display};
use std::io::{self, BufRead, Write};

#[derive(Clone)]
struct Array {
    shape: Vec<usize>,
    items: Vec<i64>,
}

#[derive(Clone, Copy)]
struct Fault {
    kind: &'static str,
    origin: Option<usize>,
}

type Value = Result<Array, Fault>;

const fn fault(kind: &'static str) -> Fault {
    Fault { kind, origin: None }
}

static ABSENT: Value = Err(fault("VALUE ERROR"));
/// The most items of an array.
const LIMIT: usize = 1048576;

impl Array {
    fn scalar(item: i64) -> Array {
        Array {
            shape: vec![],
            items: vec![item],
        }
    }

    /// Returns the item at a place; a single item stands for every place.
    fn at(&self, place: usize) -> i64 {
        self.items[if self.items.len() == 1 { 0 } else { place }]
    }

    /// Returns the place of a cell whose positions are counted from 1.
    fn place(&self, positions: &[i64]) -> Result<usize, &'static str> {
        if positions.len() != self.shape.len() {
            return Err("RANK ERROR");
        }
        positions
            .iter()
            .zip(&self.shape)
            .try_fold(0, |place, (&position, &axis)| {
                match usize::try_from(position) {
                    Ok(position) if (1..=axis).contains(&position) => {
                        Ok(place * axis + position - 1)
                    }
                    _ => Err("INDEX ERROR"),
                }
            })
    }
}

/// A function that folds the items of a line.
#[derive(Clone, Copy)]
enum Fold {
    Plus,
    Times,
    Greatest,
    Least,
}

impl Fold {
    fn identity(self) -> i64 {
        match self {
            Fold::Plus => 0,
            Fold::Times => 1,
            Fold::Greatest => i64::MIN,
            Fold::Least => i64::MAX,
        }
    }

    /// Returns None beyond 64 bits.
    fn item(self, item: i64, total: i64) -> Option<i64> {
        match self {
            Fold::Plus => item.checked_add(total),
            Fold::Times => item.checked_mul(total),
            Fold::Greatest => Some(item.max(total)),
            Fold::Least => Some(item.min(total)),
        }
    }
}

#[derive(Clone, Copy, PartialEq)]
enum Along {
    Last,
    First,
}

impl Along {
    /// Returns the stride of the items of a line, their number, and the number of lines.
    fn strides(self, shape: &[usize]) -> (usize, usize, usize) {
        match self {
            Along::Last => {
                let last = shape.len() - 1;
                (1, shape[last], shape[..last].iter().product())
            }
            Along::First => {
                let lines = shape[1..].iter().product();
                (lines, shape[0], lines)
            }
        }
    }

    /// Returns the total of a line.
    fn total(self, fold: Fold, argument: &Array, line: usize) -> Result<i64, Fault> {
        let (stride, length, _) = self.strides(&argument.shape);
        let begin = if self == Along::Last {
            line * length
        } else {
            line
        };
        let items = argument.items.get(begin..).unwrap_or_default().iter();
        let line = items.step_by(stride).take(length);
        line.rev()
            .try_fold(fold.identity(), |total, item| fold.item(*item, total))
            .ok_or(fault("LIMIT ERROR"))
    }

    fn line_of(self, argument: &Array, place: usize) -> usize {
        let (stride, length, _) = self.strides(&argument.shape);
        if self == Along::Last {
            place / length
        } else {
            place % stride
        }
    }

    fn apply(self, fold: Fold, argument: &Value) -> Value {
        let argument = argument.as_ref().map_err(|fault| *fault)?;
        if argument.shape.is_empty() {
            return Ok(argument.clone());
        }
        let mut shape = argument.shape.clone();
        shape.remove(if self == Along::Last {
            shape.len() - 1
        } else {
            0
        });
        let (_, _, lines) = self.strides(&argument.shape);
        let items = (0..lines)
            .map(|line| self.total(fold, argument, line))
            .collect::<Result<_, _>>()?;
        Ok(Array { shape, items })
    }
}

#[derive(Clone, Copy)]
enum Pairwise {
    Plus,
    Minus,
    Times,
}

impl Pairwise {
    fn item(self, left: i64, right: i64) -> Result<i64, Fault> {
        match self {
            Pairwise::Plus => left.checked_add(right),
            Pairwise::Minus => left.checked_sub(right),
            Pairwise::Times => left.checked_mul(right),
        }
        .ok_or(fault("LIMIT ERROR"))
    }

    fn apply(self, left: &Value, right: &Value) -> Value {
        let right = right.as_ref().map_err(|fault| *fault)?;
        let left = left.as_ref().map_err(|fault| *fault)?;
        let longer = match (left.items.len(), right.items.len()) {
            (1, 1) => {
                if left.shape.len() > right.shape.len() {
                    left
                } else {
                    right
                }
            }
            (1, _) => right,
            (_, 1) => left,
            _ if left.shape.len() != right.shape.len() => return Err(fault("RANK ERROR")),
            _ if left.shape != right.shape => return Err(fault("LENGTH ERROR")),
            _ => left,
        };
        let places = 0..longer.items.len();
        let items = places
            .map(|place| self.item(left.at(place), right.at(place)))
            .collect::<Result<_, _>>()?;
        Ok(Array {
            shape: longer.shape.clone(),
            items,
        })
    }
}

fn reshape(left: &Value, right: &Value) -> Value {
    let right = right.as_ref().map_err(|fault| *fault)?;
    let left = left.as_ref().map_err(|fault| *fault)?;
    if left.shape.len() > 1 {
        return Err(fault("RANK ERROR"));
    }
    let shape = left
        .items
        .iter()
        .map(|&axis| usize::try_from(axis))
        .collect::<Result<Vec<_>, _>>();
    let shape = shape.map_err(|_| fault("DOMAIN ERROR"))?;
    let size = shape
        .iter()
        .try_fold(1usize, |size, &axis| size.checked_mul(axis));
    let size = size
        .filter(|&size| size <= LIMIT && shape.len() <= 4)
        .ok_or(fault("LIMIT ERROR"))?;
    let items = match right.items.is_empty() {
        true => vec![0; size],
        false => right.items.iter().copied().cycle().take(size).collect(),
    };
    Ok(Array { shape, items })
}

fn iota(argument: &Value) -> Value {
    let argument = argument.as_ref().map_err(|fault| *fault)?;
    match argument.items[..] {
        [count] if count < 0 => Err(fault("DOMAIN ERROR")),
        [count] if count > LIMIT as i64 => Err(fault("LIMIT ERROR")),
        [count] => Ok(Array {
            shape: vec![count as usize],
            items: (1..=count).collect(),
        }),
        _ => Err(fault("LENGTH ERROR")),
    }
}

fn index(argument: &Value, position: i64) -> Value {
    let argument = argument.as_ref().map_err(|fault| *fault)?;
    argument
        .place(&[position])
        .map(|place| Array::scalar(argument.items[place]))
        .map_err(fault)
}

/// The change of an array: none, one item, one place appended along the first axis, or all items.
#[derive(Clone, Copy)]
enum Change {
    Same,
    Cell(usize),
    Row,
    Whole,
}

/// A node of a formula. An operation keeps its result.
enum Node {
    Literal(Value),
    Name(usize),
    Index(Box<Node>, i64, Value),
    Total(Fold, Along, Box<Node>, Value),
    Pair(Pairwise, Box<Node>, Box<Node>, Value),
    Reshape(Box<Node>, Box<Node>, Value),
    Iota(Box<Node>, Value),
}

/// Writes one item in its place, or an error as the whole result.
fn put(value: &mut Value, place: usize, item: Result<i64, Fault>) -> Change {
    match (value, item) {
        (Ok(array), Ok(item)) => {
            array.items[place] = item;
            Change::Cell(place)
        }
        (value, Err(fault)) => {
            *value = Err(fault);
            Change::Whole
        }
        _ => unreachable!("an error is made whole"),
    }
}

fn put_all(value: &mut Value, found: Value) -> Change {
    *value = found;
    Change::Whole
}

/// Appends the items of one place along the first axis, or writes an error as the whole result.
fn grow(value: &mut Value, row: impl Iterator<Item = Result<i64, Fault>>) -> Change {
    let Ok(array) = value else {
        unreachable!("an error is made whole")
    };
    for item in row {
        match item {
            Ok(item) => array.items.push(item),
            Err(fault) => return put_all(value, Err(fault)),
        }
    }
    array.shape[0] += 1;
    Change::Row
}

impl Node {
    fn value<'a>(&'a self, entries: &'a [Entry]) -> &'a Value {
        match self {
            Node::Name(at) => entries[*at].value(entries),
            Node::Literal(value) | Node::Index(_, _, value) | Node::Total(_, _, _, value) => value,
            Node::Pair(_, _, _, value) | Node::Reshape(_, _, value) | Node::Iota(_, value) => value,
        }
    }

    /// Evaluates the whole node again.
    fn evaluate(&mut self, entries: &[Entry]) {
        match self {
            Node::Literal(_) | Node::Name(_) => {}
            Node::Index(argument, position, value) => {
                argument.evaluate(entries);
                *value = index(argument.value(entries), *position);
            }
            Node::Total(fold, along, argument, value) => {
                argument.evaluate(entries);
                *value = along.apply(*fold, argument.value(entries));
            }
            Node::Iota(argument, value) => {
                argument.evaluate(entries);
                *value = iota(argument.value(entries));
            }
            Node::Pair(function, left, right, value) => {
                right.evaluate(entries);
                left.evaluate(entries);
                *value = function.apply(left.value(entries), right.value(entries));
            }
            Node::Reshape(left, right, value) => {
                right.evaluate(entries);
                left.evaluate(entries);
                *value = reshape(left.value(entries), right.value(entries));
            }
        }
    }

    /// Updates the node after changes of the names in it.
    fn refresh(&mut self, entries: &[Entry]) -> Change {
        match self {
            Node::Literal(_) => Change::Same,
            Node::Name(at) => entries[*at].change,
            Node::Index(argument, position, value) => {
                match (argument.refresh(entries), argument.value(entries)) {
                    (Change::Same, _) => Change::Same,
                    (Change::Cell(place), Ok(_))
                        if value.is_ok() && place as i64 + 1 != *position =>
                    {
                        Change::Same
                    }
                    (Change::Cell(place), Ok(argument)) if value.is_ok() => {
                        put(value, 0, Ok(argument.items[place]))
                    }
                    (_, argument) => put_all(value, index(argument, *position)),
                }
            }
            Node::Total(fold, along, argument, value) => {
                match (argument.refresh(entries), argument.value(entries)) {
                    (Change::Same, _) => Change::Same,
                    (Change::Cell(place), Ok(argument))
                        if value.is_ok() && !argument.shape.is_empty() =>
                    {
                        let line = along.line_of(argument, place);
                        put(value, line, along.total(*fold, argument, line))
                    }
                    (Change::Row, Ok(argument))
                        if value.is_ok() && *along == Along::Last && argument.shape.len() == 2 =>
                    {
                        let line = argument.shape[0] - 1;
                        grow(value, std::iter::once(along.total(*fold, argument, line)))
                    }
                    (_, argument) => put_all(value, along.apply(*fold, argument)),
                }
            }
            Node::Pair(function, left, right, value) => {
                refresh_pair(*function, left, right, value, entries)
            }
            Node::Reshape(left, right, value) => {
                match (right.refresh(entries), left.refresh(entries)) {
                    (Change::Same, Change::Same) => Change::Same,
                    _ => put_all(value, reshape(left.value(entries), right.value(entries))),
                }
            }
            Node::Iota(argument, value) => match argument.refresh(entries) {
                Change::Same => Change::Same,
                _ => put_all(value, iota(argument.value(entries))),
            },
        }
    }
}

fn refresh_pair(
    function: Pairwise,
    left: &mut Node,
    right: &mut Node,
    value: &mut Value,
    entries: &[Entry],
) -> Change {
    let changes = (left.refresh(entries), right.refresh(entries));
    let (left, right) = (left.value(entries), right.value(entries));
    if let (Ok(left), Ok(right), Ok(old)) = (left, right, &*value) {
        let size = old.items.len();
        let place = match changes {
            (Change::Same, Change::Same) => return Change::Same,
            (Change::Cell(place), Change::Same) if left.items.len() == size => Some(place),
            (Change::Same, Change::Cell(place)) if right.items.len() == size => Some(place),
            (Change::Cell(p), Change::Cell(q))
                if p == q && left.items.len() == right.items.len() =>
            {
                Some(p)
            }
            _ => None,
        };
        let item = |place| function.item(left.at(place), right.at(place));
        if let Some(place) = place {
            return put(value, place, item(place));
        }
        let longer = match changes {
            (Change::Row, Change::Same) if stands_for_all(right, left) => Some(left),
            (Change::Same, Change::Row) if stands_for_all(left, right) => Some(right),
            (Change::Row, Change::Row) if left.shape == right.shape => Some(left),
            _ => None,
        };
        if let Some(longer) = longer {
            return grow(value, (size..longer.items.len()).map(item));
        }
    }
    match changes {
        (Change::Same, Change::Same) => Change::Same,
        _ => put_all(value, function.apply(left, right)),
    }
}

/// Returns whether an array has one item that stands for every place of another array.
fn stands_for_all(array: &Array, other: &Array) -> bool {
    array.items.len() == 1 && array.shape.len() <= other.shape.len()
}

enum Binding {
    Absent,
    Data(Value),
    Formula(Node),
}

struct Entry {
    name: String,
    binding: Binding,
    /// The names whose formulas refer to this one.
    users: Vec<usize>,
    /// The change of the name by the current edit.
    change: Change,
    /// The last edit that reached the name.
    reached: u64,
}

impl Entry {
    fn value<'a>(&'a self, entries: &'a [Entry]) -> &'a Value {
        match &self.binding {
            Binding::Absent => &ABSENT,
            Binding::Data(value) => value,
            Binding::Formula(node) => node.value(entries),
        }
    }
}

#[derive(Default)]
struct Sheet {
    places: HashMap<String, usize>,
    entries: Vec<Entry>,
    edits: u64,
    /// The names that the current edit reaches, each after all names that refer to it.
    order: Vec<usize>,
}

impl Sheet {
    /// Returns the number of a name; a new name is absent until it is bound.
    fn number(&mut self, name: &str) -> usize {
        if let Some(&at) = self.places.get(name) {
            return at;
        }
        let (at, name) = (self.entries.len(), name.to_string());
        self.places.insert(name.clone(), at);
        self.entries.push(Entry {
            name,
            binding: Binding::Absent,
            users: vec![],
            change: Change::Same,
            reached: 0,
        });
        at
    }

    fn climb(&mut self, at: usize) {
        if self.entries[at].reached == self.edits {
            return;
        }
        self.entries[at].reached = self.edits;
        for k in 0..self.entries[at].users.len() {
            self.climb(self.entries[at].users[k]);
        }
        self.order.push(at);
    }

    /// Finds the names that an edit of a name reaches.
    fn reach(&mut self, at: usize) {
        self.edits += 1;
        self.order.clear();
        self.climb(at);
    }

    /// Updates all found names after the change of the last one.
    fn follow(&mut self, change: Change) {
        let Some(at) = self.order.pop() else { return };
        self.entries[at].change = change;
        for k in (0..self.order.len()).rev() {
            let user = self.order[k];
            let Binding::Formula(mut node) =
                std::mem::replace(&mut self.entries[user].binding, Binding::Absent)
            else {
                continue;
            };
            self.entries[user].change = node.refresh(&self.entries);
            self.entries[user].binding = Binding::Formula(named(node, user));
        }
        for k in 0..self.order.len() {
            self.entries[self.order[k]].change = Change::Same;
        }
        self.entries[at].change = Change::Same;
    }

    /// Removes the name from the lists of the names in its old formula.
    fn forget(&mut self, at: usize) {
        for entry in &mut self.entries {
            entry.users.retain(|&user| user != at);
        }
    }

    fn data(&mut self, name: &str, mut node: Node) -> Result<(), Text> {
        node.evaluate(&self.entries);
        let value = node.value(&self.entries).clone();
        if let Err(fault) = value {
            return Err(self.text_of(fault));
        }
        let at = self.number(name);
        self.forget(at);
        self.entries[at].binding = Binding::Data(value);
        self.reach(at);
        self.follow(Change::Whole);
        Ok(())
    }

    fn define(&mut self, name: &str, mut node: Node, names: &[usize]) -> Result<(), Text> {
        let at = self.number(name);
        self.reach(at);
        if names
            .iter()
            .any(|&used| self.entries[used].reached == self.edits)
        {
            return Err("CYCLE".into());
        }
        self.forget(at);
        for &used in names {
            self.entries[used].users.push(at);
        }
        node.evaluate(&self.entries);
        self.entries[at].binding = Binding::Formula(named(node, at));
        self.follow(Change::Whole);
        Ok(())
    }

    /// Returns the number of a name of data, and its array.
    fn array(&mut self, name: &str) -> Result<(usize, &mut Array), Text> {
        let at = *self.places.get(name).ok_or("NOT FOUND")?;
        match &mut self.entries[at].binding {
            Binding::Absent => Err("NOT FOUND".into()),
            Binding::Data(Ok(array)) => Ok((at, array)),
            _ => Err("NOT DATA".into()),
        }
    }

    fn set_cell(&mut self, name: &str, positions: &[i64], item: i64) -> Result<(), Text> {
        let (at, array) = self.array(name)?;
        let place = array.place(positions)?;
        array.items[place] = item;
        self.reach(at);
        self.follow(Change::Cell(place));
        Ok(())
    }

    fn add_row(&mut self, name: &str, row: &[i64]) -> Result<(), Text> {
        let (at, array) = self.array(name)?;
        let length = match array.shape[..] {
            [_] => 1,
            [_, columns] => columns,
            _ => return Err("RANK ERROR".into()),
        };
        if row.len() != length {
            return Err("LENGTH ERROR".into());
        }
        if array.items.len() + length > LIMIT {
            return Err("LIMIT ERROR".into());
        }
        array.items.extend_from_slice(row);
        array.shape[0] += 1;
        self.reach(at);
        self.follow(Change::Row);
        Ok(())
    }

    fn text_of(&self, fault: Fault) -> Text {
        match fault.origin {
            Some(origin) => format!("{} IN {}", fault.kind, self.entries[origin].name).into(),
            None => fault.kind.into(),
        }
    }
}

/// An error carries the name of the formula in which it arose.
fn named(mut node: Node, at: usize) -> Node {
    match &mut node {
        Node::Literal(value) | Node::Index(_, _, value) | Node::Total(_, _, _, value) => {
            name_fault(value, at)
        }
        Node::Pair(_, _, _, value) | Node::Reshape(_, _, value) | Node::Iota(_, value) => {
            name_fault(value, at)
        }
        Node::Name(_) => {}
    }
    node
}

fn name_fault(value: &mut Value, at: usize) {
    if let Err(fault) = value {
        fault.origin.get_or_insert(at);
    }
}

type Text = std::borrow::Cow<'static, str>;

/// The unread rest of a line, with the names read so far.
struct Parser<'a> {
    rest: &'a str,
    names: Vec<usize>,
}

const SYNTAX: &str = "SYNTAX ERROR";

fn is_letter(sign: char) -> bool {
    sign.is_ascii_alphabetic() || matches!(sign, '∆' | '⍙')
}

impl<'a> Parser<'a> {
    fn new(rest: &'a str) -> Parser<'a> {
        Parser {
            rest,
            names: vec![],
        }
    }

    fn next(&mut self) -> Option<char> {
        self.rest = self.rest.trim_start_matches([' ', '\t']);
        self.rest.chars().next()
    }

    /// Reads a symbol, if it comes next.
    fn takes(&mut self, sign: &str) -> bool {
        self.next();
        match self.rest.strip_prefix(sign) {
            Some(rest) => {
                self.rest = rest;
                true
            }
            None => false,
        }
    }

    fn name(&mut self) -> Option<&'a str> {
        self.next().filter(|&sign| is_letter(sign))?;
        let end = self
            .rest
            .find(|sign: char| !is_letter(sign) && !sign.is_ascii_digit() && sign != '_');
        let (name, rest) = self.rest.split_at(end.unwrap_or(self.rest.len()));
        self.rest = rest;
        Some(name)
    }

    fn number(&mut self) -> Result<Option<i64>, Text> {
        let start = self.rest;
        let negative = self.takes("¯");
        let end = self
            .rest
            .find(|sign: char| !sign.is_ascii_digit())
            .unwrap_or(self.rest.len());
        let (digits, rest) = self.rest.split_at(end);
        if digits.is_empty() {
            self.rest = start;
            return Ok(None);
        }
        let number = digits
            .parse()
            .ok()
            .map(|number: i128| if negative { -number } else { number });
        self.rest = rest;
        match number.and_then(|number| i64::try_from(number).ok()) {
            Some(number) => Ok(Some(number)),
            None => Err("LIMIT ERROR".into()),
        }
    }

    fn numbers(&mut self) -> Result<Vec<i64>, Text> {
        let mut numbers = vec![];
        while let Some(number) = self.number()? {
            numbers.push(number);
        }
        Ok(numbers)
    }

    fn operand(&mut self, sheet: &mut Sheet) -> Result<Node, Text> {
        if let Some(name) = self.name() {
            let at = sheet.number(name);
            if !self.names.contains(&at) {
                self.names.push(at);
            }
            if !self.takes("[") {
                return Ok(Node::Name(at));
            }
            let position = self.number()?.ok_or(SYNTAX)?;
            let closed = self.takes("]");
            return closed
                .then(|| Node::Index(Box::new(Node::Name(at)), position, ABSENT.clone()))
                .ok_or(SYNTAX.into());
        }
        let items = self.numbers()?;
        match items.len() {
            0 => Err(SYNTAX.into()),
            1 => Ok(Node::Literal(Ok(Array {
                shape: vec![],
                items,
            }))),
            count => Ok(Node::Literal(Ok(Array {
                shape: vec![count],
                items,
            }))),
        }
    }

    fn expression(&mut self, sheet: &mut Sheet) -> Result<Node, Text> {
        for (sign, fold, along) in [
            ("+/", Fold::Plus, Along::Last),
            ("+⌿", Fold::Plus, Along::First),
            ("×/", Fold::Times, Along::Last),
            ("×⌿", Fold::Times, Along::First),
            ("⌈/", Fold::Greatest, Along::Last),
            ("⌈⌿", Fold::Greatest, Along::First),
            ("⌊/", Fold::Least, Along::Last),
            ("⌊⌿", Fold::Least, Along::First),
        ] {
            if self.takes(sign) {
                return Ok(Node::Total(
                    fold,
                    along,
                    Box::new(self.expression(sheet)?),
                    ABSENT.clone(),
                ));
            }
        }
        if self.takes("⍳") {
            return Ok(Node::Iota(
                Box::new(self.expression(sheet)?),
                ABSENT.clone(),
            ));
        }
        let left = self.operand(sheet)?;
        if self.next().is_none() {
            return Ok(left);
        }
        for (sign, function) in [
            ("+", Pairwise::Plus),
            ("-", Pairwise::Minus),
            ("×", Pairwise::Times),
        ] {
            if self.takes(sign) {
                let right = self.expression(sheet)?;
                return Ok(Node::Pair(
                    function,
                    Box::new(left),
                    Box::new(right),
                    ABSENT.clone(),
                ));
            }
        }
        if self.takes("⍴") {
            let right = self.expression(sheet)?;
            return Ok(Node::Reshape(
                Box::new(left),
                Box::new(right),
                ABSENT.clone(),
            ));
        }
        Err(SYNTAX.into())
    }

    /// Returns the positions and the number of an edit of a cell, after its name and bracket; None if the line is no such edit.
    fn cell(&mut self) -> Result<Option<(Vec<i64>, i64)>, Text> {
        let mut positions = vec![];
        loop {
            positions.push(self.number()?.ok_or(SYNTAX)?);
            if !self.takes(";") {
                break;
            }
        }
        if !self.takes("]") || !self.takes("←") {
            return Ok(None);
        }
        let item = self.number()?.ok_or(SYNTAX)?;
        Ok(self.next().is_none().then_some((positions, item)))
    }
}

/// Executes a line and prints its answer.
fn answer(sheet: &mut Sheet, line: &str, out: &mut impl Write) -> io::Result<Result<(), Text>> {
    let mut parser = Parser::new(line);
    if parser.next().is_none() {
        return Ok(Ok(()));
    }
    if parser.takes(")") {
        return Ok(match parser.name() {
            Some("DATA") => answer_data(sheet, &mut parser),
            Some("ROW") => answer_row(sheet, &mut parser),
            _ => Err(SYNTAX.into()),
        });
    }
    if let Some(name) = parser.name() {
        if parser.takes("←") {
            return Ok(parser
                .expression(sheet)
                .and_then(|node| sheet.define(name, node, &parser.names)));
        }
        if parser.takes("[") {
            match parser.cell() {
                Ok(Some((positions, item))) => return Ok(sheet.set_cell(name, &positions, item)),
                Ok(None) => {}
                Err(text) => return Ok(Err(text)),
            }
        }
    }
    let mut node = match Parser::new(line).expression(sheet) {
        Ok(node) => node,
        Err(text) => return Ok(Err(text)),
    };
    node.evaluate(&sheet.entries);
    match node.value(&sheet.entries) {
        Ok(array) => writeln!(out, "{array}").map(Ok),
        Err(fault) => Ok(Err(sheet.text_of(*fault))),
    }
}

fn answer_data(sheet: &mut Sheet, parser: &mut Parser) -> Result<(), Text> {
    let name = parser.name().ok_or(SYNTAX)?;
    if !parser.takes("←") {
        return Err(SYNTAX.into());
    }
    let node = parser.expression(sheet)?;
    sheet.data(name, node)
}

fn answer_row(sheet: &mut Sheet, parser: &mut Parser) -> Result<(), Text> {
    let name = parser.name().ok_or(SYNTAX)?;
    let row = parser.numbers()?;
    if row.is_empty() || parser.next().is_some() {
        return Err(SYNTAX.into());
    }
    sheet.add_row(name, &row)
}

impl Display for Array {
    fn fmt(&self, to: &mut fmt::Formatter) -> fmt::Result {
        for (place, item) in self.items.iter().enumerate() {
            let (blank, sign) = (
                if place > 0 { " " } else { "" },
                if *item < 0 { "¯" } else { "" },
            );
            write!(to, "{blank}{sign}{}", item.unsigned_abs())?;
        }
        Ok(())
    }
}

fn main() -> io::Result<()> {
    let (mut input, mut out) = (io::stdin().lock(), io::stdout().lock());
    let (mut sheet, mut bytes) = (Sheet::default(), vec![]);
    while input.read_until(b'\n', &mut bytes)? > 0 {
        let line = bytes.strip_suffix(b"\n").unwrap_or(&bytes);
        let answered = match std::str::from_utf8(line.strip_suffix(b"\r").unwrap_or(line)) {
            Ok(line) => answer(&mut sheet, line, &mut out)?,
            Err(_) => Err("NOT TEXT".into()),
        };
        if let Err(text) = answered {
            writeln!(out, "{text}")?;
        }
        bytes.clear();
    }
    Ok(())
}
