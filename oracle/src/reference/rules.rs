//! The types of expressions, and how they are refused.

use super::read::{allows, NameRecord};
use super::types::*;
use super::walk::{refuse, Piece, Refusal, Typed, Walk};
use crate::mistakes::{Mistake, Mistake::*};

impl Walk<'_> {
    pub(super) fn expression(&mut self, node: usize) -> Typed {
        let parts = self.children(node);
        match self.kind_of(node) {
            20 if self.mind.slips(LiteralOrder) => Ok([UNKNOWN, INT, BOOL, STRING, FLOAT][self.arg(node)]),
            20 => Ok([BOOL, INT, STRING, FLOAT, NONE_TYPE][self.arg(node)]),
            21 => Ok(self.lookup(self.arg(node))),
            22 => {
                let t = self.expression(parts[0])?;
                self.unary(node, parts[0], t)
            }
            23 => self.operands(node, &parts),
            24 => self.call(node, parts[0], &parts[1..]),
            25 => {
                let t = self.expression(parts[0])?;
                Ok(if self.mind.slips(AttributeKeepsType) { t } else { UNKNOWN })
            }
            26 => self.list(&parts),
            27 => self.dict(&parts),
            28 => {
                let types = parts.iter().map(|part| self.expression(*part)).collect::<Result<Vec<Ty>, Refusal>>()?;
                Ok(self.types.form(TUPLE, types))
            }
            30 if self.mind.slips(RetiredAsWalked) || self.mind.slips(RetiredDropped) => refuse(14, node, vec![]),
            29 | 30 if self.mind.slips(SetsUnread) => Ok(UNKNOWN),
            29 | 30 => self.each(&parts, UNKNOWN),
            31 => {
                let object = self.expression(parts[0])?;
                if self.mind.slips(ObjectBeforeIndex) {
                    self.index(node, &parts, object, UNKNOWN)?;
                }
                let index = self.expression(parts[1])?;
                self.index(node, &parts, object, index)
            }
            _ if self.mind.slips(LambdaUnknown) => Ok(UNKNOWN),
            _ => Ok(FUNCTION),
        }
    }

    /// Every part is checked; then the type is `t`.
    fn each(&mut self, parts: &[usize], t: Ty) -> Typed {
        for part in parts {
            self.expression(*part)?;
        }
        Ok(t)
    }

    fn unary(&mut self, node: usize, operand: usize, t: Ty) -> Typed {
        let mind = self.mind;
        let place = if mind.slips(UnaryAtOperand) { operand } else { node };
        let not = if mind.slips(UnaryOrder) { 2 } else { 0 };
        if self.arg(node) == not {
            return match t {
                UNKNOWN if mind.slips(NotUnknown) => Ok(UNKNOWN),
                BOOL | UNKNOWN => Ok(BOOL),
                _ => refuse(35, place, vec![Piece::Type(t)]),
            };
        }
        match t {
            BOOL if mind.slips(NegateBool) || mind.slips(BoolIsNumber) => Ok(INT),
            UNKNOWN if mind.slips(SignedUnknownIsInt) => Ok(INT),
            INT | FLOAT | UNKNOWN => Ok(t),
            _ => refuse(34, place, vec![Piece::Type(t)]),
        }
    }

    /// Both sides are checked before the rule.
    fn operands(&mut self, node: usize, parts: &[usize]) -> Typed {
        if self.mind.slips(RightBeforeLeft) {
            let right = self.expression(parts[1])?;
            let left = self.expression(parts[0])?;
            return self.binary(node, parts[0], left, right);
        }
        let left = self.expression(parts[0])?;
        if self.arg(node) >= 12 && self.mind.slips(AndSkipsRight) {
            return Ok(BOOL);
        }
        let right = self.expression(parts[1])?;
        if self.arg(node) >= 12 && self.mind.slips(AndGivesRight) {
            return Ok(right);
        }
        self.binary(node, parts[0], left, right)
    }

    fn binary(&mut self, node: usize, left_node: usize, left: Ty, right: Ty) -> Typed {
        let mind = self.mind;
        let op = match self.arg(node) {
            2 if mind.slips(BinaryOrder) => 3,
            3 if mind.slips(BinaryOrder) => 2,
            op => op,
        };
        let as_number = |t: Ty| if t == BOOL && mind.slips(BoolIsNumber) { INT } else { t };
        let (l, r) = match (self.types.kind(left), self.types.kind(right)) {
            (a, b) if mind.slips(FoldedUnordered) && a > b => stand_ins(folded_pair(b * (b + 1) / 2 + a)),
            (a, b) if mind.slips(FoldedShort) && a != b => {
                let (low, high) = (a.min(b), a.max(b));
                stand_ins(folded_pair(high * (high - 1) / 2 + low))
            }
            _ => (as_number(left), as_number(right)),
        };
        let found = match op {
            0 if mind.slips(UnknownPlusAnything) && (l == UNKNOWN || r == UNKNOWN) => sum(l, r).or(Some(UNKNOWN)),
            0 if mind.slips(ListsAdd) && l == r && self.types.kind(l) == LIST => Some(l),
            0 => sum(l, r),
            2 if mind.slips(StringFirst) && (l, r) == (INT, STRING) => None,
            2 if mind.slips(UnknownTimesString) && (l, r) == (UNKNOWN, STRING) => Some(UNKNOWN),
            2 => product(l, r),
            3 if mind.slips(DivideKeepsInt) => number(l, r).map(|t| if t == INT { INT } else { FLOAT }),
            3 if mind.slips(DivideUnknown) && (l, r) == (UNKNOWN, UNKNOWN) => Some(UNKNOWN),
            3 => number(l, r).map(|_| FLOAT),
            4 if mind.slips(FloorDivideInt) => number(l, r).map(|t| if t == FLOAT { INT } else { t }),
            5 if mind.slips(ModuloFormats) && l == STRING => Some(STRING),
            1 | 4 | 5 => number(l, r),
            6 | 7 => {
                let numbers = [INT, FLOAT].contains(&l) && [INT, FLOAT].contains(&r);
                let mixed = numbers && !mind.slips(EqualityMixedRefused);
                let plain = l < LIST || !mind.slips(EqualityWantsPlain);
                let same = l == UNKNOWN || r == UNKNOWN || (self.same(l, r) && plain) || mixed;
                Some(BOOL).filter(|_| same)
            }
            8..=11 if mind.slips(CompareSameOnly) && l != r && l != UNKNOWN && r != UNKNOWN => None,
            8..=11 if mind.slips(CompareBools) && (l, r) == (BOOL, BOOL) => Some(BOOL),
            8..=11 => sum(l, r).map(|_| BOOL),
            _ => {
                let odd = [left, right].iter().copied().find(|t| *t != BOOL && *t != UNKNOWN);
                if let (Some(t), true) = (odd, mind.slips(AndWantsBool)) {
                    return refuse(35, node, vec![Piece::Type(t)]);
                }
                Some(BOOL)
            }
        };
        let code = match op {
            0 => 29,
            2 => 30,
            6 | 7 => 32,
            8..=11 => 31,
            _ => 33,
        };
        match found {
            Some(t) => Ok(t),
            None => {
                let place = if mind.slips(BinaryAtLeft) { left_node } else { node };
                let lower_right = self.types.kind(right) < self.types.kind(left);
                let swapped =
                    if lower_right && mind.slips(OrderedOperands) { OrderedOperands } else { SwappedOperands };
                refuse(code, place, self.pair(left, right, swapped))
            }
        }
    }

    /// Stops at the first mismatch: what stands behind it is not looked at.
    fn list(&mut self, parts: &[usize]) -> Typed {
        let mut element = UNKNOWN;
        let mut parts = parts.iter();
        while let Some(part) = parts.next() {
            let t = self.expression(*part)?;
            if element == UNKNOWN {
                element = t;
            } else if !self.same(element, t) {
                if t == UNKNOWN && self.mind.slips(ListIgnoresUnknown) {
                    continue;
                }
                element = UNKNOWN;
                if self.mind.slips(ListRestarts) {
                    continue;
                }
                if self.mind.slips(ListGoesOn) {
                    for part in parts {
                        self.expression(*part)?;
                    }
                }
                break;
            }
        }
        Ok(self.types.form(LIST, vec![element]))
    }

    /// Key and value are followed apart; stops when both are Unknown after a pair.
    fn dict(&mut self, parts: &[usize]) -> Typed {
        let mind = self.mind;
        let (mut key, mut value) = (UNKNOWN, UNKNOWN);
        let (mut key_missed, mut value_missed) = (false, false);
        for (nth, pair) in parts.chunks_exact(2).enumerate() {
            let k = self.expression(pair[0])?;
            let v = self.expression(pair[1])?;
            let follow = |old: Ty, new: Ty, missed: &mut bool| {
                let agrees = old == UNKNOWN || self.same(old, new);
                *missed = (*missed && mind.slips(DictSticky)) || !agrees;
                if *missed {
                    UNKNOWN
                } else {
                    new
                }
            };
            key = follow(key, k, &mut key_missed);
            value = follow(value, v, &mut value_missed);
            let missed = key_missed || value_missed;
            if missed && mind.slips(DictTogether) {
                key = UNKNOWN;
                value = UNKNOWN;
            }
            if missed && mind.slips(DictStopsAtMismatch) {
                break;
            }
            let goes_on = mind.slips(DictNeverStops) || (mind.slips(DictUnknownGoesOn) && nth == 0);
            if key == UNKNOWN && value == UNKNOWN && !goes_on {
                break;
            }
        }
        Ok(self.types.form(DICT, vec![key, value]))
    }

    fn index(&mut self, node: usize, parts: &[usize], object: Ty, index: Ty) -> Typed {
        let mind = self.mind;
        let place = if mind.slips(IndexAtWhole) { node } else { parts[1] };
        let whole = index == INT || index == UNKNOWN || (index == BOOL && mind.slips(BoolIndexes));
        let or = |code: u32, t: Ty| if whole { Ok(t) } else { refuse(code, place, vec![Piece::Type(index)]) };
        let inner = self.types.parts(object);
        match self.types.kind(object) {
            UNKNOWN => Ok(UNKNOWN),
            STRING => or(49, STRING),
            LIST => or(46, inner[0]),
            TUPLE if mind.slips(TupleIndexFirst) => or(48, inner.first().copied().unwrap_or(UNKNOWN)),
            TUPLE if mind.slips(TupleIndexUnknown) => or(48, UNKNOWN),
            TUPLE => or(48, self.types.common(inner)),
            DICT => {
                let (key, value) = (inner[0], inner[1]);
                let joker = key == UNKNOWN && !mind.slips(KeyUnknownRefuses);
                if self.same(index, key) || index == UNKNOWN || joker {
                    Ok(value)
                } else {
                    refuse(47, place, self.pair(key, index, SwappedKey))
                }
            }
            RANGE if mind.slips(RangeIndexes) => Ok(INT),
            _ => {
                let place = if mind.slips(SubscriptAtWhole) { node } else { parts[0] };
                refuse(50, place, vec![Piece::Type(object)])
            }
        }
    }

    // ---- calls

    fn call(&mut self, node: usize, callee: usize, args: &[usize]) -> Typed {
        let mind = self.mind;
        if self.kind_of(callee) != 21 {
            if mind.slips(CalleeLate) {
                self.each(args, UNKNOWN)?;
                self.expression(callee)?;
                return Ok(UNKNOWN);
            }
            if !mind.slips(CalleeUnread) {
                self.expression(callee)?;
            }
            return self.each(args, UNKNOWN);
        }
        let name = self.arg(callee);
        let image = self.image;
        let (record, text) = (&image.names[name], &image.texts[name]);
        let counted = args.len() + if mind.slips(GivenCountsCallee) { 1 } else { 0 };
        let given = Piece::Number(counted as u64);
        let place = if mind.slips(ArityAtCallee) { callee } else { node };
        if mind.slips(ArityLate) {
            self.each(args, UNKNOWN)?;
        }
        match record.role {
            0 | 4 if mind.slips(BuiltinByText) && has_rule(text) => self.builtin(node, text, args),
            4 => {
                let fewer = mind.slips(FunctionTakesFewer) && args.len() < record.p as usize;
                if record.p as usize != args.len() && !fewer {
                    let wanted = Piece::Text(self.decimal(record.p));
                    return refuse(38, place, vec![Piece::Text(text.clone()), wanted, given]);
                }
                if mind.slips(FunctionArgumentsUnread) {
                    return Ok(UNKNOWN);
                }
                self.each(args, UNKNOWN)
            }
            1..=3 => {
                if !allows(record, args.len()) {
                    let wanted = Piece::Text(self.description(record));
                    return refuse(37, place, vec![Piece::Text(text.clone()), wanted, given]);
                }
                self.builtin(node, text, args)
            }
            _ if mind.slips(PlainArgumentsUnread) => Ok(UNKNOWN),
            _ => self.each(args, UNKNOWN),
        }
    }

    fn decimal(&self, n: u32) -> Vec<u8> {
        if self.mind.slips(SignedDecimals) {
            return (n as i32).to_string().into_bytes();
        }
        n.to_string().into_bytes()
    }

    /// T's `Arity::description`. A builtin of any count is never described: no count is wrong for it.
    fn description(&self, record: &NameRecord) -> Vec<u8> {
        let (p, q) = match (record.p, record.q) {
            (p, q) if record.role == 2 && p > q && self.mind.slips(DescriptionSorted) => (q, p),
            both => both,
        };
        if record.role == 1 || (p == q && !self.mind.slips(RangeDescribed)) {
            return self.decimal(p);
        }
        let mut text = self.decimal(p);
        text.push(b'-');
        text.extend(self.decimal(q));
        text
    }

    /// The first argument is checked, and no other.
    fn first(&mut self, args: &[usize], t: Ty) -> Typed {
        let looked_at = if self.mind.slips(FirstChecksAll) { args } else { &args[..args.len().min(1)] };
        self.each(looked_at, t)
    }

    /// The rule of a builtin is chosen by its text.
    fn builtin(&mut self, node: usize, text: &[u8], args: &[usize]) -> Typed {
        let mind = self.mind;
        let place = |arg: usize| if mind.slips(CallAtArgument) { arg } else { node };
        match text {
            b"print" if mind.slips(PrintGivesUnknown) => self.each(args, UNKNOWN),
            b"print" => self.each(args, NONE_TYPE),
            b"input" => {
                if args.len() == 1 || mind.slips(InputChecksAll) {
                    for arg in args {
                        let t = self.expression(*arg)?;
                        if t != STRING && t != UNKNOWN {
                            return refuse(39, place(*arg), vec![Piece::Type(t)]);
                        }
                    }
                }
                Ok(STRING)
            }
            b"int" => self.first(args, INT),
            b"float" => self.first(args, FLOAT),
            b"bool" => self.first(args, BOOL),
            b"str" => self.first(args, STRING),
            b"assert" if mind.slips(AssertGivesBool) => self.first(args, BOOL),
            b"assert" => self.first(args, NONE_TYPE),
            b"len" => {
                let arg = match args.first() {
                    Some(arg) => *arg,
                    // Only a mistake lets a call without arguments come here.
                    None => return Ok(INT),
                };
                let t = self.expression(arg)?;
                if mind.slips(FirstChecksAll) {
                    self.each(&args[1..], INT)?;
                }
                match self.types.kind(t) {
                    UNKNOWN | STRING | LIST | DICT | TUPLE => Ok(INT),
                    RANGE if mind.slips(LenOfRange) => Ok(INT),
                    MAP_ITER | FILTER_ITER if mind.slips(LenOfIterators) => Ok(INT),
                    _ => refuse(40, place(arg), vec![Piece::Type(t)]),
                }
            }
            b"range" => {
                let mut wrong = None;
                for arg in args {
                    let t = self.expression(*arg)?;
                    if t != INT && t != UNKNOWN && wrong.is_none() {
                        wrong = Some(refuse(41, place(*arg), vec![Piece::Type(t)]));
                        if !mind.slips(RangeLate) {
                            break;
                        }
                    }
                }
                wrong.unwrap_or(Ok(RANGE))
            }
            b"map" => {
                let element = self.stream(node, 42, args, MapTakesAll)?;
                let element = if mind.slips(MapGivesElement) { element } else { UNKNOWN };
                Ok(self.types.form(MAP_ITER, vec![element]))
            }
            b"filter" => {
                let element = self.stream(node, 44, args, FilterTakesAll)?;
                let element = if mind.slips(FilterGivesUnknown) { UNKNOWN } else { element };
                Ok(self.types.form(FILTER_ITER, vec![element]))
            }
            _ if mind.slips(OtherArgumentsUnread) => Ok(UNKNOWN),
            _ if mind.slips(OtherGivesNone) => self.each(args, NONE_TYPE),
            _ => self.each(args, UNKNOWN),
        }
    }

    /// The element type of what map and filter go through; `code` and the next refuse the two arguments.
    fn stream(&mut self, node: usize, code: u32, args: &[usize], takes_all: Mistake) -> Typed {
        let mind = self.mind;
        if args.len() < 2 {
            // Only a mistake lets such a call come here.
            return Ok(UNKNOWN);
        }
        let place = |arg: usize| if mind.slips(StreamAtCall) { node } else { arg };
        let function = self.expression(args[0])?;
        if mind.slips(StreamLate) {
            self.expression(args[1])?;
        }
        if function != FUNCTION && function != UNKNOWN {
            return refuse(code, place(args[0]), vec![Piece::Type(function)]);
        }
        let t = self.expression(args[1])?;
        if mind.slips(StreamChecksAll) {
            self.each(&args[2..], UNKNOWN)?;
        }
        match self.types.kind(t) {
            UNKNOWN => Ok(UNKNOWN),
            RANGE => Ok(INT),
            STRING => Ok(STRING),
            LIST | MAP_ITER | FILTER_ITER => Ok(self.types.parts(t)[0]),
            DICT if mind.slips(takes_all) => Ok(self.types.parts(t)[0]),
            TUPLE if mind.slips(takes_all) => Ok(self.types.common(self.types.parts(t))),
            _ => refuse(code + 1, place(args[1]), vec![Piece::Type(t)]),
        }
    }
}

/// Whether a builtin of this text has a rule of its own.
fn has_rule(text: &[u8]) -> bool {
    let texts: [&[u8]; 11] =
        [b"print", b"input", b"int", b"float", b"bool", b"str", b"len", b"range", b"assert", b"map", b"filter"];
    texts.contains(&text)
}

/// `- % //`: Int, Float and Unknown among themselves.
fn number(a: Ty, b: Ty) -> Option<Ty> {
    match (a, b) {
        (INT, INT) | (INT, UNKNOWN) | (UNKNOWN, INT) => Some(INT),
        (FLOAT, FLOAT) | (FLOAT, INT) | (INT, FLOAT) | (FLOAT, UNKNOWN) | (UNKNOWN, FLOAT) => Some(FLOAT),
        (UNKNOWN, UNKNOWN) => Some(UNKNOWN),
        _ => None,
    }
}

/// The two kinds whose answer stands at a place of a row that has each pair of kinds once, in order (document 02, Six).
fn folded_pair(at: u32) -> (u32, u32) {
    let before = |high: u32| high * (high + 1) / 2;
    let high = (0..).find(|high| at < before(high + 1)).expect("places end somewhere");
    (at - before(high), high)
}

/// Types of the two kinds that a mistake looks at in place of the operands'. A structured one is stood in for by a plain type that no
/// rule takes: equal types, which == would take, the operands have not, since their kinds differ.
fn stand_ins((a, b): (u32, u32)) -> (Ty, Ty) {
    match (a < LIST, b < LIST) {
        (true, true) => (a, b),
        (true, false) => (a, if a == FUNCTION { RANGE } else { FUNCTION }),
        _ => (FUNCTION, RANGE),
    }
}

/// `+`, and whatever `< <= > >=` take.
fn sum(a: Ty, b: Ty) -> Option<Ty> {
    match (a, b) {
        (STRING, STRING) | (STRING, UNKNOWN) | (UNKNOWN, STRING) => Some(STRING),
        _ => number(a, b),
    }
}

fn product(a: Ty, b: Ty) -> Option<Ty> {
    match (a, b) {
        (STRING, INT) | (INT, STRING) | (STRING, UNKNOWN) | (UNKNOWN, STRING) => Some(STRING),
        _ => number(a, b),
    }
}
