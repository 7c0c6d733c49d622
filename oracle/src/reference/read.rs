//! A second reader of images: each refusal as a search over everything, in the order of document 01's table.

use crate::mistakes::{Mind, Mistake::*};

pub struct NameRecord {
    pub start: u32,
    pub length: u32,
    pub role: u32,
    pub p: u32,
    pub q: u32,
}

pub struct NodeRecord {
    pub kind: u32,
    pub arg: u32,
    pub children: u32,
    pub end: u32,
    pub span: (u32, u32),
}

pub struct Image {
    pub names: Vec<NameRecord>,
    /// Each name's text.
    pub texts: Vec<Vec<u8>>,
    pub nodes: Vec<NodeRecord>,
}

type Fault = (u32, usize);

fn words(bytes: &[u8]) -> Vec<u32> {
    bytes.chunks_exact(4).map(|b| u32::from_le_bytes([b[0], b[1], b[2], b[3]])).collect()
}

pub fn read(bytes: &[u8], mind: Mind) -> Result<Image, Fault> {
    if bytes.len() < 32 {
        return Err((1, 0));
    }
    let header = words(&bytes[..32]);
    if header[0] != 1 && !mind.slips(VersionUnread) {
        return Err((1, 0));
    }
    let (n, m, t) = (header[1], header[3], header[5]);
    let most = |usual: u32, slip| if mind.slips(slip) { usual + 1 } else { usual };
    let counts_stand = n <= most(128, Names129)
        && (m >= 1 || mind.slips(Nodes0))
        && m <= most(2048, Nodes2049)
        && t <= most(8192, Text8193);
    if !counts_stand && !mind.slips(ThreeBeforeTwo) {
        return Err((2, 0));
    }
    // Wide enough for counts that are still to be refused.
    let nodes_at = 32 + 20 * u64::from(n);
    let texts_at = nodes_at + 24 * u64::from(m);
    let total = texts_at + u64::from(t);
    let stated = |field: usize, wanted: u64| u64::from(header[field]) == wanted;
    let length = bytes.len() as u64;
    let offsets_stand = (stated(2, 32) || mind.slips(OffsetUnread))
        && stated(4, nodes_at)
        && stated(6, texts_at)
        && (stated(7, total) || mind.slips(TotalUnread))
        && (length == total || (length > total && mind.slips(ExtraBytesPass)));
    if !offsets_stand {
        return Err((3, 0));
    }
    if !counts_stand {
        return Err((2, 0));
    }
    let (nodes_at, texts_at, total) = (nodes_at as usize, texts_at as usize, total as usize);

    let name_words = words(&bytes[32..nodes_at]);
    let names: Vec<NameRecord> = name_words
        .chunks_exact(5)
        .map(|w| NameRecord { start: w[0], length: w[1], role: w[2], p: w[3], q: w[4] })
        .collect();
    let node_words = words(&bytes[nodes_at..texts_at]);
    let nodes: Vec<NodeRecord> = node_words
        .chunks_exact(6)
        .map(|w| NodeRecord { kind: w[0], arg: w[1], children: w[2], end: w[3], span: (w[4], w[5]) })
        .collect();
    let mut all = 0..nodes.len();
    // 14 is no fault of the image: only mistakes look for it here.
    let fourteen = |i: usize| if nodes[i].kind == 30 { Some((14, i)) } else { None };
    if let (Some(fault), true) = (all.clone().find_map(fourteen), mind.slips(RetiredBeforeFour)) {
        return Err(fault);
    }
    let texts = name_texts(&names, &bytes[texts_at..total], texts_at, mind)?;
    if let Some(i) = names.iter().zip(&texts).position(|(name, text)| t_would_panic(name, text, mind)) {
        return Err((5, i));
    }
    if nodes.is_empty() {
        return Err((7, 0));
    }
    let six = |i: usize| if stands(&nodes, i, n, mind) { None } else { Some((6, i)) };
    let seven = |i: usize| nests(&nodes, i, mind).map(|place| (7, place));
    let deepest = match mind {
        Mind(Some(Depth65)) => 65,
        Mind(Some(Depth64Refused)) => 63,
        _ => 64,
    };
    let eight = |i: usize| if depth(&nodes, i) > deepest { Some((8, i)) } else { None };
    let fault = if mind.slips(SixAndSevenTogether) {
        all.clone().find_map(|i| six(i).or_else(|| seven(i))).or_else(|| all.find_map(eight))
    } else if mind.slips(SevenAndEightTogether) {
        all.clone().find_map(six).or_else(|| all.find_map(|i| seven(i).or_else(|| eight(i))))
    } else if mind.slips(EightBeforeSeven) {
        all.clone().find_map(six).or_else(|| all.clone().find_map(eight)).or_else(|| all.find_map(seven))
    } else if mind.slips(LastNodeFirst) {
        let last = all.clone().rev().find_map(six);
        last.or_else(|| all.clone().find_map(seven)).or_else(|| all.find_map(eight))
    } else {
        let mut searches: Vec<&dyn Fn(usize) -> Option<Fault>> = vec![&six, &seven, &eight];
        match mind {
            Mind(Some(RetiredBeforeSix)) => searches.insert(0, &fourteen),
            Mind(Some(RetiredBeforeSeven)) => searches.insert(1, &fourteen),
            Mind(Some(RetiredBeforeEight)) => searches.insert(2, &fourteen),
            _ => {}
        }
        searches.iter().find_map(|search| all.clone().find_map(search))
    };
    match fault {
        Some(fault) => Err(fault),
        None => Ok(Image { names, texts, nodes }),
    }
}

/// Code 4: each text starts where the last ended, and the last ends where the area does.
fn name_texts(names: &[NameRecord], area: &[u8], area_at: usize, mind: Mind) -> Result<Vec<Vec<u8>>, Fault> {
    let mut texts: Vec<Vec<u8>> = Vec::new();
    let mut from = 0;
    for (i, name) in names.iter().enumerate() {
        let no_p = name.p == 0 || mind.slips(UnusedPPasses);
        let no_q = name.q == 0 || mind.slips(UnusedQPasses);
        let role_stands = match name.role {
            0 | 3 => no_p && no_q,
            1 | 4 => no_q,
            2 => name.p <= name.q || !mind.slips(PAboveQRefused),
            _ => mind.slips(Role5Passes),
        };
        let start = if mind.slips(TextStartInImage) { area_at + from } else { from };
        let inside = name.start as usize == start && name.length as usize <= area.len() - from;
        let shortest = if mind.slips(EmptyNamePasses) { 0 } else { 1 };
        let longest = if mind.slips(Name65) { 65 } else { 64 };
        if !role_stands || !inside || name.length < shortest || name.length > longest {
            return Err((4, i));
        }
        let text = area[from..from + name.length as usize].to_vec();
        let lowest = if mind.slips(SpacePasses) { 32 } else { 33 };
        let highest = if mind.slips(DeletePasses) { 127 } else { 126 };
        let printable = text.iter().all(|b| *b >= lowest && *b <= highest);
        let ascends = texts.last().map_or(true, |last| match mind {
            Mind(Some(EqualNamesPass)) => *last <= text,
            Mind(Some(OrderUnread)) => true,
            Mind(Some(ShorterFirst)) => (last.len(), last) < (text.len(), &text),
            _ => *last < text,
        });
        if printable && !ascends && mind.slips(OrderAtFirst) {
            return Err((4, i - 1));
        }
        if !printable || !ascends {
            return Err((4, i));
        }
        if mind.slips(FiveBeforeFour) && t_would_panic(name, &text, mind) {
            return Err((5, i));
        }
        from += text.len();
        texts.push(text);
    }
    if from < area.len() && !mind.slips(ShortTextsPass) {
        let place = match mind {
            Mind(Some(ShortTextsAtZero)) => 0,
            Mind(Some(ShortTextsAtLast)) => names.len().saturating_sub(1),
            _ => names.len(),
        };
        return Err((4, place));
    }
    Ok(texts)
}

/// Whether a builtin of this record allows that many arguments.
pub fn allows(name: &NameRecord, count: usize) -> bool {
    let count = count as u32;
    match name.role {
        1 => count == name.p,
        2 => name.p <= count && count <= name.q,
        3 => true,
        _ => false,
    }
}

/// Code 5.
fn t_would_panic(name: &NameRecord, text: &[u8], mind: Mind) -> bool {
    let one: [&[u8]; 6] = [b"int", b"float", b"bool", b"str", b"len", b"assert"];
    let two: [&[u8]; 2] = [b"map", b"filter"];
    let others: [&[u8]; 4] = [b"range", b"input", b"print", b"set"];
    let among = |texts: &[&[u8]]| {
        texts.iter().any(|known| *known == text || (mind.slips(FiveByBeginning) && text.starts_with(known)))
    };
    let takes = |count: usize| {
        let lower = mind.slips(FiveByLowerEnd) && name.role == 2 && name.p as usize <= count;
        let function = mind.slips(FiveForFunctions) && name.role == 4 && name.p as usize == count;
        allows(name, count) || lower || function
    };
    let absent = (among(&one) || among(&two) || (mind.slips(FiveForAll) && among(&others))) && takes(0);
    let single = among(&two) && takes(1) && !mind.slips(FiveAtZeroOnly);
    absent || single
}

/// Code 6: node `i` by itself.
fn stands(nodes: &[NodeRecord], i: usize, name_count: u32, mind: Mind) -> bool {
    let node = &nodes[i];
    let args = match node.kind {
        11 if mind.slips(DefNameUnread) => u32::MAX,
        10 | 11 | 13 | 21 => name_count,
        20 => 5,
        22 => 3,
        23 => 14,
        _ if mind.slips(UnusedArgPasses) => u32::MAX,
        _ => 1,
    };
    let known = (1..=13).contains(&node.kind) || (20..=32).contains(&node.kind);
    let spanless = (node.kind == 12 || node.kind == 13) && !mind.slips(BlockSpansPass);
    let span_stands = (!spanless || node.span == (0, 0)) && (!mind.slips(SpansRead) || node.span.0 <= node.span.1);
    let end_stands = node.end as usize > i && (node.end as usize <= nodes.len() || mind.slips(EndPastIsSeven));
    let too_many = mind.slips(LargeCountIsSix) && node.children as usize > nodes.len() - i - 1;
    let no_root = mind.slips(RootKindIsSix) && i == 0 && node.kind != 12;
    let count = mind.slips(CountIsSeven) || count_stands(node, mind);
    known && node.arg < args && count && span_stands && end_stands && !too_many && !no_root
}

fn count_stands(node: &NodeRecord, mind: Mind) -> bool {
    let c = node.children;
    match node.kind {
        1..=4 | 13 | 20 | 21 | 32 => c == 0,
        6 | 7 | 22 | 25 => c == 1,
        5 | 9 | 10 | 23 | 31 => c == 2,
        8 => c >= 2,
        11 | 24 => c >= 1,
        27 => c % 2 == 0 || mind.slips(OddDictPasses),
        _ => true,
    }
}

/// Code 7: none if the children of node `i` have business there and land on its end, else the place.
fn nests(nodes: &[NodeRecord], i: usize, mind: Mind) -> Option<usize> {
    let parent = &nodes[i];
    let ends = parent.end as usize == nodes.len() || mind.slips(RootEndUnread);
    if i == 0 && (parent.kind != 12 || !ends) {
        return Some(0);
    }
    if mind.slips(CountIsSeven) && !count_stands(parent, mind) {
        return Some(i);
    }
    if mind.slips(LeavesUnread) && parent.children == 0 {
        return None;
    }
    let statement = 1..=11;
    let expression = 20..=32;
    let mut at = i + 1;
    let mut params: Vec<u32> = Vec::new();
    for nth in 1..=parent.children {
        if at >= parent.end as usize || at >= nodes.len() {
            return Some(i);
        }
        let k = nodes[at].kind;
        let last = nth == parent.children;
        let business = match parent.kind {
            8 if last && mind.slips(IfWithoutBlock) => k == 12 || expression.contains(&k),
            8 if nth % 2 == 0 || last => k == 12,
            9 | 10 if last => k == 12,
            11 if last => k == 12,
            11 => k == 13,
            12 => statement.contains(&k) || (k == 12 && mind.slips(BlockInBlock)),
            _ => expression.contains(&k),
        };
        if !business {
            return Some(if mind.slips(SevenAtChild) { at } else { i });
        }
        if k == 13 && mind.slips(EqualParamsRefused) {
            if params.contains(&nodes[at].arg) {
                return Some(i);
            }
            params.push(nodes[at].arg);
        }
        at = nodes[at].end as usize;
    }
    if at == parent.end as usize && at <= nodes.len() {
        None
    } else {
        Some(i)
    }
}

/// How many nodes hold node `i`, itself among them.
fn depth(nodes: &[NodeRecord], i: usize) -> usize {
    (0..=i).filter(|j| nodes[*j].end as usize > i).count()
}
