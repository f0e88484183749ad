//! Odd models: every limit of document 01 at its edge and one over, empty bodies, claims that can't be met.

use crate::good::Made;
use crate::random::Random;
use crate::records::*;

const EDGES: [u32; 8] = [0, 1, 2, 999_999, 1_000_000, 1_000_001, i32::MAX as u32, u32::MAX];

pub fn model(random: &mut Random) -> Made {
    let records = match random.weighed(&[4, 16, 5, 5, 1, 4, 6]) {
        0 => many(random),
        1 => edges(random),
        2 => deep(random),
        3 => heavy(random),
        4 => long(random),
        5 => empty(random),
        _ => unmet(random),
    };
    // Long enough for a body of 1,024 actions to come to its end.
    let limit = random.pick(&[0, 1, 50, 300, 300, 4_000]);
    Made { records, limit }
}

/// How many declarations the ground has.
const GROUND: usize = 7;

/// One of each thing, a class with an entity, and its body with these actions; behind them some blocks.
fn ground(random: &mut Random, actions: Vec<Record>, blocks: usize) -> Vec<Record> {
    let things = [declared(RES, 5), declared(BIN, 5), record(SYNC, &[]), declared(VAR, 0), sampler(0, 3, 1)];
    let mut records = [&things[..], &[class(0), entity(0, 0)]].concat();
    assert_eq!(records.len(), GROUND);
    for i in (1..records.len()).rev() {
        records.swap(i, random.below(i + 1));
    }
    records.push(block());
    records.extend(actions);
    records.extend((0..blocks).map(|_| block()));
    records
}

/// As many of one kind as there may be, one fewer, or one more.
fn many(random: &mut Random) -> Vec<Record> {
    let (kind, limit) = random.pick(&[
        (RES, 32),
        (BIN, 32),
        (SYNC, 32),
        (VAR, 32),
        (CLASS, 64),
        (ENTITY, 64),
        (SAMPLER, 16),
        (BLOCK, 256),
        (TRACE, 1_024),
    ]);
    let mut records = ground(random, Vec::new(), 0);
    let there = usize::from(kind != TRACE);
    let more = limit - there - 1 + random.pick(&[0, 1, 1, 2]);
    let at = if matches!(kind, BLOCK | TRACE) { records.len() } else { random.below(GROUND) };
    for _ in 0..more {
        let new = match kind {
            RES | BIN | VAR => declared(kind, random.below(4) as u32),
            CLASS => class(0),
            ENTITY => entity(0, random.below(2) as u32),
            SAMPLER => sampler(0, random.below(4) as i32, 1 + random.below(4) as u32),
            TRACE => any_action(random),
            _ => record(kind, &[]),
        };
        records.insert(at, new);
    }
    records
}

/// Any action on the ground's things that ends by itself.
fn any_action(random: &mut Random) -> Record {
    match random.below(6) {
        0 => valued(TRACE, &literal(1)),
        1 => set(SET, 0, &literal(1)),
        2 => valued(PRIO, &literal(1)),
        3 => put(PUTB, 0, 1),
        4 => valued(TRACE, &node(DRAW, 0)),
        _ => valued(HOLD, &literal(random.below(2) as i32)),
    }
}

// ---- every field at its edge

/// One action, some of whose fields are at an edge or beyond; a declaration so in some models.
fn edges(random: &mut Random) -> Vec<Record> {
    let blocks = random.from_to(1, 2);
    let mut actions: Vec<Record> = (0..random.below(3)).map(|_| any_action(random)).collect();
    actions.push(edge_action(random));
    actions.extend((0..random.below(2)).map(|_| any_action(random)));
    let mut records = ground(random, actions, blocks);
    if random.one_in(4) {
        let at = random.below(GROUND + 1);
        records.insert(at, edge_declaration(random));
    }
    records
}

fn edge_declaration(random: &mut Random) -> Record {
    match random.below(5) {
        0 => declared(RES, random.pick(&EDGES)),
        1 => declared(BIN, random.pick(&EDGES)),
        2 => class(random.pick(&[0, 1, 2, 3, 255, 256, u16::MAX])),
        3 => edge_sampler(random),
        _ => entity(random.pick(&[0, 0, 1, u16::MAX]), random.pick(&EDGES)),
    }
}

/// One of its fields is at an edge or beyond.
fn edge_sampler(random: &mut Random) -> Record {
    let lowest = random.pick(&[0, 4, -1, i32::MIN, i32::MAX - 1_000_000]);
    let seed = random.pick(&[1, 2, 2_147_483_645]);
    if random.one_in(2) {
        return sampler(lowest, lowest + 3, random.pick(&[0, 0, 1, 2_147_483_646, 2_147_483_647, 2_147_483_648, u32::MAX]));
    }
    let by = random.pick(&[-1, -1, 0, 1, 999_999, 1_000_000, 1_000_001, i32::MIN, i32::MAX]);
    sampler(lowest, lowest.wrapping_add(by), seed)
}

fn number(random: &mut Random) -> u16 {
    random.pick(&[0, 0, 0, 0, 0, 0, 1, 256, u16::MAX])
}

fn amount(random: &mut Random) -> u32 {
    if random.one_in(3) {
        return random.pick(&EDGES);
    }
    random.from_to(1, 3) as u32
}

fn any_item(random: &mut Random) -> Item {
    let kind = random.pick(&[GET_R, GET_R, GET_B, GET_S, CONDITION, CONDITION, 4, 255]);
    let relation = match (kind, random.one_in(8)) {
        (_, true) => random.pick(&[0, 1, 6, 7, 255]),
        (CONDITION, _) => random.from_to(1, 6) as u8,
        _ => 0,
    };
    Item {
        kind: if kind > 3 && !random.one_in(3) { GET_R } else { kind },
        relation,
        number: number(random),
        amount: amount(random) as i32,
    }
}

fn any_claim(random: &mut Random) -> Claim {
    let many = random.pick(&[0, 1, 1, 1, 2, 2, 3, 4, 5]);
    let mut claim: Claim = (0..many).map(|_| any_item(random)).collect();
    if !random.one_in(3) {
        // Each kind but conditions once: else most claims would name a thing twice.
        let mut seen = [false; 256];
        claim.retain(|item| item.kind == CONDITION || !std::mem::replace(&mut seen[usize::from(item.kind)], true));
    }
    claim
}

fn any_tree(random: &mut Random) -> Vec<u8> {
    if random.one_in(4) {
        // A spine of so many nodes, of one leaf or of two at each node.
        let nodes = random.pick(&[0, 1, 14, 15, 16, 17, 18]);
        if random.one_in(2) && nodes > 0 {
            return [node(NEGATE, 0).repeat(nodes - 1), literal(1)].concat();
        }
        return [node(ADD, 0).repeat(nodes / 2), literal(1).repeat(nodes - nodes / 2)].concat();
    }
    let op =
        random.pick(&[LITERAL, GLOBAL, LOCAL, ADD, SUBTRACT, MULTIPLY, LESSER, GREATER, CLOCK, NEGATE, DRAW, DRAW, 11, 256]);
    let operand = match (op, random.one_in(4)) {
        (_, true) => random.pick(&[0, 1, 7, 8, 15, 16, 31, 32, -1, i32::MIN, i32::MAX, 65_536]),
        (LITERAL, _) => random.below(5) as i32,
        _ => 0,
    };
    let below = match op {
        ADD..=GREATER => 2,
        NEGATE => 1,
        _ => 0,
    };
    let below = if random.one_in(12) { random.below(4) } else { below };
    let leaves = [literal(3), node(CLOCK, 0), literal(i32::MAX), literal(i32::MIN), node(DRAW, 0)];
    let leaf = leaves[random.below(leaves.len())].clone();
    [node(op, operand), leaf.repeat(below)].concat()
}

fn named_block(random: &mut Random) -> u16 {
    random.pick(&[0, 1, 1, 1, 1, 2, 2, 3, 256, u16::MAX])
}

fn edge_action(random: &mut Random) -> Record {
    let kind = random.from_to(usize::from(HOLD), usize::from(CLOSE)) as u16;
    match kind {
        HOLD | PRIO | TRACE => valued(kind, &any_tree(random)),
        SET => set(kind, number(random), &any_tree(random)),
        LSET => set(kind, random.pick(&[0, 7, 7, 8, u16::MAX]), &any_tree(random)),
        DO => do_block(random.pick(&[0, 1, 2, 255, 256, u16::MAX]), named_block(random)),
        PUTR | PUTB => put(kind, number(random), amount(random)),
        PUTS => puts(number(random), random.pick(&[0, 1, 63, 64, 65, u16::MAX])),
        BECOME => become_slave(number(random)),
        REQ => req(&any_claim(random)),
        TRY => {
            let many = random.pick(&[0, 1, 1, 2, 2, 3, 4, 4, 5]);
            let branches: Vec<_> = (0..many).map(|_| (named_block(random), any_claim(random))).collect();
            try_branches(&branches)
        }
        WHILE => while_block(named_block(random), &any_claim(random)),
        START => {
            let many = random.pick(&[0, 0, 1, 1, 2, 4, 5]);
            let shares: Vec<_> =
                (0..many).map(|i| (if random.one_in(4) { i } else { number(random) }, amount(random))).collect();
            start(random.pick(&[0, 0, 0, 1, u16::MAX]), random.pick(&EDGES), &shares)
        }
        _ => close(),
    }
}

// ---- depth and weight

/// A chain of blocks, each named by the one before, and classes that begin somewhere on it.
fn deep(random: &mut Random) -> Vec<Record> {
    let blocks: usize = random.pick(&[7, 8, 8, 9, 9, 10, 30, 256]);
    let bodies: Vec<usize> = (0..random.from_to(1, 3))
        .map(|_| match random.below(3) {
            0 => 0,
            1 => blocks.saturating_sub(random.from_to(7, 10)),
            _ => random.below(blocks),
        })
        .collect();
    let mut records: Vec<Record> = bodies.iter().map(|body| class(*body as u16)).collect();
    records.push(declared(RES, 1));
    records.extend((0..bodies.len()).map(|of| entity(of as u16, 0)));
    for own in 0..blocks {
        records.push(block());
        if own + 1 < blocks {
            if random.one_in(4) {
                records.push(any_named(random, own, blocks));
            }
            let next = own as u16 + 1;
            let claim = [item(GET_R, 0, 2)];
            records.push(match random.below(6) {
                0 => try_branches(&[(next, Vec::new())]),
                1 => while_block(next, &claim),
                2 => do_block(0, next),
                3 => try_branches(&[(next, claim.to_vec()), (next, Vec::new())]),
                _ => do_block(1, next),
            });
        }
    }
    records
}

/// A DO of any later block, once in a while of one that isn't later.
fn any_named(random: &mut Random, own: usize, blocks: usize) -> Record {
    let named = if random.one_in(60) { random.below(own + 1) } else { random.from_to(own + 1, blocks - 1) };
    do_block(random.pick(&[0, 1]), named as u16)
}

/// A bound of just 4,294,967,295, one or two more or fewer; or DOs nested so that weights go far beyond.
fn heavy(random: &mut Random) -> Vec<Record> {
    if random.one_in(3) {
        return heaviest(random);
    }
    let total = (1u64 << 32) - 3 + random.below(5) as u64;
    let outer = random.from_to(60_000, 65_535) as u64;
    // The class is 1, the DO 1 and `outer` times a round; what is left is a DO of an empty block, once more 1.
    let round = (total - 3) / outer;
    let rest = total - 3 - outer * round;
    // A round is a block and 1; the block is a DO of an empty block, so 1 and its rounds, and some actions of weight 1.
    let few = (round - 2).saturating_sub(65_535);
    let mut records = vec![class(0), entity(0, 0), block()];
    records.push(do_block(outer as u16, 1));
    records.push(do_block(rest as u16, 2));
    records.push(block());
    records.push(do_block((round - 2 - few) as u16, 2));
    records.extend((0..few).map(|_| valued(PRIO, &literal(0))));
    records.push(block());
    records
}

fn heaviest(random: &mut Random) -> Vec<Record> {
    let blocks = random.from_to(2, 8);
    let mut records = vec![declared(RES, 1), declared(BIN, 0), class(0)];
    records.extend((0..random.from_to(1, 64)).map(|_| entity(0, 0)));
    for own in 0..blocks as u16 {
        records.push(block());
        let many = random.pick(&[0, 1, 2]);
        records.extend((0..many).map(|_| any_action_of_weight(random)));
        if usize::from(own) + 1 < blocks {
            for _ in 0..random.from_to(1, 2) {
                records.push(do_block(random.pick(&[0, 1, 2, 16, 256, 65_535]), own + 1));
            }
        }
    }
    records
}

fn any_action_of_weight(random: &mut Random) -> Record {
    match random.below(3) {
        0 => put(PUTB, 0, 1),
        1 => req(&[item(GET_R, 0, 2)]),
        _ => valued(HOLD, &literal(1)),
    }
}

// ---- long and empty

/// A file of about 65,535 bytes: a TRY of 4 branches of 4 items has 150 bytes.
fn long(random: &mut Random) -> Vec<Record> {
    let claim: Claim = (0..4).map(|i| item(GET_R, i, 1)).collect();
    let branches: Vec<_> = (0..4).map(|_| (1, claim.clone())).collect();
    let wide = try_branches(&branches);
    let mut records: Vec<Record> = (0..4).map(|_| declared(RES, 1)).collect();
    records.extend([class(0), entity(0, 0), block()]);
    let wanted = random.pick(&[65_534, 65_535, 65_536, 65_537, 66_000, 65_530]);
    let size = |records: &[Record]| records.iter().map(Vec::len).sum::<usize>();
    while size(&records) + wide.len() + 160 < wanted {
        records.push(wide.clone());
    }
    while size(&records) + 4 + 24 < wanted {
        records.push(valued(TRACE, &literal(1)));
    }
    // A TRACE has 10 bytes and a CLOSE 4: any even size can be filled.
    if (wanted - size(&records)) % 4 == 2 {
        records.push(valued(TRACE, &literal(1)));
    }
    while size(&records) + 4 + 4 <= wanted {
        records.push(close());
    }
    records.push(block());
    let left = wanted - size(&records);
    records.push(vec![0; left]);
    if random.one_in(3) {
        let at = random.from_to(7, records.len() - 3);
        records[at].push(0);
    }
    records
}

fn empty(random: &mut Random) -> Vec<Record> {
    match random.below(7) {
        0 => Vec::new(),
        1 => vec![block()],
        2 => vec![declared(RES, 1), declared(VAR, 7)],
        3 => vec![class(0), entity(0, 1_000_000), entity(0, 0), block()],
        4 => vec![class(1), entity(0, 0), block(), block(), block()],
        5 => vec![class(0), block(), close()],
        _ => {
            let rounds = random.pick(&[0, 1, 3, 65_535]);
            vec![class(0), entity(0, 0), block(), do_block(rounds, 1), block()]
        }
    }
}

/// Claims that nothing can ever meet, and claims of nothing.
fn unmet(random: &mut Random) -> Vec<Record> {
    let mut actions = Vec::new();
    for _ in 0..random.from_to(1, 3) {
        let claim = match random.below(5) {
            0 => vec![item(GET_R, 0, 6)],
            1 => vec![item(GET_B, 0, 1_000_000)],
            2 => vec![item(GET_S, 0, 65)],
            3 => vec![Item { kind: CONDITION, relation: 1, number: 0, amount: i32::MIN }],
            _ => Vec::new(),
        };
        actions.push(match random.below(4) {
            0 => req(&claim),
            1 => while_block(1, &claim),
            2 => try_branches(&[(1, claim.clone()), (1, vec![item(GET_R, 0, 1_000_000)])]),
            _ => try_branches(&[(1, vec![item(GET_R, 0, 7)]), (1, claim)]),
        });
    }
    let mut records = ground(random, actions, 1);
    records.insert(GROUND, class(0));
    records.insert(GROUND + 1, entity(1, 1));
    records
}
