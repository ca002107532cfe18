//! What more rain can't do: facts about the old repair, in the comparison of the receiver.

use crate::gen::{self, Rng};
use crate::harness::{bare, equal, holds, same, Met, Run};
use crate::lengthen::limit_table;
use crate::merge::{rained, repair_of, with_deaf, wrong, Held};
use crate::model::{self, Repaired, Table, Turns};
use crate::why::some_table;
use crate::{aged, contradicts, dirty_work, full_repair_alone, lose, map_of, ok, packet_of};
use crate::{places_lost, repair_alone, worked_tables, zeroed, A, A4, B};

/// The library's answer, and the block and map that it left.
type Left = (Repaired, Held);

static BOUND: Met = Met::new("rain, as many additions as there can be");
static BOUND_EMPTY: Met = Met::new("rain, as many additions as there can be, an empty check");
static OTHER_COST: Met = Met::new("rain, an order of other additions");
static OTHER_BLOCK: Met = Met::new("rain, an order of another block where packets contradict");
static EIGHT: Met = Met::new("rain, 8");
static BLAMED: Met = Met::new("rain, a blamed place");
static NOT_SEEN: Met = Met::new("rain, a wrong packet that isn't seen");
static NO_CODEWORD: Met = Met::new("rain, accepted though no codeword agrees");
static BROUGHT: Met = Met::new("rain, a place restored by more received ones");

pub static ALL_MET: [&Met; 9] = [
    &BOUND,
    &BOUND_EMPTY,
    &OTHER_COST,
    &OTHER_BLOCK,
    &EIGHT,
    &BLAMED,
    &NOT_SEEN,
    &NO_CODEWORD,
    &BROUGHT,
];

// ------------------------------------------------------------- the library

/// C-23's bound holds of these additions.
pub fn within_bound(table: &[u16], additions: u32) -> Result<(), String> {
    let most = model::most_additions(table);
    let met = additions > 0 && additions as usize == most;
    BOUND.count_if(met);
    BOUND_EMPTY.count_if(met && table[4..4 + table[3] as usize].contains(&0));
    holds(&format!("{additions} additions, at most {most}"), additions as usize <= most)
}

/// The library's repair of packets that don't contradict: accepted, and nobody is blamed.
fn repaired(rng: &mut Rng, t: &Table, before: &Held) -> Result<Left, String> {
    let words = gen::words(t);
    let (answer, block, map) = repair_alone(rng, &words, &before.block, &before.map)?;
    same("no contradiction", &answer.refusal, &0)?;
    holds("nobody is blamed", !map.contains(&3))?;
    within_bound(&words, answer.additions)?;
    Ok((answer, Held { block, map }))
}

/// The same of packets of one codeword: what is known afterwards is as it was sent.
fn of_codeword(rng: &mut Rng, t: &Table, sent: &[u8], map: &[u8]) -> Result<Left, String> {
    let before = rained(rng, t.s, sent, map.to_vec());
    let (answer, after) = repaired(rng, t, &before)?;
    equal("as sent", &after.block, &zeroed(sent, t.s, &places_lost(&after.map)))?;
    Ok((answer, after))
}

/// A block with old bytes at lost places.
fn without(t: &Table, block: &[u8], lost: &[usize]) -> Held {
    Held { block: aged(block, t.s, lost), map: map_of(t.n, lost) }
}

/// What the library tells of packets, whatever they are.
struct Told {
    /// What repair left, if the packets don't contradict.
    left: Option<Left>,
    /// The check and the byte that fail, if they do.
    fails: Option<(u32, u32)>,
    /// The places that stay lost: those of a block of zeros.
    lost: Vec<usize>,
}

/// Packets contradict if repair refuses them with 8 or blames a place. Exactly then merging
/// with a listener who heard nothing refuses them; else it answers the same.
fn told(rng: &mut Rng, t: &Table, before: &Held) -> Result<Told, String> {
    let words = gen::words(t);
    let (answer, block, map) = repair_alone(rng, &words, &before.block, &before.map)?;
    let contradict = answer.refusal == 8 || map.contains(&3);
    let (merged, _) = with_deaf(rng, &words, before)?;
    if contradict {
        same("merged", &merged.refusal, &8)?;
    } else {
        same("merged", &repair_of(&merged), &answer)?;
    }
    let zeros = Held { block: vec![0; before.block.len()], map: before.map.clone() };
    let (_, of_zeros) = repaired(rng, t, &zeros)?;
    EIGHT.count_if(answer.refusal == 8);
    BLAMED.count_if(map.contains(&3));
    Ok(Told {
        left: (!contradict).then_some((answer, Held { block, map })),
        fails: contradict.then_some((merged.check, merged.byte)),
        lost: places_lost(&of_zeros.map),
    })
}

// --------------------------------------------------------------- any order

/// Which of the checks with one lost place is taken at a turn. The library takes the lowest.
/// Next goes through the checks from the lowest to the highest, again and again.
#[derive(Clone, Copy, Debug)]
enum Order {
    Lowest,
    Highest,
    Heaviest,
    Lightest,
    Next,
    Any,
}

const ORDERS: [Order; 7] = [
    Order::Any,
    Order::Highest,
    Order::Heaviest,
    Order::Lightest,
    Order::Next,
    Order::Lowest,
    Order::Any,
];

fn in_order(rng: &mut Rng, t: &Table, before: &Held, order: Order) -> Turns {
    let mut last = 0;
    let weight = |check: &&usize| t.checks[**check].len();
    model::by_turns(t, &before.block, &before.map, |ready| {
        last = match order {
            Order::Lowest => ready[0],
            Order::Highest => ready[ready.len() - 1],
            Order::Heaviest => *ready.iter().max_by_key(weight).unwrap(),
            Order::Lightest => *ready.iter().min_by_key(weight).unwrap(),
            Order::Next => *ready.iter().find(|check| **check > last).unwrap_or(&ready[0]),
            Order::Any => rng.pick(ready),
        };
        last
    })
}

/// What an order leaves: contradiction and lost places are as the library tells, and its
/// turns are as many as places come back. Without contradiction block and map are the
/// library's.
fn as_told(t: &Table, before: &Held, turns: &Turns, told: &Told) -> Result<(), String> {
    let lost = places_lost(&before.map).len();
    let count = turns.taken.len();
    holds(&format!("{count} turns for {lost} lost places"), count <= lost)?;
    same("still lost", &places_lost(&turns.map), &told.lost)?;
    same("turns", &count, &(lost - told.lost.len()))?;
    within_bound(&gen::words(t), turns.additions as u32)?;
    same("contradiction", &turns.contradiction(t).is_some(), &told.fails.is_some())?;
    let Some((answer, after)) = &told.left else { return Ok(()) };
    let counts = [answer.restored, answer.lost].map(|count| count as usize);
    same("counts", &counts, &[count, told.lost.len()])?;
    equal("map", &turns.map, &after.map)?;
    equal("block", &turns.block, &after.block)
}

/// Several orders. The additions are those of the lowest check at each turn; so are check
/// and byte if packets contradict.
fn in_orders(rng: &mut Rng, t: &Table, before: &Held) -> Result<Told, String> {
    let told = told(rng, t, before)?;
    let lowest = in_order(rng, t, before, Order::Lowest);
    same("check and byte", &told.fails, &lowest.contradiction(t))?;
    if let Some((answer, _)) = &told.left {
        same("additions", &(answer.additions as usize), &lowest.additions)?;
    }
    // Bare buffers: one.
    let most = if bare() { 1 } else { ORDERS.len() };
    for order in ORDERS.into_iter().take(most) {
        let turns = in_order(rng, t, before, order);
        as_told(t, before, &turns, &told).map_err(|what| format!("{order:?}: {what}"))?;
        OTHER_COST.count_if(told.left.is_some() && turns.additions != lowest.additions);
        OTHER_BLOCK.count_if(turns.block != lowest.block);
    }
    Ok(told)
}

/// All orders there are: what each leaves. For small tables.
fn in_every_order(rng: &mut Rng, t: &Table, before: &Held) -> Result<Vec<Turns>, String> {
    let told = told(rng, t, before)?;
    let most = places_lost(&before.map).len();
    let mut ends = Vec::new();
    let mut under_way = vec![Turns::none(t, &before.block, &before.map)];
    while let Some(turns) = under_way.pop() {
        let at = |what| format!("lost {:?}, taken {:?}: {what}", before.map, turns.taken);
        let ready = turns.ready(t);
        if ready.is_empty() {
            as_told(t, before, &turns, &told).map_err(at)?;
            ends.push(turns);
            continue;
        }
        holds("a turn for each lost place", turns.taken.len() < most).map_err(at)?;
        for check in ready {
            let mut next = turns.clone();
            next.take(t, check);
            under_way.push(next);
        }
    }
    Ok(ends)
}

// ----------------------------------------------------------- more received

/// Where more was received no place is lost that was known with fewer, its packet is the
/// same, and no more places are lost.
fn no_less_known(s: usize, (few, fewer): &Left, (many, more): &Left) -> Result<(), String> {
    same("lost with more", &model::lost_with_more(&fewer.map, &more.map), &vec![])?;
    holds(&format!("{} lost, then {}", few.lost, many.lost), many.lost <= few.lost)?;
    for p in (0..fewer.map.len()).filter(|p| fewer.map[*p] != 1) {
        equal("packet with more", packet_of(&more.block, s, p), packet_of(&fewer.block, s, p))?;
    }
    BROUGHT.count_if(fewer.map.iter().zip(&more.map).any(|marks| marks == (&1, &2)));
    Ok(())
}

/// Rain takes one place after another: so many of the maps on the way.
fn more_and_more(rng: &mut Rng, n: usize, many: usize) -> Vec<Vec<u8>> {
    let mut places: Vec<usize> = (0..n).collect();
    rng.shuffle(&mut places);
    let counts = rng.some_below(n + 1, many);
    let (mut map, mut maps) = (vec![0; n], Vec::new());
    for count in 0..=n {
        if counts.contains(&count) {
            maps.push(map.clone());
        }
        if let Some(p) = places.get(count) {
            map[*p] = 1;
        }
    }
    maps
}

/// Packets of one codeword under such maps, each repaired by itself.
fn rain_falls(
    rng: &mut Rng,
    t: &Table,
    sent: &[u8],
    maps: &[Vec<u8>],
) -> Result<Vec<Left>, String> {
    let mut left: Vec<Left> = Vec::new();
    for map in maps {
        let fewer = of_codeword(rng, t, sent, map)?;
        for more in left.first().into_iter().chain(left.last()) {
            no_less_known(t.s, &fewer, more)?;
        }
        left.push(fewer);
    }
    Ok(left)
}

/// A byte of 0 or 1 for each place: a map, or a block.
fn bytes_of(n: usize, bits: usize) -> Vec<u8> {
    (0..n).map(|p| (bits >> p & 1) as u8).collect()
}

/// Every pair of maps of which one has received all that the other has.
fn every_nested_pair(rng: &mut Rng, t: &Table, sent: &[u8]) -> Result<(), String> {
    let all = 0usize..1 << t.n;
    let left: Vec<Left> = all
        .clone()
        .map(|bits| of_codeword(rng, t, sent, &bytes_of(t.n, bits)))
        .collect::<Result<_, _>>()?;
    for few in all {
        for many in (0..=few).filter(|many| many & few == *many) {
            let at = |what| format!("lost {few:b} and {many:b}: {what}");
            no_less_known(t.s, &left[few], &left[many]).map_err(at)?;
        }
    }
    Ok(())
}

// ----------------------------------------------------- whatever the packets

/// Packets that need not agree with any codeword, but don't contradict: those of each check
/// that has no place still lost sum to zero.
fn not_judged(rng: &mut Rng, t: &Table, after: &[u8]) -> Vec<u8> {
    let judged = |check: &&Vec<usize>| check.iter().all(|p| after[*p] != 1);
    let checks = t.checks.iter().filter(judged).cloned().collect();
    gen::codeword(rng, &Table { n: t.n, s: t.s, checks })
}

/// Other packets of any size under the same checks and map, and other old bytes: the report
/// is the same, and so is the map afterwards.
fn whatever_the_packets(
    rng: &mut Rng,
    t: &Table,
    s: usize,
    map: &[u8],
    (answer, after): &Left,
) -> Result<(), String> {
    let t = Table { s, ..t.clone() };
    let (sent, zeros) = (gen::codeword(rng, &t), vec![0; t.n * s]);
    let other = not_judged(rng, &t, &after.map);
    for (name, held) in [
        ("a codeword", rained(rng, s, &sent, map.to_vec())),
        ("other old bytes", without(&t, &sent, &places_lost(map))),
        ("not judged", rained(rng, s, &other, map.to_vec())),
        ("zeros at received places", rained(rng, s, &zeros, map.to_vec())),
        ("zeros", Held { block: zeros.clone(), map: map.to_vec() }),
    ] {
        let at = |what| format!("{name}, size {s}: {what}");
        let (told, then) = repaired(rng, &t, &held).map_err(at)?;
        same("report", &told, answer).map_err(at)?;
        equal("map", &then.map, &after.map).map_err(at)?;
    }
    Ok(())
}

// ------------------------------------------------------------ random cases

/// Packets of one codeword in several orders; at times about as many lost as come back, so
/// that there are many turns.
fn order_case(rng: &mut Rng) -> Result<(), String> {
    let (t, map) = if rng.once_in(3) {
        let (t, share) = (gen::half_rate(rng), rng.range(25, 45));
        let lost = rng.some_below(t.n, t.n * share / 100);
        let map = map_of(t.n, &lost);
        (t, map)
    } else {
        let t = some_table(rng);
        let map = lose(rng, t.n);
        (t, map)
    };
    let sent = gen::codeword(rng, &t);
    let before = rained(rng, t.s, &sent, map);
    let told = in_orders(rng, &t, &before)?;
    same("packets of one codeword", &told.fails, &None)
}

/// Some of them wrong. Each received place is tried by repair, so only with few.
fn wrong_case(rng: &mut Rng) -> Result<(), String> {
    let t = loop {
        let t = some_table(rng);
        if t.n <= 60 {
            break t;
        }
    };
    let (sent, map) = (gen::codeword(rng, &t), lose(rng, t.n));
    let block = wrong(rng, t.s, &sent, &[1, 1, 2, 4]);
    let before = rained(rng, t.s, &block, map);
    let told = in_orders(rng, &t, &before)?;
    let off = |p: usize| packet_of(&block, t.s, p) != packet_of(&sent, t.s, p);
    let wrong_received = (0..t.n).any(|p| before.map[p] == 0 && off(p));
    NOT_SEEN.count_if(told.fails.is_none() && wrong_received);
    Ok(())
}

fn more_case(rng: &mut Rng) -> Result<(), String> {
    let t = some_table(rng);
    let (sent, maps) = (gen::codeword(rng, &t), more_and_more(rng, t.n, 24));
    rain_falls(rng, &t, &sent, &maps).map(|_| ())
}

const SIZES: [usize; 8] = [1, 2, 3, 64, 255, 256, 257, 1024];

fn packets_case(rng: &mut Rng) -> Result<(), String> {
    let t = some_table(rng);
    let (sent, map) = (gen::codeword(rng, &t), lose(rng, t.n));
    let left = of_codeword(rng, &t, &sent, &map)?;
    for _ in 0..2 {
        let any = rng.range(1, model::MAX_SIZE);
        let s = if rng.once_in(2) { any } else { rng.pick(&SIZES) };
        whatever_the_packets(rng, &t, s.min(20_000 / t.n), &map, &left)?;
    }
    // The order doesn't count either where no codeword agrees, if that isn't judged.
    let block = not_judged(rng, &t, &left.1.map);
    let before = rained(rng, t.s, &block, map);
    let told = in_orders(rng, &t, &before)?;
    same("not judged", &told.fails, &None)?;
    let (Held { block, map }, work) = (&before, dirty_work(rng));
    let (full, ..) = full_repair_alone(rng, &gen::words(&t), block, map, &work)?;
    NO_CODEWORD.count_if(full.refusal == 8);
    Ok(())
}

/// Small tables: all nested pairs of maps; all orders, of right packets and of wrong ones.
fn brute_case(rng: &mut Rng) -> Result<(), String> {
    let s = rng.range(1, 3);
    let t = Table { s, ..gen::small_table(rng, 6, 6) };
    let sent = gen::codeword(rng, &t);
    every_nested_pair(rng, &t, &sent)?;
    for wrong_ones in [0, 0, 1, 2] {
        let (block, map) = (wrong(rng, s, &sent, &[wrong_ones]), lose(rng, t.n));
        let before = rained(rng, s, &block, map);
        in_every_order(rng, &t, &before)?;
    }
    Ok(())
}

pub fn random_case(rng: &mut Rng) -> Result<(), String> {
    match rng.below(6) {
        0 | 1 => order_case(rng),
        2 => wrong_case(rng),
        3 => more_case(rng),
        4 => packets_case(rng),
        _ => brute_case(rng),
    }
}

// ------------------------------------------------------------- fixed cases

/// A table of packets of one byte.
fn table(n: usize, checks: &[&[usize]]) -> Table {
    Table { n, s: 1, checks: checks.iter().map(|c| c.to_vec()).collect() }
}

/// Places 0 and 1 come back by two of three checks. The library takes check 1, then 0; with
/// the highest check at each turn nothing is added.
const TWO_COSTS: &[u16] = &[2, 3, 1, 3, 3, 1, 1, 5, 0, 1, 2, 0, 1];

/// Place 0 is a copy of 1, and of 2.
const TWO_WAYS: &[u16] = &[2, 3, 1, 2, 2, 2, 4, 0, 1, 0, 2];

/// A codeword's packets in every order, of which there are so many.
fn orders(t: &Table, lost: &[usize], many: usize) -> Result<(), String> {
    let mut rng = Rng::new(23, 0);
    let sent = gen::codeword(&mut rng, t);
    let before = without(t, &sent, lost);
    let ends = in_every_order(&mut rng, t, &before)?;
    same("orders", &ends.len(), &many)?;
    in_orders(&mut rng, t, &before).map(|_| ())
}

fn order_cases(run: &mut Run) {
    let mut count = |name: &str, t: &Table, lost: &[usize], many: usize| {
        run.fixed(&format!("orders, {name}"), orders(t, lost, many));
    };
    let [a, a4, b, two_costs] = [A, A4, B, TWO_COSTS].map(|words| model::look_over(words).unwrap());
    count("P4", &a, &[3, 5, 6], 1);
    count("P5", &a, &[2, 4, 5], 1);
    // Check 3, then 2; then 0 or 1.
    count("P7", &a4, &[2, 4, 6], 2);
    count("A, each check its own place", &a, &[0, 1, 3], 6);
    count("A, place 6", &a, &[6], 3);
    count("B, 2 and 3", &b, &[2, 3], 4);
    count("nothing lost", &a, &[], 1);
    count("two costs", &two_costs, &[0, 1], 4);
    count("no check", &table(3, &[]), &[0, 1], 1);
    count("empty checks", &table(3, &[&[], &[], &[0, 2], &[]]), &[0, 1], 1);
    // From one end, or from both.
    let chain = table(4, &[&[0, 1], &[1, 2], &[2, 3]]);
    count("a chain, 3 received", &chain, &[0, 1, 2], 1);
    count("a chain, 0 and 3 received", &chain, &[1, 2], 4);
    // Five copies: each turn takes a pair of a known place and a lost one.
    let pairs: Vec<Vec<usize>> =
        (0..5).flat_map(|p| (p + 1..5).map(move |q| vec![p, q])).collect();
    let copies = Table { n: 5, s: 1, checks: pairs };
    count("five copies, one received", &copies, &[0, 1, 3, 4], 4 * 6 * 6 * 4);
    count("five copies, two received", &copies, &[1, 2, 4], 6 * 6 * 4);
}

/// Contradicting packets: the library's answer, and what blocks the orders end in. One
/// order can tell another check and byte than the next, but each tells one.
fn differ(
    words: &[u16],
    block: &[u8],
    lost: &[usize],
    answer: Repaired,
    ends: &[(&[usize], &[u8], (u32, u32))],
) -> Result<(), String> {
    let mut rng = Rng::new(23, 0);
    let t = model::look_over(words).unwrap();
    let before = without(&t, block, lost);
    let (told, ..) = repair_alone(&mut rng, words, &before.block, &before.map)?;
    same("answer", &told, &answer)?;
    let all = in_every_order(&mut rng, &t, &before)?;
    same("orders", &all.len(), &ends.len())?;
    for (taken, block, fails) in ends {
        let end = all.iter().find(|end| end.taken == *taken);
        let got = end.map(|end| (&end.block[..], end.contradiction(&t)));
        same(&format!("taken {taken:?}"), &got, &Some((*block, Some(*fails))))?;
    }
    in_orders(&mut rng, &t, &before).map(|_| ())
}

fn differ_cases(run: &mut Run) {
    run.fixed(
        "two orders, two blocks",
        differ(
            TWO_WAYS,
            &[0, 1, 2],
            &[0],
            contradicts(1, 0),
            &[(&[0], &[1, 1, 2], (1, 0)), (&[1], &[2, 1, 2], (0, 0))],
        ),
    );
    // Place 3 is blamed, as 1 and 2 agree.
    run.fixed(
        "two blocks, one place blamed",
        differ(
            &[2, 4, 1, 3, 2, 2, 2, 6, 0, 1, 0, 2, 0, 3],
            &[0, 5, 5, 9],
            &[0],
            ok(2, 0, 2),
            &[
                (&[0], &[5, 5, 5, 9], (2, 0)),
                (&[1], &[5, 5, 5, 9], (2, 0)),
                (&[2], &[9, 5, 5, 9], (0, 0)),
            ],
        ),
    );
    // The same packets agree at the first byte; 4 and 5 stay lost.
    run.fixed(
        "two blocks, two stay lost",
        differ(
            &[2, 6, 2, 3, 2, 2, 3, 7, 0, 1, 0, 2, 3, 4, 5],
            &[0, 0, 7, 1, 7, 2, 8, 8, 0, 0, 0, 0],
            &[0, 4, 5],
            contradicts(1, 1),
            &[
                (&[0], &[7, 1, 7, 1, 7, 2, 8, 8, 0, 0, 0, 0], (1, 1)),
                (&[1], &[7, 2, 7, 1, 7, 2, 8, 8, 0, 0, 0, 0], (0, 1)),
            ],
        ),
    );
}

/// Additions: the library's, the fewest and the most of any order, and the bound.
fn costs(words: &[u16], lost: &[usize], expected: [usize; 4]) -> Result<(), String> {
    let mut rng = Rng::new(23, 0);
    let t = model::look_over(words).unwrap();
    let sent = gen::codeword(&mut rng, &t);
    let before = without(&t, &sent, lost);
    let (answer, _) = repaired(&mut rng, &t, &before)?;
    let ends = in_every_order(&mut rng, &t, &before)?;
    let additions = || ends.iter().map(|end| end.additions);
    let (fewest, most) = (additions().min().unwrap(), additions().max().unwrap());
    let bound = model::most_additions(words);
    same("additions", &[answer.additions as usize, fewest, most, bound], &expected)
}

fn cost_cases(run: &mut Run) {
    let mut cost = |name: &str, words: &[u16], lost: &[usize], expected: [usize; 4]| {
        run.fixed(&format!("additions, {name}"), costs(words, lost, expected));
    };
    // As many as there can be. An empty check doesn't make them fewer.
    cost("P4", A, &[3, 5, 6], [9; 4]);
    let with_empty = [2, 7, 1, 4, 4, 0, 4, 4, 12, 0, 2, 4, 6, 1, 2, 5, 6, 3, 4, 5, 6];
    cost("P4, an empty check", &with_empty, &[3, 5, 6], [9; 4]);
    let chain = [2, 4, 1, 5, 2, 0, 2, 0, 2, 6, 2, 3, 1, 2, 0, 1];
    cost("a chain, two empty checks", &chain, &[0, 1, 2], [3; 4]);
    let each = [2, 2, 1, 3, 0, 1, 2, 3, 0, 0, 1];
    cost("weights 0, 1 and 2", &each, &[0, 1], [1; 4]);
    cost("one pair", &[2, 2, 1, 1, 2, 2, 0, 1], &[1], [1; 4]);
    // Nothing is ever added.
    cost("P9", &[2, 1, 1, 1, 1, 1, 0], &[0], [0; 4]);
    cost("P9, nothing lost", &[2, 1, 1, 1, 1, 1, 0], &[], [0; 4]);
    cost("P10", &[2, 3, 1, 0, 0], &[1], [0; 4]);
    cost("one empty check", &[2, 2, 1, 1, 0, 0], &[0], [0; 4]);
    // Fewer.
    cost("A, place 2", A, &[2], [3, 3, 3, 9]);
    cost("A, nothing lost", A, &[], [0, 0, 0, 9]);
    cost("P5", A, &[2, 4, 5], [0, 0, 0, 9]);
    cost("P7", A4, &[2, 4, 6], [9, 9, 9, 12]);
    cost("B", B, &[2, 3], [4, 4, 4, 6]);
    cost("twice the same", &[2, 2, 1, 2, 2, 2, 4, 0, 1, 0, 1], &[0], [1, 1, 1, 2]);
    // Another order costs other additions.
    cost("two costs", TWO_COSTS, &[0, 1], [2, 0, 2, 2]);
    cost("the heavier check later", &[2, 2, 1, 2, 1, 2, 3, 0, 0, 1], &[0], [0, 0, 1, 1]);
    let between = [2, 4, 1, 3, 3, 4, 2, 9, 0, 1, 3, 0, 1, 2, 3, 0, 1];
    cost("the heaviest check between", &between, &[0], [2, 1, 3, 6]);
}

/// Checks of this weight, each with a place of its own, which come last.
fn own_places(n: usize, m: usize, weight: usize) -> Vec<Vec<usize>> {
    let others = n - m;
    let check = |c: usize| {
        let mut check: Vec<usize> = (0..weight - 1).map(|i| (c * weight + i) % others).collect();
        check.sort();
        check.push(others + c);
        check
    };
    (0..m).map(check).collect()
}

/// All places from this one on are lost, come back, and cost as many additions as there can
/// be.
fn at_bound(t: &Table, from: usize, additions: usize) -> Result<(), String> {
    let mut rng = Rng::new(23, 1);
    let map = (0..t.n).map(|p| (p >= from) as u8).collect();
    let sent = gen::codeword(&mut rng, t);
    let before = rained(&mut rng, t.s, &sent, map);
    let (answer, _) = repaired(&mut rng, t, &before)?;
    same("answer", &answer, &ok((t.n - from) as u32, 0, additions as u32))?;
    same("bound", &model::most_additions(&gen::words(t)), &additions)?;
    if bare() {
        return Ok(());
    }
    in_orders(&mut rng, t, &before).map(|_| ())
}

/// Tables at the limits of document 01, and staircases.
fn bound_cases(run: &mut Run) {
    let mut bound = |name: &str, checks: Vec<Vec<usize>>, from: usize, additions: usize| {
        let t = Table { n: 1024, s: 2, checks };
        run.fixed(&format!("additions, {name}"), at_bound(&t, from, additions));
    };
    let ones = |checks: &[Vec<usize>]| checks.iter().map(|c| c.len()).sum::<usize>();
    let most = own_places(1024, 512, 12);
    let back: Vec<Vec<usize>> = most.iter().rev().cloned().collect();
    bound("512 checks of 12", most, 512, 5632);
    bound("512 checks of 12, the last first", back, 512, 5632);
    let heavy = own_places(1024, 96, 64);
    bound("96 checks of 64", heavy.clone(), 928, 6048);
    let mut among_empty = vec![vec![]; 512];
    heavy.into_iter().enumerate().for_each(|(c, check)| among_empty[5 * c + 7] = check);
    bound("96 checks of 64 among 416 empty ones", among_empty, 928, 6048);
    // Each place is a copy of the one before, and the highest check is taken first.
    let chain = (511..1023).rev().map(|p| vec![p, p + 1]).collect();
    bound("a chain of 512", chain, 512, 512);
    bound("512 places of their own", (512..1024).map(|p| vec![p]).collect(), 512, 0);
    bound("512 empty checks", vec![vec![]; 512], 1024, 0);
    // All stairs lost: one after another comes back.
    let stairs = gen::staircase(&mut Rng::new(23, 0), 1024, 512, 3);
    let additions = ones(&stairs) - 512;
    bound("stairs", stairs, 512, additions);
    let stairs = model::staircase_checks(512, 512, 10, 1).unwrap();
    bound("RFC 5170, ten a column", stairs, 512, 6143 - 512);
}

/// All tables of so many places and checks.
fn every_table(n: usize, m: u32) -> impl Iterator<Item = Table> {
    let places: Vec<usize> = (0..n).collect();
    let sets: Vec<Vec<usize>> = model::subsets(&places).collect();
    (0..sets.len().pow(m)).map(move |number| {
        let set = |c: u32| sets[number / sets.len().pow(c) % sets.len()].clone();
        Table { n, s: 1, checks: (0..m).map(set).collect() }
    })
}

/// Every map and every block of zeros and ones in every order, and every nested pair of
/// maps. Bits at lost places are 1.
fn every_way(t: &Table) -> Result<(), String> {
    let mut rng = Rng::new(23, 0);
    let codewords = model::codewords(t);
    for lost in 0usize..1 << t.n {
        for bits in (0usize..1 << t.n).filter(|bits| bits & lost == lost) {
            let before = Held { block: bytes_of(t.n, bits), map: bytes_of(t.n, lost) };
            let ends = in_every_order(&mut rng, t, &before)?;
            let agrees = codewords.iter().any(|word| word & !lost == bits & !lost);
            holds("a codeword agrees", !agrees || ends[0].contradiction(t).is_none())?;
        }
    }
    let sent = gen::codeword(&mut rng, t);
    every_nested_pair(&mut rng, t, &sent)
}

fn every_way_cases(run: &mut Run) {
    // Bare buffers: a few.
    let step = if bare() { 97 } else { 1 };
    for (n, m) in [(1, 2), (2, 3), (3, 3), (4, 2)] {
        let mut tables = every_table(n, m).step_by(step);
        let result = tables.try_for_each(|t| {
            every_way(&t).map_err(|what| format!("checks {:?}: {what}", t.checks))
        });
        run.fixed(&format!("every table of {n} places and {m} checks"), result);
    }
}

/// Every map of a table in every order: packets of a codeword, and with one wrong.
fn every_map(t: &Table, sent: &[u8]) -> Result<(), String> {
    let mut rng = Rng::new(23, 0);
    // Bare buffers: a few.
    let step = if bare() { 13 } else { 1 };
    for lost in (0usize..1 << t.n).step_by(step) {
        let before = rained(&mut rng, t.s, sent, bytes_of(t.n, lost));
        in_every_order(&mut rng, t, &before)?;
        let block = wrong(&mut rng, t.s, sent, &[1]);
        let before = rained(&mut rng, t.s, &block, bytes_of(t.n, lost));
        in_every_order(&mut rng, t, &before)?;
    }
    Ok(())
}

fn nested_cases(run: &mut Run) {
    let mut tables: Vec<(Table, Vec<u8>)> = worked_tables()
        .into_iter()
        .map(|(words, block)| (model::look_over(&words).unwrap(), block))
        .collect();
    let (n, checks) = gen::side_by_side(&vec![gen::table_b(); 2]);
    tables.push((Table { n, s: 1, checks }, vec![0, 1, 1, 1, 0, 0, 0, 0]));
    tables.push((table(6, &[&[0, 1], &[1, 2], &[2, 3], &[3, 4], &[4, 5], &[0, 5]]), vec![7; 6]));
    for (i, (t, sent)) in tables.iter().enumerate() {
        let mut rng = Rng::new(23, i as u64);
        let result = every_nested_pair(&mut rng, t, sent);
        run.fixed(&format!("every nested pair of maps of table {i}"), result);
        run.fixed(&format!("every map of table {i} in every order"), every_map(t, sent));
    }
}

/// A chain of 513 copies of which one more is received; and 1,024 places lost one by one.
fn one_more_cases(run: &mut Run) {
    let chain = (511..1023).map(|p| vec![p, p + 1]).collect();
    let t = Table { n: 1024, s: 3, checks: chain };
    for place in [511, 800, 1023] {
        let mut rng = Rng::new(23, 0);
        let sent = gen::codeword(&mut rng, &t);
        let few: Vec<u8> = (0..1024).map(|p| (p >= 511) as u8).collect();
        let mut many = few.clone();
        many[place] = 0;
        let result = rain_falls(&mut rng, &t, &sent, &[many, few]).and_then(|left| {
            same("one more", &left[0].0, &ok(512, 0, 512))?;
            same("none", &left[1].0, &ok(0, 513, 0))
        });
        run.fixed(&format!("one more of 513 copies, {place}"), result);
    }
    let mut rng = Rng::new(23, 0);
    let t = Table { n: 1024, s: 1, checks: gen::regular(&mut rng, 1024, 512, 3) };
    let sent = gen::codeword(&mut rng, &t);
    let maps = more_and_more(&mut rng, 1024, if bare() { 6 } else { 1025 });
    let result = rain_falls(&mut rng, &t, &sent, &maps);
    run.fixed("1,024 places, one after another", result.map(|_| ()));
}

/// The same report with other packets, at every size.
fn size_cases(run: &mut Run) {
    let [a, a4, two_costs] = [A, A4, TWO_COSTS].map(|words| model::look_over(words).unwrap());
    let mut rng = Rng::new(23, 0);
    let cases: [(&str, &Table, &[usize], Repaired); 7] = [
        ("P4", &a, &[3, 5, 6], ok(3, 0, 9)),
        ("P5", &a, &[2, 4, 5], ok(0, 3, 0)),
        ("A, 0, 2, 4 and 5", &a, &[0, 2, 4, 5], ok(0, 4, 0)),
        ("A, 1, 3 and 6", &a, &[1, 3, 6], ok(3, 0, 9)),
        ("P7", &a4, &[2, 4, 6], ok(3, 0, 9)),
        ("two costs", &two_costs, &[0, 1], ok(2, 0, 2)),
        ("two costs, all lost", &two_costs, &[0, 1, 2], ok(3, 0, 2)),
    ];
    for (name, t, lost, answer) in cases {
        let (sent, map) = (gen::codeword(&mut rng, t), map_of(t.n, lost));
        let result = of_codeword(&mut rng, t, &sent, &map).and_then(|left| {
            same("answer", &left.0, &answer)?;
            let any = rng.range(1, model::MAX_SIZE);
            let mut sizes = SIZES.into_iter().chain([any]);
            sizes.try_for_each(|s| whatever_the_packets(&mut rng, t, s, &map, &left))
        });
        run.fixed(&format!("other packets, {name}"), result);
    }
}

/// Tables at the limits: several orders, more and more rain, other packets.
fn limit_cases(run: &mut Run) {
    for (name, s, share) in [
        ("regular", 1024, 40),
        ("staircase", 64, 45),
        ("heavy", 3, 2),
        ("most words", 2, 25),
        ("filled", 1, 30),
    ] {
        if bare() && (s == 1024 || s < 3) {
            continue;
        }
        let mut rng = Rng::new(23, s as u64);
        let t = match name {
            "filled" => gen::filled(model::MAX_GAP),
            _ => limit_table(&mut rng, name, s),
        };
        let sent = gen::codeword(&mut rng, &t);
        let map = map_of(t.n, &rng.some_below(t.n, t.n * share / 100));
        let before = rained(&mut rng, s, &sent, map.clone());
        let mut limit = |what: &str, result: Result<(), String>| {
            run.fixed(&format!("{name}, size {s}, {what}"), result);
        };
        let told = in_orders(&mut rng, &t, &before);
        limit("several orders", told.map(|_| ()));
        let maps = more_and_more(&mut rng, t.n, if bare() { 3 } else { 12 });
        limit("more and more rain", rain_falls(&mut rng, &t, &sent, &maps).map(|_| ()));
        let other = if s == 1 { 17 } else { 1 };
        let result = of_codeword(&mut rng, &t, &sent, &map)
            .and_then(|left| whatever_the_packets(&mut rng, &t, other, &map, &left));
        limit("other packets", result);
    }
}

pub fn fixed_cases(run: &mut Run) {
    order_cases(run);
    differ_cases(run);
    cost_cases(run);
    bound_cases(run);
    every_way_cases(run);
    nested_cases(run);
    one_more_cases(run);
    size_cases(run);
    limit_cases(run);
}
