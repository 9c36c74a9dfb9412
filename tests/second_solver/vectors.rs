//! Cases with the numbers that are stated for them: the table of rule 17.1, and vectors that see what the table does not.

use crate::calls::Operation::{self, Advance, Start};
use crate::calls::{Answer, Day};
use crate::hex;
use crate::refined::{self, Refined, Rules, PAPER, ROOM};
use crate::solver::{self, Case, History, Judged, Numbers, Priced, Refused, Reply, Run, State, Unit, EMPTY};

/// The file of case U5 (rule 15.5).
const U5: &str = "0001000100000005000c001e000000000000271003e800000002000a000000000000000000010004\
                  0007";

/// The file of U with b1 −10,000,000 and demand 5, in edition 2 (rule 17.4).
const U5_IN_EDITION_2: &str = "0002000100000005000c0022000000000000271003e800000002000a000000000000000000\
                               01ff67698000040007";

/// The reply to U5.
const U5_REPLY: &str = "00010012000000000001d0d8000000000000a410000000000bebc2000007";

/// The reply to U5 searched with a budget of 5.
const U5_REFINED: &str = "000100000005000000000001d0d80000000000000000000000000bebc2000007";

/// Unit U of the specification.
pub fn u() -> Unit {
    Unit {
        c0: 0,
        c1: 10_000,
        c2: 1_000,
        b: 0,
        b1: 0,
        least: 2,
        greatest: 10,
        previous: 0,
        up: 0,
        down: 0,
        mark: 0,
        zones: vec![(4, 7)],
    }
}

pub fn u5() -> Case {
    Case { edition: 1, demand: 5, units: vec![u()] }
}

fn with_b1(b1: i128) -> Unit {
    Unit { b1, ..u() }
}

fn in_edition_2(vector: Vector) -> Vector {
    Vector { case: Case { edition: 2, ..vector.case }, ..vector }
}

fn u_must_run() -> Unit {
    Unit { mark: 1, ..u() }
}

fn with_c0(c0: i128) -> Unit {
    Unit { c0, ..u() }
}

/// A unit of the greatest costs that loses so much at 10,000 steps that no multiplier makes it give all.
pub fn lossy(b: i128) -> Unit {
    Unit { c1: 10_000_000, c2: 1_000, b, least: 9_000, greatest: 10_000, zones: vec![], ..u() }
}

/// The numbers of a reply that are stated.
#[derive(Default)]
pub struct Stated {
    evaluations: Option<i128>,
    cost: Option<i128>,
    gap: Option<i128>,
    surplus: Option<i128>,
    outputs: Vec<i128>,
}

pub enum Expected {
    Replied(Stated),
    Refused(u32),
}

pub struct Vector {
    pub case: Case,
    pub expected: Expected,
}

fn replied(demand: i128, units: Vec<Unit>, stated: Stated) -> Vector {
    Vector { case: Case { edition: 1, demand, units }, expected: Expected::Replied(stated) }
}

fn refused(demand: i128, units: Vec<Unit>, number: u32) -> Vector {
    Vector { case: Case { edition: 1, demand, units }, expected: Expected::Refused(number) }
}

fn whole(outputs: Vec<i128>, cost: i128, gap: i128, evaluations: i128, surplus: i128) -> Stated {
    Stated { evaluations: Some(evaluations), cost: Some(cost), gap: Some(gap), surplus: Some(surplus), outputs }
}

/// The table of rule 17.1.
pub fn table() -> Vec<Vector> {
    let ramped = |steps: i128| Unit { previous: 5, up: steps, down: steps, ..u_must_run() };
    let with_lower_edge = |edge: i128| Unit { zones: vec![(edge, 7)], ..u() };
    vec![
        replied(5, vec![u()], whole(vec![7], 119_000, 42_000, 18, 200_000_000)),
        replied(0, vec![u()], whole(vec![0], 0, 0, 1, 0)),
        replied(0, vec![u_must_run()], whole(vec![2], 24_000, 0, 1, 200_000_000)),
        replied(10, vec![u()], whole(vec![10], 200_000, 0, 2, 0)),
        refused(11, vec![u()], 11),
        refused(10, vec![Unit { b: 1, ..u() }], 11),
        replied(5, vec![u(), u()], whole(vec![2, 3], 63_000, 0, 18, 0)),
        replied(0, vec![ramped(1)], whole(vec![4], 56_000, 0, 1, 400_000_000)),
        refused(0, vec![ramped(0)], 11),
        refused(5, vec![with_lower_edge(2)], 9),
        replied(5, vec![with_lower_edge(3)], Stated { outputs: vec![7], ..Stated::default() }),
    ]
}

/// Vectors for wrong rules that the table does not see.
pub fn further() -> Vec<Vector> {
    vec![
        // a floor rounded down
        replied(
            5,
            vec![Unit { b: 1, ..u() }],
            Stated { gap: Some(41_999), surplus: Some(199_999_951), outputs: vec![7], ..Stated::default() },
        ),
        // only the last floor
        replied(
            1,
            vec![u()],
            Stated { evaluations: Some(18), cost: Some(24_000), gap: Some(12_000), outputs: vec![2], ..Stated::default() },
        ),
        // no stop at an equal net in step 4
        replied(2, vec![u()], Stated { evaluations: Some(16), gap: Some(0), outputs: vec![2], ..Stated::default() }),
        // the ramp applied to output 0
        replied(0, vec![Unit { previous: 10, ..u() }], Stated { cost: Some(0), outputs: vec![0], ..Stated::default() }),
        // c0 charged to a unit that stands, and not to one that runs
        replied(0, vec![with_c0(50_000)], whole(vec![0], 0, 0, 1, 0)),
        replied(0, vec![Unit { c0: 50_000, ..u_must_run() }], whole(vec![2], 74_000, 0, 1, 200_000_000)),
        // c0 charged to a unit that is stopped; output 1 taken for standing
        replied(0, vec![Unit { previous: 10, ..with_c0(50_000) }], whole(vec![0], 0, 0, 1, 0)),
        replied(0, vec![Unit { c0: 50_000, least: 1, ..u_must_run() }], whole(vec![1], 61_000, 0, 1, 100_000_000)),
        // c0 left out of the choice; every unit with a c0 stands
        replied(7, vec![with_c0(5_000), with_c0(60_000)], whole(vec![7, 0], 124_000, 0, 15, 0)),
        replied(4, vec![u(), with_c0(1_000)], whole(vec![2, 2], 49_000, 0, 17, 0)),
        // c0 left out of the floor
        replied(9, vec![with_c0(5_000), with_c0(60_000)], whole(vec![8, 8], 353_000, 179_000, 18, 700_000_000)),
        // 65,536 taken as covering: output 10,000 nets 7,200 steps with b 2,800 and 5,000 steps with b 5,000
        covered_by_no_choice(7_200, 2_800),
        covered_by_no_choice(5_000, 5_000),
    ]
}

fn covered_by_no_choice(demand: i128, b: i128) -> Vector {
    let stated = Stated { evaluations: Some(2), outputs: vec![10_000], ..Stated::default() };
    replied(demand, vec![lossy(b)], stated)
}

/// Cases in which outputs tie: where the choices cover, each unit in file order goes to its least tied output or stays.
pub fn lowered() -> Vec<Vector> {
    let free = || Unit { c1: 0, c2: 0, ..u() };
    let flat = || Unit { c2: 0, zones: vec![], ..u_must_run() };
    let without_zone = || Unit { zones: vec![], ..u() };
    let with_steps = |up, down| Unit { previous: 3, up, down, ..u_must_run() };
    let high = || Unit { c1: 4_579_048, b: 3_125, least: 9_999, greatest: 10_000, zones: vec![], ..u_must_run() };
    let lossy_pair = || vec![Unit { c1: 994_999, b: 20, ..u() }; 2];
    vec![
        // units that move together: 2 and 3 tie at 15
        replied(8, vec![u(); 3], whole(vec![2, 3, 3], 102_000, 0, 18, 0)),
        replied(7, vec![u(); 3], whole(vec![2, 2, 3], 87_000, 0, 18, 0)),
        replied(70, vec![u(); 32], whole([[2; 26].as_slice(), &[3; 6]].concat(), 858_000, 0, 18, 0)),
        // a tie over a zone, 4 and 7 at 21; over one with nothing inside, 4 and 5 at 19
        replied(11, vec![u(); 2], whole(vec![4, 7], 175_000, 0, 18, 0)),
        replied(9, vec![Unit { zones: vec![(4, 5)], ..u() }; 2], whole(vec![4, 5], 131_000, 0, 18, 0)),
        // all or nothing: the first stays for cover, the second is lowered
        replied(12, vec![u(), without_zone()], whole(vec![7, 5], 194_000, 0, 18, 0)),
        // another order than the file's: the first is lowered, and the second stays though it would have gained more
        replied(10, vec![u(), without_zone()], whole(vec![4, 6], 152_000, 0, 18, 0)),
        replied(10, vec![without_zone(), u()], whole(vec![5, 7], 194_000, 42_000, 18, 200_000_000)),
        // no lowering at 0
        replied(0, vec![free()], whole(vec![0], 0, 0, 1, 0)),
        replied(10, vec![free(); 2], whole(vec![0, 10], 0, 0, 1, 0)),
        replied(0, vec![Unit { mark: 1, ..free() }], whole(vec![2], 0, 0, 1, 200_000_000)),
        // the least tied output where it does not cover, or one between: 0 to 10 tie at 0
        replied(15, vec![free(); 2], whole(vec![10, 10], 0, 0, 1, 500_000_000)),
        // no lowering at 65,536: 0 and 10 tie; the search ends there, or goes on and comes back
        replied(10, vec![starting_at_65_536(); 2], whole(vec![0, 10], 655_360_000, 0, 2, 0)),
        replied(9, vec![starting_at_65_536(); 2], whole(vec![0, 10], 655_360_000, 65_536_000, 18, 100_000_000)),
        replied(11, vec![starting_at_65_536(); 2], whole(vec![10, 10], 1_310_720_000, 589_824_000, 18, 900_000_000)),
        // 9,999 and 10,000 tie at 65,536
        replied(20_624, vec![high(); 3], whole(vec![9_999, 9_999, 10_000], 437_322_283_904, 16_379_904, 18, 24_993_750)),
        // an equal net by lowering alone that does not end step 4: 2 and 3 tie at 16
        replied(5, vec![Unit { c1: 11_000, ..u() }; 2], whole(vec![2, 3], 68_000, 0, 14, 0)),
        // standing and running, 0 and 2 tie at 12
        replied(2, vec![u(); 2], whole(vec![0, 2], 24_000, 0, 16, 0)),
        replied(1, vec![u(); 2], whole(vec![0, 2], 24_000, 12_000, 18, 100_000_000)),
        replied(3, vec![u(); 2], whole(vec![2, 2], 48_000, 12_000, 18, 100_000_000)),
        // an output between: 2 to 10 tie at 10, or 0 and those; 0, 2 and 3 tie at 15
        replied(15, vec![flat(); 2], whole(vec![10, 10], 200_000, 50_000, 18, 500_000_000)),
        replied(12, vec![flat(); 2], whole(vec![2, 10], 120_000, 0, 17, 0)),
        replied(11, vec![flat(); 2], whole(vec![2, 10], 120_000, 10_000, 18, 100_000_000)),
        replied(5, vec![Unit { c2: 0, ..u() }], whole(vec![10], 100_000, 50_000, 18, 500_000_000)),
        replied(5, vec![with_c0(6_000); 2], whole(vec![3, 3], 90_000, 15_000, 18, 100_000_000)),
        replied(5, vec![with_c0(6_000); 3], whole(vec![0, 3, 3], 90_000, 15_000, 18, 100_000_000)),
        // a tied output outside the ramp window: with 2 they tie, from 3 on they do not
        replied(5, vec![with_steps(1, 1); 2], whole(vec![2, 3], 63_000, 0, 18, 0)),
        replied(5, vec![with_steps(1, 0); 2], whole(vec![3, 3], 78_000, 0, 1, 100_000_000)),
        // losses left out of cover: 2 and 3 net 260 too little
        replied(5, lossy_pair(), whole(vec![3, 3], 5_987_994, 999_996, 18, 99_999_640)),
        replied(4, lossy_pair(), whole(vec![2, 3], 4_987_995, 999_997, 18, 99_999_740)),
        // the greatest outputs lowered where 65,536 does not cover
        replied(
            5_000,
            vec![lossy(5_000), starting_at_65_536()],
            whole(vec![10_000, 10], 200_655_360_000, 26_378_560_000, 2, 1_000_000_000),
        ),
    ]
}

/// U with zones that share the edge 7.
fn sharing() -> Unit {
    Unit { zones: vec![(4, 7), (7, 9)], ..u() }
}

/// Zones that share an edge (rule 17.7): the edge is an output of its own, and its neighbours are prohibited.
pub fn shared_edges() -> Vec<Vector> {
    let with_zones = |zones: &[(i128, i128)]| Unit { zones: zones.to_vec(), ..u() };
    let ramped = |previous, up, down| Unit { previous, up, down, mark: 1, ..sharing() };
    vec![
        // the edge refused or prohibited, passed over, or one of its neighbours permitted
        replied(7, vec![sharing()], whole(vec![7], 119_000, 0, 15, 0)),
        replied(5, vec![sharing()], whole(vec![7], 119_000, 42_000, 18, 200_000_000)),
        replied(8, vec![sharing()], whole(vec![9], 171_000, 26_000, 18, 100_000_000)),
        // no tie at the edge; the floor without it
        replied(11, vec![sharing(); 2], whole(vec![4, 7], 175_000, 0, 18, 0)),
        replied(13, vec![sharing(); 2], whole(vec![7, 7], 238_000, 21_000, 18, 100_000_000)),
        // more than one shared edge; zones with nothing strictly inside
        replied(7, vec![with_zones(&[(3, 5), (5, 7), (7, 9)])], whole(vec![7], 119_000, 0, 15, 0)),
        replied(7, vec![with_zones(&[(3, 4), (4, 5), (5, 6), (6, 7)])], whole(vec![7], 119_000, 0, 15, 0)),
        // the ramp window: of the edge alone, about it, beside it on either side
        replied(0, vec![ramped(7, 0, 0)], whole(vec![7], 119_000, 0, 1, 700_000_000)),
        replied(0, vec![ramped(7, 1, 1)], whole(vec![7], 119_000, 0, 1, 700_000_000)),
        replied(0, vec![ramped(9, 1, 1)], whole(vec![9], 171_000, 0, 1, 900_000_000)),
        refused(0, vec![ramped(5, 1, 0)], 11),
        // 9 as before
        refused(5, vec![with_zones(&[(4, 7), (7, 7)])], 9),
        refused(5, vec![with_zones(&[(2, 4), (4, 7)])], 9),
        refused(5, vec![with_zones(&[(4, 7), (7, 10)])], 9),
        refused(5, vec![with_zones(&[(4, 7), (6, 9)])], 9),
        refused(5, vec![with_zones(&[(4, 7), (7, 9), (8, 9)])], 9),
        refused(5, vec![with_zones(&[(7, 9), (4, 7)])], 9),
        // the numbers before and after it
        refused(5, vec![Unit { mark: 2, ..sharing() }], 10),
        refused(5, vec![Unit { c0: 1_000_000_001, ..sharing() }], 8),
    ]
}

/// U with only a c0, so large that at 65,536 it is as well off standing as at 10.
pub fn starting_at_65_536() -> Unit {
    Unit { c0: 655_360_000, c1: 0, c2: 0, ..u() }
}

/// Cases of edition 2 (rule 17.4).
pub fn edition_2() -> Vec<Vector> {
    let must_not = Unit { mark: 2, ..u() };
    let lossy = |b, b1| Unit { b, b1, ..u() };
    let tied_at_15 = |c1, b1| vec![Unit { c1, b1, ..u() }; 2];
    let vectors = vec![
        // edition 2 refused, or its edges read where edition 1 has them
        replied(5, vec![u()], whole(vec![7], 119_000, 42_000, 18, 200_000_000)),
        refused(5, vec![Unit { zones: vec![(2, 7)], ..u() }], 9),
        // b1 left out of the net, or taken with the other sign
        replied(5, vec![with_b1(-10_000_000)], whole(vec![7], 119_000, 51_600, 18, 270_000_000)),
        replied(5, vec![with_b1(10_000_000)], whole(vec![7], 119_000, 30_800, 18, 130_000_000)),
        // zones that share an edge
        replied(7, vec![Unit { b1: 10_000_000, ..sharing() }], whole(vec![9], 171_000, 31_900, 18, 110_000_000)),
        // a net above the output
        replied(11, vec![with_b1(-10_000_000)], whole(vec![10], 200_000, 0, 2, 0)),
        // b1 read as an unsigned number
        replied(10, vec![with_b1(-1)], whole(vec![10], 200_000, 0, 18, 10)),
        refused(10, vec![with_b1(1)], 11),
        // b1 of another unit
        replied(5, vec![with_b1(10_000_000), with_b1(-10_000_000)], whole(vec![2, 3], 63_000, 1_400, 18, 10_000_000)),
        // b1 left out of a tie, or of cover when a unit is lowered
        replied(5, tied_at_15(11_500, -10_000_000), whole(vec![2, 3], 70_500, 7_500, 18, 50_000_000)),
        replied(5, tied_at_15(8_500, 10_000_000), whole(vec![3, 3], 69_000, 6_000, 18, 40_000_000)),
        replied(4, tied_at_15(8_500, 10_000_000), whole(vec![2, 3], 55_500, 7_500, 18, 50_000_000)),
        // the most that b and b1 may be together; 8 before 18
        replied(5, vec![lossy(5_000, 4_999)], whole(vec![7], 119_000, 41_979, 18, 199_720_007)),
        refused(5, vec![lossy(5_000, 5_000)], 18),
        refused(5, vec![lossy(5_001, 5_000)], 8),
        // the range of b1, in which a negative one passes the sum
        refused(5, vec![with_b1(10_000_001)], 18),
        refused(5, vec![with_b1(-10_000_001)], 18),
        refused(5, vec![lossy(5_000, -10_000_001)], 18),
        // 18 before 9 and 10, and all of a unit before the next
        refused(5, vec![Unit { least: 0, ..with_b1(10_000_001) }], 18),
        refused(5, vec![Unit { mark: 2, ..with_b1(10_000_001) }], 18),
        refused(5, vec![must_not.clone(), with_b1(10_000_001)], 10),
        refused(5, vec![with_b1(10_000_001), must_not], 18),
    ];
    vectors.into_iter().map(in_edition_2).collect()
}

/// Pricings of edition 2: b1 in the choice (rule 17.4), and the least dual value that there is (rule 1.7).
pub fn pricings_of_edition_2() -> Vec<(Case, u32, Priced)> {
    let priced_u5 =
        |b1, dual, covered| (Case { edition: 2, demand: 5, units: vec![with_b1(b1)] }, 21, Priced { dual, covered });
    let free = Unit { c1: 0, c2: 0, greatest: 10_000, zones: vec![], ..with_b1(-10_000_000) };
    let all_free = Case { edition: 2, demand: 0, units: vec![free; 32] };
    vec![
        priced_u5(0, 7_700_000_000, true),
        priced_u5(-1, 7_699_999_853, true),
        priced_u5(1, 7_700_000_084, false),
        (all_free, 65_536, Priced { dual: -2_306_867_200_000_000_000, covered: true }),
    ]
}

/// The pricings of U with demand 5 (rule 17.1).
const PRICINGS: [(u32, i128); 2] = [(21, 7_700_000_000), (65_536, -32_748_000_000_000)];

/// The multipliers of these pricings.
pub fn priced_multipliers() -> Vec<u32> {
    PRICINGS.iter().map(|(multiplier, _)| *multiplier).collect()
}

/// Requests for registers of the reply to U5, and the answers.
const VIEWS: [([u8; 5], &str); 8] = [
    ([3, 0, 0, 0, 2], "030400010012"),
    ([3, 0, 14, 0, 1], "03020007"),
    ([3, 0, 15, 0, 1], "8302"),
    ([3, 0, 0, 0, 0], "8303"),
    ([3, 0, 0, 0, 126], "8303"),
    ([3, 255, 255, 0, 126], "8303"),
    ([4, 0, 0, 0, 1], "8401"),
    ([131, 0, 0, 0, 1], "8301"),
];

/// The reply to U5, and these requests.
pub fn viewed_requests() -> (Vec<u8>, Vec<Vec<u8>>) {
    let reply = solver::solve(&u5()).expect("a reply to U5");
    (solver::encode_reply(&reply), VIEWS.iter().map(|(request, _)| request.to_vec()).collect())
}

fn check_views() {
    let (reply, requests) = viewed_requests();
    assert_eq!(hex(&reply), U5_REPLY, "the reply to U5");
    for (request, (_, stated)) in requests.iter().zip(VIEWS) {
        let mut answer = [0; 252];
        let length = solver::view(&reply, request, &mut answer).expect("a view");
        assert_eq!(hex(&answer[..length]), stated, "the reply to U5 viewed by {}", hex(request));
    }
}

/// Outputs that are judged, and what is stated of them.
pub struct Judgement {
    pub case: Case,
    pub outputs: Vec<u32>,
    expected: Result<Judged, Refused>,
}

/// Judgements of units in edition 1, or in edition 2 where one of them has a b1.
fn judgement(demand: i128, units: &[Unit], outputs: &[u32], expected: Result<Judged, Refused>) -> Judgement {
    let edition = if units.iter().any(|unit| unit.b1 != 0) { 2 } else { 1 };
    Judgement { case: Case { edition, demand, units: units.to_vec() }, outputs: outputs.to_vec(), expected }
}

fn accepted(cost: i128, surplus: i128, distance: i128) -> Result<Judged, Refused> {
    Ok(Judged::Accepted { cost, surplus, distance })
}

/// The judgements of rule 19.8, and others that tell wrong rules apart.
pub fn judgements() -> Vec<Judgement> {
    let not_accepted = Ok(Judged::NotAccepted);
    let too_many_or_few = Err(Refused(19));
    let nothing_covers = Err(Refused(11));
    let u_and_u = [u(), u()];
    let lossy = Unit { b: 1, ..u() };
    let ramped = Unit { previous: 5, up: 1, down: 1, ..u_must_run() };
    let rising = Unit { previous: 5, up: 3, down: 0, ..u() };
    let running = Unit { previous: 9, up: 1, down: 1, ..u() };
    let unlike = unlike();
    let unlike_with_b1 = [Unit { b1: 5_000_000, ..unlike[0].clone() }, Unit { b1: -3_000_000, ..unlike[1].clone() }];
    let starting = [with_c0(5_000), with_c0(60_000)];
    vec![
        // dispatch's own outputs, and others beside them: the distance is not dispatch's gap
        judgement(5, &[u()], &[7], accepted(119_000, 200_000_000, 42_000)),
        judgement(5, &[u()], &[8], accepted(144_000, 300_000_000, 67_000)),
        judgement(0, &[u()], &[0], accepted(0, 0, 0)),
        judgement(0, &[u()], &[2], accepted(24_000, 200_000_000, 24_000)),
        // not covered, or inside the zone; its edges, and the demand just met
        judgement(5, &[u()], &[4], not_accepted),
        judgement(5, &[u()], &[5], not_accepted),
        judgement(4, &[u()], &[4], accepted(56_000, 0, 0)),
        judgement(7, &[u()], &[7], accepted(119_000, 0, 0)),
        judgement(10, &[u()], &[9], not_accepted),
        judgement(10, &[u()], &[10], accepted(200_000, 0, 0)),
        // below least, and above greatest
        judgement(0, &[u()], &[1], not_accepted),
        judgement(5, &[u()], &[11], not_accepted),
        // the greatest floor is not the last one
        judgement(1, &[u()], &[2], accepted(24_000, 100_000_000, 12_000)),
        judgement(1, &[u()], &[3], accepted(39_000, 200_000_000, 27_000)),
        // large numbers, which 16 bits would cut to 7, and any others
        judgement(5, &[u()], &[65_543], not_accepted),
        judgement(5, &[u()], &[u32::MAX], not_accepted),
        // a unit that must run
        judgement(0, &[u_must_run()], &[0], not_accepted),
        judgement(0, &[u_must_run()], &[2], accepted(24_000, 200_000_000, 0)),
        // lists of other lengths, and 11 before them
        judgement(5, &[u()], &[], too_many_or_few),
        judgement(5, &[u()], &[7, 7], too_many_or_few),
        judgement(5, &u_and_u, &[7], too_many_or_few),
        // a shared edge, and its neighbours
        judgement(7, &[sharing()], &[7], accepted(119_000, 0, 0)),
        judgement(5, &[sharing()], &[6], not_accepted),
        judgement(5, &[sharing()], &[8], not_accepted),
        judgement(11, &[u()], &[], nothing_covers),
        judgement(11, &[u()], &[10], nothing_covers),
        // two units: dispatch's own 2 and 3, the same the other way round, and the choices before they are lowered
        judgement(5, &u_and_u, &[2, 3], accepted(63_000, 0, 0)),
        judgement(5, &u_and_u, &[3, 2], accepted(63_000, 0, 0)),
        judgement(5, &u_and_u, &[3, 3], accepted(78_000, 100_000_000, 15_000)),
        judgement(5, &u_and_u, &[2, 2], not_accepted),
        judgement(5, &u_and_u, &[7, 0], accepted(119_000, 200_000_000, 56_000)),
        // cheaper than dispatch's own 3 and 3
        judgement(5, &vec![with_c0(6_000); 2], &[2, 3], accepted(75_000, 0, 0)),
        judgement(5, &vec![with_c0(6_000); 2], &[3, 3], accepted(90_000, 100_000_000, 15_000)),
        // 32 units
        judgement(64, &vec![u(); 32], &[2; 32], accepted(768_000, 0, 0)),
        judgement(100, &vec![u(); 32], &[[4; 25].as_slice(), &[0; 7]].concat(), accepted(1_400_000, 0, 84_000)),
        // losses in cover and surplus, and a floor that is rounded up
        judgement(5, &[lossy.clone()], &[8], accepted(144_000, 299_999_936, 66_999)),
        judgement(7, &[lossy], &[7], not_accepted),
        // the ramp window, of which output 0 is not asked
        judgement(0, &[ramped.clone()], &[4], accepted(56_000, 400_000_000, 0)),
        judgement(0, &[ramped], &[7], not_accepted),
        judgement(0, &[rising], &[0], accepted(0, 0, 0)),
        judgement(0, &[running.clone()], &[7], not_accepted),
        judgement(0, &[running], &[8], accepted(144_000, 800_000_000, 144_000)),
        // c0 of a unit that stands
        judgement(9, &starting, &[9, 0], accepted(176_000, 0, 2_000)),
        // unlike units: each output is its own unit's
        judgement(26, &unlike, &[15, 12], accepted(702_747, 99_999_181, 38_999)),
        judgement(26, &unlike, &[12, 15], not_accepted),
        judgement(15, &unlike, &[7, 9], accepted(353_012, 99_999_772, 28_489)),
        judgement(15, &unlike, &[11, 5], accepted(365_232, 99_999_612, 40_709)),
        judgement(15, &unlike, &[12, 4], not_accepted),
        // edition 2
        judgement(15, &unlike_with_b1, &[7, 9], accepted(353_012, 91_999_772, 24_784)),
        judgement(26, &unlike_with_b1, &[15, 12], accepted(702_747, 60_999_181, 25_059)),
        judgement(5, &[with_b1(-10_000_000)], &[8], accepted(144_000, 380_000_000, 76_600)),
        judgement(11, &[with_b1(-10_000_000)], &[10], accepted(200_000, 0, 0)),
        judgement(2, &[with_b1(10_000_000)], &[2], not_accepted),
        judgement(5, &[with_b1(10_000_001)], &[], Err(Refused(18))),
    ]
}

/// Two unlike units: the first must run, from 5 to 15 by its ramp window and with two zones; the second may stand.
fn unlike() -> [Unit; 2] {
    let first =
        Unit { c0: 50_000, b: 3, greatest: 20, previous: 9, up: 6, down: 4, zones: vec![(4, 7), (11, 13)], ..u_must_run() };
    let second = Unit { c0: 7, c1: 12_345, c2: 900, b: 1, least: 3, greatest: 12, up: 2, down: 1, zones: vec![], ..u() };
    [first, second]
}

fn check_judgements() -> usize {
    let judgements = judgements();
    for vector in &judgements {
        let judged = solver::judge(&solver::encode(&vector.case), &vector.outputs);
        assert_eq!(judged, vector.expected, "{:?} judged for {:?}", vector.outputs, vector.case);
    }
    judgements.len()
}

/// Demands for which floors are asked, how many answers there is room for, and the floors that are stated.
pub struct Flooring {
    pub case: Case,
    pub demands: Vec<u32>,
    pub room: usize,
    expected: Result<Vec<i64>, Refused>,
}

/// Floors of units in edition 1, or in edition 2 where one of them has a b1; with just room enough.
fn flooring(demand: i128, units: &[Unit], demands: &[u32], expected: &[i64]) -> Flooring {
    let edition = if units.iter().any(|unit| unit.b1 != 0) { 2 } else { 1 };
    let case = Case { edition, demand, units: units.to_vec() };
    Flooring { case, demands: demands.to_vec(), room: demands.len(), expected: Ok(expected.to_vec()) }
}

/// The same refused, with this room.
fn unfloored(demand: i128, units: &[Unit], demands: &[u32], room: usize, number: u32) -> Flooring {
    Flooring { room, expected: Err(Refused(number)), ..flooring(demand, units, demands, &[]) }
}

fn with_room(room: usize, flooring: Flooring) -> Flooring {
    Flooring { room, ..flooring }
}

/// The floors of the examples of section 20, and others that tell wrong rules apart.
pub fn floorings() -> Vec<Flooring> {
    let lossy_u = Unit { b: 1, ..u() };
    let no_edition = |flooring: Flooring| Flooring { case: Case { edition: 3, ..flooring.case }, ..flooring };
    let wrong_edge = Unit { zones: vec![(2, 7)], ..u() };
    let stuck = Unit { previous: 5, ..u_must_run() };
    let starting = [with_c0(5_000), with_c0(60_000)];
    let unlike = unlike();
    let unlike_with_b1 = [Unit { b1: 5_000_000, ..unlike[0].clone() }, Unit { b1: -3_000_000, ..unlike[1].clone() }];
    let free = Unit { c1: 0, c2: 0, ..u() };
    let greatest = Unit { c0: 1_000_000_000, c1: 10_000_000, least: 1, greatest: 10_000, zones: vec![], ..u_must_run() };
    let rising: Vec<u32> = (0..97).collect();
    let up_to_9 = [0, 7_000, 23_000, 39_000, 56_000, 77_000, 98_000, 119_000, 143_000, 168_000];
    let from_10: Vec<i64> = (0..86).map(|steps| 200_000 + 65_536_000 * steps).collect();
    let of_rising = [&up_to_9[..], &from_10].concat();
    vec![
        // U: its own demand and others; 0 is best for demand 0 and 65,536 for 320,000, neither of them evaluated last
        flooring(5, &[u()], &[0, 5, 7, 10, 320_000], &[0, 77_000, 119_000, 200_000, 20_970_864_840_000]),
        // zones that share an edge
        flooring(7, &[sharing()], &[5, 7, 8], &[71_000, 119_000, 143_000]),
        // each demand up to 12: below the case's own and above, also where nothing covers; 2 has less than its own dispatch proves
        flooring(
            5,
            &[u()],
            &[0, 1, 2, 3, 4, 5, 6, 7, 8, 9, 10, 11, 12],
            &[0, 7_000, 23_000, 39_000, 56_000, 77_000, 98_000, 119_000, 143_000, 168_000, 200_000, 65_736_000, 131_272_000],
        ),
        // out of order and repeated
        flooring(5, &[u()], &[10, 0, 7, 7, 5, 0, 10], &[200_000, 0, 119_000, 119_000, 77_000, 0, 200_000]),
        flooring(5, &[u()], &[5], &[77_000]),
        // more room than demands, and no demand
        with_room(3, flooring(5, &[u()], &[5], &[77_000])),
        flooring(5, &[u()], &[], &[]),
        with_room(2, flooring(5, &[u()], &[], &[])),
        // as many as there may be, and one more
        flooring(5, &[u()], &rising[..96], &of_rising),
        unfloored(5, &[u()], &rising, 97, 20),
        unfloored(5, &[u()], &rising, 0, 20),
        unfloored(5, &[u()], &[5; 256], 256, 20),
        // a demand too great: the last, the first, where there is no place for it
        flooring(5, &[u()], &[320_000], &[20_970_864_840_000]),
        unfloored(5, &[u()], &[320_001], 1, 20),
        unfloored(5, &[u()], &[5, 7, 320_001], 3, 20),
        unfloored(5, &[u()], &[320_001, 5, 7], 3, 20),
        unfloored(5, &[u()], &[5, 320_001], 1, 20),
        unfloored(5, &[u()], &[u32::MAX], 1, 20),
        unfloored(5, &[u()], &[327_685], 1, 20),
        unfloored(5, &[u()], &[&rising[..95], &[320_001]].concat(), 96, 20),
        // too little room
        unfloored(5, &[u()], &[5, 7], 1, 21),
        unfloored(5, &[u()], &[5], 0, 21),
        unfloored(5, &[u()], &rising[..96], 95, 21),
        // 20 and 21 before the case, and the case checked also where no demand is given
        unfloored(11, &[u()], &[320_001], 1, 20),
        unfloored(5, &[wrong_edge.clone()], &[320_001], 1, 20),
        no_edition(unfloored(5, &[u()], &[320_001], 0, 20)),
        unfloored(11, &[u()], &[5, 7], 1, 21),
        unfloored(5, &[wrong_edge.clone()], &[5], 0, 21),
        no_edition(unfloored(5, &[u()], &[5], 0, 21)),
        no_edition(unfloored(5, &[u()], &[], 0, 3)),
        unfloored(11, &[u()], &[], 0, 11),
        unfloored(11, &[u()], &[5], 1, 11),
        unfloored(0, &[stuck], &[0], 1, 11),
        unfloored(320_001, &[u()], &[5], 1, 5),
        unfloored(5, &[wrong_edge], &[], 0, 9),
        unfloored(5, &[Unit { mark: 2, ..u() }], &[5], 1, 10),
        // one evaluation, of 0
        flooring(0, &[u()], &[0, 5, 320_000], &[0, 0, 0]),
        flooring(0, &[u_must_run()], &[0, 5, 10, 320_000], &[24_000, 24_000, 24_000, 24_000]),
        flooring(15, &[free.clone(), free], &[0, 15, 21], &[0, 0, 0]),
        // two, of 0 and 65,536: that covers just the demand, or does not cover it
        flooring(10, &[u()], &[0, 5, 9, 10, 11, 320_000], &[0, 0, 0, 200_000, 65_736_000, 20_970_864_840_000]),
        flooring(
            5_000,
            &[lossy(5_000)],
            &[0, 2_000, 2_500, 3_000, 4_999, 5_000, 5_001],
            &[0, 0, 10_436_800_000, 43_204_800_000, 174_211_264_000, 174_276_800_000, 174_342_336_000],
        ),
        // the greatest floor is not the last one
        flooring(1, &[u()], &[0, 1, 2, 3, 5, 10], &[0, 12_000, 24_000, 39_000, 71_000, 200_000]),
        // an equal net that ends step 4 after 16
        flooring(2, &[u()], &[0, 1, 2, 3, 4, 7], &[0, 12_000, 24_000, 39_000, 55_000, 104_000]),
        // floors that are rounded up
        flooring(5, &[lossy_u.clone()], &[0, 4, 5, 7, 9, 10], &[0, 56_001, 77_001, 119_001, 168_001, 200_066]),
        flooring(9, &[lossy_u], &[1, 8, 9, 10], &[7_001, 143_001, 171_001, 200_066]),
        // two units, lowered or not; 32
        flooring(5, &[u(), u()], &[0, 4, 5, 6, 14, 20, 21], &[0, 48_000, 63_000, 78_000, 208_000, 400_000, 65_936_000]),
        flooring(5, &vec![with_c0(6_000); 2], &[4, 5, 6], &[60_000, 75_000, 90_000]),
        flooring(70, &vec![u(); 32], &[0, 56, 70, 84, 320], &[0, 672_000, 858_000, 1_068_000, 6_400_000]),
        // a c0 of units that stand
        flooring(9, &starting, &[7, 8, 9, 10, 11, 20], &[124_000, 149_000, 174_000, 199_000, 224_000, 465_000]),
        // unlike units
        flooring(15, &unlike, &[0, 12, 15, 18, 27, 28], &[169_000, 251_478, 324_523, 405_013, 703_284, 66_239_284]),
        flooring(26, &unlike, &[12, 15, 26, 27], &[205_703, 301_703, 663_748, 703_284]),
        // the greatest costs that there are
        flooring(
            320_000,
            &vec![greatest.clone(); 32],
            &[0, 319_999, 320_000],
            &[32_320_032_000, 6_431_934_464_000, 6_432_000_000_000],
        ),
        flooring(1, &vec![greatest; 32], &[0, 320_000], &[32_320_032_000, 32_320_032_000]),
        // edition 2
        flooring(
            5,
            &[with_b1(-10_000_000)],
            &[0, 4, 5, 6, 7, 11, 12],
            &[0, 49_600, 67_400, 86_400, 105_400, 200_000, 65_736_000],
        ),
        flooring(
            5,
            &[with_b1(10_000_000)],
            &[0, 4, 5, 6, 7, 9, 10],
            &[0, 65_200, 88_200, 111_800, 135_800, 200_000, 65_736_000],
        ),
        flooring(15, &unlike_with_b1, &[12, 15, 18], &[254_883, 328_228, 409_653]),
        unfloored(10, &[with_b1(1)], &[9], 1, 11),
        unfloored(5, &[with_b1(10_000_001)], &[5], 1, 18),
        unfloored(5, &[with_b1(10_000_001)], &[], 0, 18),
        unfloored(5, &[with_b1(10_000_001)], &[5], 0, 21),
        unfloored(5, &[with_b1(10_000_001)], &[320_001], 0, 20),
    ]
}

fn check_floorings() -> usize {
    let floorings = floorings();
    for vector in &floorings {
        let mut list = vec![i64::MIN; vector.room];
        let answer = solver::floors(&solver::encode(&vector.case), &vector.demands, &mut list);
        let mut stated = vector.expected.clone().unwrap_or_default();
        assert_eq!(
            answer,
            vector.expected.as_ref().map(Vec::len).map_err(|refused| *refused),
            "{:?} of {:?}",
            vector.demands,
            vector.case
        );
        stated.resize(vector.room, i64::MIN);
        assert_eq!(list, stated, "floors for {:?} of {:?}", vector.demands, vector.case);
    }
    floorings.len()
}

/// A day, how many bytes of the trace and histories there is room for, and what is stated of it.
pub struct Schedule {
    case: Case,
    demands: Vec<u32>,
    trace_room: usize,
    histories_room: usize,
    expected: Result<Scheduled, u32>,
}

/// Cost and gap of each slot, none where it is refused with 11; the total; previous output and starts of each unit.
struct Scheduled {
    slots: Vec<Option<(u64, u64)>>,
    total: i64,
    histories: Vec<(u16, u16)>,
}

/// A day of units in edition 1, or in edition 2 where one of them has a b1; with just room enough.
fn schedule(units: &[Unit], demands: &[u32], slots: &[Option<(u64, u64)>], total: i64, histories: &[(u16, u16)]) -> Schedule {
    let edition = if units.iter().any(|unit| unit.b1 != 0) { 2 } else { 1 };
    let expected = Ok(Scheduled { slots: slots.to_vec(), total, histories: histories.to_vec() });
    let case = Case { edition, demand: 5, units: units.to_vec() };
    Schedule { case, demands: demands.to_vec(), trace_room: 18 * demands.len(), histories_room: 32, expected }
}

/// The same refused, with this room.
fn unscheduled(units: &[Unit], demands: &[u32], trace_room: usize, histories_room: usize, number: u32) -> Schedule {
    Schedule { trace_room, histories_room, expected: Err(number), ..schedule(units, demands, &[], 0, &[]) }
}

/// The same of a file with this demand.
fn of_demand(demand: i128, schedule: Schedule) -> Schedule {
    Schedule { case: Case { demand, ..schedule.case }, ..schedule }
}

impl Schedule {
    pub fn day(&self) -> Day {
        Day {
            file: solver::encode(&self.case),
            demands: self.demands.clone(),
            trace_room: self.trace_room,
            histories_room: self.histories_room,
            answers_room: 1,
        }
    }

    /// The trace, the histories and the answer as they have to be in the end.
    fn stated_buffers(&self) -> (Vec<u8>, Vec<History>, i64) {
        let refused = Scheduled { slots: vec![], total: i64::MIN, histories: vec![] };
        let stated = self.expected.as_ref().unwrap_or(&refused);
        let mut trace: Vec<u8> = stated.slots.iter().flat_map(|slot| bytes_of_slot(*slot)).collect();
        let mut histories: Vec<History> =
            stated.histories.iter().map(|(previous, starts)| History { previous: *previous, starts: *starts }).collect();
        trace.resize(self.trace_room, FILL_BYTE);
        histories.resize(self.histories_room, FILL_HISTORY);
        (trace, histories, stated.total)
    }
}

/// The days of the examples of section 21, and others that tell wrong rules apart.
pub fn schedules() -> Vec<Schedule> {
    [stated_schedules(), further_schedules(), refused_schedules()].into_iter().flatten().collect()
}

/// The table of rule 21.10, but for what is refused.
fn stated_schedules() -> Vec<Schedule> {
    let solved = |cost, gap| Some((cost, gap));
    let stood = Some((0, 0));
    let loose = |unit: Unit| Unit { up: 10_000, down: 10_000, ..unit };
    let previous = |previous, unit: Unit| Unit { previous, ..unit };
    let costly = Unit { c0: 1_000_000_000, ..loose(u_must_run()) };
    let slots_of_u = [solved(119_000, 42_000), stood, solved(200_000, 0), None, solved(200_000, 140_000)];
    let five = solved(119_000, 42_000);
    let two_us = [solved(63_000, 0), solved(63_000, 0), stood, solved(63_000, 0)];
    vec![
        schedule(&[u()], &[5, 0, 10, 11, 3], &slots_of_u, 519_000, &[(10, 2)]),
        of_demand(11, schedule(&[u()], &[5], &[five], 119_000, &[(7, 1)])),
        schedule(&[previous(7, u())], &[], &[], 0, &[(7, 0)]),
        schedule(&[u()], &[2, 0, 10], &[solved(24_000, 0), stood, solved(200_000, 0)], 224_000, &[(10, 2)]),
        schedule(&[loose(u())], &[5, 11, 5], &[five, None, five], 238_000, &[(7, 1)]),
        schedule(&[previous(7, loose(u()))], &[5, 0, 5], &[five, stood, five], 238_000, &[(7, 1)]),
        schedule(&[u_must_run()], &[2, 10, 2], &[solved(24_000, 0), None, solved(24_000, 0)], 48_000, &[(2, 1)]),
        schedule(&[previous(5, u_must_run())], &[0, 5], &[None, None], 0, &[(5, 0)]),
        schedule(&[Unit { up: 3, ..previous(5, u()) }], &[7, 8], &[solved(119_000, 0), solved(144_000, 0)], 263_000, &[(8, 0)]),
        schedule(&[u(), u()], &[5, 5, 0, 5], &two_us, 189_000, &[(2, 2), (3, 2)]),
        schedule(&[Unit { b: 1, ..u() }], &[5, 10, 11], &[solved(119_000, 41_999), None, None], 119_000, &[(7, 1)]),
        schedule(&[costly], &[5; 5], &[solved(1_000_119_000, 42_000); 5], 5_000_595_000, &[(7, 1)]),
        schedule(
            &[Unit { up: 3, down: 3, ..u() }],
            &[7, 11, 4],
            &[solved(119_000, 0), None, solved(56_000, 0)],
            175_000,
            &[(4, 1)],
        ),
        schedule(&[with_b1(-10_000_000)], &[5, 11, 12], &[solved(119_000, 51_600), None, None], 119_000, &[(7, 1)]),
    ]
}

fn further_schedules() -> Vec<Schedule> {
    let solved = |cost, gap| Some((cost, gap));
    let stood = Some((0, 0));
    let five = solved(119_000, 42_000);
    let with_steps = |up, down, unit: Unit| Unit { up, down, ..unit };
    let without_zone = || with_steps(1, 1, Unit { zones: vec![], ..u() });
    let unlike = unlike();
    let unlike_with_b1 = [Unit { b1: 5_000_000, ..unlike[0].clone() }, Unit { b1: -3_000_000, ..unlike[1].clone() }];
    let of_unlike = [15, 26, 12, 30, 0, 15, 32, 24, 10];
    let starting = [with_c0(0), with_c0(60_000)].map(|unit| with_steps(10_000, 10_000, unit));
    let tied = vec![Unit { c0: 6_000, ..without_zone() }; 3];
    let greatest = Unit { c0: 1_000_000_000, c1: 10_000_000, least: 1, greatest: 10_000, zones: vec![], ..u_must_run() };
    vec![
        // no demand, also where there is room for a slot
        schedule(&[u()], &[], &[], 0, &[(0, 0)]),
        Schedule { trace_room: 18, histories_room: 33, ..schedule(&[u()], &[], &[], 0, &[(0, 0)]) },
        // the start is counted behind a refused slot, where the unit stood before it
        schedule(&[with_steps(10_000, 10_000, u())], &[0, 11, 5], &[stood, None, five], 119_000, &[(7, 1)]),
        // a previous output of the file above greatest, from which no ramp leads to it, or one does; and one that is permitted
        schedule(&[Unit { previous: 12, ..u() }], &[0, 5, 5], &[stood, five, solved(119_000, 34_000)], 238_000, &[(7, 1)]),
        schedule(&[Unit { previous: 12, up: 1, down: 2, ..u() }], &[10], &[solved(200_000, 0)], 200_000, &[(10, 0)]),
        schedule(&[Unit { previous: 10, ..u() }], &[5, 0, 5], &[solved(200_000, 100_000), stood, five], 319_000, &[(7, 1)]),
        // a window that moves step by step, and is left by standing
        schedule(
            &[without_zone()],
            &[5, 6, 9, 7, 8, 4, 0, 9],
            &[
                solved(75_000, 0),
                solved(96_000, 0),
                None,
                solved(119_000, 0),
                solved(144_000, 0),
                solved(119_000, 51_000),
                stood,
                solved(171_000, 0),
            ],
            724_000,
            &[(9, 2)],
        ),
        // up and down are not the same
        schedule(
            &[with_steps(2, 1, Unit { zones: vec![], ..u_must_run() })],
            &[3, 6, 3, 2, 5, 9, 9],
            &[solved(39_000, 0), None, solved(39_000, 0), solved(24_000, 0), None, None, None],
            102_000,
            &[(2, 1)],
        ),
        // zones that share an edge
        schedule(
            &[with_steps(1, 1, sharing())],
            &[7, 8, 7, 0, 8],
            &[solved(119_000, 0), None, solved(119_000, 0), stood, solved(171_000, 26_000)],
            409_000,
            &[(9, 2)],
        ),
        // each unit has its own history: unlike ones, in both editions
        schedule(
            &unlike,
            &of_unlike,
            &[
                solved(350_367, 25_844),
                None,
                solved(299_522, 41_999),
                None,
                solved(89_000, 0),
                solved(350_367, 25_844),
                None,
                None,
                solved(236_522, 18_999),
            ],
            1_325_778,
            &[(4, 0), (7, 2)],
        ),
        schedule(
            &unlike_with_b1,
            &of_unlike,
            &[
                solved(378_012, 49_784),
                None,
                solved(262_367, 759),
                None,
                solved(74_000, 0),
                solved(378_012, 49_784),
                None,
                solved(630_702, 24_569),
                solved(463_457, 203_456),
            ],
            2_186_550,
            &[(10, 0), (10, 2)],
        ),
        schedule(
            &starting,
            &[9, 5, 9, 0, 20],
            &[solved(348_000, 179_000), five, solved(348_000, 179_000), stood, solved(460_000, 0)],
            1_275_000,
            &[(10, 2), (10, 3)],
        ),
        // ties are lowered, so that not all start
        schedule(
            &tied,
            &[5, 5, 4, 8, 8, 0, 5],
            &[
                solved(90_000, 15_000),
                solved(90_000, 15_000),
                solved(90_000, 30_000),
                solved(135_000, 15_000),
                solved(135_000, 15_000),
                stood,
                solved(90_000, 15_000),
            ],
            630_000,
            &[(0, 1), (3, 2), (3, 2)],
        ),
        // 32 units
        schedule(
            &vec![u(); 32],
            &[70, 70, 64, 0, 100, 320],
            &[solved(858_000, 0), solved(858_000, 0), solved(780_000, 0), stood, solved(1_316_000, 0), None],
            3_812_000,
            &[[(3, 2); 28].as_slice(), &[(4, 2); 4]].concat(),
        ),
        // the greatest total that there is
        schedule(
            &vec![greatest; 32],
            &[320_000; 96],
            &[solved(6_432_000_000_000, 0); 96],
            617_472_000_000_000,
            &[(10_000, 1); 32],
        ),
    ]
}

fn refused_schedules() -> Vec<Schedule> {
    let rising: Vec<u32> = (0..97).collect();
    let wrong_edge = Unit { zones: vec![(2, 7)], ..u() };
    let excessive = with_b1(10_000_001);
    let of_edition_3 = |schedule: Schedule| Schedule { case: Case { edition: 3, ..schedule.case }, ..schedule };
    vec![
        // too many demands, and one too great; also where there is too little room
        unscheduled(&[u()], &rising, 1_746, 32, 22),
        unscheduled(&[u()], &rising, 0, 0, 22),
        unscheduled(&[u()], &[320_001], 18, 32, 22),
        unscheduled(&[u()], &[320_001], 17, 31, 22),
        unscheduled(&[u()], &[320_001, 5, 7], 54, 32, 22),
        unscheduled(&[u()], &[5, 7, 320_001], 54, 32, 22),
        unscheduled(&[u()], &[5, 327_685, 7], 54, 32, 22),
        unscheduled(&[u()], &[u32::MAX], 18, 32, 22),
        // too little room
        unscheduled(&[u()], &[5], 17, 32, 23),
        unscheduled(&[u()], &[5], 18, 31, 23),
        unscheduled(&[u()], &[5], 18, 1, 23),
        unscheduled(&[u()], &[], 0, 31, 23),
        unscheduled(&[u()], &rising[..96], 1_727, 32, 23),
        // both before the file's own number, which is given without a demand too
        unscheduled(&[wrong_edge.clone()], &[5], 18, 32, 9),
        unscheduled(&[wrong_edge.clone()], &[], 0, 32, 9),
        unscheduled(&[wrong_edge.clone()], &[5], 18, 31, 23),
        unscheduled(&[wrong_edge], &[320_001], 18, 31, 22),
        of_edition_3(unscheduled(&[u()], &[5], 18, 32, 3)),
        of_edition_3(unscheduled(&[u()], &[], 0, 32, 3)),
        of_edition_3(unscheduled(&[u()], &[], 0, 31, 23)),
        of_edition_3(unscheduled(&[u()], &rising, 0, 31, 22)),
        of_demand(320_001, unscheduled(&[u()], &[5], 18, 32, 5)),
        of_demand(320_001, unscheduled(&[u()], &[], 0, 32, 5)),
        unscheduled(&[Unit { mark: 2, ..u() }], &[5], 18, 32, 10),
        unscheduled(&[excessive.clone()], &[5], 18, 32, 18),
        unscheduled(&[excessive.clone()], &[], 0, 32, 18),
        unscheduled(&[excessive.clone()], &[5], 17, 32, 23),
        unscheduled(&[excessive], &[320_001], 17, 32, 22),
    ]
}

/// What lies in the buffers of a stated day before it is solved.
const FILL_BYTE: u8 = 0xA5;
const FILL_HISTORY: History = History { previous: 0xA5A5, starts: 0x5A5A };

fn check_schedules() -> usize {
    let schedules = schedules();
    for vector in &schedules {
        let day = vector.day();
        let mut trace = vec![FILL_BYTE; day.trace_room];
        let mut histories = vec![FILL_HISTORY; day.histories_room];
        let mut answers = [i64::MIN];
        let number = solver::panel_day(&day.file, &day.demands, &mut trace, &mut histories, &mut answers);
        assert_eq!(number, vector.expected.as_ref().err().copied().unwrap_or(0), "{:?} of {:?}", day.demands, vector.case);
        let stated = vector.stated_buffers();
        assert_eq!((trace, histories, answers[0]), stated, "{:?} of {:?}", day.demands, vector.case);
    }
    schedules.len()
}

fn bytes_of_slot(slot: Option<(u64, u64)>) -> Vec<u8> {
    let status: u16 = if slot.is_some() { 0 } else { 11 };
    let (cost, gap) = slot.unwrap_or((0, 0));
    [&status.to_be_bytes()[..], &cost.to_be_bytes(), &gap.to_be_bytes()].concat()
}

/// A run of a case from its start to its end: outputs, cost and gap after so many advances, and until more is stated.
pub struct Stepping {
    pub case: Case,
    moments: Vec<(i128, Vec<i128>, i128, i128)>,
    /// The advance that finishes it.
    last: i128,
}

fn stepping(demand: i128, units: &[Unit], last: i128, moments: &[(i128, &[i128], i128, i128)]) -> Stepping {
    let edition = if units.iter().any(|unit| unit.b1 != 0) { 2 } else { 1 };
    let moments = moments.iter().map(|(after, outputs, cost, gap)| (*after, outputs.to_vec(), *cost, *gap)).collect();
    Stepping { case: Case { edition, demand, units: units.to_vec() }, moments, last }
}

/// Runs, and what is told of them after each advance.
pub fn steppings() -> Vec<Stepping> {
    let dear = [with_c0(500_000_000), with_c0(1_000_000_000)];
    vec![
        // a floor before the first evaluation; best and floor that change at different advances
        stepping(
            5,
            &[u()],
            18,
            &[
                (0, &[10], 200_000, 200_000),
                (13, &[10], 200_000, 160_000),
                (14, &[10], 200_000, 129_000),
                (15, &[7], 119_000, 48_000),
                (16, &[7], 119_000, 43_000),
                (18, &[7], 119_000, 42_000),
            ],
        ),
        // the floor of the last evaluation alone
        stepping(
            1,
            &[u()],
            18,
            &[(0, &[10], 200_000, 200_000), (14, &[3], 39_000, 32_000), (15, &[3], 39_000, 31_000), (16, &[2], 24_000, 12_000)],
        ),
        // no end at 0
        stepping(0, &[u()], 1, &[(0, &[10], 200_000, 200_000), (1, &[0], 0, 0)]),
        stepping(0, &[u_must_run()], 1, &[(0, &[10], 200_000, 200_000), (1, &[2], 24_000, 0)]),
        // none at 65,536, where it does not cover or just covers; none at a middle that just covers
        stepping(15, &dear, 2, &[(0, &[10, 10], 1_500_400_000, 1_500_400_000), (2, &[10, 10], 1_500_400_000, 672_520_000)]),
        stepping(10, &[u()], 2, &[(0, &[10], 200_000, 200_000), (2, &[10], 200_000, 0)]),
        stepping(
            10,
            &[with_c0(300_000_000), with_c0(500_000_000)],
            3,
            &[(0, &[10, 10], 800_400_000, 800_400_000), (2, &[10, 10], 800_400_000, 655_360_000), (3, &[10, 0], 300_200_000, 0)],
        ),
        stepping(2, &[u()], 16, &[(0, &[10], 200_000, 200_000), (14, &[3], 39_000, 16_000), (16, &[2], 24_000, 0)]),
        // outputs that tie and are not lowered
        stepping(
            5,
            &[u(), u()],
            18,
            &[(0, &[10, 10], 400_000, 400_000), (14, &[3, 3], 78_000, 16_000), (18, &[2, 3], 63_000, 0)],
        ),
        // losses: a floor rounded up, and edition 2
        stepping(
            5,
            &[Unit { b: 1, ..u() }],
            18,
            &[
                (0, &[10], 200_000, 200_000),
                (13, &[10], 200_000, 159_999),
                (14, &[10], 200_000, 128_999),
                (15, &[7], 119_000, 47_999),
                (16, &[7], 119_000, 42_999),
                (18, &[7], 119_000, 41_999),
            ],
        ),
        stepping(
            5,
            &[with_b1(-10_000_000)],
            18,
            &[
                (0, &[10], 200_000, 200_000),
                (13, &[10], 200_000, 192_000),
                (14, &[10], 200_000, 134_400),
                (15, &[8], 144_000, 78_400),
                (16, &[7], 119_000, 53_400),
                (17, &[7], 119_000, 52_200),
                (18, &[7], 119_000, 51_600),
            ],
        ),
    ]
}

impl Stepping {
    fn check(&self) {
        let file = solver::encode(&self.case);
        let Run { mut numbers, mut held } = EMPTY;
        assert_eq!(solver::start(&mut numbers, &mut held, &file), Ok(()), "a start of {:?}", self.case);
        for advances in 0..=20 {
            let (_, outputs, cost, gap) = self.moments.iter().rev().find(|moment| moment.0 <= advances).expect("a moment");
            let asked = solver::ask(&numbers);
            let told = (&asked.outputs[..asked.count as usize], asked.cost, asked.gap, asked.evaluations);
            assert_eq!(told, (&outputs[..], *cost, *gap, advances.min(self.last)), "{:?} after {} advances", self.case, advances);
            assert_eq!(asked.state == State::Finished, advances >= self.last, "{:?} after {} advances", self.case, advances);
            let after = if advances + 1 < self.last { State::Unfinished } else { State::Finished };
            assert_eq!(solver::advance(&mut numbers, &held, &file), Ok(after), "{:?} advanced after {} advances", self.case, advances);
        }
    }
}

/// The run of U5 after its start with some numbers changed: the gap that is told, or none where it is not started.
pub fn changed_runs() -> Vec<(Numbers, Option<i128>)> {
    let changed = |changes: &[(usize, u64)], gap| {
        let mut numbers = started_u5().numbers;
        for (place, number) in changes {
            numbers[*place] = *number;
        }
        (numbers, gap)
    };
    vec![
        changed(&[], Some(200_000)),
        changed(&[(0, 0)], None),
        changed(&[(0, 2)], None),
        changed(&[(1, 1)], Some(200_000)),
        changed(&[(1, 2)], None),
        changed(&[(2, 17)], Some(200_000)),
        changed(&[(2, 18)], None),
        changed(&[(1, 1), (2, 18), (3, 5)], Some(200_000)),
        changed(&[(1, 1), (2, 19)], None),
        changed(&[(2, 1), (3, 5)], None),
        changed(&[(2, 2), (3, 32_768)], None),
        changed(&[(2, 3), (3, 32_768)], Some(200_000)),
        changed(&[(2, 3), (3, 32_769)], None),
        changed(&[(2, 17), (3, 65_534)], Some(200_000)),
        changed(&[(2, 17), (3, 65_536)], None),
        changed(&[(2, 17), (3, u64::MAX)], None),
        changed(&[(4, 35_200_000_000_000)], Some(35_200_000_000_000)),
        changed(&[(4, 35_200_000_000_001)], None),
        changed(&[(5, 35_200_000_000_000)], Some(200_000)),
        changed(&[(5, 35_200_000_000_001)], None),
        changed(&[(6, 199_999)], Some(1)),
        changed(&[(6, 300_000)], Some(0)),
        changed(&[(6, 35_200_000_000_000)], Some(0)),
        changed(&[(6, 35_200_000_000_001)], None),
        changed(&[(7, 0)], None),
        changed(&[(7, 32)], Some(200_000)),
        changed(&[(7, 33)], None),
        changed(&[(8, 0)], Some(200_000)),
        changed(&[(8, 1_608)], Some(200_000)),
        changed(&[(8, 1_609)], None),
        changed(&[(9, 10_000)], Some(200_000)),
        changed(&[(9, 10_001)], None),
        changed(&[(40, 10_000)], Some(200_000)),
        changed(&[(40, 10_001)], None),
    ]
}

fn started_u5() -> Run {
    let Run { mut numbers, mut held } = EMPTY;
    solver::start(&mut numbers, &mut held, &solver::encode(&u5())).expect("a start of U5");
    Run { numbers, held }
}

/// Operations one after the other, from zeros, on U5, on U with other demands and on files with a byte changed: what each answers,
/// and how many evaluations are then told.
pub fn watched() -> Vec<(Operation, Answer, i128)> {
    let of_demand = |demand| solver::encode(&Case { demand, ..u5() });
    let (own, other, uncovered, short, empty) = (of_demand(5), of_demand(1), of_demand(11), vec![0; 7], vec![]);
    let end = own.len() - 1;
    let with_byte = |place: usize, byte| [&own[..place], &[byte], &own[place + 1..]].concat();
    let changed = [with_byte(0, 1), with_byte(7, 6), with_byte(25, 3), with_byte(end, 8), own[..end].to_vec(), [&own[..], &[0]].concat()];
    let advanced = |file: &[u8], state| (Advance(file.to_vec()), Answer::Advanced(Ok(state)));
    let case_changed = |file: &[u8]| (Advance(file.to_vec()), Answer::Advanced(Err(Refused(24))));
    let begun = |file: &[u8]| (Start(file.to_vec()), Answer::Started(Ok(())));
    let start_refused = |file: &[u8], number| (Start(file.to_vec()), Answer::Started(Err(Refused(number))));
    let mut list = vec![];
    let mut add = |(operation, answer), evaluations| list.push((operation, answer, evaluations));
    // not started, whatever it is handed
    for file in [&own, &other, &uncovered, &short, &empty] {
        add(advanced(file, State::NotStarted), 0);
    }
    add(start_refused(&uncovered, 11), 0);
    add(advanced(&uncovered, State::NotStarted), 0);
    // 24 ahead of 2 and 11; the run goes on, also behind starts that are refused
    add(begun(&own), 0);
    for made in 1..=17 {
        for file in changed.iter().chain([&other, &uncovered, &short, &empty]) {
            if made < 3 {
                add(case_changed(file), made - 1);
            }
        }
        if made == 4 {
            add(start_refused(&uncovered, 11), 3);
            add(case_changed(&uncovered), 3);
            add(start_refused(&short, 2), 3);
            add(start_refused(&changed[5], 6), 3);
        }
        add(advanced(&own, State::Unfinished), made);
    }
    // the same of a finished run
    add(advanced(&own, State::Finished), 18);
    for file in changed.iter().chain([&other, &uncovered, &short, &empty]) {
        add(case_changed(file), 18);
    }
    add(start_refused(&short, 2), 18);
    add(advanced(&own, State::Finished), 18);
    // a start with the same file begins anew; one with another holds that
    add(begun(&own), 0);
    add(advanced(&own, State::Unfinished), 1);
    add(case_changed(&other), 1);
    add(begun(&other), 0);
    add(advanced(&other, State::Unfinished), 1);
    add(case_changed(&own), 1);
    add(begun(&other), 0);
    add(case_changed(&own), 0);
    add(advanced(&other, State::Unfinished), 1);
    add(begun(&own), 0);
    add(case_changed(&other), 0);
    add(advanced(&own, State::Unfinished), 1);
    list
}

fn check_watched() -> usize {
    let watched = watched();
    let mut run = EMPTY;
    for (operation, answer, evaluations) in &watched {
        assert_eq!(operation.perform(&mut run), *answer, "{:?}", operation);
        assert_eq!(solver::ask(&run.numbers).evaluations, *evaluations, "behind {:?}", operation);
    }
    watched.len()
}

fn check_steppings() -> usize {
    let (steppings, changed_runs) = (steppings(), changed_runs());
    for stepping in &steppings {
        stepping.check();
    }
    let Run { held, .. } = started_u5();
    for (numbers, gap) in &changed_runs {
        let asked = solver::ask(numbers);
        assert_eq!(Some(asked.gap).filter(|_| asked.state != State::NotStarted), *gap, "{:?}", numbers);
        let answer = solver::advance(&mut numbers.clone(), &held, &solver::encode(&u5()));
        assert_eq!(answer == Ok(State::NotStarted), gap.is_none(), "{:?} advanced", numbers);
    }
    steppings.len() + changed_runs.len() + check_watched()
}

/// A search within a budget, by the letters of its units, its demand and its budget, and the answer that is stated for it.
pub struct Refinement {
    pub name: &'static str,
    pub file: Vec<u8>,
    pub budget: u32,
    pub room: usize,
    expected: Result<Refined, Refused>,
}

impl Refinement {
    /// The reply's bytes by these rules.
    pub fn answer(&self, rules: &Rules) -> Result<Vec<u8>, Refused> {
        refined::refine(&self.file, self.budget, self.room, rules).map(|search| search.reply())
    }
}

fn refinement(name: &'static str, units: &[Unit], demand: i128, budget: u32, numbers: [i128; 4], outputs: &[i128]) -> Refinement {
    let file = solver::encode(&Case { edition: 1, demand, units: units.to_vec() });
    let [nodes, cost, gap, surplus] = numbers;
    Refinement { name, file, budget, room: ROOM, expected: Ok(Refined { nodes, cost, gap, surplus, outputs: outputs.to_vec() }) }
}

fn unrefined(name: &'static str, file: &[u8], budget: u32, room: usize, number: u32) -> Refinement {
    Refinement { name, file: file.to_vec(), budget, room, expected: Err(Refused(number)) }
}

/// The stated searches within a budget; `misread` has the wrong rules that they tell apart.
pub fn refinements() -> Vec<Refinement> {
    let u = u();
    let c = with_c0(6_000);
    let m = u_must_run();
    let a = Unit { zones: vec![(4, 5)], ..u.clone() };
    let r = Unit { previous: 9, up: 1, down: 1, ..u.clone() };
    let s = sharing();
    let [d, h, k] = [20_000, 500_000_000, 1_000_000_000].map(with_c0);
    let n = Unit { zones: vec![], ..m.clone() };
    let p = Unit { c1: 0, mark: 1, ..s.clone() };
    let q = Unit { c0: 20_000, c2: 0, ..n.clone() };
    let x = Unit { previous: 20, ..u.clone() };
    let (one, two, three) = ([u.clone()], [u.clone(), u.clone()], [u.clone(), u.clone(), u.clone()]);
    let mut rows = vec![
        refinement("U 5,1", &one, 5, 1, [1, 119_000, 42_000, 200_000_000], &[7]),
        refinement("U 5,3", &one, 5, 3, [3, 119_000, 42_000, 200_000_000], &[7]),
        refinement("U 5,4", &one, 5, 4, [4, 119_000, 42_000, 200_000_000], &[7]),
        refinement("U 5,5", &one, 5, 5, [5, 119_000, 0, 200_000_000], &[7]),
        refinement("U 5,100", &one, 5, 100, [5, 119_000, 0, 200_000_000], &[7]),
        refinement("U 5,65536", &one, 5, 65_536, [5, 119_000, 0, 200_000_000], &[7]),
        refinement("U 5,100000", &one, 5, 100_000, [5, 119_000, 0, 200_000_000], &[7]),
        refinement("U 1,4", &one, 1, 4, [3, 24_000, 0, 100_000_000], &[2]),
        refinement("U 3,2", &one, 3, 2, [1, 39_000, 0, 0], &[3]),
        refinement("C 1,2", &[c.clone()], 1, 2, [2, 45_000, 30_000, 200_000_000], &[3]),
        refinement("UU 9,1", &two, 9, 1, [1, 175_000, 42_000, 200_000_000], &[4, 7]),
        refinement("UU 9,2", &two, 9, 2, [2, 171_000, 38_000, 0], &[0, 9]),
        refinement("UU 9,5", &two, 9, 5, [5, 171_000, 38_000, 0], &[0, 9]),
        refinement("UU 9,9", &two, 9, 9, [9, 143_000, 0, 0], &[2, 7]),
        refinement("UU 3,2", &two, 3, 2, [2, 39_000, 3_000, 0], &[0, 3]),
        refinement("UU 3,5", &two, 3, 5, [5, 39_000, 3_000, 0], &[0, 3]),
        refinement("UU 12,4", &two, 12, 4, [4, 200_000, 4_000, 0], &[4, 8]),
        refinement("UC 3,6", &[u.clone(), c.clone()], 3, 6, [6, 39_000, 0, 0], &[3, 0]),
        refinement("AM 10,4", &[a, m], 10, 4, [4, 175_000, 23_000, 100_000_000], &[4, 7]),
        refinement("RU 9,5", &[r, u.clone()], 9, 5, [5, 168_000, 0, 100_000_000], &[8, 2]),
        refinement("UUU 14,13", &three, 14, 13, [13, 214_000, 0, 0], &[3, 4, 7]),
        refinement("HK 15,20", &[h, k], 15, 20, [7, 1_500_263_000, 0, 0], &[7, 8]),
        refinement("S 5,1", &[s.clone()], 5, 1, [1, 119_000, 42_000, 200_000_000], &[7]),
        refinement("S 5,4", &[s.clone()], 5, 4, [4, 119_000, 42_000, 200_000_000], &[7]),
        refinement("S 5,5", &[s.clone()], 5, 5, [5, 119_000, 0, 200_000_000], &[7]),
        refinement("SS 9,9", &[s.clone(), s], 9, 9, [9, 143_000, 0, 0], &[2, 7]),
        // more load may be cheaper within a budget
        refinement("DU 6,3", &[d.clone(), u.clone()], 6, 3, [3, 119_000, 25_000, 100_000_000], &[0, 7]),
        refinement("DU 7,3", &[d, u.clone()], 7, 3, [3, 115_000, 0, 0], &[3, 4]),
        // a first unit of one region; one that may only stand
        refinement("NU 10,5", &[n, u.clone()], 10, 5, [5, 152_000, 0, 0], &[6, 4]),
        refinement("XU 5,4", &[x, u.clone()], 5, 4, [4, 119_000, 42_000, 200_000_000], &[0, 7]),
        // a gap that no budget closes: the least floor is that of a node of single regions
        refinement("Q 3,1", &[q.clone()], 3, 1, [1, 120_000, 70_000, 700_000_000], &[10]),
        refinement("CQ 9,4", &[c, q.clone()], 9, 4, [3, 120_000, 10_000, 100_000_000], &[0, 10]),
        refinement("UQ 11,3", &[u.clone(), q.clone()], 11, 3, [3, 144_000, 10_000, 100_000_000], &[2, 10]),
        refinement("PQ 13,3", &[p.clone(), q.clone()], 13, 3, [3, 136_000, 10_000, 100_000_000], &[4, 10]),
        refinement("PQ 13,6", &[p, q], 13, 6, [5, 136_000, 10_000, 100_000_000], &[4, 10]),
    ];
    rows.extend(refused_refinements());
    rows
}

fn refused_refinements() -> Vec<Refinement> {
    let file = |demand: i128, unit: Unit| solver::encode(&Case { edition: 1, demand, units: vec![unit] });
    let u5 = solver::encode(&u5());
    let wrong_edge = file(5, Unit { zones: vec![(2, 7)], ..u() });
    vec![
        unrefined("U 5,1 of 93 bytes", &u5, 1, ROOM - 1, 1),
        unrefined("U 5,0", &u5, 0, ROOM, 25),
        unrefined("U 5,100001", &u5, 100_001, ROOM, 25),
        unrefined("U 5,0 of 93 bytes", &u5, 0, ROOM - 1, 1),
        unrefined("no file,1 of 93 bytes", &[], 1, ROOM - 1, 1),
        unrefined("no file,0", &[], 0, ROOM, 25),
        unrefined("no file,1", &[], 1, ROOM, 2),
        unrefined("wrong edge,0", &wrong_edge, 0, ROOM, 25),
        unrefined("wrong edge,1", &wrong_edge, 1, ROOM, 9),
        unrefined("U 11,0", &file(11, u()), 0, ROOM, 25),
        unrefined("U 11,1", &file(11, u()), 1, ROOM, 11),
    ]
}

fn check_refinements() -> usize {
    let rows = refinements();
    for row in &rows {
        assert_eq!(row.answer(&PAPER).map(|bytes| refined::decode(&bytes)), row.expected, "{}", row.name);
    }
    let reply = refined::refine(&solver::encode(&u5()), 5, ROOM, &PAPER).map(|search| hex(&search.reply()));
    assert_eq!(reply, Ok(U5_REFINED.to_string()), "the reply to U5 searched with a budget of 5");
    rows.len() + 1
}

/// Asserts every number that is stated; tells how many vectors there are.
pub fn check() -> usize {
    let u5 = solver::encode(&u5());
    assert_eq!(hex(&u5), U5, "the file of U5");
    for (multiplier, dual) in PRICINGS {
        let covered = true;
        assert_eq!(solver::price(&u5, multiplier), Ok(Priced { dual, covered }), "U5 priced at {}", multiplier);
    }
    check_views();
    let vectors: Vec<Vector> = table().into_iter().chain(further()).chain(lowered()).chain(shared_edges()).chain(edition_2()).collect();
    for vector in &vectors {
        check_vector(vector);
    }
    let of_calls = check_edition_2() + check_judgements() + check_floorings() + check_schedules() + check_steppings();
    vectors.len() + PRICINGS.len() + VIEWS.len() + of_calls + check_refinements()
}

/// Asserts what is stated of edition 2 beside its cases; tells how many numbers that is.
fn check_edition_2() -> usize {
    let pricings = pricings_of_edition_2();
    for (case, multiplier, priced) in &pricings {
        assert_eq!(solver::price(&solver::encode(case), *multiplier), Ok(*priced), "{:?} priced at {}", case, multiplier);
    }
    let file = solver::encode(&Case { edition: 2, demand: 5, units: vec![with_b1(-10_000_000)] });
    assert_eq!(hex(&file), U5_IN_EDITION_2, "the file of U5 in edition 2");
    assert_eq!(solver::unpack(&file, &mut [0; 608]), Err(Refused(3)), "unpacking of edition 2");
    pricings.len() + 2
}

fn check_vector(vector: &Vector) {
    let file = solver::encode(&vector.case);
    let answer = solver::decode(&file).and_then(|case| solver::solve(&case));
    match (&vector.expected, &answer) {
        (Expected::Refused(number), Err(Refused(refused))) => assert_eq!(number, refused, "{:?}", vector.case),
        (Expected::Replied(stated), Ok(reply)) => check_stated(stated, reply),
        _ => panic!("{:?} gives {:?}", vector.case, answer),
    }
}

fn check_stated(stated: &Stated, reply: &Reply) {
    assert_eq!(stated.outputs, reply.outputs, "{:?}", reply);
    let numbers = [
        (stated.evaluations, reply.evaluations),
        (stated.cost, reply.cost),
        (stated.gap, reply.gap),
        (stated.surplus, reply.surplus),
    ];
    for (stated, replied) in numbers {
        assert_eq!(stated.unwrap_or(replied), replied, "{:?}", reply);
    }
}
