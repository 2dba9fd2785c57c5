//! Squeezed plans (document 02, T-12): the cases of a separately written program, examples along
//! the edges, and every assignment of the unlocked variables of small random plans.

use reference::file::{parse, write, Refusal};
use reference::making::{at_least, at_most, between, from_hexadecimal, locking, plan, terms};
use reference::plan::{Plan, Rule};
use reference::random::{self, Random, Shape};
use reference::squeeze::{extended, squeeze, squeezed, Answer, Fault, LIST};
use std::collections::BTreeSet;

/// The words of a list up to its first 0.
fn words(list: &[u8]) -> Vec<u32> {
    let word = |bytes: &[u8]| u32::from_le_bytes(bytes.try_into().unwrap());
    list.chunks(4).map(word).take_while(|&x| x != 0).collect()
}

#[test]
fn cases_of_a_separately_written_program() {
    let cases = include_str!("../../vectors/squeezed.txt");
    let mut kinds = BTreeSet::new();
    for case in cases.lines() {
        let (file, wanted) = case.split_once(" = ").unwrap();
        let wanted: Vec<&str> = wanted.split(' ').collect();
        let mut file = from_hexadecimal(file);
        let (before, mut list) = (file.clone(), vec![0xa5; LIST]);
        match squeeze(&mut file, &mut list) {
            Err(Refusal { number, offset }) => {
                let refused = [
                    "refused".to_string(),
                    number.to_string(),
                    offset.to_string(),
                ];
                assert_eq!(wanted, refused);
                assert_eq!(file, before);
                assert!(list.iter().all(|&byte| byte == 0xa5));
                kinds.insert(number);
            }
            Ok(Answer { length, constant }) => {
                assert_eq!(wanted[0], length.to_string());
                assert_eq!(wanted[1], constant.to_string());
                assert_eq!(file, from_hexadecimal(wanted[2]));
                let old: Vec<String> = words(&list).iter().map(u32::to_string).collect();
                assert_eq!(old.join(","), wanted[3]);
                assert!(list[4 * old.len()..].iter().all(|&byte| byte == 0));
                kinds.insert(0);
            }
        }
    }
    assert_eq!(cases.lines().count(), 150);
    assert_eq!(kinds, BTreeSet::from([0, 1, 71, 72]));
}

/// The rules of the one clause that is left, or of none.
fn left(locks: &[(usize, u8)], rules: &[Rule]) -> Result<Vec<Rule>, Fault> {
    let plan = locking(self::plan(4, &[], &[rules]), locks);
    let clauses = squeezed(&plan)?.plan.clauses;
    assert!(clauses.len() <= 1);
    Ok(clauses
        .into_iter()
        .flat_map(|clause| clause.rules)
        .collect())
}

#[test]
fn bounds_along_the_edges() {
    let sum = [(1, 1), (2, 1), (3, 1), (4, 1)];
    let rest = [(1, 1), (2, 1), (3, 1)];
    // x4 is 1: three variables are left, their sum 0 to 3.
    let locked = |rule| left(&[(4, 1)], &[rule]);
    assert_eq!(locked(at_least(2, &sum)), Ok(vec![at_least(1, &rest)]));
    assert_eq!(locked(at_least(1, &sum)), Ok(vec![]));
    assert_eq!(locked(at_least(4, &sum)), Ok(vec![at_least(3, &rest)]));
    assert_eq!(locked(at_least(5, &sum)), Err(Fault::ClauseLost));
    assert_eq!(locked(at_most(3, &sum)), Ok(vec![at_most(2, &rest)]));
    assert_eq!(locked(at_most(4, &sum)), Ok(vec![]));
    assert_eq!(locked(at_most(1, &sum)), Ok(vec![at_most(0, &rest)]));
    assert_eq!(locked(at_most(0, &sum)), Err(Fault::ClauseLost));
    // One bound of two is dropped, or both.
    assert_eq!(locked(between(1, &sum, 2)), Ok(vec![at_most(1, &rest)]));
    assert_eq!(locked(between(3, &sum, 4)), Ok(vec![at_least(2, &rest)]));
    assert_eq!(locked(between(1, &sum, 4)), Ok(vec![]));
    // A rule that can never be met, though its least and greatest sum each pass.
    assert_eq!(locked(between(3, &sum, 2)), Ok(vec![between(2, &rest, 1)]));
    // One bound that no values meet is enough, also beside one that all meet.
    assert_eq!(locked(between(5, &sum, 9)), Err(Fault::ClauseLost));
    assert_eq!(locked(between(-9, &sum, 0)), Err(Fault::ClauseLost));
}

#[test]
fn clauses_along_the_edges() {
    let never = at_least(2, &[(1, 1)]);
    let always = at_most(1, &[(2, 1)]);
    let either = at_least(1, &[(1, 1)]);
    let left = |rules: &[Rule]| left(&[], rules);
    assert_eq!(left(std::slice::from_ref(&never)), Err(Fault::ClauseLost));
    assert_eq!(
        left(&[never.clone(), never.clone()]),
        Err(Fault::ClauseLost)
    );
    assert_eq!(
        left(&[never.clone(), either.clone()]),
        Ok(vec![either.clone()])
    );
    // A clause with a rule that all values meet is dropped, even where its others can never be met.
    for rules in [[&never, &always], [&always, &never], [&either, &always]] {
        assert_eq!(left(&rules.map(Rule::clone)), Ok(vec![]));
    }
    // Two of the same rule are both kept.
    assert_eq!(
        left(&[either.clone(), either.clone()]),
        Ok(vec![either.clone(), either])
    );
}

#[test]
fn variables_objective_and_list() {
    // x2 is 0, x4 is 1; x5 stands in no rule.
    let objective = [(1, 5), (2, 7), (3, -2), (4, -9)];
    let clause = [at_least(1, &[(1, 1), (2, 1), (3, 1)])];
    let plan = locking(self::plan(5, &objective, &[&clause]), &[(2, 0), (4, 1)]);
    let new = squeezed(&plan).unwrap();
    assert_eq!(new.old, [1, 3, 5]);
    assert_eq!(new.constant, -9);
    assert_eq!(new.plan.variables, 3);
    assert_eq!(new.plan.objective, terms(&[(1, 5), (2, -2)]));
    assert_eq!(new.plan.clauses[0].rules, [at_least(1, &[(1, 1), (2, 1)])]);
    // No field of locks, or an empty one: nothing is locked.
    let free = self::plan(5, &objective, &[&clause]);
    assert_eq!(squeezed(&free).unwrap().plan, free);
    assert_eq!(squeezed(&free).unwrap().constant, 0);
    // 71 comes before 72.
    let lost = self::plan(1, &[], &[&[at_least(1, &[(1, 1)])]]);
    assert_eq!(squeezed(&locking(lost, &[(1, 0)])), Err(Fault::AllLocked));
}

#[test]
fn refusals_in_their_order() {
    let lost = write(&locking(
        plan(2, &[], &[&[at_least(1, &[(1, 1)])]]),
        &[(1, 0)],
    ));
    let refused = |number, offset| Err(Refusal { number, offset });
    let mut file = lost.clone();
    assert_eq!(squeeze(&mut file, &mut vec![7; LIST - 1]), refused(21, 0));
    assert_eq!(squeeze(&mut [], &mut vec![7; LIST - 1]), refused(21, 0));
    assert_eq!(squeeze(&mut [], &mut vec![7; LIST]), refused(1, 0));
    assert_eq!(squeeze(&mut file, &mut vec![7; LIST]), refused(72, 0));
    assert_eq!(file, lost);
    file.push(0);
    assert_eq!(
        squeeze(&mut file, &mut vec![7; LIST]),
        refused(7, lost.len())
    );
}

/// Every assignment of the unlocked variables satisfies both plans or neither, at costs that differ
/// by the constant; the new file is accepted and says the new plan.
fn compare(plan: &Plan) -> Result<(), Fault> {
    let new = squeezed(plan)?;
    assert_eq!(parse(&write(&new.plan)).as_ref(), Ok(&new.plan));
    assert!(write(&new.plan).len() <= write(plan).len());
    let m = new.old.len();
    for number in 0..1_u32 << m {
        let free: Vec<bool> = (0..m).map(|i| number >> i & 1 == 1).collect();
        let all = extended(plan, &new.old, &free);
        assert!(plan.obeyed(&all));
        assert_eq!(plan.satisfied(&all), new.plan.satisfied(&free));
        assert_eq!(plan.cost(&all), new.plan.cost(&free) + new.constant);
    }
    // It has nothing left to squeeze.
    assert_eq!(squeezed(&new.plan).unwrap().plan, new.plan);
    Ok(())
}

#[test]
fn all_assignments_of_small_plans() {
    let shape = Shape {
        variables: 9,
        clauses: 4,
        rules: 3,
        terms: 5,
        weight: 4,
    };
    let mut random = Random::new(12);
    let mut met = [0, 0, 0];
    for case in 0..6_000 {
        let plan = match case % 3 {
            0 => random::small_plan(&mut random),
            1 => random::met_plan(&mut random, &shape),
            _ => random::heavy_plan(&mut random),
        };
        match compare(&plan) {
            Ok(()) => met[0] += 1,
            Err(Fault::AllLocked) => met[1] += 1,
            Err(Fault::ClauseLost) => met[2] += 1,
        }
    }
    assert!(met.iter().all(|&count| count > 200), "{met:?}");
}
