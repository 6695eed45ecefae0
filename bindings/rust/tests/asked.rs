use std::{env, fs};

use kapi::{Policy, Question};

/// Questions of a folder that `KAPI_ASKED` names, with the decisions of `kapi audit`: 0 for a denial.
#[test]
fn decides_as_an_audit() {
    let Ok(folder) = env::var("KAPI_ASKED") else {
        return;
    };
    for number in 0.. {
        let read = |what: &str| fs::read_to_string(format!("{folder}/{number}.{what}"));
        let Ok(objects) = read("objects") else {
            assert!(number > 0, "{folder} has no objects");
            return;
        };
        let mut policy = Policy::load(objects.as_bytes()).unwrap();
        let decided: String = read("questions").unwrap().lines().map(|line| if may(&mut policy, line) { '1' } else { '0' }).collect();
        assert_eq!(decided, read("answers").unwrap());
    }
}

fn may(policy: &mut Policy, line: &str) -> bool {
    let field: Vec<&str> = line.split('\t').collect();
    let groups: Vec<&str> = field[1].split(',').filter(|group| !group.is_empty()).collect();
    let asked = Question {
        user: field[0], groups: &groups, namespace: field[2], verb: field[3], group: field[4],
        resource: field[5], subresource: field[6], name: field[7], path: field[8],
    };
    policy.may(&asked).unwrap()
}
