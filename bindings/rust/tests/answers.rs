use kapi::{Decision, Error, Policy, Question};

const OBJECTS: &str = include_str!("objects.jsonl");

const LOGS: Question<'static> =
    Question { user: "ann", groups: &[], namespace: "web", verb: "get", group: "", resource: "pods/log", subresource: "", name: "", path: "" };

#[test]
fn decides() {
    let mut policy = Policy::load(OBJECTS.as_bytes()).unwrap();
    let mut many = vec!["a"; 1000];
    many.push("system:masters");
    assert_eq!(policy.decide(&LOGS), Ok(Decision::Allowed));
    assert_eq!(policy.decide(&Question { resource: "pods", subresource: "log", ..LOGS }), Ok(Decision::Allowed));
    assert_eq!(policy.decide(&Question { user: "bob", ..LOGS }), Ok(Decision::Denied));
    assert_eq!(policy.decide(&Question { path: "/healthz", ..LOGS }), Ok(Decision::Denied));
    assert_eq!(policy.decide(&Question { user: "bob", groups: &many, ..LOGS }), Ok(Decision::Masters));
    assert_eq!(policy.decide(&Question { resource: "pods/log/x", ..LOGS }), Err(Error::Question));
    let (decision, line) = policy.why(&LOGS).unwrap();
    assert!(decision == Decision::Allowed && line.starts_with("allowed "));
    assert_eq!(policy.is_settled(), Ok(true));
}

#[test]
fn names_a_bad_line() {
    assert_eq!(Policy::load(format!("{OBJECTS}no object\n").as_bytes()).unwrap_err(), Error::Line(4));
}

#[test]
fn lists() {
    let mut policy = Policy::load(OBJECTS.as_bytes()).unwrap();
    let one = |lines: String, word: &str| assert!(lines.contains(word), "{lines}");
    one(policy.who(&LOGS, false).unwrap(), "\"subject\":\"ann\"");
    one(policy.who(&Question { namespace: "", ..LOGS }, true).unwrap(), "\"subject\":\"ann\"");
    assert!(!policy.who(&Question { namespace: "", ..LOGS }, false).unwrap().contains("ann"));
    one(policy.what("ann", &[], "web").unwrap(), "pods/log");
    one(policy.risks().unwrap(), "{\"settled\":true}\n");
    one(policy.paths("", &["escalate"]).unwrap(), "{\"settled\":true}\n");
    let role = Question { user: "bob", namespace: "web", resource: "Role", name: "logs", ..Default::default() };
    assert_eq!(policy.missing(&role).unwrap(), "[\"get\",\"\",\"pods/log\"]\n");
    assert_eq!(policy.missing(&Question { user: "ann", ..role }).unwrap(), "");
    assert_eq!(policy.missing(&Question { name: "none", ..role }), Err(Error::Question));
    assert_eq!(policy.gains(OBJECTS.as_bytes()), Ok((true, String::new())));
    assert_eq!(policy.gains(format!("{OBJECTS}no object\n").as_bytes()), Err(Error::Line(4)));
    let (is_none, lines) = policy.gains(OBJECTS.replace("\"get\"", "\"get\",\"list\"").as_bytes()).unwrap();
    assert!(!is_none && lines.contains("[\"list\",\"\",\"pods/log\"]"), "{lines}");
}

#[test]
fn is_shared_by_threads() {
    let mut policy = Policy::load(OBJECTS.as_bytes()).unwrap();
    let threads: Vec<_> = (0..8)
        .map(|_| policy.share().unwrap())
        .map(|mut mine| std::thread::spawn(move || (0..1000).all(|_| mine.may(&LOGS) == Ok(true))))
        .collect();
    drop(policy);
    assert!(threads.into_iter().all(|it| it.join().unwrap()));
}
