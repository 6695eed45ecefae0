package kapi

import (
	"errors"
	"fmt"
	"strings"
	"sync"
	"testing"
)

const objects = `{"apiVersion":"v1","kind":"Namespace","metadata":{"name":"web"}}
{"apiVersion":"rbac.authorization.k8s.io/v1","kind":"Role","metadata":{"namespace":"web","name":"logs"},"rules":[{"apiGroups":[""],"resources":["pods/log"],"verbs":["get"]}]}
{"apiVersion":"rbac.authorization.k8s.io/v1","kind":"RoleBinding","metadata":{"namespace":"web","name":"logs"},"subjects":[{"apiGroup":"rbac.authorization.k8s.io","kind":"User","name":"ann"}],"roleRef":{"apiGroup":"rbac.authorization.k8s.io","kind":"Role","name":"logs"}}
`

func Example() {
	policy, err := Load([]byte(objects))
	if err != nil {
		panic(err)
	}
	defer policy.Close()
	for _, user := range []string{"ann", "bob"} {
		may, err := policy.May(Question{User: user, Verb: "get", Resource: "pods/log", Namespace: "web"})
		fmt.Println(user, may, err)
	}
	// Output:
	// ann true <nil>
	// bob false <nil>
}

func TestAnswers(t *testing.T) {
	policy, err := Load([]byte(objects))
	if err != nil {
		t.Fatal(err)
	}
	defer policy.Close()
	many := append(strings.Split(strings.Repeat("a,", 999)+"a", ","), "system:masters")
	for _, it := range []struct {
		asked Question
		want  Decision
		fault error
	}{
		{Question{User: "ann", Verb: "get", Resource: "pods", Subresource: "log", Namespace: "web"}, Allowed, nil},
		{Question{User: "ann", Verb: "get", Resource: "pods/log"}, Denied, nil},
		{Question{User: "bob", Groups: many, Verb: "get", Path: "/healthz"}, Masters, nil},
		{Question{User: "\xff", Verb: "get", Resource: "pods"}, Denied, ErrNotText},
		{Question{User: "ann", Verb: "get", Resource: "pods/log/x"}, Denied, ErrNoQuestion},
	} {
		if got, err := policy.Decide(it.asked); got != it.want || !errors.Is(err, it.fault) {
			t.Errorf("%+v: %v %v", it.asked.User, got, err)
		}
	}
	if decision, line, err := policy.Why(Question{User: "ann", Verb: "get", Resource: "pods/log", Namespace: "web"}); decision != Allowed || !strings.HasPrefix(line, "allowed ") || err != nil {
		t.Error(decision, line, err)
	}
}

func TestBadLine(t *testing.T) {
	var line BadLine
	if _, err := Load([]byte(objects + "no object\n")); !errors.As(err, &line) || line != 4 {
		t.Error(err)
	}
}

func TestLists(t *testing.T) {
	policy, err := Load([]byte(objects))
	if err != nil {
		t.Fatal(err)
	}
	defer policy.Close()
	has := func(lines string, err error) func(word string, is bool) {
		return func(word string, is bool) {
			if strings.Contains(lines, word) != is || err != nil {
				t.Errorf("%q in %q: not %v, %v", word, lines, is, err)
			}
		}
	}
	logs := Question{Verb: "get", Resource: "pods/log", Namespace: "web"}
	has(policy.Who(logs, false))(`"subject":"ann"`, true)
	logs.Namespace = ""
	has(policy.Who(logs, false))(`"subject":"ann"`, false)
	has(policy.Who(logs, true))(`"subject":"ann"`, true)
	has(policy.What("ann", nil, "web"))("pods/log", true)
	has(policy.Risks())(`{"settled":true}`, true)
	has(policy.Paths("", "escalate"))(`{"settled":true}`, true)
	has(policy.Missing("bob", []string{"a", "b"}, "web", "Role", "logs"))(`["get","","pods/log"]`, true)
	has(policy.Missing("ann", nil, "web", "Role", "logs"))("get", false)
	if _, err := policy.Missing("ann", nil, "web", "Role", "none"); !errors.Is(err, ErrNoQuestion) {
		t.Error(err)
	}
	if lines, nobody, err := policy.Gains([]byte(strings.ReplaceAll(objects, `"get"`, `"get","list"`))); nobody || !strings.Contains(lines, `["list","","pods/log"]`) || err != nil {
		t.Error(lines, nobody, err)
	}
	var line BadLine
	if _, nobody, err := policy.Gains([]byte(objects + "no object\n")); nobody || !errors.As(err, &line) || line != 4 {
		t.Error(nobody, err)
	}
}

func TestShare(t *testing.T) {
	policy, err := Load([]byte(objects))
	if err != nil {
		t.Fatal(err)
	}
	var group sync.WaitGroup
	for at := 0; at < 8; at++ {
		other, err := policy.Share()
		if err != nil {
			t.Fatal(err)
		}
		group.Add(1)
		go func() {
			defer group.Done()
			defer other.Close()
			for at := 0; at < 1000; at++ {
				if may, err := other.May(Question{User: "ann", Verb: "get", Resource: "pods/log", Namespace: "web"}); !may || err != nil {
					t.Error(may, err)
				}
			}
		}()
	}
	policy.Close()
	group.Wait()
	if _, err := policy.Share(); !errors.Is(err, ErrClosed) {
		t.Error(err)
	}
}

func BenchmarkMay(b *testing.B) {
	policy, err := Load([]byte(objects))
	if err != nil {
		b.Fatal(err)
	}
	defer policy.Close()
	for at := 0; at < b.N; at++ {
		if may, _ := policy.May(Question{User: "ann", Verb: "get", Resource: "pods/log", Namespace: "web"}); !may {
			b.Fatal("denied")
		}
	}
}
