// Asks Kubernetes' own RBAC authorizer, or Kapi through cgo, and measures it.
//
// usage: authorizer kubernetes|kapi OBJECTS QUESTIONS SECONDS
//
// OBJECTS has a JSON object a line. QUESTIONS has a question a line, with tabs between user, groups (commas between them),
// namespace, verb, API group, resource, subresource, name and path. All are asked once, and then over and over for so many
// seconds. Printed are the processor time of a decision, in us, with Go's collection of garbage, and a line with 1 for each
// question that is allowed, and 0 for each other.
package main

import (
	"bufio"
	"context"
	"encoding/json"
	"fmt"
	"os"
	"runtime"
	"strconv"
	"strings"
	"syscall"
	"time"

	rbacv1 "k8s.io/api/rbac/v1"
	metav1 "k8s.io/apimachinery/pkg/apis/meta/v1"
	"k8s.io/apiserver/pkg/authentication/user"
	"k8s.io/apiserver/pkg/authorization/authorizer"
	"k8s.io/apiserver/pkg/authorization/authorizerfactory"
	"k8s.io/apiserver/pkg/authorization/union"
	rbaclisters "k8s.io/client-go/listers/rbac/v1"
	"k8s.io/client-go/tools/cache"
	"k8s.io/kubernetes/plugin/pkg/auth/authorizer/rbac"

	"kapi.example/kapi"
	"kapi.example/kapi/apiserver"
)

func must(err error) {
	if err != nil {
		fmt.Fprintln(os.Stderr, err)
		os.Exit(1)
	}
}

// lines calls f with each line of a file.
func lines(name string, f func(line string)) {
	file, err := os.Open(name)
	must(err)
	defer file.Close()
	scanner := bufio.NewScanner(file)
	scanner.Buffer(nil, 1<<24)
	for scanner.Scan() {
		f(scanner.Text())
	}
	must(scanner.Err())
}

// kubernetes makes the authorizer of an API server in mode RBAC, over the indexes that its informers keep.
func kubernetes(objects string) authorizer.Authorizer {
	kinds := map[string]func() interface{}{
		"Role":               func() interface{} { return &rbacv1.Role{} },
		"RoleBinding":        func() interface{} { return &rbacv1.RoleBinding{} },
		"ClusterRole":        func() interface{} { return &rbacv1.ClusterRole{} },
		"ClusterRoleBinding": func() interface{} { return &rbacv1.ClusterRoleBinding{} },
	}
	stored := map[string]cache.Indexer{}
	for kind := range kinds {
		stored[kind] = cache.NewIndexer(cache.MetaNamespaceKeyFunc, cache.Indexers{cache.NamespaceIndex: cache.MetaNamespaceIndexFunc})
	}
	lines(objects, func(line string) {
		var kind metav1.TypeMeta
		must(json.Unmarshal([]byte(line), &kind))
		if made, is := kinds[kind.Kind]; is {
			object := made()
			must(json.Unmarshal([]byte(line), object))
			must(stored[kind.Kind].Add(object))
		}
	})
	return union.New(authorizerfactory.NewPrivilegedGroups(user.SystemPrivilegedGroup), rbac.New(
		&rbac.RoleGetter{Lister: rbaclisters.NewRoleLister(stored["Role"])},
		&rbac.RoleBindingLister{Lister: rbaclisters.NewRoleBindingLister(stored["RoleBinding"])},
		&rbac.ClusterRoleGetter{Lister: rbaclisters.NewClusterRoleLister(stored["ClusterRole"])},
		&rbac.ClusterRoleBindingLister{Lister: rbaclisters.NewClusterRoleBindingLister(stored["ClusterRoleBinding"])}))
}

func policy(objects string) *kapi.Policy {
	text, err := os.ReadFile(objects)
	must(err)
	loaded, err := kapi.Load(text)
	must(err)
	return loaded
}

// questionsOf reads the questions.
func questionsOf(name string) (questions []kapi.Question) {
	lines(name, func(line string) {
		at := strings.Split(line, "\t")
		question := kapi.Question{User: at[0], Namespace: at[2], Verb: at[3], Group: at[4], Resource: at[5], Subresource: at[6], Name: at[7], Path: at[8]}
		if at[1] != "" {
			question.Groups = strings.Split(at[1], ",")
		}
		questions = append(questions, question)
	})
	return questions
}

func attributes(question kapi.Question) authorizer.Attributes {
	return authorizer.AttributesRecord{
		User: &user.DefaultInfo{Name: question.User, Groups: question.Groups}, Verb: question.Verb, Namespace: question.Namespace,
		APIGroup: question.Group, Resource: question.Resource, Subresource: question.Subresource, Name: question.Name,
		ResourceRequest: question.Path == "", Path: question.Path,
	}
}

// byAuthorizer says of each question, by its number, whether the authorizer allows it.
func byAuthorizer(by authorizer.Authorizer, questions []kapi.Question) func(at int) bool {
	asked := make([]authorizer.Attributes, len(questions))
	for at, question := range questions {
		asked[at] = attributes(question)
	}
	return func(at int) bool {
		decision, _, _ := by.Authorize(context.Background(), asked[at])
		return decision == authorizer.DecisionAllow
	}
}

// answers says of each question whether it is allowed.
func answers(allowed func(at int) bool, count int) string {
	said := make([]byte, count)
	for at := range said {
		said[at] = '0'
		if allowed(at) {
			said[at] = '1'
		}
	}
	return string(said)
}

func processor() time.Duration {
	var used syscall.Rusage
	must(syscall.Getrusage(syscall.RUSAGE_SELF, &used))
	return time.Duration(used.Utime.Nano() + used.Stime.Nano())
}

// measure asks over and over: processor time of a decision, in us.
func measure(allowed func(at int) bool, count int, atLeast time.Duration) float64 {
	runtime.GC()
	begun, asked := processor(), 0
	used := time.Duration(0)
	for ; used < atLeast; used = processor() - begun {
		for next := 0; next < 16; next++ {
			allowed(asked % count)
			asked++
		}
	}
	return float64(used) / float64(asked) / 1000
}

func main() {
	words := os.Args[1:]
	seconds, err := strconv.ParseFloat(words[3], 64)
	must(err)
	questions := questionsOf(words[2])
	var said string
	var allowed func(at int) bool
	if words[0] == "kapi" {
		loaded := policy(words[1])
		said = answers(byAuthorizer(apiserver.Authorizer{Policy: loaded}, questions), len(questions))
		allowed = func(at int) bool {
			may, err := loaded.May(questions[at])
			must(err)
			return may
		}
	} else {
		allowed = byAuthorizer(kubernetes(words[1]), questions)
		said = answers(allowed, len(questions))
	}
	fmt.Println(measure(allowed, len(questions), time.Duration(seconds*float64(time.Second))))
	fmt.Println(said)
}
