// Package kapi decides as Kubernetes' RBAC does, by Kapi's library. Build it with cgo, and kapi.pc on PKG_CONFIG_PATH.
package kapi

/*
#cgo pkg-config: kapi
#include <stdlib.h>
#include <kapi.h>

// A call comes as one buffer, texts behind one another with their lengths, since Go's memory may hold no pointers that C reads:
// ten fields, and then `groups` and `without` texts.
static kapi_status ask(const kapi_policy *policy, uint32_t wants, uint32_t form, const char *bytes, const size_t *lengths,
                       size_t groups, size_t without, kapi_answer *answer, char *room, size_t size) {
    enum { FIELDS = 9, FEW = 32 };
    kapi_text few[FIELDS + FEW];
    size_t count = FIELDS + groups + without;
    kapi_text *texts = count <= FIELDS + FEW ? few : malloc(count * sizeof *texts);
    if (texts == NULL) {
        return KAPI_NO_MEMORY;
    }
    for (size_t at = 0; at < count; at++) {
        texts[at].bytes = bytes;
        texts[at].length = lengths[at];
        bytes += lengths[at];
    }
    kapi_texts listed = {texts + FIELDS, groups}, left = {texts + FIELDS + groups, without};
    kapi_question question = {texts[0], listed, texts[1], texts[2], texts[3], texts[4], texts[5], texts[6], texts[7]};
    kapi_call call = {wants, form, question, texts[8], left};
    kapi_status status = kapi_ask(policy, &call, answer, room, size);
    if (texts != few) {
        free(texts);
    }
    return status;
}
*/
import "C"

import (
	"errors"
	"fmt"
	"runtime"
	"strings"
	"sync"
	"unsafe"
)

// The faults of a call, beside BadLine.
var (
	ErrNoMemory   = errors.New("kapi: memory ran out")
	ErrNotText    = errors.New("kapi: a text is no UTF-8")
	ErrNoQuestion = errors.New("kapi: there is no such question")
	ErrClosed     = errors.New("kapi: the policy is closed")
)

// BadLine is the fault of objects, of which this line is not loaded.
type BadLine uint64

func (line BadLine) Error() string {
	return fmt.Sprintf("kapi: line %d holds no object that can be created", uint64(line))
}

// Decision is what a policy says. Its zero denies.
type Decision uint32

const (
	Denied Decision = iota
	Allowed
	Masters
)

// Question is whether a user may do something. No group is added: name system:authenticated too. With a path, it is asked
// about that.
type Question struct {
	User                                                      string
	Groups                                                    []string
	Namespace, Verb, Group, Resource, Subresource, Name, Path string
}

// Policy is a policy that was loaded. One goroutine asks at a time: for more at once give each its own by Share.
type Policy struct {
	lock    sync.Mutex
	handle  *C.kapi_policy
	texts   []byte
	lengths []C.size_t
	room    []byte
	answer  C.kapi_answer
}

// call is what is asked: wants, and what it reads.
type call struct {
	wants    C.uint32_t
	question Question
	other    string
	without  []string
}

// json is the form of lists: an object a line.
const json = C.KAPI_FORM_JSON

// most is how many bytes a policy keeps from one call to the next.
const most = 1 << 16

// Load loads objects, a JSON object a line.
func Load(objects []byte) (*Policy, error) {
	if C.kapi_abi() != C.KAPI_ABI {
		return nil, errors.New("kapi: the library has another interface")
	}
	var line C.size_t
	policy := &Policy{}
	if err := fault(C.kapi_load(start(objects), C.size_t(len(objects)), &line, &policy.handle), uint64(line)); err != nil {
		return nil, err
	}
	runtime.SetFinalizer(policy, (*Policy).Close)
	return policy, nil
}

// Share gives the same policy for another goroutine. Nothing is copied, and each is closed on its own.
func (policy *Policy) Share() (*Policy, error) {
	policy.lock.Lock()
	defer policy.lock.Unlock()
	if policy.handle == nil {
		return nil, ErrClosed
	}
	other := &Policy{}
	if err := fault(C.kapi_share(policy.handle, &other.handle), 0); err != nil {
		return nil, err
	}
	runtime.SetFinalizer(other, (*Policy).Close)
	return other, nil
}

// May says whether the policy allows it, and false at each fault.
func (policy *Policy) May(question Question) (bool, error) {
	decision, err := policy.Decide(question)
	return decision != Denied, err
}

// Decide gives the decision, and Denied at each fault.
func (policy *Policy) Decide(question Question) (Decision, error) {
	number, _, err := policy.ask(call{wants: C.KAPI_WANTS_DECISION, question: question}, false)
	return Decision(number), err
}

// Why gives the decision and the line that kapi audit writes of it.
func (policy *Policy) Why(question Question) (Decision, string, error) {
	number, line, err := policy.ask(call{wants: C.KAPI_WANTS_LINE, question: question}, true)
	return Decision(number), strings.TrimSuffix(line, "\n"), err
}

// Who lists who may do what is asked, whoever the user is: as `kapi who --json`, an object a line. Anywhere asks in each
// namespace and cluster-wide.
func (policy *Policy) Who(question Question, anywhere bool) (string, error) {
	wants := C.uint32_t(C.KAPI_WANTS_WHO)
	if anywhere {
		wants = C.KAPI_WANTS_WHO_ANYWHERE
	}
	_, lines, err := policy.ask(call{wants: wants, question: question}, true)
	return lines, err
}

// What lists what a user with groups has in a namespace, or everywhere if that is empty: as `kapi what --json`.
func (policy *Policy) What(user string, groups []string, namespace string) (string, error) {
	_, lines, err := policy.ask(call{wants: C.KAPI_WANTS_WHAT, question: Question{User: user, Groups: groups, Namespace: namespace}}, true)
	return lines, err
}

// Risks lists who may gain more than the policy gives: as `kapi risks --json`.
func (policy *Policy) Risks() (string, error) {
	_, lines, err := policy.ask(call{wants: C.KAPI_WANTS_RISKS}, true)
	return lines, err
}

// Paths lists who can become whom, or only the node that `to` names, without the rights of some kinds: as `kapi paths --json`.
func (policy *Policy) Paths(to string, without ...string) (string, error) {
	_, lines, err := policy.ask(call{wants: C.KAPI_WANTS_PATHS, other: to, without: without}, true)
	return lines, err
}

// Missing lists what a user with groups lacks of a role, a JSON list a line. Kind is "Role" or "ClusterRole". A role that is not
// there is ErrNoQuestion.
func (policy *Policy) Missing(user string, groups []string, namespace, kind, role string) (string, error) {
	question := Question{User: user, Groups: groups, Namespace: namespace, Resource: kind, Name: role}
	_, lines, err := policy.ask(call{wants: C.KAPI_WANTS_MISSING, question: question}, true)
	return lines, err
}

// Gains lists what the policy of other objects gives that this one does not, as `kapi compare --json`, and says whether nobody
// gains and the roles of both policies are settled.
func (policy *Policy) Gains(objects []byte) (lines string, nobody bool, err error) {
	number, lines, err := policy.ask(call{wants: C.KAPI_WANTS_GAINS, other: string(objects)}, true)
	return lines, err == nil && number == 1, err
}

// Close frees the policy, which answers nothing more.
func (policy *Policy) Close() {
	policy.lock.Lock()
	defer policy.lock.Unlock()
	C.kapi_free(policy.handle)
	policy.handle = nil
}

func (policy *Policy) add(text string) {
	policy.texts = append(policy.texts, text...)
	policy.lengths = append(policy.lengths, C.size_t(len(text)))
}

// put puts the texts of a call behind one another.
func (policy *Policy) put(asked *call) {
	of := &asked.question
	if len(policy.texts)+len(policy.room) > most {
		policy.texts, policy.room = nil, nil
	}
	policy.texts, policy.lengths = policy.texts[:0], policy.lengths[:0]
	for _, text := range [...]string{of.User, of.Namespace, of.Verb, of.Group, of.Resource, of.Subresource, of.Name, of.Path, asked.other} {
		policy.add(text)
	}
	for _, group := range of.Groups {
		policy.add(group)
	}
	for _, kind := range asked.without {
		policy.add(kind)
	}
}

// ask gives the number and the text of an answer. Without a text no room is given.
func (policy *Policy) ask(asked call, hasText bool) (uint32, string, error) {
	policy.lock.Lock()
	defer policy.lock.Unlock()
	if policy.handle == nil {
		return 0, "", ErrClosed
	}
	policy.put(&asked)
	if hasText && policy.room == nil {
		policy.room = make([]byte, 1024)
	}
	for {
		answer := &policy.answer
		status := C.ask(policy.handle, asked.wants, json, start(policy.texts), &policy.lengths[0], C.size_t(len(asked.question.Groups)),
			C.size_t(len(asked.without)), answer, start(policy.room), C.size_t(len(policy.room)))
		if status == C.KAPI_NO_ROOM {
			policy.room = make([]byte, answer.length)
			continue
		}
		if err := fault(status, uint64(answer.length)); err != nil {
			return 0, "", err
		}
		if !hasText {
			return uint32(answer.decision), "", nil
		}
		return uint32(answer.decision), string(policy.room[:answer.length]), nil
	}
}

func start(bytes []byte) *C.char {
	if len(bytes) == 0 {
		return nil
	}
	return (*C.char)(unsafe.Pointer(&bytes[0]))
}

func fault(status C.kapi_status, line uint64) error {
	switch status {
	case C.KAPI_OK:
		return nil
	case C.KAPI_NO_MEMORY:
		return ErrNoMemory
	case C.KAPI_BAD_LINE:
		return BadLine(line)
	case C.KAPI_NOT_TEXT:
		return ErrNotText
	case C.KAPI_NO_QUESTION:
		return ErrNoQuestion
	default:
		return fmt.Errorf("kapi: status %d", uint32(status))
	}
}
