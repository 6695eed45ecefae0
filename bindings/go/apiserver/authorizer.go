//go:build apiserver

// Package apiserver lets a program of k8s.io/apiserver ask a policy. It is an example, and needs that module beside this one:
// go get k8s.io/apiserver && go build -tags apiserver ./apiserver
package apiserver

import (
	"context"

	"k8s.io/apiserver/pkg/authorization/authorizer"

	"kapi.example/kapi"
)

// Authorizer asks a policy. What the policy does not allow is no opinion, as of Kubernetes' own RBAC.
type Authorizer struct{ Policy *kapi.Policy }

// Authorize answers a request.
func (by Authorizer) Authorize(_ context.Context, asked authorizer.Attributes) (authorizer.Decision, string, error) {
	question := kapi.Question{User: asked.GetUser().GetName(), Groups: asked.GetUser().GetGroups(), Verb: asked.GetVerb()}
	if asked.IsResourceRequest() {
		question.Namespace, question.Group, question.Resource = asked.GetNamespace(), asked.GetAPIGroup(), asked.GetResource()
		question.Subresource, question.Name = asked.GetSubresource(), asked.GetName()
	} else {
		question.Path = asked.GetPath()
	}
	decision, reason, err := by.Policy.Why(question)
	if err != nil || decision == kapi.Denied {
		return authorizer.DecisionNoOpinion, "", err
	}
	return authorizer.DecisionAllow, reason, nil
}
