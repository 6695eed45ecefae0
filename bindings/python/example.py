"""Who of two may read a pod's log. usage: python3 example.py"""

from kapi import Policy, Question

OBJECTS = """\
{"apiVersion":"v1","kind":"Namespace","metadata":{"name":"web"}}
{"apiVersion":"rbac.authorization.k8s.io/v1","kind":"Role","metadata":{"namespace":"web","name":"logs"},"rules":[{"apiGroups":[""],"resources":["pods/log"],"verbs":["get"]}]}
{"apiVersion":"rbac.authorization.k8s.io/v1","kind":"RoleBinding","metadata":{"namespace":"web","name":"logs"},"subjects":[{"apiGroup":"rbac.authorization.k8s.io","kind":"User","name":"ann"}],"roleRef":{"apiGroup":"rbac.authorization.k8s.io","kind":"Role","name":"logs"}}
"""

if __name__ == "__main__":
    with Policy.load(OBJECTS) as policy:
        for user in ("ann", "bob"):
            question = Question(user, "get", "pods/log", namespace="web")
            print(user, policy.may(question), policy.why(question))
