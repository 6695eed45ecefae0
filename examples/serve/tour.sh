#!/bin/sh
# Runs a session against the server of `make serve-demo`, each command shown before its output. Needs curl and jq.
roles=127.0.0.1:8001/apis/rbac.authorization.k8s.io/v1/namespaces/default

remove() {
    for path in rolebindings/ann-reads roles/reader; do curl -s -o /dev/null -X DELETE "$roles/$path" || return; done
}

step() {
    command=$(cat)
    printf '$ %s\n' "$command"
    eval "$command"
}

remove || { echo 'No server listens on port 8001: start one with `make serve-demo`.' >&2; exit 1; }
trap remove EXIT
step <<'END'
json='Content-Type: application/json' rbac=apis/rbac.authorization.k8s.io/v1/namespaces/default
END
step <<'END'
curl -s 127.0.0.1:8002/api/v1/namespaces/default/secrets | jq -r '.code, .details.causes[].message'
END
step <<'END'
curl -s 127.0.0.1:8001/$rbac/roles -H "$json" -d '{"metadata":{"name":"reader"},
    "rules":[{"apiGroups":[""],"resources":["secrets"],"verbs":["get","list"]}]}' | jq -r .kind
END
step <<'END'
curl -s 127.0.0.1:8001/$rbac/rolebindings -H "$json" -d '{"metadata":{"name":"ann-reads"},
    "subjects":[{"kind":"User","name":"ann"}],"roleRef":{"kind":"Role","name":"reader"}}' | jq -r .kind
END
step <<'END'
curl -s 127.0.0.1:8002/api/v1/namespaces/default/secrets | jq -r .kind
END
step <<'END'
curl -s 127.0.0.1:8002/$rbac/roles -H "$json" -d '{"metadata":{"name":"more"},
    "rules":[{"apiGroups":[""],"resources":["secrets"],"verbs":["get","delete"]}]}' | jq -r '.code, .details.causes[].message'
END
