"""Prints crates/kapi_manifests/src/defaults.rt: the user-facing cluster roles of a cluster, `admin`, `edit` and `view`, and the roles that they are put together of.

usage: python3 tools/default_roles.py VERSION < LIST > crates/kapi_manifests/src/defaults.rt, then `rt fmt` in that crate

LIST is the cluster roles of a new cluster as JSON, whose API server of that version has written its own. Annotations and what the
server adds are left out. The file was made with VERSION 1.20.2 of what a kube-apiserver over an empty etcd answered. It was that of
Debian's source package `kubernetes` (1.20.5+really1.20.2-1.1+deb12u1; docs/CLUSTER.md, 'Show it'), with `-tags providerless`:

    etcd --data-dir etcd &
    openssl genrsa -out sa.key 2048; echo 'admin,admin,1,system:masters' > tokens
    kube-apiserver --etcd-servers=http://127.0.0.1:2379 --authorization-mode=RBAC --token-auth-file=tokens --cert-dir=. \\
        --bind-address=127.0.0.1 --advertise-address=127.0.0.1 --endpoint-reconciler-type=none --service-cluster-ip-range=10.0.0.0/24 \\
        --service-account-issuer=https://kubernetes.default.svc --service-account-{key,signing-key}-file=sa.key &
    curl -sk -H 'Authorization: Bearer admin' https://127.0.0.1:6443/apis/rbac.authorization.k8s.io/v1/clusterroles > LIST
"""
import json
import sys

NAMES = ["admin", "edit", "view", "system:aggregate-to-admin", "system:aggregate-to-edit", "system:aggregate-to-view"]
HEAD = """//! Kubernetes' user-facing cluster roles ('Using RBAC Authorization', 'User-facing roles'), as an API server of version {version}
//! writes them. tools/default_roles.py makes this file.
ghost use Rattle.std.specs.Prelude.{{◌≡◌, map}};
ghost use Rattle.kapi_manifests.specs.DefaultObjects as default_objects;

use crate::default_objects::DefaultObject;
"""
ROLE = """
const {const}: &str = r#"{text}"#;
"""
LIST = """
/// The roles `admin`, `edit` and `view`, and those that they are put together of.
#[tactic(auto, unfolding(crate::specs::DefaultObjects::default_roles))]
pub fn default_roles() -> [DefaultObject; {count}]
    ensures {{ map default_objects.model_of_object result ≡ default_objects.default_roles }}
{{
    [
{rows}    ]
}}
"""
ROW = """        DefaultObject {{
            kind: "ClusterRole",
            name: "{name}",
            text: {const},
        }},
"""


def kept(role):
    """The members that say something about policy, in a stable order."""
    metadata = {key: role["metadata"][key] for key in ("name", "labels") if key in role["metadata"]}
    rest = {"aggregationRule": role["aggregationRule"]} if "aggregationRule" in role else {"rules": [dict(sorted(it.items())) for it in role["rules"]]}
    return {"apiVersion": "rbac.authorization.k8s.io/v1", "kind": "ClusterRole", "metadata": metadata} | rest


def const(name):
    return name.rpartition(":")[2].upper().replace("-", "_")


def main():
    if len(sys.argv) != 2:
        sys.exit(__doc__)
    roles = {it["metadata"]["name"]: it for it in json.load(sys.stdin)["items"]}
    print(HEAD.format(version=sys.argv[1]), end="")
    for name in NAMES:
        print(ROLE.format(const=const(name), text=json.dumps(kept(roles[name]), separators=(",", ":"))), end="")
    print(LIST.format(count=len(NAMES), rows="".join(ROW.format(name=it, const=const(it)) for it in NAMES)), end="")


main()
