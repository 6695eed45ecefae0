#!/bin/sh
# Makes an archive and a Debian package of what the gate proved, in out/release. usage: release.sh     needs git, cc, objcopy and dpkg-deb
set -eu
cd "$(dirname "$0")/.."
sh tools/sources.sh | cmp -s - crates/kapi/out/proved || { echo 'crates/kapi/out has no program that was proved of these sources: make test' >&2; exit 1; }
version=$(sed -n 's/^const VERSION: &str = "\(.*\)";/\1/p' crates/kapi_command_line/src/arguments.rt)
name=kapi-$version-$(dpkg --print-architecture)
room=out/release/$name
pages=$room/usr/share/doc/kapi
rm -rf out/release
mkdir -p "$pages" "$room/usr/share/kapi"
install -D crates/kapi/out/kapi "$room/usr/bin/kapi"
install -D tools/policy.py "$room/usr/bin/kapi-yaml"
sh tools/library.sh "$room/usr"
sed -i 's#^prefix=.*#prefix=/usr#' "$room/usr/lib/pkgconfig/kapi.pc"
git archive HEAD bindings examples tools/bodies.py tools/kinds.txt tools/kubectl_proxy.py tools/mirror.py tools/shadow.py | tar -x -C "$room/usr/share/kapi"
git archive HEAD CHANGELOG.md README.md SECURITY.md docs | tar -x -C "$pages"
git ls-files | xargs -d '\n' sha256sum > "$pages/sources.sha256"
cp crates/kapi/out/proved "$pages/proved"
tar --sort=name --owner=0 --group=0 --numeric-owner -czf "$room.tar.gz" -C out/release "$name"
mkdir "$room/DEBIAN"
cat > "$room/DEBIAN/control" << END
Package: kapi
Version: $version
Architecture: $(dpkg --print-architecture)
Maintainer: $(git log -1 --format='%an <%ae>')
Depends: libc6
Recommends: python3, python3-yaml
Suggests: python3-kubernetes
Section: admin
Priority: optional
Description: Kubernetes' RBAC: a server that enforces it, and tools for policies
 Each function is proved safe, and decisions, refusals and reports are proved
 to be those of a short model (/usr/share/doc/kapi/README.md).
END
dpkg-deb --root-owner-group --build "$room" "$room.deb"
rm -r "$room"
ls -l out/release
