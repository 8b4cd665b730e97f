#!/usr/bin/env bash
# Proves, builds and installs `ncroute`, `ncimport`, `ncroute-ctl` and `ncroute-kernel` with their man pages, completions for bash, zsh and fish, and
# the syntax files of `editors/`.
#
# usage: scripts/install.sh [--unproved] [--service] [PREFIX]     (PREFIX: /usr/local; --unproved: builds without proving anything, as
#                                                    scripts/build.sh does; --service: installs the systemd units of `packaging/`, too)
#        scripts/install.sh --library [--unproved] [PREFIX]      installs the library of filters for C in place of the programs
#   NCROUTE=PATH   a program that is built already, with `ncimport` beside it: then none is built here
#   FILTER_C=PATH  the same for the archive of the crate filter_c
#   DESTDIR=ROOT   all comes into ROOT, from where a package takes it to PREFIX, a path from `/` on (not with --library)
set -eu
top="$(cd "$(dirname "$0")/.." && pwd)"
if [ "${1:-}" = --library ]; then
    exec "$top/scripts/install_library.sh" "${@:2}"
fi
how=() has_units=""
while [[ "${1:-}" = -* ]]; do
    case "$1" in
        --unproved) how=(--unproved) ;;
        --service) has_units=yes ;;
        *) break ;;
    esac
    shift
done
if [ $# -gt 1 ] || [[ "${1:-}" = -* ]]; then
    echo "usage: scripts/install.sh [--library | --service] [--unproved] [PREFIX]" >&2
    exit 2
fi
root="${DESTDIR:+$(mkdir -p "$DESTDIR" && cd "$DESTDIR" && pwd)}"
prefix="$root${1:-/usr/local}"
# The files for Visual Studio Code are installed from another folder.
mkdir -p "$prefix"
prefix="$(cd "$prefix" && pwd)"
if [ -z "${NCROUTE:-}" ]; then
    built="$(mktemp -d)"
    trap 'rm -rf "$built"' EXIT
    NCROUTE="$built/ncroute"
    "$top/scripts/build.sh" "${how[@]}" "$NCROUTE"
fi
install -D -m 755 "$NCROUTE" "$prefix/bin/ncroute"
install -D -m 755 "$(dirname "$NCROUTE")/ncimport" "$prefix/bin/ncimport"
for program in ncroute-ctl ncroute-kernel; do
    install -D -m 755 "$top/tools/$program" "$prefix/bin/$program"
done
install -D -m 755 "$top/docs/monitor.py" "$prefix/share/ncroute/monitor.py"
# Where this runs as root, it leaves no folder of its own in the sources.
PYTHONDONTWRITEBYTECODE=1 "$top/scripts/make_manual.py" "$prefix/bin" "$prefix"
for part in syntax ftdetect; do
    install -D -m 644 "$top/editors/vim/$part/ncroute.vim" "$prefix/share/vim/vimfiles/$part/ncroute.vim"
done
(cd "$top/editors/vscode" && find . -type f -exec install -D -m 644 {} "$prefix/share/ncroute/vscode/{}" \;)
echo "installed in $prefix: bin/ncroute, bin/ncimport, bin/ncroute-ctl, bin/ncroute-kernel, man pages, completions, and syntax files for vim; those for Visual Studio Code are in share/ncroute/vscode, a script for Prometheus is share/ncroute/monitor.py"
if [ -n "$has_units" ]; then
    (cd "$top/packaging" && find . -type f -exec install -D -m 644 {} "$prefix/lib/{}" \;)
    # The units name the programs where they will be.
    sed -i "s|/usr/local/|${prefix#"$root"}/|" "$prefix"/lib/systemd/system/ncroute*.service
    echo "units in lib/systemd, a user in lib/sysusers.d, folders in lib/tmpfiles.d: systemd-sysusers; systemd-tmpfiles --create; systemctl daemon-reload"
    echo "for the logs of routers: cp $prefix/lib/logrotate.d/ncroute /etc/logrotate.d/"
fi
