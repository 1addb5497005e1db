#!/bin/sh
# Sees to it that a program is there: as root its package is installed with apt-get.
# Status 1: it is not there.
# usage: need.sh PROGRAM PACKAGE
set -eu

program=${1:?usage: need.sh PROGRAM PACKAGE}
package=${2:?usage: need.sh PROGRAM PACKAGE}

has() {
    command -v "$1" > /dev/null
}

# A server that does not answer is given up; a slow machine is not.
fetch() {
    timeout 3600 apt-get -o Acquire::Retries=0 -o Acquire::http::Timeout=60 -o Acquire::https::Timeout=60 "$@" \
        < /dev/null > /dev/null 2>&1
}

if has "$program"; then
    exit 0
fi
if [ "$(id -u)" -eq 0 ] && has apt-get; then
    echo "installing $package"
    export DEBIAN_FRONTEND=noninteractive
    if ! fetch install -y "$package"; then
        # The lists may be old or missing.
        fetch update || true
        fetch install -y "$package" || true
    fi
fi
has "$program" || exit 1
