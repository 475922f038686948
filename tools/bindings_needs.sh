#!/usr/bin/env bash
# Installs what the tests of the bindings need and a fresh Debian lacks: g++, make and cargo. Where they are there it does
# nothing. It needs root and the package archive otherwise.
set -eu
lacks=()
for program in g++ make cargo; do
  command -v "$program" >/dev/null || lacks+=("$program")
done
[ ${#lacks[@]} = 0 ] && exit 0
echo "installing ${lacks[*]}"
apt-get update -qq
DEBIAN_FRONTEND=noninteractive apt-get install -y -qq --no-install-recommends "${lacks[@]}" >/dev/null
