#!/bin/sh
# Installs what this folder holds below a prefix.
#
#     install.sh [--program-prefix=P] PREFIX
#
# The programs go to PREFIX/bin, their manual pages, completions and documents to PREFIX/share. With --program-prefix the programs, their
# pages and their completions have names that begin with P: on some systems `setup` is another program.
set -eu

before=
case "${1-}" in
    --program-prefix=*) before=${1#--program-prefix=}; shift ;;
esac
if [ $# -ne 1 ]; then
    echo "usage: install.sh [--program-prefix=P] PREFIX" >&2
    exit 2
fi
case $before in
    *[!A-Za-z0-9_-]*) echo "install.sh: a prefix has letters, digits, _ and - alone" >&2; exit 2 ;;
esac
from=$(cd "$(dirname "$0")" && pwd)
share=$1/share

put() {
    mkdir -p "$(dirname "$3")"
    cp "$2" "$3"
    chmod "$1" "$3"
}

for program in setup setup_audit; do
    put 755 "$from/bin/$program" "$1/bin/$before$program"
    put 644 "$from/man/$program.1" "$share/man/man1/$before$program.1"
done

bash=$share/bash-completion/completions
put 644 "$from/completions/setup.bash" "$bash/${before}setup"
sed "s/^\(complete .*\) \(setup[a-z_]*\)\$/\1 $before\2/" "$from/completions/setup.bash" > "$bash/${before}setup"
ln -sf "${before}setup" "$bash/${before}setup_audit"

zsh=$share/zsh/site-functions
put 644 "$from/completions/_setup" "$zsh/_${before}setup"
sed "s/^#compdef setup setup_audit\$/#compdef ${before}setup ${before}setup_audit/; s/^    \(setup[a-z_]*)\) \(_setup\)/    $before\1 \2/" \
    "$from/completions/_setup" > "$zsh/_${before}setup"

fish=$share/fish/vendor_completions.d
put 644 "$from/completions/setup.fish" "$fish/${before}setup.fish"
sed "s/^complete -c setup/complete -c ${before}setup/" "$from/completions/setup.fish" > "$fish/${before}setup.fish"
ln -sf "${before}setup.fish" "$fish/${before}setup_audit.fish"

(cd "$from" && find README.md CHANGELOG.md SECURITY.md docs examples -type f) | while read -r file; do
    put 644 "$from/$file" "$share/doc/nockolive/$file"
done
