#!/usr/bin/env bash
# What the completions offer, in a folder with two files and a folder.
set -u

tools=$(dirname -- "$(dirname -- "$(readlink -f -- "${BASH_SOURCE[0]}")")")
folder=$(mktemp -d) || exit
trap 'rm -rf "$folder"' EXIT
cd "$folder" || exit
touch 'a b.toml' in.pcap && mkdir more
wrong=0
# shellcheck source=/dev/null
source "$tools/completions/cq_switch.bash"

# What is offered after these words, each in brackets.
offers() {
    local wanted=$1
    shift
    COMP_WORDS=(cq_switch "$@")
    COMP_CWORD=$#
    _cq_switch
    local found=''
    for word in "${COMPREPLY[@]+"${COMPREPLY[@]}"}"; do
        found+="[$word]"
    done
    if [[ $found != "$wanted" ]]; then
        echo "completions.sh: after '$*' bash offers $found, not $wanted"
        wrong=1
    fi
}

offers '[audit][check][ideal][part][pass][resume][run][soak][stream]' ''
offers '[run]' ru
offers '[a b.toml][more]' run ''
offers '[in.pcap][more]' pass ''
offers '[in.pcap]' pass in.pcap i
offers '' soak ''
offers '' run 'a b.toml' ''
offers '[a b.toml][more]' part ''
offers '' part 'a b.toml' ''
offers '[in.pcap]' part 'a b.toml' 3 i
offers '[a b.toml][more]' resume ''
offers '[in.pcap]' resume 'a b.toml' i

if command -v zsh >/dev/null; then
    found=$(zsh -f "$tools/tests/completions.zsh" "$tools/completions" 2>&1)
    for part in 'run' 'ideal' 'a\ b.toml'; do
        if [[ $found != *"$part"* ]]; then
            echo "completions.sh: zsh does not offer $part: $found"
            wrong=1
        fi
    done
else
    echo 'completions.sh: missing: zsh: its completions were not tried'
fi
exit "$wrong"
