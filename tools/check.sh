#!/usr/bin/env bash
# Runs every tool over some examples, and compares what they print with what is stored in expected/. It says what is missing
# where matplotlib or GNU parallel is, and ends with status 1 where something differs. It is no part of the gate.
#
#   check.sh             compare
#   check.sh --store     store what the tools print now, to be read before it is committed
#
# PYTHON names the Python that runs the tools (python3 where nothing is said), PROGRAM what a sweep runs (the plain model
# where nothing is said, since it needs no toolchain).
set -u

tools=$(dirname -- "$(readlink -f -- "${BASH_SOURCE[0]}")")
root=$(dirname -- "$tools")
python=${PYTHON:-python3}
program=${PROGRAM:-$python $root/examples/fabric_model.py}
store=${1:-}
folder=$(mktemp -d) || exit
trap 'rm -rf "$folder"' EXIT
wrong=0
missing=()

# Compares a file that was made with the stored one of this name, or stores it.
compare() {
    local made=$1 stored=$tools/expected/$2
    if [[ $store == --store ]]; then
        mkdir -p "$(dirname -- "$stored")" && cp -- "$made" "$stored"
    elif ! diff -u "$stored" "$made"; then
        echo "check.sh: $2 differs"
        wrong=1
    fi
}

# Does something that is to succeed.
try() {
    if ! "$@"; then
        echo "check.sh: this failed: $*"
        wrong=1
    fi
}

# Runs a tool in the folder of an example, and compares what it prints.
prints() {
    local example=$1 name=$2
    shift 2
    if ! (cd "$root/examples/$example" && "$python" "$tools/$1" "${@:2}") >"$folder/printed" 2>&1; then
        echo "check.sh: $1 failed over $example"
        wrong=1
    fi
    compare "$folder/printed" "$example/$name"
}

# The tools that read a run, over one whose trace and log are shipped.
over_run() {
    local example=$1 config=$2 name
    prints "$example" stats.txt stats.py "$config"
    prints "$example" stats-ideal.txt stats.py "$config" --without-log
    prints "$example" stats.json stats.py "$config" --json
    prints "$example" cheaper.txt cheaper.py "$config"
    prints "$example" cheaper-by-rank.txt cheaper.py "$config" --by-rank --iterations 2
    try in_example "$example" stats.py "$config" --csv "$folder/csv"
    for name in "$folder"/csv/*.csv; do
        compare "$name" "$example/$(basename -- "$name")"
    done
    rm -r "$folder/csv"
    try in_example "$example" cheaper.py "$config" --csv "$folder/cheaper.csv"
    compare "$folder/cheaper.csv" "$example/cheaper.csv"
}

in_example() {
    (cd "$root/examples/$1" && "$python" "$tools/$2" "${@:3}")
}

# A sweep of four runs over the captures of an example, and its picture.
over_sweep() {
    try in_example office sweep.py office.toml "$folder/sweep" cell_bytes=48,64 line_rate=1G \
        'port[1].discipline=first-come,priority' --program "$program"
    compare "$folder/sweep/sweep.csv" sweep.csv
    try in_example office sweep.py office.toml "$folder/sweep" cell_bytes=48,64 line_rate=1G \
        'port[1].discipline=first-come,priority' --program false
    compare "$folder/sweep/sweep.csv" sweep.csv
    if in_example office sweep.py office.toml "$folder/sweep" cell_bytes=48 >"$folder/said" 2>&1; then
        echo 'check.sh: a folder with another sweep was taken'
        wrong=1
    fi
}

# Pictures are there, and are not empty. What is on them has to be looked at.
pictures() {
    local name
    for name in "$@"; do
        if [[ ! -s $name.png || ! -s $name.svg ]]; then
            echo "check.sh: there is no picture $(basename -- "$name")"
            wrong=1
        fi
    done
}

try "$python" -m unittest discover -q -s "$tools/tests"
try "$python" "$tools/tests/drawn.py" --seed 1 --count 200
over_run office office.toml
over_run three-ports switch.toml
over_run lab switch.toml
if command -v parallel >/dev/null; then
    over_sweep
else
    missing+=('GNU parallel: no sweep was tried')
fi
if "$python" -c 'import matplotlib' 2>/dev/null; then
    for example in office/office three-ports/switch lab/switch; do
        try in_example "${example%/*}" plot.py run "${example#*/}.toml" --out "$folder/pictures"
        pictures "$folder"/pictures/{slack,lists,buffers,load,waits,proposals}
        rm -r "$folder/pictures"
    done
    try in_example lab plot.py late switch.toml --by-rank --out "$folder/late"
    pictures "$folder/late"
    try in_example office plot.py run office.toml office.toml --out "$folder/pictures" --without-log
    pictures "$folder"/pictures/{load,waits}
    if [[ -e $folder/sweep/sweep.csv ]]; then
        try in_example office plot.py sweep "$folder/sweep/sweep.csv" --x cell_bytes --y delay_p99_ns \
            --by 'class,port[1].discipline' --where output=1 --out "$folder/sweep/picture"
        pictures "$folder/sweep/picture"
    fi
else
    missing+=("matplotlib for $python: no picture was drawn")
fi
if command -v mandoc >/dev/null; then
    try mandoc -T lint -W warning "$root/docs/cq_switch.1"
else
    missing+=('mandoc: the man page was not judged')
fi
try bash "$tools/tests/completions.sh"
try "$python" "$root/tests/launcher.py"

for what in "${missing[@]+"${missing[@]}"}"; do
    echo "check.sh: missing: $what"
done
if ((wrong)); then
    echo 'check.sh: something differs'
    exit 1
fi
echo 'check.sh: all as it should be'
