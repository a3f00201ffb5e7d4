# Sourced by the commands of this folder: takes --original DIR, leaves all other words in the array
# `words`, and goes to the folder compare/. A command that has words of its own says so in `takes`.

usage() {
    echo "usage: $0 [--original DIR]${takes:+ $takes}" >&2
    exit 2
}

words=()
while (($#)); do
    if [[ $1 == --original ]]; then
        [[ $# -ge 2 ]] || usage
        THERMAL_ORIGINAL=$(realpath -- "$2")
        export THERMAL_ORIGINAL
        shift
    else
        words+=("$1")
    fi
    shift
done
[[ -v takes || ${#words[@]} == 0 ]] || usage

called_from=$PWD
cd "$(dirname "${BASH_SOURCE[0]}")"
built=../target/compare
builds=(release checked)
