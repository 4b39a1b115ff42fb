# What the stories share: a folder of their own, which is removed at their end, the program, and the chain's first block.
# Each command of the program is printed after a `>` and run; its status is printed where it is not 0.
set -eu
here=$(cd "$(dirname "$(readlink -f "${BASH_SOURCE[0]}")")" && pwd)
folder=$(mktemp -d)
trap 'rm -rf "$folder"' EXIT
cd "$folder"

vineyore() {
    echo "> vineyore $*"
    "$here/../vineyore" "$@" || echo "status $?"
}

# Begins a chain at time 1, in which every block may follow one whose program is 51, which pushes 1, and makes a file of
# offers with the next block. That names the first one's id, the last word that init prints.
begin() {
    local first
    first=$(vineyore init ledger 1 51)
    echo "$first"
    "$here/block.py" 2 "${first##* }" 2 51 >offers
}
