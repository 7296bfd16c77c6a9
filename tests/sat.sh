# shellcheck shell=sh
# Sourced from the repository's root: SAT solvers, as Debian packages them.

# packages SOLVER: what has it.
packages() {
    case $1 in
        cryptominisat5) echo cryptominisat ;;
        sat4j) echo sat4j default-jre-headless ;;
        *) echo "$1" ;;
    esac
}

# A new machine may have no list of packages yet.
install() { # PACKAGE..
    apt-get install -y -q --no-install-recommends "$@" || { apt-get update -q && apt-get install -y -q --no-install-recommends "$@"; }
}

# need_solvers SOLVER..: where this is root, installs those that are missing; stops, and says which, where that cannot be done.
need_solvers() {
    missing=''
    for solver in "$@"; do
        command -v "$solver" >/dev/null 2>&1 && continue
        # shellcheck disable=SC2046
        if [ "$(id -u)" = 0 ] && command -v apt-get >/dev/null 2>&1; then install $(packages "$solver") >/dev/null 2>&1 </dev/null || true; fi
        command -v "$solver" >/dev/null 2>&1 && continue
        echo "$0: $solver is not installed; on Debian: apt-get install $(packages "$solver")" >&2
        missing=yes
    done
    [ -z "$missing" ] || exit 2
}

# answer SOLVER FILE..: the solver's s and v lines, by the table that the vet's command has; of several files, in FILE.SOLVER.
answer() {
    python3 bin/desk/solvers.py "$@"
}
