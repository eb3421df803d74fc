# What tests/stored and tests/linked have in common; read with `. tests/lib.sh` from the project's folder. The caller has set `work`, a folder for
# what is written on the way, and `status=0`, which becomes 1 where a part fails.

# part NAME COMMAND...: runs the command, prints the outcome, and what the command said if it failed.
part() {
    name=$1
    shift
    if "$@" >"$work/said" 2>&1; then
        echo "ok      $name"
    else
        status=1
        echo "FAILED  $name"
        cat "$work/said"
    fi
}

# block MARKER DOCUMENT: the fenced block of the document that follows the line MARKER.
block() {
    awk -v marker="$1" '
        $0 == marker { found = 1; next }
        found && /^```/ { if (inside) exit; inside = 1; next }
        inside' "$2"
}
