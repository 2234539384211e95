# Runs a program of this repository on the files that are given, one behind the other, or on standard input.
# A script that reads this file in has set: `top`, this folder; `program`, the program's name; `me`, its own name.
# What the program needs is proved and built first, where that is not done yet; what that prints goes to standard error.

for file in "$@"; do
    if [ ! -f "$file" ] || [ ! -r "$file" ]; then
        echo "$me: cannot read $file" >&2
        exit 2
    fi
done

binary=$top/crates/$program/out/$program
command -v rt >/dev/null 2>&1 || PATH=$PATH:${RATTLE_HOME:-/opt/rattle}/bin

# Whether the program is there and no source has changed since. A folder changes when a file in it is added or removed.
up_to_date() {
    [ -x "$binary" ] && [ -z "$(find "$top/crates.txt" "$top/crates" -name out -prune -o -newer "$binary" -print | head -n 1)" ]
}

if ! up_to_date; then
    # rt proves and builds the program, and runs it on no input; what it prints then is not wanted
    if ! (cd "$top/crates/$program" && rt run </dev/null >/dev/null); then
        # what a failed check may have left is old, so that the next run checks again
        [ ! -e "$binary" ] || touch -d @0 "$binary"
        echo "$me: $program did not pass its check, so it is not run" >&2
        exit 1
    fi
    touch -c "$binary"
fi

if [ $# -eq 0 ]; then
    exec "$binary"
fi
cat -- "$@" | "$binary"
