# What tools/fdt-write and tools/fdt-read share: running a built program. It is sourced by its full path, and `tool` is the
# name that messages begin with.

# Ends with a line on standard error.
end() { # STATUS TEXT
    printf '%s: %s\n' "$tool" "$2" >&2
    exit "$1"
}

# What runs a program: the loader and the C library of the kit, which is for x86-64 alone.
find_runner() {
    local rt tools machine
    rt=$(type -P rt) || [[ -n ${RATTLE_HOME:-} ]] || end 1 'rt is needed, and it is not on the PATH'
    machine=$(uname -m)
    [[ $machine == x86_64 ]] || end 1 "the kit and its programs are for x86-64, and this machine is $machine"
    tools=${RATTLE_HOME:-$(dirname -- "$(dirname -- "$(readlink -f -- "$rt")")")}/toolchain
    [[ -x $tools/lib/ld-linux-x86-64.so.2 ]] || end 1 "the kit has no loader at $tools/lib/ld-linux-x86-64.so.2"
    runner=("$tools/lib/ld-linux-x86-64.so.2" --library-path "$tools/lib")
}

# Sets `program` to the words that run a program.
find_program() { # NAME
    local path=${BASH_SOURCE[0]%/tools/*}/crates/$1/out/$1
    [[ -x $path ]] || end 1 "the program is not built: rt ci builds it, and so does rt run in crates/$1"
    find_runner
    program=("${runner[@]}" "$path")
}

# Has standard input come from a file, or stay as it is for -.
read_from() { # FILE
    [[ $1 != - ]] || return 0
    [[ ! -d $1 ]] || end 1 "$1 is a folder"
    [[ -e $1 ]] || end 1 "$1 does not exist"
    { exec <"$1"; } 2>/dev/null || end 1 "$1 cannot be read"
}

# Raises the limit of the stack where it is too low.
need_stack() { # KB
    local stack
    stack=$(ulimit -s)
    [[ $stack == unlimited || $stack -ge $1 ]] || ulimit -s "$1" 2>/dev/null ||
        end 1 "$1 KB of stack are needed, and the limit is $stack KB: raise it with ulimit -s"
}
