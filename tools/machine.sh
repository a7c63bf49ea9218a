# machine.sh: what the scripts need of this machine. Sourced, not run; the script that does so has set -euo pipefail.
#
#   need COMMAND PACKAGE ..   where COMMAND, or a file of that path, is missing: Debian's PACKAGEs are installed, if this is root
#                             on a system with apt-get
#   compile WORDS ..          the C compiler
#   compile_cpp WORDS ..      the C++ compiler
#   objects FOLDER SOURCE ..  compiles each C source, without a warning, into an object in FOLDER, and prints nothing; an object that
#                             is newer than its source and every header beside a source or in build/ stays
#   copy_object WORDS ..      objcopy
#   run PROGRAM WORDS ..      runs what was compiled
#
# The library is compiled for x86-64, as today's Rattle is: on another processor all of this ends with one line.

stop() {
    echo "${0##*/}: $1" >&2
    exit 2
}

has() {
    command -v "$1" >/dev/null || [ -f "$1" ]
}

need() {
    local command=$1
    shift
    has "$command" && return
    if [ "$(id -u)" -ne 0 ] || ! command -v apt-get >/dev/null; then
        stop "$command is missing: install Debian's $*, or what has it here"
    fi
    echo "-- installing $*"
    local said
    if ! said=$({ apt-get -q update && DEBIAN_FRONTEND=noninteractive apt-get -q -y --no-install-recommends install "$@"; } 2>&1); then
        tail -n 5 <<<"$said" >&2
        stop "$* cannot be installed"
    fi
    has "$command" || stop "$command is missing, with $* installed"
}

[ "$(uname -m)" = x86_64 ] || stop "today's Rattle is for x86-64, and so is the library; this machine is $(uname -m)"
compile() { need gcc gcc libc6-dev && gcc "$@"; }
compile_cpp() { need g++ g++ && g++ "$@"; }
copy_object() { need objcopy binutils && objcopy "$@"; }
run() { "$@"; }

objects() {
    local folder=$1 source object header
    shift
    mkdir -p -- "$folder"
    for object in "$folder"/*.o; do
        source=${object##*/}
        [[ " ${*##*/} " == *" ${source%.o}.c "* ]] || rm -f -- "$object" # of a source that is gone
    done
    header=$(find "${@%/*}" build -maxdepth 1 -name '*.h' -printf '%T@ %p\n' | sort -n | tail -n 1 | cut -d ' ' -f 2-)
    for source; do
        object=${source##*/}
        object=$folder/${object%.c}.o
        [ "$object" -nt "$source" ] && [ "$object" -nt "$header" ] && continue
        compile -std=gnu11 -O2 -Wall -Wextra -Werror -Ibuild -c -o "$object.new" "$source"
        mv -- "$object.new" "$object"
    done
}
