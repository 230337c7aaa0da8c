# What the tools share; each reads it in. C programs are for this machine's processor, unless
# SPOONWING_PROCESSOR says x86-64. Rattle programs are for x86-64: where the processor is another, an
# emulator runs them.
top=$(cd "$(dirname "${BASH_SOURCE[0]}")/.." && pwd)

# Whether this processor is an x86-64.
is_x86() { [ "$(uname -m)" = x86_64 ]; }

# The kit's folder, and in it the one with clang and what Rattle programs are linked with.
kit_home() { dirname "$(rt doc)"; }
kit() { echo "$(kit_home)/toolchain"; }

# ---- manners

# fail TEXT..: ends the tool with one line.
fail() {
    echo "${0##*/}: $*" >&2
    exit 1
}

# The tool's own header comment.
header() { sed -n '1d; /^#/!q; s/^# \{0,1\}//p' "$0"; }

# wrong TEXT..: ends the tool with one line and status 2, for words that it does not take.
wrong() {
    echo "${0##*/}: $*; usage: $(header | sed -n '1s/: .*//p'), and --help says more" >&2
    exit 2
}

# take LEAST MOST WORDS..: what a tool asks of its words first. --help prints its header; no other word
# begins with a dash, so that no file is named by mistake.
take() {
    local word
    for word in "${@:3}"; do
        case $word in
        --help | -h)
            header
            exit
            ;;
        -*) wrong "no word of it is $word" ;;
        '') wrong "a word is empty" ;;
        esac
    done
    [ "$#" -ge "$(($1 + 2))" ] || wrong "too few words"
    [ "$#" -le "$(($2 + 2))" ] || wrong "too many words"
}

# ask_for_file FILE: ends the tool where that file cannot be written, before anything is worked out.
ask_for_file() {
    local folder
    folder=$(dirname "$1")
    [ -d "$folder" ] || fail "$1: there is no folder $folder; make it: mkdir -p $folder"
    [ ! -d "$1" ] || fail "$1: it is a folder; name a file in it"
    [ -w "$folder" ] || fail "$1: nothing may be written in $folder"
}

# need COMMAND PACKAGE..: gets a command from Debian's packages where it is missing. That asks for root;
# without it, one line says what to type.
need() {
    local get="apt-get install -y --no-install-recommends ${*:2}" log=$top/target/packages.log
    if command -v "$1" >/dev/null; then return; fi
    command -v apt-get >/dev/null || fail "$1 is missing; install Debian's ${*:2}, or what has it here"
    [ "$(id -u)" = 0 ] || fail "$1 is missing; type as root: $get"
    echo "${0##*/}: $1 is missing, and is got from Debian's packages: $get" >&2
    mkdir -p "$top/target"
    { apt-get -q -o Acquire::Retries=5 update && $get -q -o Acquire::Retries=5; } >"$log" 2>&1 ||
        fail "Debian's packages cannot be had: $(tail -n 1 "$log"); all of it is in $log"
}

# need_kit: ends the tool where the Rattle kit is missing.
need_kit() {
    command -v rt >/dev/null || fail "rt is missing; install the Rattle kit, so that 'rt version' answers"
}

# emulator: what runs x86-64 programs on another processor, and can log what they execute. It is got where
# it is missing.
emulator() {
    need qemu-x86_64 qemu-user
    command -v qemu-x86_64
}

# become PROGRAM [WORDS..]: runs a program that brings its libraries, in place of this shell. Byte 18
# of it names the processor that it is for: 3e is x86-64.
become() {
    local runner
    if is_x86 || [ "$(od -An -tx1 -j18 -N1 "$1")" != " 3e" ]; then exec "$@"; fi
    runner=$(emulator)
    exec "$runner" "$@"
}

# ---- processors

# Whether this x86-64 has what x86-64-v3 asks for; whichever has these has the rest of it too.
is_v3() {
    local flag flags
    flags=" $(sed -n '/^flags/ { s/.*: //p; q }' /proc/cpuinfo) "
    for flag in avx avx2 bmi1 bmi2 f16c fma movbe abm xsave; do
        case $flags in *" $flag "*) ;; *) return 1 ;; esac
    done
}

# The name of this machine's processor among those that tools/native has archives for.
own_processor() {
    if ! is_x86; then
        uname -m
    elif is_v3; then
        echo x86-64-v3
    else
        echo x86-64
    fi
}

# The processor that C programs are for.
processor=${SPOONWING_PROCESSOR:-$(own_processor)}

# compiler [c++]: the name of a C compiler for that processor, or of a C++ one, which is got where it
# is missing. It is this machine's own, but for x86-64 on another machine.
compiler() {
    local cc=gcc packages="gcc libc6-dev"
    if [ "${1:-}" = c++ ]; then cc=g++ packages="g++"; fi
    if [ "$processor" = x86-64 ] && ! is_x86; then
        packages="$cc-x86-64-linux-gnu libc6-dev-amd64-cross" cc=x86_64-linux-gnu-$cc
    elif [ "$processor" != x86-64 ] && [ "$processor" != "$(own_processor)" ]; then
        fail "this machine runs no programs for $processor"
    fi
    need "$cc" $packages
    echo "$cc"
}

# ---- archives

# The crate whose exports the archive has, and the archive for every x86-64.
archive_crate=spoonwing
plain_archive=$top/target/staticlib/libspoonwing.a

# The module that the kit's clang was given when that archive was made.
module=$top/target/native/$archive_crate.bc

# Whether that archive is there and no file of the crates is newer. A crate's out/ is what rt makes of it.
has_plain_archive() {
    [ -e "$plain_archive" ] && [ ! "$top/crates.txt" -nt "$plain_archive" ] &&
        [ -z "$(find "$top/crates" -mindepth 2 -name out -prune -o -newer "$plain_archive" -print -quit)" ]
}

# archive_parts: the archive's crate and all that it stands on, once each.
archive_parts() {
    local name below parts=" $archive_crate "
    while IFS=: read -r name below; do
        name=${name%% *}
        case $parts in *" $name "*) parts+="$below " ;; esac
    done < <(grep -v '^#' "$top/crates.txt" | tac)
    printf '%s\n' $parts | sort -u | while read -r name; do
        if [ -d "$top/crates/$name" ]; then echo "$name"; fi
    done
}

# archive_libraries: those that it stands on alone.
archive_libraries() { archive_parts | grep -vxF "$archive_crate"; }

# show_steps: of the prover's notes on standard input, a line for each crate, the first time that it is
# proved.
show_steps() {
    local line name= total at=0 seen=" "
    total=$(archive_parts | wc -l)
    while read -r line; do
        case $line in
        'crate '*': modules '*) name=${line#crate } name=${name%%:*} ;;
        'logic=proved '*)
            case $seen in *" $name "*) continue ;; esac
            seen+="$name " at=$((at + 1))
            echo "  $at of $total: $name is proved"
            ;;
        esac
    done
}

# keeping_toolchain FOLDER: makes of it the kit's toolchain, but for a clang that keeps the module which it
# is given and then does its work. The kit has no word for that.
keeping_toolchain() {
    local kit file
    kit=$(kit)
    mkdir -p "$1/bin" "$(dirname "$module")"
    ln -s "$kit/lib" "$1"
    for file in "$kit"/bin/*; do
        if [ "${file##*/}" != clang ]; then ln -s "$file" "$1/bin"; fi
    done
    cat >"$1/bin/clang" <<SH
#!/bin/sh
for word in "\$@"; do case \$word in *.bc) cp "\$word" "$module" ;; esac; done
exec "$kit/bin/clang" "\$@"
SH
    chmod +x "$1/bin/clang"
}

# compile_archive: has the kit's compiler make that archive over the libraries that rt has proved, and keeps
# its module. `rt lib` would take neither a clang that keeps it nor libraries that `rt ci` proved. The
# toolchain stands outside of this tree, in which rt takes no links.
compile_archive() {
    local kit toolchain name libraries=() work status=0
    kit=$(kit_home) toolchain=$(kit)
    for name in $(archive_libraries); do
        libraries+=(--extern "$name=$top/crates/$name/out/rlib/$name.rlib")
    done
    mkdir -p "$(dirname "$plain_archive")"
    work=$(mktemp -d)
    if [ -x "$toolchain/bin/clang" ]; then
        keeping_toolchain "$work/toolchain"
        toolchain=$work/toolchain
    fi
    (cd "$top/crates/$archive_crate" &&
        "$kit/bin/rattle" build --crate-name "$archive_crate" --crate-type staticlib src/lib.rt \
            --cpu x86-64 --links "$archive_crate=" --toolchain "$toolchain" \
            --antt-project "$kit/rattle/logic/antt-project.json" --logic-built "$kit/logic_built" \
            --extern "std=$kit/rlibs/std.rlib" -L "dependency=$kit/rlibs" "${libraries[@]}" \
            --incremental out/incremental -o "$plain_archive") || status=1
    rm -rf "$work"
    return $status
}

# prove_parts: has rt prove the archive's crate and what it stands on, as far as that has changed.
prove_parts() { (cd "$top/crates/$archive_crate" && rt check) && compile_archive; }

# prove_archive: the same with a line for each step; the prover's own notes go to a log.
prove_archive() {
    local log=$top/target/prove.log
    mkdir -p "$top/target"
    echo "Proving the display, some minutes the first time; the prover's notes are in $log" >&2
    prove_parts 2>&1 | tee "$log" | show_steps >&2 ||
        fail "the display is not proved: $(first_fault "$log"); all of it is in $log"
}

# first_fault LOG: the first line of the prover's notes that tells of an error, or of a function that is not
# proved, or else the last one.
first_fault() { grep -m 1 -E '\berror(\[|:)|^fn .*: (not proved|no proof)' "$1" || tail -n 1 "$1"; }

# build_plain_archive: proves and makes that archive where anything has changed.
build_plain_archive() {
    if has_plain_archive; then return; fi
    rm -f "$plain_archive" "$module"
    prove_archive
}

# use_archive: has the archive for that processor made and names it in `archive`. Where there are no
# means for it, it is x86-64's, and the processor too.
use_archive() {
    [ "$processor" != wasm32 ] || fail "no archive is made for wasm32, but a module: tools/native wasm32"
    "$top/tools/native" "$processor" >&2
    archive=$top/target/native/$processor/libspoonwing.a
    if [ -e "$archive" ]; then return; fi
    processor=x86-64
    use_archive
}

# ---- C programs

# What every C program here is compiled with.
c_flags="-std=c99 -O2 -Wall -Wextra -Wpedantic -Werror -static"

# link_host PROGRAM SOURCE..: C sources with the archive, which is proved and built first.
link_host() {
    local cc
    cc=$(compiler) # before the long part, which may then name another processor
    use_archive
    cc=$(compiler)
    "$cc" $c_flags -I "$top/include" -o "$1" "${@:2}" "$archive"
}

# installed PREFIX WORDS..: what pkg-config says of what `tools/install PREFIX` has put in place.
installed() {
    [ -e "$1/lib/pkgconfig/spoonwing.pc" ] || fail "$1: nothing is installed there; type: tools/install $1"
    need pkg-config pkg-config
    PKG_CONFIG_PATH=$1/lib/pkgconfig pkg-config "${@:2}" spoonwing
}

# paint PROGRAM OUT.png: has a linked example paint, and writes the picture. What its calls were given and
# what they left stays beside it for the tests. The picture is made there too, and then copied whole.
paint() {
    (become "$1" --inputs "$(dirname "$1")") >"$1.ppm" || fail "$1.ppm is not painted, or not written"
    pnmtopng -quiet -compression 9 "$1.ppm" >"$1.png"
    cp "$1.png" "$2"
    echo "The picture is $2"
}

# paint_installed NAME PREFIX OUT.png SOURCE..: builds examples/NAME.c with other sources of that folder
# and with what `tools/install PREFIX` has put in place, and has it paint, to target/NAME.png where OUT.png
# is empty.
paint_installed() {
    local cc flags prefix=$2 out=${3:-$top/target/$1.png} work=$top/target/$1 sources=("$1.c" "${@:4}")
    mkdir -p "$work"
    ask_for_file "$out"
    need pnmtopng netpbm
    processor=$(installed "$prefix" --variable=processor)
    cc=$(compiler)
    flags=$(installed "$prefix" --cflags --libs)
    "$cc" $c_flags -o "$work/$1" "${sources[@]/#/$top/examples/}" $flags
    paint "$work/$1" "$out"
}

# c_program NAME [build]: builds tests/second/NAME.c, or runs what was built in place of this shell.
c_program() {
    local program=$top/target/$1
    take 0 1 "${@:2}"
    case ${2:-} in
    build) link_host "$program" "$top/tests/second/$1.c" ;;
    '')
        [ -x "$program" ] || fail "$program is not built; type: tools/${0##*/} build"
        become "$program"
        ;;
    *) wrong "no word of it is $2" ;;
    esac
}

# ---- programs for node

# The WebAssembly module, which tools/native makes.
wasm_module=$top/target/native/wasm32/spoonwing.wasm

# web_program NAME [build]: runs tests/second/web/NAME.mjs on the WebAssembly module in place of this
# shell, or has the module made.
web_program() {
    take 0 1 "${@:2}"
    case ${2:-} in
    build) "$top/tools/native" wasm32 ;;
    '')
        [ -e "$wasm_module" ] || fail "$wasm_module is not built; type: tools/${0##*/} build"
        need node nodejs
        exec node "$top/tests/second/web/$1.mjs" "$wasm_module"
        ;;
    *) wrong "no word of it is $2" ;;
    esac
}
