# shellcheck shell=bash disable=SC2034,SC2154 # a command sets name and top, and uses the rest
# What install, uninstall, release and examples/run share. A command sets name (its own) and top
# (this folder), and sources this file.

# The commands for people (each that exists is installed), and the programs below them.
commands=(movesheet checksheet yardpicture mendsheet yardpage)
programs=(moves checks)

library=target/staticlib/libjavendriky.a
# Where an installed tree tells what was put there, below its PREFIX.
manifest=lib/javendriky/manifest

say() { echo "$name: $*" >&2; }
fail() { say "$@"; exit 2; }

# The version of the calls.
calls() { sed -n 's/^#define JAVENDRIKY_VERSION //p' "$top/include/javendriky.h"; }

# The names of the calls that the header declares.
declared() { sed -n 's/^uint32_t \(javendriky_[a-z_]*\)(.*/\1/p' "$top/include/javendriky.h" | LC_ALL=C sort; }

# A checksum of all that the kit proves and compiles.
sources() {
    (cd "$top" && find crates.txt crates \( -path '*/must-fail' -o -path '*/out' \) -prune -o -type f -print0 | LC_ALL=C sort -z |
        xargs -0 sha256sum | sha256sum | cut -d ' ' -f 1)
}

# Builds the programs and the library in target/ where they are missing, or were made from other
# sources or with another kit, of which a file there tells. Without the kit, what was made from these
# sources is taken.
build_all() {
    local made=$top/target/made-from sum kit
    sum=$(sources)
    if ! command -v rt >/dev/null; then
        case $(cat "$made" 2>/dev/null) in *" $sum") return 0 ;; esac
        fail 'the Rattle kit is missing, and the programs and the library are still to be built with it:' \
            'put its folder bin/, which holds the command rt, on the PATH'
    fi
    kit=$(rt version)
    if [ ! -e "$top/$library" ] || [ "$(cat "$made" 2>/dev/null)" != "$kit $sum" ]; then
        rm -f "$made"
        "$top/tools/build" "${programs[@]}" javendriky >&2 ||
            fail "the programs and the library could not be built: run 'tools/build ${programs[*]} javendriky' to see why"
        echo "$kit $sum" >"$made"
    fi
}

# Links the shared library from the static one, whose code is position independent: -z text refuses
# it if it is not. Only the calls are exported, and -z defs sees that nothing but the C library is
# missing.
link_shared() { # FILE
    local script
    script=$(mktemp) || fail 'no temporary file can be made'
    echo '{ global: javendriky_*; local: *; };' >"$script"
    "${CC:-gcc}" -shared -nostdlib "-Wl,-soname,libjavendriky.so.$(calls)" "-Wl,--version-script=$script" \
        -Wl,-z,defs,-z,text,-z,relro,-z,now,-z,noexecstack \
        -Wl,--whole-archive "$top/$library" -Wl,--no-whole-archive -lc -o "$1" ||
        fail "the shared library could not be linked: it needs ${CC:-gcc}"
    rm -f "$script"
}

# What the files need of the processor: each instruction that is not among those that every x86-64
# processor has (the integer instructions, SSE and SSE2), one to a line. None, if all are.
beyond_baseline() { # FILE…
    local -x LC_ALL=C
    objdump -d --no-show-raw-insn "$@" | awk -F '\t' '
        /^ +[0-9a-f]+:\t/ { split($2, word, " "); print word[1] }' | sort -u | grep -vxE "$(tr -d ' \n' <<'END'
(
(mov|add|sub|and|or|xor|cmp|test|inc|dec|neg|not|shl|shr|sar|sal|rol|ror|adc|sbb|mul|imul|div|idiv)[bwlq]?|
(push|pop|lea|xchg|call|ret|jmp|nop|leave)[bwlq]?|
movabs|mov[sz][bw][wlq]|movslq|cltq|cltd|cqto|cwtl|bswap|bt|bsf|bsr|shld|shrd|endbr64|notrack|bnd|int3|hlt|ud2|data16|cs|rep|repz|
(j|set|cmov)(a|ae|b|be|e|g|ge|l|le|ne|no|np|ns|o|p|s)|
movdqa|movdqu|movaps|movups|movapd|movupd|movd|movq|movss|movsd|movhps|movlps|movhpd|movlpd|
p(add|sub)(b|w|d|q|usb|usw|sb|sw)|pand|pandn|por|pxor|xorps|xorpd|andps|andpd|orps|orpd|
pcmp(eq|gt)[bwd]|pmaxub|pmaxsw|pminub|pminsw|pmovmskb|pmullw|pmulhw|pmuludq|pmaddwd|psadbw|pavg[bw]|
ps(ll|rl|ra)[wdq]|pslldq|psrldq|pshufd|pshuflw|pshufhw|shufps|shufpd|pextrw|pinsrw|
punpck[lh](bw|wd|dq|qdq)|unpck[lh]p[sd]|pack(ss|us)(wb|dw)
)
END
)" || :
}

# The newest version of the C library (glibc) that the files ask for.
newest_glibc() { # FILE…
    readelf -VW "$@" | sed -n 's/.*Name: GLIBC_\([0-9.]*\).*/\1/p' | sort -V | tail -n 1
}
