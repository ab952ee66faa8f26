# For the scripts beside this one to source: where the kit's tools are, and the compiler as all of them call it.
own=$(dirname "$(rt doc)")
tools=$own/toolchain
target=x86_64-unknown-linux-gnu

# The kit has no C headers; tests/c/std stands in for those that are used.
compile() {
    "$tools/bin/clang" --target=$target --no-default-config -Wall -Wextra -Wpedantic -Werror -O1 -fPIC \
        -nostdinc -isystem tests/c/std -I include "$@"
}
