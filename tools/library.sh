# shellcheck shell=sh disable=SC2034
# The library as the kit's compiler makes it over the proved crates below it, and its LLVM module. A script reads this
# file from the repository's root, after tools/compilers.sh.

archive=$PWD/target/staticlib/libwindhawker.a
kept=$PWD/target/kept

# What a crate uses, by its line in crates.txt.
uses_of() { # CRATE
    sed -n "s/^$1\( staticlib\)\{0,1\} *: *//p" crates.txt
}

# Whether each library that windhawker uses has been built.
libraries_are_there() {
    for used in $(uses_of windhawker); do
        [ -d "crates/$used/out/rlib/$used.rlib" ] || return 1
    done
}

# Runs the compiler on windhawker over these, for every x86-64 processor.
rattle() { # VERB WORDS...
    verb=$1
    shift
    for used in $(uses_of windhawker); do
        set -- "$@" --extern "$used=../$used/out/rlib/$used.rlib"
    done
    for made in crates/*/out/rlib; do
        set -- "$@" -L "dependency=../../$made"
    done
    kit=$(kit_folder)
    (cd crates/windhawker && exec "$kit/bin/rattle" "$verb" --crate-name windhawker src/lib.rt --crate-type staticlib \
        --cpu x86-64 --links windhawker= --extern "std=$kit/rlibs/std.rlib" -L "dependency=$kit/rlibs" \
        --antt-project "$kit/rattle/logic/antt-project.json" "$@")
}

# Proves windhawker, for what follows to compile.
prove_library() { # ROOM
    rattle check --logic-built "$(kit_folder)/logic_built" --jobs "$(nproc)" -o "$1/checked"
}

# Compiles what was proved with the compiler of a folder like the kit's toolchain/.
compile_library() { # ROOM TOOLCHAIN ARCHIVE
    rattle build --crate-checked "$1/checked" --toolchain "$2" --backend llvm -o "$3"
}

# The kit's compilers, but for clang: one that copies module.bc and then compiles it. It runs with an empty environment,
# so the places are written in.
stand_in_toolchain() { # FOLDER
    toolchain=$(kit_folder)/toolchain
    mkdir -p "$1/bin"
    ln -s "$toolchain/lib" "$1/"
    for tool in "$toolchain"/bin/*; do
        [ "$(basename "$tool")" = clang ] || ln -s "$tool" "$1/bin/"
    done
    cat >"$1/bin/clang" <<END
#!/bin/sh
/bin/cp module.bc '$kept/module.bc'
echo "\$*" >'$kept/words'
exec '$toolchain/bin/clang' "\$@"
END
    chmod +x "$1/bin/clang"
}

# Keeps the module of what was proved as text, in target/kept/module.ll, and the words of the compiler in target/kept/words.
keep_module() { # ROOM
    mkdir -p "$kept"
    rm -f "$kept/module.ll" "$kept/module.bc" "$kept/words"
    stand_in_toolchain "$1/toolchain"
    compile_library "$1" "$1/toolchain" "$1/libwindhawker.a" || return
    [ -f "$kept/module.bc" ] || { echo "the kit handed no module to its compiler"; return 1; }
    "$(kit_compilers)/clang" --target=x86_64-unknown-linux-gnu -Xclang -disable-llvm-passes -S -emit-llvm \
        -x ir "$kept/module.bc" -o "$kept/made.ll" && mv "$kept/made.ll" "$kept/module.ll"
}
