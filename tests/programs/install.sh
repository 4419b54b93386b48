#!/bin/bash
# The installation, and other tools with the kit for C: tests/programs/install.sh PROGRAM. What `make install` puts
# below a prefix, what of it works there without the clone, what `make uninstall` leaves; the package of Debian; pages
# of the manual and completions beside the help texts; projects by make and by CMake with the installed kit.
. "$(dirname "$0")/check.sh"
for tool in python3 make; do
    have "$tool" "the installation" || { summary; exit; }
done

# A copy of what is installed from, since `make install` writes into build.
clone=$work/clone
mkdir -p "$clone/build"
cp -r Makefile README.md CHANGES.md docs examples install sdk "$clone"
cp "$board" "$clone/build/board"
# of_clone TARGET VARIABLE..: make in it, which leaves $work/out.
of_clone() {
    make -s -C "$clone" "$@" < "$work/nothing" > "$work/out" 2>&1
}

mkdir -p "$work/before/opt/board/share/man/man1"
echo other > "$work/before/opt/board/share/man/man1/other.1"
find "$work/before" | sort > "$work/files"
of_clone install DESTDIR="$work/before" PREFIX=/opt/board
verdict "make install" "$([ $? = 0 ] && cmp "$board" "$work/before/opt/board/bin/board" || cat "$work/out")"
of_clone install DESTDIR="$work/before" PREFIX=/opt/board
verdict "make install again" "$([ $? = 0 ] || cat "$work/out")"
verdict "who may read it" "$(find "$work/before/opt/board" ! -type l ! -perm -444 -o -type d ! -perm -555)"
of_clone uninstall DESTDIR="$work/before" PREFIX=/opt/board
verdict "make uninstall" "$(find "$work/before" ! -type d | diff <(grep 'other\.1$' "$work/files") -)"
of_clone install DESTDIR="$work/before" PREFIX=relative
verdict "a prefix that isn't absolute" "$(
    grep -qx "install/install: PREFIX is an absolute path, and not 'relative'" "$work/out" || cat "$work/out")"

# What is installed is moved somewhere else, and the clone is gone.
of_clone install DESTDIR="$work/before" PREFIX=/opt/board
of_clone package PACKAGE="$work/board.deb"
packaged=$?
mv "$work/out" "$work/packaged"
sleep 1
(umask 077 && of_clone package PACKAGE="$work/again.deb")
mv "$clone" "$work/gone"
chmod 0 "$work/gone"
prefix="$work/a place"
mv "$work/before/opt/board" "$prefix"
rm -rf "$work/before"
export HOME=$work/home
mkdir "$HOME"
unset XDG_CACHE_HOME

# ---- the manual and completions: each command and each option of the help texts

"$prefix/bin/board" --help > "$work/help"
commands=$(sed -n '/^Commands:/,/^$/s/^  \([a-z]*\) .*/\1/p' "$work/help" | grep -vx help)
# options COMMAND: the long options of its help text.
options() {
    "$prefix/bin/board" $1 --help | sed -n '/^Options:/,/^$/s/^  *\(-., \)\{0,1\}\(--[a-z-]*\).*/\2/p'
}
wrong=
for it in "" $commands; do
    page="$prefix/share/man/man1/board${it:+-$it}.1"
    [ -e "$page" ] || wrong="$wrong; no page of '$it'"
    for option in $(options "$it"); do
        grep -qE -- "^\.B (\\\\-[a-zA-Z], )?${option//-/\\\\-}( |\$)" "$page" || wrong="$wrong; no $option in $page"
    done
done
[ "$(echo "$commands" | wc -w)" -ge 10 ] || wrong="$wrong; few commands: $commands"
verdict "the manual has each option" "$wrong"
if have groff "the manual's form"; then
    verdict "the manual's form" "$(for page in "$prefix"/share/man/man1/*.1; do
        groff -man -Tutf8 -ww -z "$page" 2>&1
    done)"
    groff -man -Tutf8 -rLL=120n "$prefix/share/man/man1/board-explore.1" |
        sed 's/\x1b\[[0-9;]*m//g; s/.\x08//g' > "$work/page"
    verdict "the manual's text" "$(
        grep -q 'Fails where the console differs from TEXT, in which \\n, \\t, \\\\ and \\xHH stand for' "$work/page" &&
            grep -q '^ *board explore \[OPTIONS\] <IMAGE> <CONFIG>$' "$work/page" || cat "$work/page")"
fi

# completed WORD..: what bash offers for the last word.
completed() {
    bash -c '. "$1"; shift; COMP_WORDS=("$@"); COMP_CWORD=$(($# - 1)); _board; printf "%s\n" "${COMPREPLY[@]}"' - \
        "$prefix/share/bash-completion/completions/board" "$@"
}
wrong=
for it in $commands; do
    completed board "$it" - | grep '^--' | LC_ALL=C sort > "$work/out"
    diff <(options "$it" | LC_ALL=C sort) "$work/out" > "$work/differs" || wrong="$wrong; $it: $(cat "$work/differs")"
done
verdict "bash completes the options of each command" "$wrong"
verdict "bash completes commands" "$(diff <(echo "$commands"; echo help) <(completed board '' | grep -v '^-'))"
verdict "bash completes a part" "$(diff <(printf '%s\n' --raises --reach --remember --raises-at) <(completed board explore --r))"
verdict "bash completes files where a value stands" "$(completed board explore --events | grep -v '^--events$'
    completed board trace --from - | grep .)"
if have zsh "completions for zsh"; then
    zsh -n "$prefix/share/zsh/site-functions/_board" > "$work/out" 2>&1
    verdict "the form of zsh's completions" "$(cat "$work/out")"
    # _arguments takes the options of each command: here it prints them.
    wrong=
    for it in $commands; do
        zsh -fc '_arguments() { print -rl -- "$@"; }; _describe() { :; }; words=(board "$2" -); CURRENT=3
            tried() { source "$1"; }; tried "$1"' - "$prefix/share/zsh/site-functions/_board" "$it" |
                sed -n 's/^\(--[a-z-]*\)\[.*/\1/p' > "$work/out"
        options "$it" | diff - "$work/out" > "$work/differs" || wrong="$wrong; $it: $(cat "$work/differs")"
    done
    verdict "zsh completes the options of each command" "$wrong"
fi
if have pkg-config "pkg-config"; then
    verdict "pkg-config" "$(export PKG_CONFIG_PATH=$prefix/share/pkgconfig
        [ "$(pkg-config --modversion board)" = "$("$board" --version | cut -d ' ' -f 2)" ] &&
            [ -e "$(pkg-config --variable=sdkdir board | sed 's/\\ / /g')/board.mk" ] ||
            pkg-config --variable=sdkdir board)"
fi
version=$("$board" --version | cut -d ' ' -f 2)
verdict "one version" "$(
    grep -q "^## $version\$" CHANGES.md || echo "CHANGES.md hasn't $version"
    grep -qx "set(PACKAGE_VERSION $version)" sdk/cmake/board-config-version.cmake || echo "CMake's isn't $version"
    [ "$(sdk/new --version)" = "board's kit for C $version" ] || sdk/new --version)"

# ---- the package

if have dpkg-deb "the package"; then
    verdict "make package" "$([ $packaged = 0 ] && diff <(echo "$work/board.deb") "$work/packaged" ||
        cat "$work/packaged")"
    verdict "the same clone makes the same package" "$(cmp "$work/board.deb" "$work/again.deb")"
    mkdir "$work/unpacked"
    dpkg-deb -x "$work/board.deb" "$work/unpacked" && dpkg-deb -f "$work/board.deb" > "$work/control"
    wanted=$(grep -aoE 'GLIBC_[0-9]+(\.[0-9]+)+' "$board" | sort -V | tail -n 1)
    verdict "what the package is" "$(
        grep -qx "Version: $("$board" --version | cut -d ' ' -f 2)" "$work/control" &&
            grep -qx "Depends: libc6 (>= ${wanted#GLIBC_})" "$work/control" &&
            cmp "$board" "$work/unpacked/usr/bin/board" && (cd "$work/unpacked" &&
            dpkg-deb --ctrl-tarfile "$work/board.deb" |
                tar xO ./md5sums | md5sum --quiet -c) || cat "$work/control")"
    verdict "the package has what make install puts there" "$(
        diff <(cd "$prefix" && find . ! -type d | grep -v '/other\.1$' | sort) <(cd "$work/unpacked/usr" &&
            find . ! -type d | sed 's/\.1\.gz$/.1/' | sort))"
    if [ "$(id -u)" = 0 ]; then
        mkdir -p "$work/root/var/lib/dpkg/updates" "$work/root/var/lib/dpkg/info" "$work/root/var/lib/dpkg/triggers"
        : > "$work/root/var/lib/dpkg/status"
        : > "$work/root/var/lib/dpkg/available"
        dpkg --root="$work/root" --log=/dev/null --force-depends --force-script-chrootless -i "$work/board.deb" \
            > "$work/out" 2>&1
        verdict "dpkg -i" "$("$work/root/usr/bin/board" --version | diff - <("$board" --version) || cat "$work/out")"
        dpkg --root="$work/root" --log=/dev/null --force-depends -r board > "$work/out" 2>&1
        verdict "dpkg -r" "$([ ! -e "$work/root/usr/bin/board" ] && [ ! -e "$work/root/usr/share/board" ] ||
            cat "$work/out")"
    else
        skip "dpkg -i" "the rights of root"
    fi
fi

# ---- projects with the installed kit

have mips-linux-gnu-gcc "projects with the installed kit" || { chmod 755 "$work/gone"; summary; exit; }
# (make has no names with blanks.)
mv "$prefix" "$work/place"
prefix=$work/place
new=$work/new
"$prefix/bin/board-new" "$new" > "$work/out" 2>&1
verdict "board-new" "$(grep -qx "SDK = $prefix/share/board/sdk" "$new/Makefile" || cat "$work/out" "$new/Makefile")"
verdict "board-new: the files for an editor" "$(diff -r sdk/project/.vscode "$new/.vscode")"
make -s -C "$new" ci > "$work/out" 2>&1 < "$work/nothing"
verdict "a project with the installed kit" "$([ $? = 0 ] && [ "$(grep -c '^ok: ' "$work/out")" = 3 ] ||
    cat "$work/out")"
make -s -C "$new" test LIBC=1 > "$work/out" 2>&1 < "$work/nothing"
verdict "where it looks for a C library" "$(
    grep -q "^there is no C library for ORDER=big yet, which this makes: $prefix/share/board/sdk/libc big\$" \
        "$work/out" &&
        [ "$(make -s -C "$new" settings | tail -n 1)" = "$HOME/.cache/board/libc/big" ] || cat "$work/out")"
verdict "nothing was written into the kit" "$(find "$prefix" -newer "$new/Makefile" -type f)"

# ---- CMake

have cmake "projects by CMake" || { chmod 755 "$work/gone"; summary; exit; }
project=$work/cmake
mkdir -p "$project/lib"
cp sdk/project/ids.h sdk/project/firmware.c sdk/project/firmware.cfg sdk/project/firmware.journal "$project"
cp sdk/project/firmware.console "$project"
sed 's/Hello/Hullo/' sdk/project/firmware.c > "$project/other.c"
sed -i 's/times; i++/twice(times) \/ 2; i++/; s/^void press/INT twice(INT n);\n&/' "$project/firmware.c"
printf '#include "board.h"\nINT twice(INT n);\nINT twice(INT n)\n{\n    return 2 * n;\n}\n' > "$project/lib/twice.c"
cat > "$project/CMakeLists.txt" << 'END'
cmake_minimum_required(VERSION 3.20)
project(example C ASM)
enable_testing()
find_package(board 1.0 REQUIRED)
add_library(twice STATIC lib/twice.c)
board_program(firmware CONFIGURATION firmware.cfg SOURCES firmware.c LIBRARIES twice)
board_tests(firmware JOURNALS firmware.journal STRICT)
board_program(other CONFIGURATION firmware.cfg SOURCES other.c HANDLER_STACK 512)
board_tests(other JOURNALS firmware.journal EXPECT exception off)
END
# built FOLDER ARGUMENT..: configures and builds it, and runs its tests; all of what is said is in $work/out.
built() {
    local folder=$1
    shift
    {
        cmake -S "$project" -B "$folder" -DCMAKE_TOOLCHAIN_FILE="$prefix/share/board/sdk/cmake/toolchain.cmake" "$@" &&
            cmake --build "$folder" && (cd "$folder" && ctest --output-on-failure)
    } > "$work/out" 2>&1 < "$work/nothing"
}
# tests_are NAME FIRST SECOND: what CTest said of the two programs.
tests_are() {
    verdict "$1" "$(grep -qE "firmware firmware\.journal \.+ *\**$2" "$work/out" &&
        grep -qE "other firmware\.journal \.+ *\**$3" "$work/out" || cat "$work/out")"
}
for order in big little; do
    built "$work/$order" -DBOARD_ORDER=$order
    tests_are "programs and tests by CMake, $order-endian" Passed Failed
done
verdict "why one has failed" "$(grep -qx '+Hullo, number 1 of 3' "$work/out" || cat "$work/out")"
sed -i 's/Hullo/Hello/' "$project/other.c"
built "$work/big"
tests_are "a source that has changed" Passed Passed
sed -i 's/BUTTON 3/BUTTON 4/' "$project/ids.h"
built "$work/big"
tests_are "a header of the configuration that has changed" Failed Failed
sed -i 's/BUTTON 4/BUTTON 3/' "$project/ids.h"
if have ninja "CMake with Ninja"; then
    built "$work/ninja" -G Ninja
    tests_are "CMake with Ninja" Passed Passed
    sleep 1
    sed -i 's/BUTTON 3/BUTTON 4/' "$project/ids.h"
    built "$work/ninja"
    tests_are "a header that has changed, with Ninja" Failed Failed
    sed -i 's/BUTTON 4/BUTTON 3/' "$project/ids.h"
fi
sed -i 's/CRE_SEM/CRE_CYC/' "$project/firmware.cfg"
built "$work/big"
verdict "a configuration that the board doesn't take" "$(
    grep -q "^$project/firmware.cfg:5: this kernel hasn't CRE_CYC " "$work/out" || cat "$work/out")"
cmake -S "$project" -B "$work/none" -Dboard_DIR="$prefix/share/cmake/board" > "$work/out" 2>&1
verdict "a project without the toolchain" "$(
    tr -s ' \n' ' ' < "$work/out" | grep -q 'board: this project has another toolchain: cmake -DCMAKE_TOOLCHAIN_FILE=' ||
        cat "$work/out")"
chmod 755 "$work/gone"
summary
