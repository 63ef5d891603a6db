# Part of tests/c/run: an installed copy, used from outside the repository.

# refuses NAME ARGUMENT...: install exits with 2 and says how it is used. DESTDIR keeps one that does not refuse inside the temporary folder.
refuses() {
  local name=$1 status=0
  shift
  DESTDIR=$tmp/refused/ "$root/install" "$@" >"$tmp/out" 2>"$tmp/log" || status=$?
  if ((status == 2)) && grep -q '^use: install PREFIX$' "$tmp/log" && [[ ! -s $tmp/out ]]; then
    pass
  else
    fail "install with $name: status $status"
  fi
}
refuses 'no prefix'
refuses 'two prefixes' /usr /usr/local
refuses 'an empty prefix' ''
refuses 'a relative prefix' prefix
refuses 'an unknown option' --prefix=/usr
find "$tmp" -name refused >"$tmp/extra"
empty 'installed all the same' "$tmp/extra"

cat >"$tmp/list" <<'END'
644 include/ssp.h
644 include/ssp/helpers.h
644 include/ssp/layout.h
644 include/ssp/types.h
644 include/ssp/version.h
644 lib/libssp.a
644 lib/pkgconfig/ssp.pc
644 share/man/man1/ladder.1
644 share/ssp/ladder.draw.awk
644 share/ssp/ladder.explain.awk
644 share/ssp/ladder.help
755 bin/ladder
755 libexec/ssp/ladder
755 share/ssp/text_program
END
# installed FOLDER: exactly these files are in it.
installed() { find "$1" -type f -printf '%m %P\n' | sort | diff -u --label expected --label installed -- "$tmp/list" -; }

tries 'install' "$root/install" "$tmp/prefix" || true
tries 'what was installed' installed "$tmp/prefix" || true
tries 'install with DESTDIR' env DESTDIR="$tmp/stage" "$root/install" "$tmp/usr" || true
tries 'what was installed with DESTDIR' installed "$tmp/stage$tmp/usr" || true
tries 'the same files with DESTDIR' diff -r -- "$tmp/prefix" "$tmp/stage$tmp/usr" || true

# ---- from outside, with pkg-config alone ----
# outside NAME PREFIX STD: builds and runs the example NAME with the copy in PREFIX.
outside() {
  local flags
  compiles "$3"
  mkdir -p -- "$tmp/outside"
  cp -- "$examples/$1.c" "$examples/show.h" "$tmp/outside/"
  if ! flags=$(PKG_CONFIG_PATH="$2/lib/pkgconfig" pkg-config --cflags --libs ssp 2>&1); then
    fail "pkg-config: $flags"
    return
  fi
  # pkg-config escapes blanks for the shell
  eval "flags=($flags)"
  if tries "$1.c with the installed copy is built" env -C "$tmp/outside" "${compile[@]}" "${cflags[@]}" "$1.c" -x none "${flags[@]}" "${ldflags[@]}" -o "$1"; then
    prints "$1.c with the installed copy" "$examples/$1.out" "$tmp/outside/$1"
  fi
}
outside first "$tmp/prefix" c99
outside read "$tmp/prefix" c99
mv -- "$tmp/prefix" "$tmp/moved elsewhere" # the copy can be moved
outside write "$tmp/moved elsewhere" c++11

# ---- its version, its program ----
printf '#include "ssp.h"\nSSP_VERSION_STRING\n' | "$cc" -E -P -I"$root/include" - 2>/dev/null | tail -n 1 | tr -d '"' >"$tmp/version"
prints 'the version in ssp.pc' "$tmp/version" env PKG_CONFIG_PATH="$tmp/moved elsewhere/lib/pkgconfig" pkg-config --modversion ssp

# ---- the installed ladder: from another folder, by a symbolic link, without the repository and without rt ----
mkdir -p -- "$tmp/bin"
ln -s -- "$tmp/moved elsewhere/bin/ladder" "$tmp/bin/ladder"
pairs=$root/tests/ladder
ladders=$root/examples/ladder
# ladder WANTED_STATUS ARGUMENT...: standard output to $tmp/ladder_out, standard error to $tmp/ladder_err.
ladder() {
  local wanted=$1 status=0
  shift
  env -i -C "$tmp/bin" PATH="$tmp/bin:/usr/bin:/bin" ladder "$@" >"$tmp/ladder_out" 2>"$tmp/ladder_err" || status=$?
  ((status == wanted)) || { printf 'status %d\n' "$status" && return 1; }
}
installed_ladder() {
  ladder 0 "$ladders/paper.run" && diff -- "$ladders/paper.ladder" "$tmp/ladder_out" && diff -- /dev/null "$tmp/ladder_err"
}
installed_draw() { ladder 0 --draw "$ladders/paper.run" && diff -- "$ladders/paper.drawing" "$tmp/ladder_out"; }
installed_svg() { ladder 0 --svg "$ladders/acks_slide.run" && diff -- "$root/docs/ladder.svg" "$tmp/ladder_out"; }
installed_help() { ladder 0 --help && diff -- "$root/share/ladder.help" "$tmp/ladder_out"; }
installed_refusal() {
  ladder 1 "$pairs/refused_size_6.run" && diff -- "$pairs/refused_size_6.ladder" "$tmp/ladder_out" && grep -q 'not a multiple of four' "$tmp/ladder_err"
}
tries "the paper's example by the installed ladder" installed_ladder || true
tries 'the installed ladder draws it' installed_draw || true
tries 'the installed ladder draws a picture' installed_svg || true
tries 'the installed ladder helps' installed_help || true
tries 'the installed ladder explains a refusal' installed_refusal || true
tries 'the installed man page' diff -- "$root/man/ladder.1" "$tmp/moved elsewhere/share/man/man1/ladder.1" || true
