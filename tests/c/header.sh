# Part of tests/c/run: the headers by themselves; where they stop; records and roles; header and archive of different interfaces.

strict=(-Wshadow -Wconversion -Wsign-conversion -Wundef -Wcast-qual -Wwrite-strings -Wmissing-declarations)

# ---- each header by itself, twice in one source ----
for header in ssp.h ssp/version.h ssp/types.h ssp/layout.h ssp/helpers.h; do
  printf '#include "%s"\n#include "%s"\nint main(void) { return 0; }\n' "$header" "$header" >"$tmp/header.c"
  for std in c99 c11 c++11; do
    compiles $std
    tries "$header as $std" "${compile[@]}" "${strict[@]}" -I"$root/include" -c "$tmp/header.c" -o "$tmp/header.o" || true
  done
done

# ---- targets and languages that the archive is not for ----
printf '#include "ssp.h"\n' >"$tmp/header.c"
# elsewhere TEXT STD OPTION: the header stops with that text.
elsewhere() {
  compiles "$2"
  stops "ssp.h as $2 $3" "$1" "${compile[@]}" "$3" -I"$root/include" -fsyntax-only "$tmp/header.c"
}
elsewhere 'ssp.h: the library is built for x86-64' c99 -U__x86_64__
elsewhere 'ssp.h: the library is built for x86-64' c++11 -U__x86_64__
elsewhere 'ssp.h: the library is built for x86-64' c99 -m32
elsewhere 'ssp.h: the library follows the System V calling convention' c99 -D_WIN32
elsewhere 'ssp.h: the library follows the System V calling convention' c99 -D__CYGWIN__
elsewhere 'ssp.h: the library has pointers of 64 bits' c99 -D__ILP32__
elsewhere 'ssp.h: needs C99 or later' c90 -O0
elsewhere 'ssp.h: needs C++11 or later' c++98 -O0

# ---- a record goes to the calls of its own role only ----
for std in c99 c++11; do
  compiles $std
  for role in read_target read_initiator write_initiator write_target response; do
    for record in read_target read_initiator write_initiator write_target response sender receiver; do
      printf '#include "ssp.h"\nextern ssp_answer f(ssp_%s *r);\nssp_answer f(ssp_%s *r) { return ssp_%s_nexus_lost(r); }\n' $record $record $role >"$tmp/role.c"
      call=("${compile[@]}" -I"$root/include" -fsyntax-only "$tmp/role.c")
      if [[ $record == "$role" ]]; then
        tries "ssp_$record to ssp_${role}_nexus_lost as $std" "${call[@]}" || true
      else
        stops "ssp_$record to ssp_${role}_nexus_lost as $std" "ssp_$record" "${call[@]}"
      fi
    done
  done
done

# ---- a header of another interface does not link: the one before, which programs were compiled against, and the next ----
for other in 3 5; do
  mkdir -- "$tmp/interface_$other"
  cp -R -- "$root/include/." "$tmp/interface_$other/"
  sed -i "s/ssp_interface_4/ssp_interface_$other/" "$tmp/interface_$other/ssp/version.h"
done
printf '#include "ssp.h"\nint main(void) { ssp_response r = SSP_ZERO; return ssp_response_nexus_lost(&r).number == SSP_BAD_REQUEST ? 0 : 1; }\n' >"$tmp/calls.c"
printf '#include "ssp.h"\nint main(void) { return 0; }\n' >"$tmp/no_calls.c"
for std in c99 c++11; do
  compiles $std
  for source in calls no_calls; do
    for options in '-O0' '-O2' '-O2 -ffunction-sections -fdata-sections -Wl,--gc-sections' '-O2 -flto'; do
      read -r -a option <<<"$options"
      link=("$tmp/$source.c" -x none "$lib" "${ldflags[@]}" -o "$tmp/linked")
      if tries "$source as $std $options is linked" "${compile[@]}" "${option[@]}" "${cflags[@]}" -I"$root/include" "${link[@]}"; then
        tries "$source as $std $options" timeout 10 "$tmp/linked" || true
      fi
      for other in 3 5; do
        stops "$source as $std $options, header of interface $other" "ssp_interface_$other" "${compile[@]}" "${option[@]}" "${cflags[@]}" -I"$tmp/interface_$other" "${link[@]}"
      done
    done
  done
done
