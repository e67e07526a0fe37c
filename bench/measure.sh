#!/usr/bin/env bash
# x86-64 instructions per call: this library, the Rust crate and dav1d, in one program, on the same records and bytes.
#   bench/measure.sh get          fetches compilers, an emulator, libdav1d and its source into target/bench; installs nothing
#   bench/measure.sh build PATH   builds the program; PATH is the crate's folder src (bitstream_utils.rs, codec/av1/)
#   bench/measure.sh check        what the calls give: the bytes must be the same
#   bench/measure.sh run          the table of docs/SPEED.md
#   bench/measure.sh profile SIDE KIND CASE     instructions per function
# On Arm (Debian 12 with clang, lld and gcc) the program is compiled for x86-64 and run by qemu-user 7.2, where icount.c counts every instruction.
# On x86-64 (with rustc, cc and valgrind) callgrind counts.
# LIBRARY is the archive that is measured, by default what `./staticlib` wrote.
set -euo pipefail
here=$(dirname "$(readlink -f "$0")")
root=$(dirname "$here")
work=$root/target/bench
library=$(realpath -m "${LIBRARY:-$root/target/staticlib/libfriscurella.a}")
sources=$(realpath -m "${2:-.}") # of build
mkdir -p "$work"
cd "$work"
few=${FEW:-200} many=${MANY:-400}

if [ "$(uname -m)" = x86_64 ]; then
  rustc=rustc cc=${CC:-cc} link="-L$work/x64/usr/lib/x86_64-linux-gnu -Wl,-rpath,$work/x64/usr/lib/x86_64-linux-gnu" include=$work/x64/usr/include/dav1d
else
  rustc="env LD_LIBRARY_PATH=$work/host/usr/lib/aarch64-linux-gnu $work/host/usr/bin/rustc --sysroot $work/host/usr --target x86_64-unknown-linux-gnu"
  cc="clang --target=x86_64-linux-gnu --sysroot=$work/x64" link=-fuse-ld=lld include=$work/x64/usr/include/dav1d
  # env -i: so the stack lies the same in every run
  emulator="env -i LD_LIBRARY_PATH=$work/qemu/usr/lib/aarch64-linux-gnu $work/qemu/usr/bin/qemu-x86_64 -U LD_LIBRARY_PATH -L $work/x64"
fi

get_lists() { # of this machine's own package sources, read into a folder here
  mkdir -p deb apt/state/lists/partial apt/cache/archives/partial apt/etc
  cat > apt.conf <<C
Dir::State "$work/apt/state"; Dir::State::status "/dev/null"; Dir::Cache "$work/apt/cache";
Dir::Etc::sourcelist "/dev/null"; Dir::Etc::sourceparts "$work/apt/etc";
APT::Architectures { "$(dpkg --print-architecture)"; "amd64"; }; APT::Sandbox::User "root";
C
  cat /etc/apt/sources.list.d/*.sources | sed 's/^Types:.*/Types: deb deb-src/' > apt/etc/all.sources
  export APT_CONFIG=$work/apt.conf
  apt-get -qq update
}
get_library() { # dav1d's alone, where rustc, cc and valgrind are the machine's own
  mkdir -p x64
  (cd deb && apt-get -qq download libdav1d6 libdav1d-dev)
  for d in deb/*_amd64.deb; do dpkg-deb -x "$d" x64; done
}
get_packages() { # Debian's, unpacked here
  mkdir -p x64 host qemu
  version=$(apt-cache show rustc-web | sed -n 's/^Depends:.*libstd-rust-web-dev (= \([0-9]*\.[0-9]*\).*/\1/p' | head -1)
  llvm=$(apt-cache show "libstd-rust-web-$version" | sed -n 's/^Depends:.*\(libllvm[0-9]*\).*/\1/p' | head -1)
  (cd deb && apt-get -qq download qemu-user libcapstone4 liburing2 rustc-web "libstd-rust-web-$version" "$llvm" libstd-rust-web-dev:amd64 \
    libdav1d6:amd64 libdav1d-dev:amd64 libc6:amd64 libc6-dev:amd64 linux-libc-dev:amd64 libgcc-12-dev:amd64 libgcc-s1:amd64)
  for d in deb/*_amd64.deb; do dpkg-deb -x "$d" x64; done
  for d in deb/rustc-web_*arm64.deb deb/libstd-rust-web-1*arm64.deb deb/libllvm*_arm64.deb; do dpkg-deb -x "$d" host; done
  for d in deb/qemu-user_*arm64.deb deb/libcapstone4_*arm64.deb deb/liburing2_*arm64.deb; do dpkg-deb -x "$d" qemu; done
  # links of the packages that point into this machine's folders
  find x64 -type l | while read -r f; do t=$(readlink "$f"); case $t in /*) ln -sfn "$(realpath -m --relative-to="$(dirname "$f")" "x64$t")" "$f" ;; esac; done
  ln -sfn "$work/x64/usr/lib/rustlib/x86_64-unknown-linux-gnu" host/usr/lib/rustlib/x86_64-unknown-linux-gnu
}

get() {
  get_lists
  if [ "$(uname -m)" = x86_64 ]; then get_library; else get_packages; fi
  [ -f dav1d/src/obu.c ] && return
  mkdir -p dav1d
  (cd deb && apt-get -qq source --download-only dav1d)
  tar xf deb/dav1d_*.orig.tar.xz -C dav1d --strip-components=1
}

build() {
  export CROS_CODECS=$sources
  export REFUSING=$work/synthesizer.rs
  sed 's/#\[cfg(any(test, debug_assertions))\]/#[cfg(all())]/; s/#\[cfg(not(any(test, debug_assertions)))\]/#[cfg(any())]/' "$CROS_CODECS/codec/av1/synthesizer.rs" > "$REFUSING"
  options='--edition 2021 -A warnings -C opt-level=3 -C embed-bitcode=no'
  $rustc $options --crate-type rlib --crate-name log -o liblog.rlib "$root/oracle/driver/log.rs"
  $rustc $options --crate-type staticlib --crate-name crate_side --extern log=liblog.rlib -o libcrate.a "$here/crate.rs"
  printf '#define %s\n' 'ARCH_AARCH64 0' 'ARCH_ARM 0' 'ARCH_PPC64LE 0' 'ARCH_X86 1' 'ARCH_X86_32 0' 'ARCH_X86_64 1' 'CONFIG_16BPC 1' 'CONFIG_8BPC 1' 'CONFIG_LOG 1' \
    'ENDIANNESS_BIG 0' 'HAVE_ASM 0' 'HAVE_AS_FUNC 0' 'HAVE_POSIX_MEMALIGN 1' 'HAVE_UNISTD_H 1' 'HAVE_CLOCK_GETTIME 1' 'HAVE_DLSYM 1' > config.h
  for f in "$here/bare.c" dav1d/src/getbits.c; do
    $cc -O3 -DNDEBUG -std=c99 -D_GNU_SOURCE -w -ffunction-sections -I. -Idav1d -Idav1d/include "-I$include" -c "$f" -o "$(basename "$f" .c).o"
  done
  for f in ours driver; do $cc -O2 -Wall "-I$root/include" "-I$(dirname "$include")" -c "$here/$f.c" -o $f.o; done
  $cc $link -Wl,--gc-sections -o driver driver.o ours.o bare.o getbits.o "$library" libcrate.a -ldav1d -lgcc_s -lpthread -ldl -lm -lc
  [ "$(uname -m)" = x86_64 ] || gcc -O2 -Wall -shared -fPIC -o icount.so "$here/icount.c"
}

show() { if [ "$(uname -m)" = x86_64 ]; then env -i SHOW=1 ./driver "$@" 0; else $emulator -E SHOW=1 ./driver "$@" 0; fi; }
count() { # the instructions of one run
  if [ "$(uname -m)" = x86_64 ]; then env -i PATH="$PATH" valgrind --tool=callgrind --callgrind-out-file=/dev/null ./driver "$@" 2>&1 >/dev/null | sed -n 's/.*Collected : \([0-9]*\).*/\1/p'
  else $emulator -plugin ./icount.so ./driver "$@" 2>&1 >/dev/null | sed -n 's/^icount \([0-9]*\).*/\1/p'; fi
}
loop() { local a b; a=$(count "$@" "$few"); b=$(count "$@" "$many"); echo $(((b - a + (many - few) / 2) / (many - few))); }
calls() { echo $(($(loop "$@") - empty)); } # of one call, the loop around it taken off

headers='2 6 32 33' parts='quant:10 quant:50 seg:51 seg:52 lf:53 lf:54 cdef:11 cdef:56 lr:57 lr:58'
check() {
  for c in $(printf 'seq:%s ' $headers) $parts; do
    a=$(show ours "${c%:*}" "${c#*:}") b=$(show crate "${c%:*}" "${c#*:}")
    if [ "$a" = "$b" ]; then echo "$c the same: $a"; else printf '%s differs\n  ours  %s\n  crate %s\n' "$c" "$a" "$b"; fi
  done
  for n in $headers; do echo "read $n: ours $(show ours read "$n"), dav1d $(show dav1d seq "$n")"; done
  for c in $parts; do echo "read ${c/:/ }: ours $(show ours read "${c#*:}")"; done
  echo "padding: ours $(show ours pad 65536)"
}
run() {
  empty=$(loop none seq 0)
  printf '%-8s %8s %8s\n' write ours crate
  for c in $(printf 'seq:%s ' $headers) $parts; do printf '%-8s %8s %8s\n' "${c/:/ }" "$(calls ours "${c%:*}" "${c#*:}")" "$(calls crate "${c%:*}" "${c#*:}")"; done
  printf '%-8s %8s %8s %8s\n' read ours bare dav1d
  for n in $headers; do printf '%-8s %8s %8s %8s\n' "$n" "$(calls ours read "$n")" "$(calls bare seq "$n")" "$(calls dav1d seq "$n")"; done
  for c in $parts; do printf '%-8s %8s\n' "${c/:/ }" "$(calls ours read "${c#*:}")"; done # dav1d has no call for a part
  few=5 many=10
  echo "reading 65,536 bytes, of them 65,524 padding: $(calls ours pad 65536)"
}
profile() { # instructions per call, by function
  for n in $few $many; do
    if [ "$(uname -m)" = x86_64 ]; then
      env -i PATH="$PATH" valgrind --tool=callgrind --callgrind-out-file=callgrind.out ./driver "$@" "$n" > /dev/null 2>&1
      callgrind_annotate --threshold=100 callgrind.out | sed -n 's/^ *\([0-9,]*\) ([^)]*)  *\([^ ]*:[^ ]*\).*/symbol \1 \2/p' | tr -d , > "profile.$n"
    else $emulator -plugin ./icount.so,sym=on ./driver "$@" "$n" 2> "profile.$n"; fi
  done
  awk -v n=$((many - few)) 'NR == FNR { a[$3] = $2; next } /^symbol/ { d = ($2 - a[$3]) / n; if (d >= 1) print d, $3 == "?" ? "(shared libraries)" : $3 }' "profile.$few" "profile.$many" | sort -rn | head -25
}

verb=${1:-}
[ $# -eq 0 ] || shift
case $verb in check | run | profile) [ -x driver ] || { echo 'build it first' >&2; exit 1; } ;; esac
case $verb in
  get | build | check | run | profile) "$verb" "$@" ;;
  *) sed -n '2,10p' "$here/measure.sh"; exit 2 ;;
esac
