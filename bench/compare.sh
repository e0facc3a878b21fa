#!/usr/bin/env bash
# Times the proved cipher, its tags, turns, arrivals, sends, replay windows and a policer against C and, where it is there, OpenSSL:
# `bench/compare.sh [RUNS]`. All programs run in turn, each many short times; the least time of each is taken, and ratios are
# printed, with "ours" as LLVM builds it (more than 1: ours is faster) and "the other build" by Rattle's own compiler. Works
# that take long have a tenth of the runs. Nothing else should run on the machine. PEER=PROGRAM names a program without proofs that prints these lines (T: nanoseconds):
#   `router turns per second, level L, .. hop 1 N (T ns) ..` for L = 0 to 3, of 20,000 packets each;
#   `arrival of level 3 over 8 hops: N per second (T ns)`, of 20,000 packets;
#   `send of level 3 over 8 hops, ..: N per second (T ns)`, of 20,000 packets, each a step of its world that keeps what is sent;
#   `window, offers with some N live entries of one AS: T ns` for N = 1, 100 and 4096, of 200,000 offers each;
#   `policer, 10,000,000 offers of 4,096 sources: S s`, S in seconds.
# Without it turns, arrivals, sends, windows and the policer are compared with the other build alone.
set -u
root=$(cd "$(dirname "${BASH_SOURCE[0]}")/.." && pwd) || exit 2
crate=$root/crates/epic_bench
runs=${1:-60}
room=$(mktemp -d) || exit 2
trap 'rm -rf "$room"' EXIT

# How many rounds a run has, some two milliseconds.
declare -A rounds=([aes]=600 [cmac]=400 [short]=8000)
# These have as many packets or offers as the peer's.
rounds+=([turn0]=20000 [turn1]=20000 [turn2]=20000 [turn3]=20000 [arrive3]=20000 [send3]=20000)
rounds+=([window-1]=200000 [window-100]=200000 [window-4096]=200000 [police]=10000000)
works=(aes cmac short turn0 turn1 turn2 turn3 arrive3 send3 window-1 window-100 window-4096 police)
long=" police "
names=()

build() { # NAME, and rt's words: proves and builds the program
  if ! (cd "$crate" && rt run "${@:2}" -- digests 1) >"$room/log" 2>&1; then
    echo "$1: not built: $(grep -m 1 '^rt:\|error' "$room/log")"
    return
  fi
  cp "$crate/out/epic_bench" "$room/$1" && names+=("$1")
}

build rattle --backend rattle
build llvm
cc=${CC:-gcc}
if command -v "$cc" >/dev/null; then
  "$cc" -O2 -o "$room/c" "$root/bench/cmac.c" && names+=(c)
else
  echo "$cc: not there, skipped"
fi

# The C program has the cipher and its tags alone.
for name in "${names[@]}"; do
  if [ "$name" = c ]; then skipped='turn\|arrive\|send\|window-\|police'; else skipped='none '; fi
  if ! "$room/$name" digests 3 | cmp -s - <(grep -v "^\($skipped\)" "$crate/stdout"); then
    echo "$name: wrong digests"
    exit 1
  fi
done

for ((i = 0; i < runs; i++)); do
  for work in "${works[@]}"; do
    if ((i % 10)) && [[ $long == *" $work "* ]]; then continue; fi
    for name in "${names[@]}"; do
      case "$name $work" in "c turn"* | "c arrive"* | "c send"* | "c window-"* | "c police") continue ;; esac
      "$room/$name" "$work" "${rounds[$work]}" | awk -v name="$name" '{ print name, $1, $(NF - 1) }' >>"$room/times"
    done
  done
done

# The peer's own lines are the least of several runs each.
if [ -n "${PEER:-}" ]; then
  for ((i = 0; i < 3; i++)); do
    "$PEER" | sed -n \
      -e 's/^router turns per second, level \([0-3]\),.* hop 1 [0-9]* (\([0-9]*\) ns).*$/peer turn\1 \2/p' \
      -e 's/^arrival of level \([0-3]\) over 8 hops: [0-9]* per second (\([0-9]*\) ns)$/peer arrive\1 \2/p' \
      -e 's/^send of level \([0-3]\) over 8 hops,.*: [0-9]* per second (\([0-9]*\) ns)$/peer send\1 \2/p' \
      -e 's/^window, offers with some \([0-9]*\) live entries of one AS: \([0-9]*\) ns$/peer window-\1 \2/p' \
      -e 's/^policer, 10,000,000 offers of 4,096 sources: \([0-9.]*\) s$/peer police \1/p' |
      awk '$2 == "police" { $3 *= 100 } { print }' >>"$room/times"
  done
fi

# OpenSSL makes its key schedule once for all messages.
openssl_times() { # NAME
  local rate
  rate=$(openssl speed -cmac aes-128-cbc -bytes 1500 -seconds 1 2>/dev/null | awk 'END { sub("k$", "", $NF); print $NF }')
  awk -v name="$1" -v rate="$rate" 'BEGIN { if (rate > 0) print name, "cmac", 1500 * 1e6 / rate }' >>"$room/times"
}
if command -v openssl >/dev/null; then
  for ((i = 0; i < 3; i++)); do
    OPENSSL_ia32cap='~0x200000200000000' openssl_times openssl
    openssl_times aesni
  done
else
  echo "openssl: not there, skipped"
fi

grep -m 1 'model name' /proc/cpuinfo
echo "load: $(cut -d' ' -f1-3 /proc/loadavg)"
command -v "$cc" >/dev/null && "$cc" --version | head -1
command -v openssl >/dev/null && openssl version
echo "nanoseconds an operation, the least of $runs runs"
awk '
  { key = $1 " " $2; if (!(key in least) || $3 < least[key]) least[key] = $3 }
  function show(text, work, name, goal,   ours, theirs) {
    ours = least["llvm " work]; theirs = least[name " " work]
    if (ours > 0 && theirs > 0) printf "%-52s %8.1f / %8.1f = %5.2f%s\n", text, theirs, ours, theirs / ours, goal
  }
  END {
    show("a block in a chain, C to ours", "aes", "c", " (goal 1.1)")
    show("a tag of 1500 bytes, C to ours", "cmac", "c", " (goal 1.0)")
    show("a tag of 27 bytes, a key each, C to ours", "short", "c", " (goal 1.0)")
    show("a tag of 1500 bytes, OpenSSL without AES-NI to ours", "cmac", "openssl", " (goal 1.2)")
    show("a tag of 1500 bytes, OpenSSL with AES-NI to ours", "cmac", "aesni", "")
    for (level = 0; level < 4; level++)
      show("a turn of level " level " at one router, the peer to ours", "turn" level, "peer", "")
    show("an arrival of level 3, the peer to ours", "arrive3", "peer", "")
    show("a send of level 3, the peer to ours", "send3", "peer", " (a step of its world at the peer)")
    show("an offer at 1 live packet, the peer to ours", "window-1", "peer", " (goal 1.0)")
    show("an offer at 100 live packets, the peer to ours", "window-100", "peer", " (goal 1.0)")
    show("an offer at 4,096 live packets, the peer to ours", "window-4096", "peer", " (goal 1.0)")
    show("an offer to a policer, the peer to ours", "police", "peer", " (goal 0.5)")
    show("a block in a chain, the other build to ours", "aes", "rattle", "")
    show("a tag of 1500 bytes, the other build to ours", "cmac", "rattle", "")
    show("a tag of 27 bytes, the other build to ours", "short", "rattle", "")
    for (level = 0; level < 4; level++)
      show("a turn of level " level " at one router, the other build to ours", "turn" level, "rattle", "")
    show("an arrival of level 3, the other build to ours", "arrive3", "rattle", "")
    show("a send of level 3, the other build to ours", "send3", "rattle", "")
    show("an offer at 1 live packet, the other build to ours", "window-1", "rattle", "")
    show("an offer at 100 live packets, the other build to ours", "window-100", "rattle", "")
    show("an offer at 4,096 live packets, the other build to ours", "window-4096", "rattle", "")
    show("an offer to a policer, the other build to ours", "police", "rattle", "")
  }
' "$room/times"
